"""The two ends of a session: the client, on the standard streams, and the server, on a connection."""
import os
import socket
import time

from .packets import FLUSH, packet, read_packet
from .streams import Cut, Refused, reader, writer

CONNECT_SECONDS = 10
PAUSE = 0.25
NOT_THERE = "the server isn't there"
CLOSED = "the server closed the connection"
BAND = 65_515  # bytes that a packet of a side band may have behind its number
DATA, PROGRESS, FATAL = b"\1", b"\2", b"\3"


class ServerRefused(Refused):
    """Why the server ends a session, in its own words."""


class Client:
    """Packets and packs go to standard output, and lines for the person at the keyboard to standard error. Once side bands have begun, what
    is written goes into the first of them, and lines go into the second."""

    def __init__(self):
        self.source = reader(0)
        self._input = self.source.raw
        self.reads_packets = False  # whether it takes an ERR packet now
        self.is_gone = False
        self._sink = writer(1)
        self._band = None  # what goes into the next packet of the first band

    def write(self, data):
        if self._band is None:
            self._put(data)
            return
        self._band += data
        while len(self._band) >= BAND:
            self._put_band(DATA, self._band[:BAND])
            del self._band[:BAND]

    def flush(self):
        if self._band:
            self._put_band(DATA, self._band)
            self._band.clear()
        self._unless_gone(self._sink.flush)

    def begin_bands(self):
        self._band = bytearray()

    def end_bands(self):
        """The flush behind the bands, where there are any."""
        self.flush()
        if self._band is not None:
            self._band = None
            self._put(FLUSH)
            self.flush()

    def show_progress(self, text):
        """A line on the way, where the client shows one."""
        if self._band is not None:
            self.flush()
            self._put_band(PROGRESS, b"cerolimau: %s\n" % text.encode(errors="replace"))
            self.flush()

    def tell(self, text):
        shown = "".join(letter if letter.isprintable() else "?" for letter in text)  # it may have names that others chose
        if self._band is not None:
            self.show_progress(shown)
            return
        try:
            os.write(2, b"cerolimau: %s\n" % shown.encode(errors="replace"))
        except OSError:
            pass  # nobody reads it

    def refuse(self, refused):
        """The session's last words, where the client shows them best."""
        text = str(refused)
        shown = (text if isinstance(refused, ServerRefused) else "cerolimau: " + text).encode(errors="replace")
        if self._band is not None:
            self.flush()
            self._put_band(FATAL, shown + b"\n")
            self.end_bands()
        elif self.reads_packets:
            self._put(packet(b"ERR " + shown))
            self.flush()
        else:
            self.tell(text)

    def passed(self):
        """How many bytes came from the client, and how many went to it."""
        return self._input.passed, self._sink.raw.passed

    def _put_band(self, number, data):
        self._put(packet(number + data))

    def _put(self, data):
        self._unless_gone(self._sink.write, data)

    def _unless_gone(self, call, *data):
        try:
            if not self.is_gone:
                call(*data)
        except ConnectionError:
            self.is_gone = True


class Sessions:
    """The sessions at the server by which one command of a client is served. Each begins with the user and the same command, and none
    waits for the client: so a slow one holds no worker."""

    def __init__(self, address, user, command, patience, take_worker=None):
        self._address = address
        self._user = user
        self._command = command
        self._patience = patience  # seconds in which a server that isn't there may come
        self._take_worker = take_worker  # a file that is locked while a session of this kind may last

    def ask(self, command):
        """The lines with which the server answers a command that has no dialogue."""
        server, lines = self.open(command)
        server.close()
        return lines

    def open_for_pack(self, kind):
        """The same, of a session that is to pass a pack: `fetch` or `push`."""
        worker = self._take_worker(kind) if self._take_worker else None
        server, lines = self.open()
        server.worker = worker
        return server, lines

    def open(self, command=None):
        """A session, and the lines of its advertisement. While the server restarts there is nobody, or somebody who closes before all is
        said."""
        command = command or self._command
        ends = time.monotonic() + self._patience
        while True:
            try:
                server = Server(self._address, self._user, command)
                try:
                    return server, read_lines(server)
                except Cut:
                    server.close()
                    fault = CLOSED
            except PermissionError:
                raise Refused(NOT_THERE) from None
            except OSError:
                fault = NOT_THERE
            if time.monotonic() >= ends:
                raise Refused(fault)
            time.sleep(PAUSE)


class Server:
    """One session at the server, which begins with who asks for what."""

    def __init__(self, address, user, command):
        self.worker = None  # what is to be closed behind the session
        self._socket = connect(address)
        self._socket.settimeout(None)
        self.source = reader(self._socket.fileno())
        self.send(packet(b"%s %s" % (user.encode(), command.encode())))

    def read_packet(self, if_closed=CLOSED):
        try:
            return read_packet(self.source)
        except Cut:
            raise Refused(if_closed) from None

    def send(self, data):
        """Returns whether it was sent. A server that has closed may have said why before, and that can still be read."""
        try:
            self._socket.sendall(data)
        except OSError:
            return False
        return True

    def close(self):
        self._socket.close()
        if self.worker:
            self.worker.close()


def connect(address):
    """The address is HOST:PORT, or the path of a socket, which has a slash."""
    if "/" in address:
        connection = socket.socket(socket.AF_UNIX)
        connection.settimeout(CONNECT_SECONDS)
        connection.connect(address)
        return connection
    host, _, port = address.rpartition(":")
    connection = socket.create_connection((host, port), CONNECT_SECONDS)
    connection.setsockopt(socket.IPPROTO_TCP, socket.TCP_NODELAY, 1)
    return connection


def read_lines(server):
    """The server's packets up to a flush. An ERR packet is its last."""
    lines = []
    while (line := read_packet(server.source)) is not None:
        if line.startswith(b"ERR "):
            raise ServerRefused(line[4:].decode(errors="replace"))
        lines.append(line)
    return lines
