"""Reading from and writing to file descriptors with a limit on the wait, and keeping bytes aside."""
import io
import os
import signal

IN_MEMORY = 4 << 20
BUFFER = 1 << 16
idle_seconds = 0  # that a read or a write may wait; 0 for ever


class Refused(Exception):
    """Why a session ends, in one line for the person at the keyboard."""


class Cut(Exception):
    """The bytes end inside of what is wanted."""


def limit_waiting(seconds):
    """From here on, so many seconds in which neither end gives or takes a byte raise Refused in the main thread."""
    global idle_seconds
    idle_seconds = seconds

    def give_up(_signal, _frame):
        raise Refused("nothing came or went for %d seconds" % seconds)

    signal.signal(signal.SIGALRM, give_up)


class _Descriptor(io.RawIOBase):
    def __init__(self, number, most=None):
        super().__init__()
        self.number = number
        self.passed = 0  # bytes that were read or written
        self._most = most  # bytes that may be read, if there is a bound

    def readable(self):
        return True

    def writable(self):
        return True

    def readinto(self, room):
        if self._most is not None:
            room = memoryview(room)[:self._most - self.passed]
        signal.alarm(idle_seconds)
        try:
            count = os.readv(self.number, [room])
        except ConnectionResetError:
            return 0
        self.passed += count
        return count

    def write(self, data):
        signal.alarm(idle_seconds)
        count = os.write(self.number, data)
        self.passed += count
        return count


def reader(number, most=None):
    """A buffered reader of a file descriptor, of so many bytes at most. A connection that is reset ends."""
    return io.BufferedReader(_Descriptor(number, most), BUFFER)


def writer(number):
    """A buffered writer to a file descriptor."""
    return io.BufferedWriter(_Descriptor(number), BUFFER)


def read_exactly(source, count):
    data = source.read(count)
    if len(data) < count:
        raise Cut
    return data


class Spool:
    """Bytes that are kept aside and read by their places: in memory while they are few, else in a file without a name. One thread may add
    while another reads what is there."""

    folder = "/var/tmp"  # /tmp may be memory

    @staticmethod
    def reserve(_count):
        """Called before so many more bytes go into files. It may raise Refused (slots.py)."""

    def __init__(self):
        self.size = 0
        self._memory = bytearray()
        self._file = None
        self._flushed = 0

    def add(self, data):
        if self._memory is not None and self.size + len(data) > IN_MEMORY:
            self._move_to_file()
        if self._memory is not None:
            self._memory += data
        else:
            Spool.reserve(len(data))
            self._file.write(data)
        self.size += len(data)

    def read(self, place, count):
        memory = self._memory
        if memory is not None:
            return bytes(memory[place:place + count])
        if place + count > self._flushed:
            size = self.size
            self._file.flush()
            self._flushed = size
        return os.pread(self._file.fileno(), count, place)

    def _move_to_file(self):
        import tempfile  # its import would cost every small push more than the rest of it

        Spool.reserve(self.size)
        self._file = tempfile.TemporaryFile(buffering=BUFFER, dir=Spool.folder)
        self._file.write(self._memory)
        self._file.flush()
        self._memory = None
