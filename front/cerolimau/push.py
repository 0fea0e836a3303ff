"""A push: `git-receive-pack` (gitprotocol-pack, "Pushing Data To a Server").

All of it is read before the server is asked for more than its advertisement: a second session pushes, or several do (slices.py).
"""
from .ends import CLOSED, ServerRefused
from .git_pack import GitPack, PackRefused
from .packets import FLUSH, HEX_DIGITS, packet, read_packet
from .raw_pack import MAX_BODIES, raw_pack
from .refs import ZERO_ID, Refs
from .streams import Refused

MAX_COMMANDS = 10_000
MAX_LINES = 100_000  # of commands and shallow commits that a client may send
PIECE = 1 << 16
WORDS = b"side-band-64k", b"ofs-delta"
ADMIN_REPOSITORY = "gitolite-admin"
NOT_TOLD = CLOSED + ", and the push may be done or not: fetch, and see"
SIGNED = "signed pushes aren't taken here"
UNPACKER_ERROR = b"unpacker error"


def push(client, sessions, repository, slice_objects, refused_bytes, when_done):
    """Returns the exit status. A push of more than so many objects is cut into slices. `when_done` is called with the rows and outcomes of its
    commands, before the client has all of the report: who has it knows that what `when_done` does is done."""
    advertise(client, sessions)
    return receive(client, sessions, repository, slice_objects, refused_bytes, when_done)


def advertise(client, sessions):
    server, lines = sessions.open()
    server.send(FLUSH)  # this session only advertises
    server.close()
    refs = Refs(lines)
    refs.advertise(client, [*refs.words.split(), *WORDS])


def receive(client, sessions, repository, slice_objects, refused_bytes, when_done):
    """What follows the advertisement, over ssh in the same session and over HTTP in a request of its own."""
    commands = Commands(client)
    if not commands.rows:
        return 0
    if b"side-band-64k" in commands.words:
        client.begin_bands()
    is_whole = commands.is_atomic or repository == ADMIN_REPOSITORY  # a conf of a slice would come into force
    try:
        if fault := refused_bytes.fault():
            raise PackRefused(fault)
        pack = GitPack(client.source, not is_whole) if commands.need_pack() else None
        if pack and not is_whole and (len(pack.entries) > slice_objects or pack.total > MAX_BODIES):
            from .slices import push_slices

            outcomes = push_slices(client, sessions, commands.rows, pack, slice_objects)
            unpacked = b"ok"
        else:
            unpacked, outcomes = push_once(client, sessions, commands, pack)
    except PackRefused as refused:
        pack, unpacked, outcomes = None, str(refused).encode(), [UNPACKER_ERROR] * len(commands.rows)  # the server got none of it
    if b"ok" not in outcomes:
        refused_bytes.add(pack.total if pack else 0)
    when_done(commands.rows, outcomes)
    write_report(client, commands, unpacked, outcomes)
    return 0 if unpacked == b"ok" and all(outcome == b"ok" for outcome in outcomes) else 1


class Commands:
    """What the client asks for: rows of an old id, a new id and a ref, and the words behind the first."""

    def __init__(self, client):
        self.rows, self.words = [], []
        lines = 0
        while (line := read_packet(client.source)) is not None:
            word = line.split(b" ", 1)[0].split(b"\0", 1)[0]
            lines += 1
            if lines > MAX_LINES or len(self.rows) == MAX_COMMANDS:
                raise Refused("a push may change %d refs at most: push some of them at a time" % MAX_COMMANDS)
            if word == b"push-cert":
                raise Refused(SIGNED)
            if word != b"shallow":  # of a shallow clone: the server finds out itself what is missing
                self._add(line)
        self.is_atomic = b"atomic" in self.words
        self.want_report = b"report-status" in self.words

    def _add(self, line):
        if not self.rows:
            line, _, words = line.partition(b"\0")
            self.words = words.rstrip(b"\n").split(b" ")
        line = line.rstrip(b"\n")
        ids = line[:40] + line[41:81]
        if len(ids) < 80 or ids.strip(HEX_DIGITS) or line[40:41] + line[81:82] != b"  " or b"\0" in line:
            raise ServerRefused("malformed input")
        self.rows.append((line[:40], line[41:81], line[82:]))

    def need_pack(self):
        """A push that only deletes has no pack."""
        return any(new != ZERO_ID for _, new, _ in self.rows)


def push_once(client, sessions, commands, pack):
    """What the server says of the pack and of each command."""
    words = b"report-status atomic" if commands.is_atomic else b"report-status"
    unpacked, outcomes = send_push(sessions, commands.rows, words, pack, pack.entries if pack else [])
    if pack:
        tell_entry(client, pack, unpacked)
    return unpacked, outcomes


def send_push(sessions, rows, words, pack, entries):
    """One push at the server, of these commands and these entries of the client's pack. Where the server stops reading, its report says
    why."""
    server, _ = sessions.open_for_pack("push")
    try:
        send_commands_and_pack(server, rows, words, pack, entries)
        unpacked, outcomes = read_report(server)
    finally:
        server.close()  # behind a refusal too, since the next slice wants its worker
    return unpacked, (outcomes + [UNPACKER_ERROR] * len(rows))[:len(rows)]


def send_commands_and_pack(server, rows, words, pack, entries):
    sending = bytearray()
    for number, row in enumerate(rows):
        sending += packet(b"%s %s %s" % row + (b"\0" + words if number == 0 else b""))
    sending += FLUSH
    needs_pack = any(new != ZERO_ID for _, new, _ in rows)
    for piece in raw_pack(len(entries), pack.objects(entries) if pack else ()) if needs_pack else ():
        sending += piece
        if len(sending) >= PIECE:
            if not server.send(sending):
                break
            sending = bytearray()
    server.send(sending)


def read_report(server):
    """The text of the line `unpack`, and for each command `ok` or the reason of its `ng`."""
    unpacked, outcomes = b"", []
    while (line := server.read_packet(NOT_TOLD)) is not None:
        word, _, text = line.rstrip(b"\n").partition(b" ")
        if word == b"ERR":
            raise ServerRefused(text.decode(errors="replace"))
        if word == b"unpack":
            unpacked = text
        elif word == b"ok":
            outcomes.append(b"ok")
        else:
            outcomes.append(text.partition(b" ")[2])
    return unpacked, outcomes


def write_report(client, commands, unpacked, outcomes):
    """A client that asked for no report is told by lines what wasn't done."""
    results = [(ref, outcome) for (_, _, ref), outcome in zip(commands.rows, outcomes)]
    if commands.want_report:
        client.write(packet(b"unpack %s\n" % unpacked))
        for ref, outcome in results:
            client.write(packet(b"ok %s\n" % ref if outcome == b"ok" else b"ng %s %s\n" % (ref, outcome)))
        client.write(FLUSH)
    elif unpacked != b"ok":
        client.tell(unpacked.decode(errors="replace"))
    else:
        for ref, outcome in results:
            if outcome != b"ok":
                client.tell((ref + b": " + outcome).decode(errors="replace"))
    client.end_bands()


def tell_entry(client, pack, text):
    """The server counts the entries of a pack, and the person at the keyboard knows the names of objects."""
    number = text.rpartition(b" at entry ")[2]
    if number.isdigit() and int(number) < len(pack.entries):
        client.tell("entry %s is %s" % (number.decode(), pack.entries[int(number)]))
