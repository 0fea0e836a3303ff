"""A fetch: `git-upload-pack` (gitprotocol-pack, "Packfile Negotiation" and "Packfile Data").

The client's dialogue is held here, and each question of it is a short session at the server.
"""
import threading

from .ends import CLOSED, ServerRefused
from .git_pack import git_pack
from .kept_pack import KeptPack
from .packets import FLUSH, packet, read_packet
from .refs import Refs, chosen_branch
from .shallow import Shallows, objects_for
from .streams import Cut, Refused

MAX_WANTS = 10_000
MAX_HAVES = 100_000  # and flushes
HAVES_OF_A_QUESTION = 50_000
MAX_LINES = 200_000  # of wants, shallow commits and depths
WORDS = (b"side-band-64k", b"ofs-delta", b"no-progress", b"shallow", b"deepen-since", b"deepen-not", b"deepen-relative",
         b"allow-reachable-sha1-in-want")
CUT = object()
FILTER = "no partial clones here: clone without --filter"


def fetch(client, sessions, heads, repository):
    """Returns the exit status."""
    refs = advertise(client, sessions, heads, repository, WORDS)
    request = Request(client)
    if request.wants:
        asking = Asking(sessions, refs)
        send_pack(client, request, find_pack(client, request, asking, refs, negotiate))
    return 0


def fetch_once(client, sessions):
    """One request of a client that says with each all that it said before, and waits for no answer inside of one (gitprotocol-http)."""
    request = Request(client)
    if not request.wants:
        return 0
    refs = Refs(advertised(sessions))
    pack = find_pack(client, request, Asking(sessions, refs), refs, negotiate_once)
    if pack:
        send_pack(client, request, pack)
    return 0


def advertised(sessions):
    """The lines of an advertisement, of a session of their own."""
    server, lines = sessions.open()
    server.send(FLUSH)
    server.close()
    return lines


def advertise(client, sessions, heads, repository, words):
    refs = Refs(advertised(sessions))
    branch = refs.put_head(chosen_branch(heads, repository))
    refs.advertise(client, [*words, *([b"symref=HEAD:" + branch] if branch else [])])
    return refs


def find_pack(client, request, asking, refs, negotiate_by):
    """How many objects the client lacks, and these; None where the client asks on."""
    if request.shallows.are_asked() or not asking.advertise(request.wants):
        objects = asking.all_objects(request.wants, request.shallows.excluded)
        request.shallows.tell(client, objects, request.wants, refs)
        haves = negotiate_by(client, lambda haves: next((have for have in haves if bytes_of(have) in objects), None))
        return None if haves is None else objects.pack(objects_for(objects, request.wants, haves, request.shallows))
    haves = negotiate_by(client, asking.common)
    return None if haves is None else asking.pack(request.wants, haves)


class Request:
    """What the client wants: ids, the words behind the first, and what of the history it has or is to have."""

    def __init__(self, client):
        self.wants, self.words, self.shallows = [], [], Shallows()
        lines = 0
        while (line := read_packet(client.source)) is not None:
            lines += 1
            if lines > MAX_LINES:
                raise ServerRefused("too long")
            word, _, text = line.rstrip(b"\n").partition(b" ")
            if word == b"want":
                if len(self.wants) == MAX_WANTS:
                    raise Refused("a fetch may want %d objects at most: fetch some refs at a time" % MAX_WANTS)
                self.words = self.words or text[40:].split()
                self.wants.append(read_id(text[:40]))
            elif word == b"filter":
                raise Refused(FILTER)
            elif not self.shallows.take(word, text):
                raise ServerRefused("malformed input")
        if b"deepen-relative" in self.words:
            self.shallows.is_relative = True


def read_id(text):
    if len(text) != 40 or text.strip(b"0123456789abcdef"):
        raise ServerRefused("malformed input")
    return text


def bytes_of(text):
    return bytes.fromhex(text.decode())


def negotiate(client, common_of):
    """Reads what the client has, up to `done`, and answers as the protocol has it where the first common object ends the search. Behind
    the first, second, fourth, .. flush, and behind `done`, it is asked which of the new ones is common: so a client that has much that
    the server doesn't know costs few questions."""
    haves, asked, flushes, acknowledged = [], 0, 0, False
    for _ in range(MAX_HAVES + 1):
        line = read_packet(client.source)
        text = b"" if line is None else line.rstrip(b"\n")
        if text.startswith(b"have "):
            haves.append(read_id(text[5:]))
            continue
        if text not in (b"", b"done"):
            raise ServerRefused("malformed input")
        flushes += 1
        if not acknowledged:
            common = None
            if asked < len(haves) and (text or flushes & (flushes - 1) == 0):
                common = common_of(haves[asked:])
                asked = len(haves)
            acknowledged = common is not None
            client.write(packet(b"ACK %s\n" % common if acknowledged else b"NAK\n"))
        if text:
            return haves
        client.flush()
    raise Refused("a fetch may name %d commits that it has at most: clone anew" % MAX_HAVES)


def negotiate_once(client, common_of):
    """Reads what the client has. Behind a flush it is told of one common object and that this is enough, or that there is none, and asks on;
    behind `done` it gets the pack. One that is told only what is shallow ends before that. Returns None where the client asks on."""
    haves = []
    while (line := read_last(client.source)) is not CUT:
        text = b"" if line is None else line.rstrip(b"\n")
        if text.startswith(b"have ") and len(haves) < MAX_HAVES:
            haves.append(read_id(text[5:]))
            continue
        if text not in (b"", b"done"):
            raise ServerRefused("malformed input" if len(haves) < MAX_HAVES else "too long")
        common = common_of(haves) if haves else None
        if text:
            client.write(packet(b"ACK %s\n" % common if common else b"NAK\n"))
            return haves
        if common:
            client.write(packet(b"ACK %s common\n" % common) + packet(b"ACK %s ready\n" % common))
        client.write(packet(b"NAK\n"))
        return None
    return None


def read_last(source):
    """The next packet, or CUT where the request ends in front of it."""
    if not source.peek(1):
        return CUT
    return read_packet(source)


class Asking:
    """Questions to the server, each a session of its own. What it advertises may change between them."""

    def __init__(self, sessions, refs):
        self._sessions = sessions
        self._ids = set(refs.ids.values())  # of the first advertisement, which the client saw

    def advertise(self, wants):
        """Whether all of them stood in the advertisement."""
        return self._ids.issuperset(wants)

    def common(self, haves):
        """One of the objects that the client has and the repository has too, or None."""
        for have in haves:
            if have in self._ids:
                return have
        for at in range(0, len(haves), HAVES_OF_A_QUESTION):
            server, answer, _ = self._ask(None, haves[at:at + HAVES_OF_A_QUESTION], FLUSH)
            server.close()
            if answer.startswith(b"ACK "):
                return answer[4:44]
        return None

    def pack(self, wants, haves):
        """How many objects the client lacks, and these. Where a want isn't advertised, all that is reached is asked for, and cut here."""
        server, answer, unknown = self._ask(wants, haves, packet(b"done\n"))
        if unknown:
            objects = self._read(server, unknown)
            return objects.pack(objects.reached(map(bytes_of, wants), set(), with_parents=True))
        return followed(server)

    def all_objects(self, wants, excluded):
        """All objects that these wants lead to."""
        server, _, unknown = self._ask(wants, [], packet(b"done\n"), excluded)
        return self._read(server, unknown)

    def _read(self, server, unknown):
        """The server's objects. A want that nothing leads to is refused as the server does."""
        from .objects import NamedObjects  # few fetches need it

        objects = NamedObjects(server.source)
        server.close()
        for want in sorted(unknown):
            if bytes_of(want) not in objects:
                raise ServerRefused("upload-pack: not our ref " + want.decode())
        return objects

    def _ask(self, wants, haves, end, excluded=()):
        """A session that wants these, or one ref of the repository where that is None, and what it answers to what the client has. Where
        one of the wants isn't advertised now, all that is advertised is wanted: which of them then isn't known is returned too."""
        server, lines = self._sessions.open() if wants is None else self._sessions.open_for_pack("fetch")
        ids = list(dict.fromkeys(Refs(lines).ids.values()))
        asked = ids[:1] if wants is None else wants
        unknown = set(asked) - set(ids)
        if unknown or excluded:
            asked = ids[:MAX_WANTS]
        if not asked:
            raise Refused("the repository has no refs any more: fetch again")
        server.send(b"".join([packet(b"want %s\n" % want) for want in asked] + [FLUSH] + [packet(b"have %s\n" % have) for have in haves] + [end]))
        answer = server.read_packet()
        if answer is None or answer.startswith(b"ERR "):
            raise ServerRefused((answer or b"ERR malformed input")[4:].decode(errors="replace"))
        return server, answer, unknown


def followed(server):
    """The objects of the server's pack while they come: a thread reads it at the server's pace, and keeps it aside."""
    kept = KeptPack(server.source)
    more, faults = threading.Condition(), []

    def read():
        try:
            for number, _ in enumerate(kept.read()):
                if number & 63 == 0:
                    with more:
                        more.notify()
        except (Refused, OSError) as fault:
            faults.append(fault)
        server.close()
        with more:
            faults.append(None)
            more.notify()

    def objects():
        for number in range(kept.count):
            while number >= len(kept.rows):
                with more:
                    if number >= len(kept.rows) and not faults:
                        more.wait(1)
                if faults and number >= len(kept.rows):
                    raise faults[0] or Refused(CLOSED + " inside the pack")
            row = kept.rows[number]
            yield row[0], kept.body(row)
        while not faults:
            with more:
                more.wait(1)
        if faults[0]:
            raise faults[0]

    threading.Thread(target=read, daemon=True).start()
    return kept.count, objects()


def send_pack(client, request, pack):
    client.reads_packets = False
    if b"side-band-64k" in request.words:
        client.begin_bands()
    for piece in git_pack(*pack):
        client.write(piece)
        if client.is_gone:
            return
    client.flush()
    client.end_bands()
