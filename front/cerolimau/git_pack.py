"""Git's packs (gitformat-pack): one is read whole, with its deltas resolved; one is written without deltas."""
import hashlib
import os
import zlib

from .delta import BadDelta, read_sizes, result_pieces
from .raw_pack import KIND_NAMES, MAX_BODIES, MAX_BODY, MAX_ENTRIES, begin_name, entry_head, pack_header, read_entry_head, with_trailer
from .streams import Cut, Spool

OFFSET_DELTA, REFERENCE_DELTA = 6, 7
CHUNK = 1 << 18
SAMPLE = 4096
FEW = 1000  # objects that are compressed one after the other
MAX_THREADS = 4
LEAST = 1000  # bytes as which the work on an object counts beside its body's
LONGEST_SIZES = 20  # bytes of the two sizes that begin a delta


class Limits:
    """What a push may have."""

    def __init__(self, what, objects, bytes_of_all):
        self.what = what
        self.objects = objects
        self.bytes = bytes_of_all


OF_ONE_PUSH = Limits("one that is atomic, or goes to gitolite-admin,", MAX_ENTRIES, MAX_BODIES)
OF_SLICES = Limits("one", 1_000_000, 1 << 32)


class PackRefused(Exception):
    """Why a client's pack isn't taken: a text for the line `unpack TEXT` of a report."""


class Entry:
    """An object of a pack, and where its bytes lie in the spool. Until a delta is resolved, they are the delta's, and it has no kind."""

    __slots__ = "number", "offset", "kind", "name", "size", "place", "stored"

    def __init__(self, number, offset):
        self.number = number
        self.offset = offset  # in the pack
        self.kind = None
        self.name = None
        self.size = 0
        self.place = 0  # in the spool
        self.stored = 0  # bytes at that place

    def __str__(self):
        return "%s %s" % (KIND_NAMES[self.kind], self.name.hex()) if self.name else "entry %d" % self.number


class GitPack:
    """A client's pack: read to its end, its trailer compared, its deltas resolved, its objects within the server's limits, and all of them
    within those of one push, or of one that is cut into slices."""

    def __init__(self, source, can_be_cut=False):
        self.entries = []
        self.total = 0  # bytes of the objects
        self._limits = OF_SLICES if can_be_cut else OF_ONE_PUSH
        self._input = _PackInput(source)
        self._spool = Spool()
        self._waiting = {}  # deltas by their base, which is an offset in the pack or a name
        self._offsets = set()  # where entries begin in the pack
        try:
            self._read()
        except Cut:
            raise PackRefused("truncated at entry %d" % len(self.entries)) from None
        self._resolve()

    def objects(self, entries):
        """The kinds and bodies of these objects."""
        for entry in entries:
            yield entry.kind, self.body(entry)

    def body(self, entry):
        return self._spool.read(entry.place, entry.size)

    def _read(self):
        for number in range(self._read_header()):
            entry = Entry(number, self._input.offset())
            kind, entry.stored = read_entry_head(self._input.byte)
            entry.place = self._spool.size
            if kind in KIND_NAMES:
                self._read_whole(entry, kind)
            elif kind in (OFFSET_DELTA, REFERENCE_DELTA):
                self._read_delta(entry, kind)
            else:
                raise PackRefused("bad head at entry %d" % number)
            self._count(entry)
            self._offsets.add(entry.offset)
            self.entries.append(entry)
        if not self._input.trailer_agrees():
            raise PackRefused("trailer differs")

    def _read_header(self):
        if self._input.take(4) != b"PACK":
            raise PackRefused("not a pack")
        version = int.from_bytes(self._input.take(4), "big")
        if version != 2:
            raise PackRefused("version %d" % version)
        count = int.from_bytes(self._input.take(4), "big")
        if count > self._limits.objects:
            raise PackRefused("the push has %d objects, and %s may have %d at most" % (count, self._limits.what, self._limits.objects))
        return count

    def _read_whole(self, entry, kind):
        entry.kind, entry.size = kind, entry.stored
        if entry.size > MAX_BODIES:
            _refuse_size(entry)  # its name isn't worth the reading
        sha1 = begin_name(kind, entry.size)
        for piece in self._inflated(entry):
            sha1.update(piece)
            if entry.size <= MAX_BODY:
                self._spool.add(piece)
        entry.name = sha1.digest()

    def _read_delta(self, entry, kind):
        base = self._read_base_offset(entry) if kind == OFFSET_DELTA else self._input.take(20)
        if entry.stored > MAX_BODY:
            raise PackRefused("the delta of entry %d has %d bytes, and one may have %d at most" % (entry.number, entry.stored, MAX_BODY))
        start = b""
        for piece in self._inflated(entry):
            start += piece[:LONGEST_SIZES - len(start)]
            self._spool.add(piece)
        try:
            _, entry.size, _ = read_sizes(start)
        except BadDelta:
            raise PackRefused("bad delta at entry %d" % entry.number) from None
        self._waiting.setdefault(base, []).append(entry)

    def _read_base_offset(self, entry):
        byte = self._input.byte()
        distance = byte & 127
        while byte & 128 and distance < entry.offset:
            byte = self._input.byte()
            distance = (distance + 1) << 7 | byte & 127
        if entry.offset - distance not in self._offsets:
            raise PackRefused("entry %d is a delta over no entry before it" % entry.number)
        return entry.offset - distance

    def _inflated(self, entry):
        try:
            yield from self._input.inflated(entry.stored)
        except zlib.error:
            raise PackRefused("bad zlib stream at entry %d" % entry.number) from None

    def _count(self, entry):
        """Holds the limits on bodies. Of a delta whose result is too large the name is told once it is resolved."""
        if entry.size > MAX_BODY and (entry.kind or entry.size > MAX_BODIES):
            _refuse_size(entry)
        if entry.size <= MAX_BODY:
            self.total += entry.size
        if max(self.total, self._spool.size) > self._limits.bytes:
            raise PackRefused("the push has more than %d bytes of objects, which are the most of %s" % (self._limits.bytes, self._limits.what))

    def _resolve(self):
        """Each object that is there resolves the deltas over it, which then are there too."""
        there = [entry for entry in self.entries if entry.kind]
        while there and self._waiting:
            base = there.pop()
            deltas = self._waiting.pop(base.offset, []) + self._waiting.pop(base.name, [])
            body = self._spool.read(base.place, base.size) if deltas else b""
            for entry in deltas:
                self._resolve_one(entry, base.kind, body)
            there += deltas
        for base, deltas in self._waiting.items():
            raise PackRefused("%s is a delta over %s, which the pack doesn't have" % (deltas[0], _base_text(base)))

    def _resolve_one(self, entry, kind, base):
        delta = self._spool.read(entry.place, entry.stored)
        place, sha1 = self._spool.size, begin_name(kind, entry.size)
        try:
            for piece in result_pieces(base, delta):
                sha1.update(piece)
                if entry.size <= MAX_BODY:
                    self._spool.add(piece)
        except BadDelta:
            raise PackRefused("bad delta at entry %d" % entry.number) from None
        entry.kind, entry.name, entry.place = kind, sha1.digest(), place
        if entry.size > MAX_BODY:
            _refuse_size(entry)


def _base_text(base):
    return "object %s" % base.hex() if isinstance(base, bytes) else "the entry at %d" % base


def _refuse_size(entry):
    raise PackRefused("%s has %d bytes, and an object may have %d at most: it can't be kept here" % (entry, entry.size, MAX_BODY))


class _PackInput:
    """The bytes of a pack in a source. What is used of them is counted and hashed a chunk at a time."""

    def __init__(self, source):
        self._source = source
        self._sha1 = hashlib.sha1()
        self._before = 0  # bytes used before the chunk
        self._chunk = b""
        self._at = 0

    def offset(self):
        return self._before + self._at

    def byte(self):
        self._fill()
        self._at += 1
        return self._chunk[self._at - 1]

    def take(self, count):
        taken = b""
        while len(taken) < count:
            self._fill()
            piece = self._chunk[self._at:self._at + count - len(taken)]
            self._at += len(piece)
            taken += piece
        return taken

    def inflated(self, size):
        """The pieces of the zlib stream that is here. It has to give `size` bytes."""
        inflater, left = zlib.decompressobj(), size
        while not inflater.eof:
            self._fill()
            data = self._chunk[self._at:self._at + max(left, SAMPLE)]
            piece = inflater.decompress(data, left + 1)
            self._at += len(data) - len(inflater.unused_data) - len(inflater.unconsumed_tail)
            left -= len(piece)
            if left < 0:
                raise zlib.error
            yield piece
        if left:
            raise zlib.error

    def trailer_agrees(self):
        self._sha1.update(self._chunk[:self._at])
        computed = self._sha1.digest()
        return self.take(20) == computed

    def _fill(self):
        if self._at < len(self._chunk):
            return
        self._sha1.update(self._chunk)
        self._before += len(self._chunk)
        self._chunk, self._at = self._source.read1(CHUNK), 0
        if not self._chunk:
            raise Cut


def git_pack(count, objects):
    """A pack of Git of these kinds and bodies, in pieces."""
    return with_trailer(_git_pieces(count, objects))


def _git_pieces(count, objects):
    keep_freed_memory()
    yield pack_header(count)
    if count < FEW:
        yield from _entries(objects)
    else:
        from .at_once import mapped

        yield from mapped(lambda batch: b"".join(_entries(batch)), _batches(objects), min(MAX_THREADS, os.cpu_count() or 1))


def _entries(objects):
    for kind, body in objects:
        yield entry_head(kind, len(body)) + deflate(body)


def _batches(objects):
    """The same objects in lists, each of some hundred kilobytes."""
    batch, size = [], 0
    for kind, body in objects:
        batch.append((kind, body))
        size += len(body) + LEAST
        if size > CHUNK:
            yield batch
            batch, size = [], 0
    yield batch


def keep_freed_memory():
    """The C library keeps what is freed, up to the size of the largest block that was. Else each zlib stream takes its 256 KiB from the
    system anew, which is a quarter of a large fetch's time."""
    bytes(24 << 20)


def deflate(body):
    """A zlib stream. Where the beginning of a long body doesn't get much shorter, the body is stored: that is thirty times as fast."""
    start = body[:SAMPLE]
    is_dense = len(body) > SAMPLE and len(zlib.compress(start, 1)) > SAMPLE * 7 // 8
    return zlib.compress(body, 0 if is_dense else 1)
