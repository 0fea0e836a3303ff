"""Raw packs, as the server reads and writes them: whole objects, not compressed (docs/PACKS.md)."""
import hashlib

from .streams import Refused, read_exactly

MAX_ENTRIES = 100_000
MAX_BODY = 16_777_216
MAX_BODIES = 268_435_456

COMMIT, TREE, BLOB, TAG = 1, 2, 3, 4
KIND_NAMES = {COMMIT: "commit", TREE: "tree", BLOB: "blob", TAG: "tag"}


def pack_header(count):
    return b"PACK\0\0\0\2" + count.to_bytes(4, "big")


def entry_head(kind, size):
    """An entry's kind and size, as packs of both forms have them."""
    byte, size = kind << 4 | size & 15, size >> 4
    head = bytearray()
    while size:
        head.append(byte | 128)
        byte, size = size & 127, size >> 7
    head.append(byte)
    return bytes(head)


def read_entry_head(next_byte):
    """The kind and the size of the entry whose head is read by calls of `next_byte`."""
    byte = next_byte()
    kind, size, shift = byte >> 4 & 7, byte & 15, 4
    while byte & 128 and shift < 64:  # a size of more bits than that breaks a limit, and nothing behind it is read
        byte = next_byte()
        size |= (byte & 127) << shift
        shift += 7
    return kind, size


def object_name(kind, body):
    sha1 = begin_name(kind, len(body))
    sha1.update(body)
    return sha1.digest()


def begin_name(kind, size):
    """The hash of an object's name, which the body's bytes complete."""
    return hashlib.sha1(b"%s %d\0" % (KIND_NAMES[kind].encode(), size))


class RawPackReader:
    """The objects of the server's raw pack, in order, each as a kind and a body."""

    def __init__(self, source):
        self._source = source
        self._sha1 = hashlib.sha1()
        if self._take(8) != pack_header(0)[:8]:
            raise Refused("the server's pack is broken")
        self.count = int.from_bytes(self._take(4), "big")

    def __iter__(self):
        for _ in range(self.count):
            kind, size = read_entry_head(lambda: self._take(1)[0])
            if kind not in KIND_NAMES or size > MAX_BODY:
                raise Refused("the server's pack is broken")
            yield kind, self._take(size)
        if read_exactly(self._source, 20) != self._sha1.digest():
            raise Refused("the server's pack is broken: its trailer differs")

    def _take(self, count):
        data = read_exactly(self._source, count)
        self._sha1.update(data)
        return data


def raw_pack(count, entries):
    """A raw pack in pieces; the entries are kinds and bodies."""
    return with_trailer(_raw_pieces(count, entries))


def with_trailer(pieces):
    """These pieces, and behind them the SHA-1 of them all, by which packs of both forms end."""
    sha1 = hashlib.sha1()
    for piece in pieces:
        sha1.update(piece)
        yield piece
    yield sha1.digest()


def _raw_pieces(count, entries):
    yield pack_header(count)
    for kind, body in entries:
        yield entry_head(kind, len(body))
        yield body
