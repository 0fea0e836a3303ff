"""Deltas of Git's packs (gitformat-pack, "Deltified representation")."""


class BadDelta(Exception):
    pass


def read_size(data, at):
    """A size as a delta's head has it, and the place behind it."""
    size = shift = 0
    while True:
        byte = data[at]
        at += 1
        size |= (byte & 127) << shift
        shift += 7
        if not byte & 128:
            return size, at


def read_sizes(delta):
    """The size of the base, the size of the result, and where the instructions begin."""
    try:
        base_size, at = read_size(delta, 0)
        result_size, at = read_size(delta, at)
    except IndexError:
        raise BadDelta from None
    return base_size, result_size, at


def result_pieces(base, delta):
    """The pieces of the object that the delta makes of the base."""
    base_size, left, at = read_sizes(delta)
    if base_size != len(base):
        raise BadDelta
    end = len(delta)
    while at < end:
        instruction = delta[at]
        at += 1
        if instruction & 128:
            offset, size, at = _read_copy(instruction, delta, at)
            piece = base[offset:offset + size]
        else:
            size = instruction
            piece = delta[at:at + size]
            at += size
        left -= size
        if size == 0 or len(piece) < size or left < 0:
            raise BadDelta
        yield piece
    if left:
        raise BadDelta


def _read_copy(instruction, delta, at):
    """What is copied from the base: its offset and size; and the place behind the instruction."""
    values = []
    for bits in (0x01, 0x02, 0x04, 0x08), (0x10, 0x20, 0x40):
        value = shift = 0
        for bit in bits:
            if instruction & bit:
                if at == len(delta):
                    raise BadDelta
                value |= delta[at] << shift
                at += 1
            shift += 8
        values.append(value)
    offset, size = values
    return offset, size or 0x10000, at
