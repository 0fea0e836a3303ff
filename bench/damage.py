#!/usr/bin/env python3
"""damage.py PROGRAM: what `keep` of PROGRAM says of a journal that is damaged, by hand, never in the gate.

A journal with an opening and a push is damaged at each of its bytes, by each of four other values, and cut after each of its bytes. What `keep`
ends with and prints is compared with what a reader of a page of Python says, which goes by docs/JOURNAL.md alone. It prints how many files were
refused and recovered; its status is 1 where one answer differs.
"""
import hashlib
import os
import re
import subprocess
import sys
import tempfile

from push_costs import EMPTY, EMPTY_ID, commit, object_id, push

HEAD = b"GITOLOG1\x05admin"
KINDS = 1, 2, 3, 4  # a commit, a tree, a blob, a tag


class Bad(Exception):
    pass


def framed(data):
    return b"session %d\n" % len(data) + data + b"\n"


def front(data, size):
    if len(data) < size:
        raise Bad
    return data[:size], data[size:]


def number(data, size):
    digits, rest = front(data, size)
    return int.from_bytes(digits, "big"), rest


def text(data, limit):
    size, rest = number(data, 2)
    if size > limit:
        raise Bad
    return front(rest, size)


def flag(data):
    value, rest = number(data, 1)
    if value > 1:
        raise Bad
    return value, rest


def ids_and_objects(data):
    """The commands of a push, and its objects; `Bad` where they leave the form. The forms of objects are asked of the program alone."""
    count, data = number(data, 4)
    if count > 10_000:
        raise Bad
    commands = []
    for _ in range(count):
        ids, data = front(data, 40)
        name, data = text(data, 1024)
        commands.append((ids, name))
    count, data = number(data, 4)
    if count > 100_000:
        raise Bad
    objects = []
    for _ in range(count):
        kind, data = number(data, 1)
        size, data = number(data, 4)
        if kind not in KINDS or size > 16_777_216:
            raise Bad
        body, data = front(data, size)
        objects.append((kind, body))
    if data:
        raise Bad
    return commands, objects


def is_known(kind, body):
    """Whether this reader knows that the body has its kind's form: of the others only the program knows."""
    return kind == 3 or (kind, body) in ((2, b""), (1, FIRST[1]))


def event(data, opened):
    """Whether the body is an event that can be asked behind `opened` openings for writing; None where only the program knows."""
    _, data = number(data, 8)
    kind, data = number(data, 1)
    if kind == 1:
        user, data = text(data, 65_535)
        repo, data = text(data, 65_535)
        want, data = flag(data)
        if data:
            raise Bad
        return None if (user, repo) != (b"carol", b"testing") else ("opened" if want == 1 else "read")
    if kind == 2:
        place, data = number(data, 8)
        _, data = flag(data)
        commands, objects = ids_and_objects(data)
        if not all(is_known(*it) for it in objects):
            return None
        if place not in opened or not commands:
            raise Bad
        return "pushed"
    return None


def reading(data):
    """What `keep` has to end with: 0 or 9 and a line; None where only the program knows."""
    if not data:
        return 0, b""
    if not data.startswith(HEAD[:8]) or len(data) < 10 or len(data) < 9 + data[8] + 1:
        return 9, b"not a journal\n"
    if data[8:9 + data[8]] != HEAD[8:]:
        return 9, b"other admin\n"
    at, place, opened = len(HEAD), 0, set()
    while data[at] != 0:
        size = int.from_bytes(data[at + 1:at + 9], "big") if len(data) >= at + 9 else 1 << 64
        if len(data) < at + 9 + size + 1:
            return 9, b"bad record at %d\n" % at
        try:
            what = event(data[at + 9:at + 9 + size], opened)
        except Bad:
            return 9, b"bad record at %d\n" % at
        if what is None:
            return None
        if what == "opened":
            opened.add(place)
        at, place = at + 9 + size, place + 1
    return 0, b""


FIRST = commit(b"first\n", EMPTY_ID)


def keep(program, room, data, script=b""):
    path = os.path.join(room, "gitolite.journal")
    if data is not None:
        with open(path, "wb") as journal:
            journal.write(data)
    ended = subprocess.run([program, "keep", "--admin", "admin"], cwd=room, input=script, stdout=subprocess.PIPE)
    return ended.returncode, ended.stdout


def main(program):
    with tempfile.TemporaryDirectory() as room:
        script = framed(push([("refs/heads/master", object_id(FIRST))], [FIRST, EMPTY]))
        status, said = keep(program, room, None, script)
        assert status == 0 and b"ok refs/heads/master" in said, (status, said)
        with open(os.path.join(room, "gitolite.journal"), "rb") as journal:
            whole = journal.read()
        damaged = [whole[:size] for size in range(len(whole))]
        for at, byte in enumerate(whole):
            damaged += [whole[:at] + bytes([value]) + whole[at + 1:] for value in {0, 1, 255, byte ^ 32} - {byte}]
        counts, unknown, differ = {}, 0, 0
        for data in damaged:
            found = keep(program, room, data)
            wanted = reading(data)
            if wanted is None:
                unknown += 1
                fits = found == (0, b"") or found[0] == 9 and re.fullmatch(rb"bad record at (14|\d+)\n", found[1])
            else:
                fits = found == wanted
            word = found[1].split(b" at ")[0].strip().decode() if found[0] == 9 else "recovered (%d)" % found[0]
            counts[word] = counts.get(word, 0) + 1
            if not fits:
                differ += 1
                print("differs: %d bytes, %s, wanted %s, sha1 %s" % (len(data), found, wanted, hashlib.sha1(data).hexdigest()))
        print("%d files of a journal of %d bytes: %s; of %d only the program knows; %d differ" % (len(damaged), len(whole), counts, unknown, differ))
    return 1 if differ else 0


if __name__ == "__main__":
    sys.exit(main(os.path.realpath(sys.argv[1])))
