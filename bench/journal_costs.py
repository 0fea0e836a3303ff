#!/usr/bin/env python3
"""journal_costs.py PROGRAM [FACTOR]: how long `keep` of PROGRAM takes to open journals, and with how much memory; by hand, never in the gate.

Each journal is written here by docs/JOURNAL.md, and opened with an empty script: a million openings for reading, and for writing; pushes one
after the other of which each makes a ref; pushes of a commit each to one branch; a GB of objects. FACTOR makes all of them smaller or larger.
"""
import hashlib
import os
import resource
import subprocess
import sys
import tempfile
import time

from push_costs import EMPTY, EMPTY_ID, commit

HEAD = b"GITOLOG1\x05admin"
KINDS = {"commit": 1, "tree": 2, "blob": 3, "tag": 4}
REPO, USER = b"testing", b"carol"


def text(data):
    return len(data).to_bytes(2, "big") + data


def record(body):
    return b"\x01" + len(body).to_bytes(8, "big") + body


def opening(writes):
    return record(bytes(8) + b"\x01" + text(USER) + text(REPO) + bytes([writes]))


def push(place, commands, objects):
    rows = b"".join(old + new + text(name) for name, old, new in commands)
    pack = b"".join(bytes([KINDS[kind]]) + len(body).to_bytes(4, "big") + body for kind, body in objects)
    return record(
        bytes(8) + b"\x02" + place.to_bytes(8, "big") + b"\x00" + len(commands).to_bytes(4, "big") + rows + len(objects).to_bytes(4, "big") + pack)


def id_of(kind, body):
    return hashlib.sha1(b"%s %d\0" % (kind.encode(), len(body)) + body).digest()


def openings(count, writes):
    return count, [opening(writes)] * count


def creates(count):
    first = commit(b"first\n", EMPTY_ID)
    records = []
    for number in range(count):
        objects = [first, EMPTY] if number == 0 else []
        records += [opening(1), push(2 * number, [(b"refs/heads/b%d" % number, bytes(20), id_of(*first))], objects)]
    return 2 * count, records


def commits(count):
    old, parents, records = bytes(20), (), []
    for number in range(count):
        made = commit(b"%d\n" % number, EMPTY_ID, parents)
        new = id_of(*made)
        records += [opening(1), push(2 * number, [(b"refs/heads/master", old, new)], [made] + [EMPTY] * (number == 0))]
        old, parents = new, (new,)
    return 2 * count, records


def large(count):
    records, old, parents = [], bytes(20), ()
    for number in range(count):
        blobs = [("blob", os.urandom(16 << 20)) for _ in range(15)]
        rows = sorted((b"%02d" % at, id_of(*blob)) for at, blob in enumerate(blobs))
        tree = "tree", b"".join(b"100644 %s\0%s" % row for row in rows)
        made = commit(b"%d\n" % number, id_of(*tree), parents)
        new = id_of(*made)
        records += [opening(1), push(2 * number, [(b"refs/heads/master", old, new)], [made, tree] + blobs)]
        old, parents = new, (new,)
    return 2 * count, records


def measure(program, name, count, records):
    with tempfile.TemporaryDirectory() as room:
        with open(os.path.join(room, "gitolite.journal"), "wb") as journal:
            journal.write(HEAD)
            for one in records:
                journal.write(one)
            journal.write(b"\0")
            size = journal.tell()
        begun = time.monotonic()
        ran = subprocess.Popen([program, "keep", "--admin", "admin"], cwd=room, stdin=subprocess.DEVNULL, stdout=subprocess.PIPE)
        said = ran.stdout.read()
        _, status, used = os.wait4(ran.pid, 0)
        took = time.monotonic() - begun
        assert status == 0, (name, status, said)
        print("%-40s %9d events %7.1f MB  %6.2f s  %6.2f us an event  %6d MB of memory" % (
            name, count, size / 1e6, took, took / count * 1e6, used.ru_maxrss // 1024), flush=True)


def main(program, factor="1"):
    factor = float(factor)
    resource.setrlimit(resource.RLIMIT_CORE, (0, 0))
    measure(program, "openings for reading", *openings(int(1_000_000 * factor), 0))
    measure(program, "openings for writing", *openings(int(1_000_000 * factor), 1))
    measure(program, "pushes, a ref each", *creates(int(8_400 * factor)))
    measure(program, "pushes, a commit each", *commits(int(50_000 * factor)))
    measure(program, "pushes of 240 MB", *large(max(1, int(4 * factor))))


if __name__ == "__main__":
    main(os.path.realpath(sys.argv[1]), *sys.argv[2:])
