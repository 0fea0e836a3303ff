#!/usr/bin/env python3
"""denied_pushes.py PROGRAM[,PROGRAM ..] [PUSHES [MEGABYTES]]: what refused pushes and reads leave behind at `host`, by hand.

A conf that lets everybody push to `refs/heads/mine/` alone is pushed to a server with a new journal. Then so many pushes (16) of so many MB (250), each of
new objects, are refused by the rules, and 1,000 fetches and listings are answered. Printed are the memory that the server holds and the bytes of its journal,
before and after each of these; and how long a refused push of one commit, a fetch of nothing and a listing take, the middle one of 200.
"""
import os
import sys
import tempfile
import time

from host_stops import Server, converse
from push_costs import EMPTY, EMPTY_ID, admin_push, commit, folders_of, object_id, packet, push

CONF = b"repo gitolite-admin\n    RW+ = admin\nrepo testing\n    RW+ mine/ = @all\n    R = @all\n"
FETCH = packet(b"carol git-upload-pack 'testing'") + b"0000"
LISTING = packet(b"carol info")


def state(server, room):
    with open("/proc/%d/status" % server.child.pid) as lines:
        memory = next(int(line.split()[1]) for line in lines if line.startswith("VmRSS"))
    return "%7.1f MB of memory, %9d bytes of journal" % (memory / 1e3, os.path.getsize(os.path.join(room, "stops.journal")))


def denied(number, megabytes):
    blobs = [("blob", b"%d %d " % (number, n) + bytes(1 << 20)) for n in range(megabytes)]
    made, trees = folders_of(blobs)
    return push([("refs/heads/other%d" % number, object_id(made))], [made] + trees + blobs)


def middle(server, session, word, turns=200):
    took = []
    for _ in range(turns):
        began = time.perf_counter()
        said = converse(server.port, session)
        took.append(time.perf_counter() - began)
        assert word in said, said[-200:]
    return sorted(took)[turns // 2] * 1e3


def measure(program, pushes, megabytes):
    with tempfile.TemporaryDirectory() as room:
        server = Server(program, room)
        said = converse(server.port, admin_push(CONF))
        assert b"ok refs/heads/master" in said, said[-300:]
        print("%s\n  at first                %s" % (program, state(server, room)))
        for number in range(pushes):
            said = converse(server.port, denied(number, megabytes))
            assert b"DENIED by fallthru" in said, said[-300:]
            if number in (0, pushes - 1):
                print("  %2d refused pushes       %s" % (number + 1, state(server, room)), flush=True)
        for _ in range(500):
            converse(server.port, FETCH)
            converse(server.port, LISTING)
        print("  and 1,000 reads         %s" % state(server, room))
        one = commit(b"one\n", EMPTY_ID)
        refused = push([("refs/heads/other", object_id(one))], [one, EMPTY])
        done = push([("refs/heads/mine/one", object_id(one))], [one, EMPTY])
        print("  ms: a refused push %.2f, a fetch of nothing %.2f, a listing %.2f" % (
            middle(server, refused, b"DENIED"), middle(server, FETCH, b"0000"), middle(server, LISTING, b"hello carol")))
        assert b"ok refs/heads/mine/one" in converse(server.port, done)
        server.kill()
        again = Server(program, room)
        print("  opened again in %.3f s   %s" % (again.opened, state(again, room)))
        again.kill()


if __name__ == "__main__":
    for program in sys.argv[1].split(","):
        measure(os.path.realpath(program), int(sys.argv[2]) if sys.argv[2:] else 16, int(sys.argv[3]) if sys.argv[3:] else 250)
