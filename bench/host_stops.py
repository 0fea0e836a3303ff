#!/usr/bin/env python3
"""host_stops.py PROGRAM [TIMES [CLIENTS [SECONDS]]]: kills PROGRAM within so many seconds (1) of `host`, so many times (50); `.ci/run` does so ten times.

So many clients (4) push over TCP until the server is killed (SIGKILL), each session two new refs in one push, which deletes those of the client's last
one; beside them one fetches what the last run left, and one makes a wild repository and gives roles in it. The next run goes on over the same journal.
Then the refs are asked for: of each client those of the last push that was answered have to be there with their values, or those of the one behind it
whose answer didn't come, both and the others gone, and no other ref; and each role that was given, at most one more of a run. Its status is 1 where that
isn't so.
"""
import hashlib
import os
import random
import re
import socket
import subprocess
import sys
import tempfile
import threading
import time

from push_costs import EMPTY, EMPTY_ID, ZERO, admin_push, commit, object_id, packet, push
from stops import ADVERTISE, refs_of

CONF = b"repo gitolite-admin\n    RW+ = admin\nrepo testing\n    RW+ = @all\nrepo wild/..*\n    C = @all\n    RW+ = CREATOR\n    R = READERS\n"
OPEN_WILD = packet(b"carol git-receive-pack 'wild/one'") + b"0000"
LIST_ROLES = packet(b"carol perms -l wild/one")


def free_port():
    with socket.socket() as probe:
        probe.bind(("127.0.0.1", 0))
        return probe.getsockname()[1]


def converse(port, sent):
    """The reply, as far as it came."""
    got = []
    try:
        with socket.create_connection(("127.0.0.1", port), timeout=60) as link:
            link.sendall(sent)
            link.shutdown(socket.SHUT_WR)
            while chunk := link.recv(1 << 16):
                got.append(chunk)
    except OSError:
        pass
    return b"".join(got)


def pushed(word, gone):
    """The two refs of a push that deletes these, and its session."""
    made = [commit(b"%s %d\n" % (word.encode(), n), EMPTY_ID) for n in range(2)]
    refs = {"refs/heads/r%s-%d" % (word, n): object_id(made[n]) for n in range(2)}
    session = push(list(refs.items()), made + [EMPTY])
    deletes = b"".join(packet(("%s %s %s" % (old.hex(), ZERO, name)).encode()) for name, old in gone.items())
    return refs, session.replace(b"0000PACK", deletes + b"0000PACK", 1)


class Server:
    def __init__(self, program, room):
        self.port = free_port()
        self.child = subprocess.Popen(
            [program, "host", "--admin", "admin", "--port", str(self.port), "--workers", "4", "--journal", "stops.journal"],
            cwd=room, stdout=subprocess.DEVNULL)
        began = time.perf_counter()
        while not (said := converse(self.port, ADVERTISE)):
            if self.child.poll() is not None:
                sys.exit("the server ended with %d" % self.child.returncode)
            time.sleep(0.005)
        self.opened = time.perf_counter() - began
        self.refs = refs_of(said)

    def kill(self):
        self.child.kill()
        self.child.wait()


class Reader(threading.Thread):
    """Fetches a ref again and again: how often it got a whole pack."""

    def __init__(self, port, refs):
        super().__init__()
        self.port, self.whole = port, 0
        wanted = next(iter(refs.values()), None)
        self.session = wanted and packet(b"carol git-upload-pack 'testing'") + packet(b"want %s" % wanted.hex().encode()) + b"0000" + packet(b"done")

    def run(self):
        while self.session:
            reply = converse(self.port, self.session)
            pack = reply[reply.find(b"PACK"):] if b"PACK" in reply else b""
            if hashlib.sha1(pack[:-20]).digest() != pack[-20:]:
                return
            self.whole += 1


class Giver(threading.Thread):
    """Gives users a role until no whole answer comes: who got it, and who perhaps."""

    def __init__(self, port, turn):
        super().__init__()
        self.port, self.turn, self.given, self.open = port, turn, [], None

    def run(self):
        converse(self.port, OPEN_WILD)
        for number in range(1_000_000):
            user = b"u%d-%d" % (self.turn, number)
            if b"perms: changed" not in converse(self.port, packet(b"carol perms wild/one + READERS " + user)):
                self.open = user
                return
            self.given.append(user)


class Client(threading.Thread):
    """Pushes until no whole answer comes: the refs of the last push that was answered, and those of the one that wasn't."""

    def __init__(self, port, name, kept):
        super().__init__()
        self.port, self.kept, self.open, self.pushes = port, kept, {}, 0
        self.words = ("%s-%d" % (name, n) for n in range(1_000_000))

    def run(self):
        for word in self.words:
            refs, session = pushed(word, self.kept)
            reply = converse(self.port, session)
            if not all(b"ok %s\n" % ref.encode() in reply for ref in (*refs, *self.kept)):
                self.open = refs
                return
            self.kept = refs
            self.pushes += 1


def roles_of(port):
    """The users with the role."""
    return set(re.findall(rb"READERS (u[0-9-]+)", converse(port, LIST_ROLES)))


def settled(there, left):
    """What each client's refs came to, by what it left: those of its last push that was answered, or of the one behind it. None where that isn't so."""
    settled, rest = [], dict(there)
    for kept, behind in left:
        found = [refs for refs in (kept, behind) if refs and all(rest.get(name) == value for name, value in refs.items())]
        if len(found) > 1 or (not found and kept):
            return None
        for name in found[0] if found else ():
            del rest[name]
        settled.append(found[0] if found else {})
    return None if rest else settled


def run(program, room, turn, clients, seconds, left, roles):
    """Checks what is there, and pushes until the server is killed: how much was pushed and fetched."""
    server = Server(program, room)
    if turn == 0:
        converse(server.port, admin_push(CONF))
    given, perhaps = roles
    there = roles_of(server.port)
    if not given <= there or not there <= given | perhaps:
        return "roles: %s lost, %s more" % (sorted(given - there), sorted(there - given - perhaps))
    given |= there
    perhaps.clear()
    kept = settled(server.refs, left)
    if kept is None:
        return "refs: %s where %s" % (server.refs, left)
    if clients == 0:
        server.kill()
        return server.opened
    pushers = [Client(server.port, "%d-%d" % (turn, n), kept[n] if kept else {}) for n in range(clients)]
    reader, giver = Reader(server.port, server.refs), Giver(server.port, turn)
    for client in (*pushers, reader, giver):
        client.start()
    time.sleep(random.uniform(0, seconds))
    server.kill()
    for client in (*pushers, reader, giver):
        client.join()
    left[:] = [(pusher.kept, pusher.open) for pusher in pushers]
    given.update(giver.given)
    perhaps.update(filter(None, [giver.open]))
    return sum(pusher.pushes for pusher in pushers), reader.whole


def main(program, times, clients, seconds):
    with tempfile.TemporaryDirectory() as room:
        left, roles, pushes, fetches = [], (set(), set()), 0, 0
        for turn in range(times):
            found = run(program, room, turn, clients, seconds, left, roles)
            if isinstance(found, str):
                print("run %d: %s" % (turn, found))
                return 1
            pushes += found[0]
            fetches += found[1]
        opened = run(program, room, times, 0, seconds, left, roles)
        if isinstance(opened, str):
            print("at the end: %s" % opened)
            return 1
        size = os.path.getsize(os.path.join(room, "stops.journal"))
        print("%d stops, %d clients, %d pushes, %d roles, %d fetches, a journal of %d bytes, opened in %.3f s: nothing lost, nothing in part, nothing more" % (
            times, clients, pushes, len(roles[0]), fetches, size, opened))
    return 0


if __name__ == "__main__":
    given = sys.argv[2:]
    sys.exit(main(os.path.realpath(sys.argv[1]), int(given[0]) if given else 50, int(given[1]) if given[1:] else 4, float(given[2]) if given[2:] else 1.0))
