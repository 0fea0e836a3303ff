#!/usr/bin/env python3
"""soak.py PROGRAM [SESSIONS]: eight clients at the command `serve` until its eight workers have served SESSIONS each.

A client creates a ref of its own, fetches, or asks what it may see; a fifth of its connections it cuts at a random byte.
Each session that wasn't cut has to get a whole reply, and the entries that the program counts have to be as many as the
sessions make: two for a push that wasn't cut, one for each other, and at most as many for one that was cut.

It wants the port 9418 of 127.0.0.1 for itself; `unshare -n` with `ip link set lo up` gives it one.
"""
import hashlib
import random
import socket
import subprocess
import sys
import threading
import time

from push_costs import ZERO, packet, raw_pack

ADDRESS = ("127.0.0.1", 9418)
CLIENTS = 8
TREE = hashlib.sha1(b"tree 0\0").hexdigest()
BODY = f"tree {TREE}\nauthor Soak <soak@example.com> 1700000000 +0000\ncommitter Soak <soak@example.com> 1700000000 +0000\n\nsoak\n".encode()
COMMIT = hashlib.sha1(b"commit %d\0" % len(BODY) + BODY).hexdigest()
PACK = raw_pack([("commit", BODY), ("tree", b"")])


def push(client, number):
    """A create of a ref that no other session names, how its reply ends, and how many entries it makes."""
    ref = f"refs/heads/soak/{client}/{number}"
    sent = packet(b"carol git-receive-pack 'testing'") + packet(f"{ZERO} {COMMIT} {ref}\0report-status".encode()) + b"0000" + PACK
    return sent, packet(b"unpack ok\n") + packet(f"ok {ref}\n".encode()) + b"0000", 2


def fetch(client, number):
    sent = packet(b"carol git-upload-pack 'testing'") + packet(f"want {COMMIT}\n".encode()) + b"0000" + packet(b"done\n")
    return sent, PACK, 1


def info(client, number):
    return packet(b"carol info"), packet(b"R W\ttesting\n") + b"0000", 1


class Tally:
    def __init__(self):
        self.lock = threading.Lock()
        self.whole = self.cut = self.least = self.most = self.unserved = 0
        self.broken = []

    def add(self, **counts):
        with self.lock:
            for name, count in counts.items():
                setattr(self, name, getattr(self, name) + count)


def converse(sent):
    """All that comes back, or None where the server didn't take the connection."""
    try:
        with socket.create_connection(ADDRESS, timeout=60) as link:
            link.sendall(sent)
            reply = bytearray()
            while got := link.recv(65536):
                reply += got
            return bytes(reply)
    except OSError:
        return None


def cut(sent, dice):
    try:
        with socket.create_connection(ADDRESS, timeout=60) as link:
            link.sendall(sent[: dice.randrange(len(sent))])
    except OSError:
        return False
    return True


def be_client(client, tally, server):
    dice = random.Random(client)
    number = 0
    while server.poll() is None:
        number += 1
        sent, due, entries = dice.choice([push, fetch, info])(client, number)
        if dice.random() < 0.2:
            if cut(sent, dice):
                tally.add(cut=1, most=entries)
            continue
        reply = converse(sent)
        if not reply:
            # a connection that no worker takes any more
            tally.add(unserved=1)
        elif reply.endswith(due):
            tally.add(whole=1, least=entries, most=entries)
        else:
            tally.broken.append((sent, reply))


def main():
    program = sys.argv[1]
    each = int(sys.argv[2]) if len(sys.argv) > 2 else 1000
    words = [program, "serve", "--admin", "admin", "--workers", str(CLIENTS), "--sessions", str(each)]
    with subprocess.Popen(words, stdout=subprocess.PIPE, text=True) as server:
        while converse(push(CLIENTS, 0)[0]) is None:
            time.sleep(0.05)
        tally = Tally()
        tally.add(whole=1, least=2, most=2)
        began = time.monotonic()
        clients = [threading.Thread(target=be_client, args=(n, tally, server)) for n in range(CLIENTS)]
        for client in clients:
            client.start()
        line = server.stdout.read().strip()
        seconds = time.monotonic() - began
        for client in clients:
            client.join()
    _, sessions, _, events, _ = line.split()
    print(line, f"in {seconds:.1f} s, status {server.returncode}")
    print(f"whole {tally.whole}, cut {tally.cut}, not taken {tally.unserved}, broken {len(tally.broken)}; entries {tally.least} to {tally.most} are due")
    good = server.returncode == 0 and int(sessions) == CLIENTS * each and not tally.broken and tally.least <= int(events) <= tally.most
    sys.exit(0 if good else 1)


if __name__ == "__main__":
    main()
