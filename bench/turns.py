#!/usr/bin/env python3
"""turns.py PROGRAM [REPOSITORIES]: how long a push holds others up, by hand, never in the gate.

Two workers serve. One client asks again and again for an opening that the rules deny, which needs the turn and nothing else, while another
pushes: a pack of 90,000 small blobs, one commit, and a conf of so many repositories (5,000). Printed are the seconds of each push, and the longest
and the middle one of the questions meanwhile, beside those before it. Last comes who wants to stop the server: she opens a repository that she has
made, gives a role away, and pushes 10,000 commands under a rule on paths; by what is in force at the push each is to be judged once more.

It wants the port 9418 of 127.0.0.1 for itself; `unshare -n` with `ip link set lo up` gives it one.
"""
import socket
import statistics
import subprocess
import sys
import threading
import time

from push_costs import EMPTY, EMPTY_ID, ZERO, admin_push, commit, folders_of, generated_conf, many_paths, object_id, packet, push, raw_pack

ADDRESS = ("127.0.0.1", 9418)
QUESTION = packet(b"nobody git-receive-pack 'gitolite-admin'")


def rest_of(link):
    """What comes on a link that nothing more is sent on."""
    link.shutdown(socket.SHUT_WR)
    got = []
    while chunk := link.recv(1 << 16):
        got.append(chunk)
    return b"".join(got)


def converse(sent):
    with socket.create_connection(ADDRESS, timeout=120) as link:
        link.sendall(sent)
        return rest_of(link)


def ask(took, until):
    """Asks until an event is set, or so often, and appends the seconds of each question."""
    while not until.is_set() if isinstance(until, threading.Event) else len(took) < until:
        began = time.perf_counter()
        assert b"DENIED" in converse(QUESTION)
        took.append(time.perf_counter() - began)


def told(took):
    return "%d questions, middle %.2f ms, longest %.2f ms" % (len(took), statistics.median(took) * 1e3, max(took) * 1e3)


def beside(name, sent, converse=converse):
    took, ended = [], threading.Event()
    asker = threading.Thread(target=ask, args=(took, ended))
    asker.start()
    began = time.perf_counter()
    reply = converse(sent)
    pushed = time.perf_counter() - began
    ended.set()
    asker.join()
    assert b"\nok refs/" in reply or b"ok refs/" in reply, reply[-200:]
    print("%s: %.3f s; meanwhile %s" % (name, pushed, told(took)))


WILD = b"repo w/CREATOR/..*\n    C = @all\n    - VREF/NAME/none/ = @all\n    RW+ = CREATOR\n    RW = WRITERS\n"


def flip_and_push(commands):
    """A push to a repository that its user has made, by whom a role was given away between its opening and itself."""
    opened = packet(b"mallory git-receive-pack 'w/mallory/x'")
    with socket.create_connection(ADDRESS, timeout=600) as link:
        link.sendall(opened)
        link.recv(1 << 16)
        assert b"changed" in converse(packet(b"mallory perms w/mallory/x + WRITERS mallory"))
        link.sendall(commands)
        return rest_of(link)


def hostile_push():
    """10,000 creates at as many commits over 64,000 paths each."""
    root, items = many_paths(40)
    commits = [commit(b"%d\n" % n, object_id(root)) for n in range(10_000)]
    lines = [packet(("%s %s refs/heads/b%05d" % (ZERO, object_id(made).hex(), n)).encode() + (b"\0report-status" if n == 0 else b"")) for n, made in enumerate(commits)]
    return b"".join(lines) + b"0000" + raw_pack(commits + items)


def main():
    repositories = int(sys.argv[2]) if len(sys.argv) > 2 else 5_000
    program = subprocess.Popen([sys.argv[1], "serve", "--admin", "admin", "--workers", "2", "--sessions", "1000000"], stdout=subprocess.DEVNULL)
    try:
        for _ in range(100):
            try:
                socket.create_connection(ADDRESS, timeout=1).close()
                break
            except OSError:
                time.sleep(0.05)
        alone = []
        ask(alone, 1_000)
        print("alone: %s" % told(alone))
        blobs = [("blob", b"blob %d\n" % n) for n in range(90_000)]
        top, trees = folders_of(blobs)
        beside("a pack of 90,000 blobs", push([("refs/heads/master", object_id(top))], [top] + trees + blobs))
        first = commit(b"first\n", EMPTY_ID)
        beside("one commit", push([("refs/heads/topic", object_id(first))], [first, EMPTY]))
        beside("a conf of %d repositories" % repositories, admin_push(generated_conf(repositories) + WILD))
        converse(packet(b"mallory git-receive-pack 'w/mallory/x'") + b"0000")
        beside("10,000 commands under a rule on paths, a role given away before them", hostile_push(), flip_and_push)
    finally:
        program.kill()


if __name__ == "__main__":
    main()
