#!/usr/bin/env python3
"""host_costs.py PROGRAM [SECONDS [GIGABYTES]]: what `host` of PROGRAM, the built cerolimau, costs on this machine's disk; by hand, never in the gate.

Small pushes a second by one client and by eight, over sessions (an opening and a push in one); `git push` of a commit by the front end, beside
`git push` into a bare repository with `core.fsync=all` and into Gitolite, if it's there; how long a reader waits for `info` and for a denial
beside eight who push; and the time from start to the first answer with so many gigabytes (1) stored. Each case takes so many seconds (5).
"""
import multiprocessing
import os
import socket
import statistics
import subprocess
import sys
import tempfile
import time

from compare_gitolite import Gitolite, gitolite_home
from host_stops import converse, free_port
from journal_costs import HEAD, large
from push_costs import EMPTY, EMPTY_ID, admin_push, commit, object_id, packet, raw_pack

CONF = b"repo gitolite-admin\n    RW+ = admin\nrepo testing\n    RW+ = @all\nrepo closed\n    RW+ = admin\n"
FRONT = os.path.join(os.path.dirname(os.path.dirname(os.path.realpath(__file__))), "front", "cerolimau-ssh")
INFO = packet(b"carol info")
COMMITS = 1_000  # that a client has to push by git
DENIED = packet(b"carol git-receive-pack 'closed'")


class Server:
    def __init__(self, program, room):
        self.port = free_port()
        words = [program, "host", "--admin", "admin", "--port", str(self.port), "--workers", "16", "--journal", room + "/costs.journal"]
        began = time.perf_counter()
        self.child = subprocess.Popen(words, stdout=subprocess.DEVNULL, stderr=subprocess.DEVNULL)
        while not converse(self.port, INFO):
            if self.child.poll() is not None:
                sys.exit("the server ended with %d" % self.child.returncode)
            time.sleep(0.001)
        self.opened = time.perf_counter() - began

    def kill(self):
        self.child.kill()
        self.child.wait()


def ask(port, sent):
    with socket.create_connection(("127.0.0.1", port), timeout=60) as link:
        link.sendall(sent)
        link.shutdown(socket.SHUT_WR)
        return b"".join(iter(lambda: link.recv(1 << 16), b""))


def at_once(acts, seconds):
    """What each act returns, done in processes of their own from one moment on."""
    begin, pipes = time.time() + 0.3, []
    for number, act in enumerate(acts):
        mine, theirs = multiprocessing.Pipe()
        multiprocessing.Process(target=lambda: theirs.send(act(number, begin, seconds))).start()
        pipes.append(mine)
    return [pipe.recv() for pipe in pipes]


def of_all(acts, seconds):
    """How often clients did what they do in so many seconds, a second; and how long each time took."""
    took = at_once(acts, seconds)
    return sum(map(len, took)) / seconds, [one for rows in took for one in rows]


class Session:
    """What sends a session again and again, and is answered with these bytes."""

    def __init__(self, port, sessions, answer):
        self.port, self.sessions, self.answer = port, sessions, answer

    def __call__(self, client, begin, seconds):
        time.sleep(max(0, begin - time.time()))
        took, number, until = [], 0, time.perf_counter() + seconds
        while (began := time.perf_counter()) < until:
            reply = ask(self.port, self.sessions(client, number))
            assert self.answer in reply, reply[-300:]
            took.append(time.perf_counter() - began)
            number += 1
        return took


class GitPush:
    """What pushes one commit more by git, again and again, to a branch of its own."""

    def __init__(self, word, client, place, environment):
        self.word, self.client, self.place, self.environment = word, client, place, environment

    def __call__(self, client, begin, seconds):
        time.sleep(max(0, begin - time.time()))
        took, number, until = [], 0, time.perf_counter() + seconds
        while (began := time.perf_counter()) < until:
            what = "refs/heads/m%d~%d:refs/heads/%s%d" % (client, COMMITS - 1 - number, self.word, client)
            its = dict(self.environment, GIT_SSH_COMMAND="%s u%d" % (self.environment.get("FRONT"), client))
            subprocess.run(["git", "-C", self.client, "push", "-q", self.place, what], check=True, env=its)
            took.append(time.perf_counter() - began)
            number += 1
        return took


class Pushes:
    """Sessions of a client that push one commit more to a branch of its own."""

    def __init__(self, word):
        self.word, self.last = word, None

    def __call__(self, client, number):
        made = commit(b"%s %d %d\n" % (self.word, client, number), EMPTY_ID, [self.last] if self.last else [])
        old, self.last = self.last or bytes(20), object_id(made)
        line = b"%s %s refs/heads/%s-%d\0report-status" % (old.hex().encode(), self.last.hex().encode(), self.word, client)
        return packet(b"carol git-receive-pack 'testing'") + packet(line) + b"0000" + raw_pack([made, EMPTY])


def sync_cost(room):
    took = []
    with open(room + "/sync", "wb") as file:
        for _ in range(200):
            file.write(bytes(500))
            file.flush()
            began = time.perf_counter()
            os.fsync(file.fileno())
            took.append(time.perf_counter() - began)
    return statistics.median(took)


def told(name, rate, took):
    took.sort()
    print("%-62s %8.1f a second; %7.2f ms in the middle, %7.2f at most" % (name, rate, took[len(took) // 2] * 1e3, took[-1] * 1e3), flush=True)


def git_pushes(room, port, seconds):
    environment = dict(os.environ, HOME=room, GIT_CONFIG_NOSYSTEM="1", GIT_SSH_VARIANT="simple")
    client, bare = room + "/client", room + "/bare"
    row = b"commit refs/heads/m%d\ncommitter C%d <c@example.com> %d +0000\ndata 2\nx\n"
    stream = b"".join(row % (client, client, 1_700_000_000 + n) for client in range(8) for n in range(COMMITS))
    subprocess.run(["git", "init", "-q", "--bare", "--initial-branch=main", client], check=True, env=environment)
    subprocess.run(["git", "-C", client, "fast-import", "--quiet"], input=stream, check=True, env=environment)
    sides = [("into a bare repository, core.fsync=all", bare, environment)]
    subprocess.run(["git", "init", "-q", "--bare", bare], check=True, env=environment)
    subprocess.run(["git", "-C", bare, "config", "core.fsync", "all"], check=True, env=environment)
    if subprocess.run(["sh", "-c", "command -v gitolite"], stdout=subprocess.DEVNULL).returncode == 0:
        home = room + "/gitolite"
        os.mkdir(home)
        gitolite_home(home)
        there = Gitolite(home, {"gitolite.conf": CONF.decode()})
        with open(home + "/shell", "w") as it:
            it.write('#!/bin/sh\nHOME=%s SSH_CONNECTION="127.0.0.1 1 127.0.0.1 22" SSH_ORIGINAL_COMMAND="$3" exec %s/gitolite-shell "$1"\n' % (home, there.places["GL_BINDIR"]))
        os.chmod(home + "/shell", 0o755)
        subprocess.run(["git", "config", "--global", "core.fsync", "all"], check=True, env=dict(environment, HOME=home))
        sides.append(("into Gitolite, core.fsync=all", "here:testing", dict(environment, FRONT=home + "/shell")))
    front = "%s --server 127.0.0.1:%d --spool %s" % (FRONT, port, room + "/spool")
    sides.append(("into cerolimau by its front end", "here:testing", dict(environment, FRONT=front)))
    for name, place, its in sides:
        for clients in 1, 8:
            told("git push %s, %d clients" % (name, clients), *of_all([GitPush("git%d-" % clients, client, place, its)] * clients, seconds))


def beside(port, seconds, name, session, answer):
    """How long a reader waits beside eight who push."""
    pushes = [Session(port, Pushes(b"beside-%d" % (8 * len(name) + n)), b"unpack ok") for n in range(8)]
    reader = Session(port, lambda client, number: session, answer)
    took, *writers = at_once([reader] + pushes, seconds)
    made = sum(map(len, writers))
    told("%s, beside eight who made %d pushes" % (name, made), len(took) / seconds, took)


def main(program, seconds="5", gigabytes="1"):
    multiprocessing.set_start_method("fork")
    seconds = float(seconds)
    with tempfile.TemporaryDirectory(prefix="host-costs-") as room:
        print("a sync of 500 bytes more takes %.2f ms" % (sync_cost(room) * 1e3))
        server = Server(program, room)
        try:
            converse(server.port, admin_push(CONF))
            for clients in 1, 8:
                acts = [Session(server.port, Pushes(b"of%d" % clients), b"unpack ok") for _ in range(clients)]
                told("a push over a session, %d clients" % clients, *of_all(acts, seconds))
            beside(server.port, seconds, "info", INFO, b"testing")
            beside(server.port, seconds, "a denial", DENIED, b"DENIED")
            git_pushes(room, server.port, seconds)
        finally:
            server.kill()
    with tempfile.TemporaryDirectory(prefix="host-costs-") as room:
        with open(room + "/costs.journal", "wb") as journal:
            journal.write(HEAD)
            for record in large(max(1, round(4 * float(gigabytes))))[1]:
                journal.write(record)
            journal.write(b"\0")
        server = Server(program, room)
        server.kill()
        print("from start to the first answer, %s GB stored: %.2f s" % (gigabytes, server.opened))


if __name__ == "__main__":
    main(os.path.realpath(sys.argv[1]), *sys.argv[2:])
