#!/usr/bin/env python3
"""Compares pushes between whose opening and themselves the conf changes with a real Gitolite: compare_between.py PROGRAM [PAIRS [SEED]]

It needs what compare_gitolite.py needs, and the port 9418 of 127.0.0.1. For each of PAIRS pairs of random confs (3, drawn from SEED, 1) users open repositories of PROGRAM,
which serves, by the first conf; then the admin pushes the second one, and then each of them asks for a change of a ref. Gitolite's `gitolite access` is asked for the
opening by the first conf, and its update hook for the change by both. Gitolite asks at the push alone; the program lets a change be made that both confs let, so
its verdict has to be the first conf's denial, or else the second one's, told with `(rules at push)`, or else none. Confs, users, refs and commits are those of
compare_pushes.py. It ends with 1 where two verdicts differ.
"""
import os, random, re, socket, subprocess, sys, tempfile, time
from concurrent.futures import ThreadPoolExecutor
from compare_gitolite import ZERO, Gitolite, conf_push, gitolite_home, open_conf, push, write_objects
from compare_pushes import BASE, CHANGES, OBJECTS, REFS, REPOS, USERS, draw_conf, normal, words_of

ADDRESS = ("127.0.0.1", 9418)
TOGETHER = 6  # sessions that are open while the conf changes
OF_EACH = 30  # questions of each pair, from each old value


def draw_first(draws):
    """A conf; most let all be made that no rule of paths or merges denies, so that the second one decides."""
    conf = draw_conf(draws)["gitolite.conf"]
    if draws.random() < 0.7:
        conf = conf.replace("repo r1 r2\n    R = nobody\n", "repo r1 r2\n    RW+CDM = @all\n", 1)
    return {"gitolite.conf": conf}


def asked(draws):
    """Questions in lists, each list from one old value: the new value, the ref, the repository and the user."""
    for old in ZERO, BASE:
        yield old, [(draws.choice(CHANGES[old]), draws.choice(REFS), draws.choice(REPOS), draws.choice(USERS)) for _ in range(OF_EACH)]


# ---- Gitolite


def ask_gitolite(home, conf, questions):
    """Of each question the words of the opening's denial and of the change's, or None where it is let."""
    there = Gitolite(home, conf)
    opened = {(repo, user): words_of(said) for repo, user, said in there.access("W", "any", REPOS, USERS)}
    for repo in REPOS:
        write_objects(there.folder(repo), OBJECTS)

    def ask(what):
        old, (new, ref, repo, user) = what
        return words_of(there.update(user, repo, ref, old, new).stderr)

    with ThreadPoolExecutor(os.cpu_count()) as pool:
        return [(opened[what[1][2:]], said) for what, said in zip(questions, pool.map(ask, questions))]


# ---- the program


class Session:
    """A session for writing, up to its advertisement."""

    def __init__(self, user, repo):
        self.link = socket.create_connection(ADDRESS, timeout=60)
        self.first = push(user, repo, [(ZERO, ZERO, "refs/heads/none")], None, b"").split(b"0000", 1)[0]
        size = int(self.first[:4], 16)
        self.link.sendall(self.first[:size])
        self.head = self.packets()

    def packets(self):
        """What comes up to a flush, or to the end."""
        got = b""
        while len(head := self.take(4)) == 4 and head != b"0000":
            got += self.take(int(head, 16) - 4)
        return got

    def take(self, size):
        got = b""
        while len(got) < size and (chunk := self.link.recv(size - len(got))):
            got += chunk
        return got

    def ask(self, sent):
        self.link.sendall(sent)
        self.link.shutdown(socket.SHUT_WR)
        got = b""
        while chunk := self.link.recv(1 << 16):
            got += chunk
        self.link.close()
        return got


def behind_first(session):
    return session[int(session[:4], 16):]


def converse(sent):
    user, repo = re.match(rb"....(\S+) git-receive-pack '(\S+)'", sent).groups()
    return Session(user.decode(), repo.decode()).ask(behind_first(sent))


class Server:
    """A program that serves, whose conf is swapped by pushes of its admin."""

    def __init__(self, program):
        self.child = subprocess.Popen([program, "serve", "--admin", "admin", "--workers", "8", "--sessions", "1000000"], stdout=subprocess.DEVNULL)
        self.conf = None
        for _ in range(200):
            try:
                return socket.create_connection(ADDRESS, timeout=1).close()
            except OSError:
                time.sleep(0.05)
        sys.exit("the program doesn't serve")

    def swap(self, conf):
        text, self.conf = conf_push(conf, self.conf)
        reply = converse(text)
        if b"ok refs/heads/master" not in reply:
            sys.exit("a conf was refused: %r" % reply)

    def put(self, old, now):
        """Each ref at this value."""
        self.swap(open_conf(REPOS))
        for repo in REPOS:
            commands = [(before, old, ref) for ref, before in now[repo].items() if before != old]
            now[repo] = dict.fromkeys(REFS, old)
            if commands and b"ng " in converse(push("root", repo, commands, OBJECTS.values(), b"report-status")):
                sys.exit("the refs can't be put to %s" % old.hex())


def ask_program(server, before, behind, old, questions):
    """Of each question the words of the denial, or None, and whether it was told by the rules at the push."""
    for at in range(0, len(questions), TOGETHER):
        some = questions[at:at + TOGETHER]
        server.swap(before)
        open_ones = [Session(user, repo) for _, _, repo, user in some]
        server.swap(behind)
        for session, (new, ref, repo, user) in zip(open_ones, some):
            denied = re.search(rb"ERR (\S+ any \S+ \S+ DENIED by [^\n]*)", session.head)
            if denied:
                session.link.close()
                yield ("opening", normal(denied.group(1), user)), False
                continue
            commands = [(old, new, ref), (BASE, ZERO, "refs/heads/a..b")]
            reply = session.ask(behind_first(push(user, repo, commands, OBJECTS.values() if new != ZERO else None, b"report-status atomic")))
            said = re.search(rb"ng %s (\S+ \S+ \S+ \S+ DENIED by [^\n]*)" % re.escape(ref.encode()), reply)
            if not said and b"ng %s atomic push refused" % ref.encode() not in reply:
                sys.exit("no verdict for %s: %r" % ((new.hex(), ref, repo, user), reply[-300:]))
            yield ("change", said and normal(said.group(1), user)), bool(said) and b"(rules at push)" in said.group(1)


def wanted(before, behind):
    opened, change = before
    if opened is not None:
        return ("opening", opened), False
    if change is not None:
        return ("change", change), False
    return ("change", behind[1]), behind[1] is not None


def main(program, pairs="3", seed="1"):
    draws, count, counts, differ = random.Random(int(seed)), 0, {"opening": 0, "by the first": 0, "by the second": 0, "let": 0}, 0
    server = Server(os.path.abspath(program))
    try:
        with tempfile.TemporaryDirectory(prefix="compare-between-") as home:
            gitolite_home(home)
            now = {repo: dict.fromkeys(REFS, ZERO) for repo in REPOS}
            for _ in range(int(pairs)):
                before, behind = draw_first(draws), draw_conf(draws)
                for old, questions in asked(draws):
                    whats = [(old, what) for what in questions]
                    first, second = ask_gitolite(home, before, whats), ask_gitolite(home, behind, whats)
                    server.put(old, now)
                    for what, one, other, said in zip(questions, first, second, ask_program(server, before, behind, old, questions)):
                        count += 1
                        (kind, words), late = said
                        counts["opening" if kind == "opening" else "let" if words is None else "by the second" if late else "by the first"] += 1
                        if said != wanted(one, other):
                            differ += 1
                            print("%s: wanted %s, the program %s, of\n%s----\n%s" % (what[1:], wanted(one, other), said, before["gitolite.conf"], behind["gitolite.conf"]))
    finally:
        server.child.kill()
    print("%d pairs of confs, %d verdicts, %s: %d differ" % (int(pairs), count, ", ".join("%d %s" % (n, word) for word, n in counts.items()), differ))
    return 1 if differ or not count else 0


if __name__ == "__main__":
    sys.exit(main(*sys.argv[1:]))
