#!/usr/bin/env python3
"""Compares what is said of changes of refs with git: compare_changes.py PROGRAM [HISTORIES [SEED]]

It needs git and Python's standard library. For each of HISTORIES random histories (5, drawn from SEED, 1), of commits with up to three parents and trees in which
files come, go, change, become links, folders or submodules, it asks PROGRAM by a script of sessions, and git in a repository that has the same objects, of random
creates, deletes and moves of refs: whether one is a move forward, whether it brings a merge, and which paths it changes. The program tells the first two by the
letters of a denial, and each path by a rule that denies it to one user; another user is denied what is none of the paths. For each history it also asks both of 300 random texts whether a ref may have that name
(`git check-ref-format`); here a name begins with `refs/` and has three pieces at least. It ends with 1 where two answers differ.
"""
import os, random, re, subprocess, sys, tempfile
from compare_gitolite import ADMIN, EMPTY, HERE, ROOT, ZERO, conf_push, name_of, open_conf, push, replies, tree_of, write_objects

PATHS = ["a", "b", "d", "d/a", "d/b", "d/e/a", "d/e/b", "da", "f/g/h/a", "f/g/h", "f/i", "z"]
COMMITS, CHANGES = 25, 40
GIT = dict(env={**{name: value for name, value in os.environ.items() if not name.startswith("GIT_")}, "GIT_CONFIG_GLOBAL": "/dev/null", "GIT_CONFIG_NOSYSTEM": "1"})
MODES = [b"100644", b"100644", b"100644", b"100755", b"120000", b"160000"]


# ---- histories


def draw_files(draws, files):
    """Files by path, each with its mode and text, by a few changes of others."""
    files = dict(files)
    for _ in range(draws.randint(0, 3)):
        path = draws.choice(PATHS)
        if path in files and draws.random() < 0.4:
            del files[path]
            continue
        # what is a folder of it, or stands below it, goes
        files = {it: file for it, file in files.items() if not it.startswith(path + "/") and not path.startswith(it + "/")}
        files[path] = (draws.choice(MODES), draws.choice([b"one\n", b"two\n", b""]))
    return files


def draw_history(draws):
    """Commits, and all objects by name."""
    commits, files, objects = [], [], {}
    for number in range(COMMITS):
        parents = draws.sample(range(number), min(number, draws.choice([0, 1, 1, 1, 1, 1, 2, 2, 3]))) if number else []
        near = [it for it in parents if it >= number - 8] or parents
        files.append(draw_files(draws, files[near[0]] if near else {}))
        lines = b"tree %s\n" % tree_of(files[-1], objects).hex().encode() + b"".join(b"parent %s\n" % commits[it].hex().encode() for it in parents)
        commit = b"commit", lines + b"author a <a> 1 +0000\ncommitter a <a> 1 +0000\n\n%d\n" % number
        objects[name_of(*commit)] = commit
        commits.append(name_of(*commit))
    return commits, objects


def draw_changes(draws, commits):
    """Changes of refs, each of its own ref: a name, the value before and the value behind."""
    changes = []
    for number in range(CHANGES):
        old, new = draws.sample(commits, 2) if draws.random() < 0.5 else draws.sample(commits[-8:], 2)
        old, new = draws.choice([(old, new)] * 8 + [(ZERO, new), (old, ZERO)])
        changes.append(("refs/%s/n%d" % (draws.choice(["heads", "heads", "heads", "tags", "x"]), number), old, new))
    return changes


# ---- git


def store_objects(folder, objects):
    """A new repository that has these objects."""
    subprocess.run(["git", "init", "-q", "--bare", folder], check=True, **GIT)
    write_objects(folder, objects)


def ask_git(folder, objects, changes):
    """Of each change the letters that Gitolite has for it by what git says, and the paths."""
    store_objects(folder, objects)
    empty = subprocess.run(["git", "-C", folder, "hash-object", "-w", "-t", "tree", "/dev/null"], stdout=subprocess.PIPE, check=True, text=True, **GIT).stdout.strip()

    def git(*words, **more):
        return subprocess.run(["git", "-C", folder, *words], stdout=subprocess.PIPE, text=True, **GIT, **more)

    told = []
    for ref, old, new in changes:
        trees = [it.hex() if it != ZERO else empty for it in (old, new)]
        paths = set(git("diff", "--name-only", "--no-renames", "-z", *trees, check=True).stdout.split("\0")[:-1])
        if ZERO in (old, new):
            told.append(("C" if old == ZERO else "D", paths))
            continue
        is_ancestor = {0: True, 1: False}[git("merge-base", "--is-ancestor", old.hex(), new.hex()).returncode]
        forward = is_ancestor and not ref.startswith("refs/tags/")
        merge = git("rev-list", "-n", "1", "--merges", "%s..%s" % (old.hex(), new.hex()), check=True).stdout != ""
        told.append((("W" if forward else "+") + "M" * merge, paths))
    return told


# ---- the program


CONF = {
    "gitolite.conf": ADMIN
    + "repo r\n    RW+CDM refs/ = all\n    - refs/ = letters\n"
    + "".join("    - NAME/%s$ = p%d\n    RW+CDM NAME/%s$ = other\n" % (path, number, path) for number, path in enumerate(PATHS))
    + "    - NAME/ = other\n    RW+CDM refs/ = letters other %s\n" % " ".join("p%d" % number for number in range(len(PATHS)))
}


def ask_program(program, objects, changes):
    made, head = conf_push(open_conf(["r"]), None)
    put = [(ZERO, old, ref) for ref, old, _ in changes if old != ZERO]
    sessions = [(None, made), (None, push("root", "r", put, objects.values(), b"report-status")), (None, conf_push(CONF, head)[0])]
    for number, (ref, old, new) in enumerate(changes):
        for user in ["letters", "other", *("p%d" % it for it in range(len(PATHS)))]:
            commands = [(old, new, ref), (head, ZERO, "refs/heads/a..b")]
            sessions.append(((number, user), push(user, "r", commands, objects.values() if new != ZERO else None, b"report-status atomic")))
    told = [["", set()] for _ in changes]
    for what, _, reply in replies(program, sessions):
        if what is None:
            continue
        number, user = what
        ref = re.escape(changes[number][0].encode())
        said = re.search(rb"ng %s (\S+) (\S+) r \S+ DENIED by (\S+)" % ref, reply)
        if user == "letters":
            told[number][0] = said.group(1).decode()
        elif said:
            told[number][1].add(said.group(2).decode()[len("VREF/NAME/") :])
        elif not re.search(rb"ng %s atomic push refused" % ref, reply):
            sys.exit("no verdict for %s %s: %r" % (changes[number][0], user, reply[-300:]))
    return [tuple(it) for it in told]


# ---- names of refs

PIECES = [".", "..", "-", "@", "{", "@{", ".lock", "lock", "~", "^", ":", "?", "*", "[", "\\", "]", "\x7f", "\x01", " ", "=", "#", "é"]


def draw_name(draws):
    pieces = ["".join(draws.choice(PIECES) if draws.random() < 0.2 else draws.choice("abcX09") for _ in range(draws.randint(0, 4))) for _ in range(draws.randint(1, 4))]
    return draws.choice(["refs/heads/", "refs/heads/", "refs/tags/", "refs/", "refs/", "heads/"]) + "/".join(pieces)


def names_differ(program, draws):
    """How many texts were asked, how many were names, and of which the two differ."""
    names = sorted({draw_name(draws) for _ in range(300)})
    made, _ = conf_push(open_conf(["r"]), None)
    sessions = [(None, made)]
    for name in names:
        commands = [(ZERO, name_of(*HERE), name), (name_of(*ROOT), ZERO, "refs/heads/a..b")]
        sessions.append((name, push("root", "r", commands, [HERE, ROOT, EMPTY], b"report-status atomic")))
    good, differ = 0, []
    for name, _, reply in replies(program, sessions):
        if name is None:
            continue
        [said] = re.findall(rb"ng %s (bad ref name|atomic push refused)" % re.escape(name.encode()), reply)
        is_good = said != b"bad ref name"
        ran = subprocess.run([b"git", b"check-ref-format", name.encode()], stderr=subprocess.DEVNULL, **GIT)
        good += is_good
        if is_good != (ran.returncode == 0 and name.startswith("refs/") and name.count("/") > 1):
            differ.append((name, is_good))
    return len(names), good, differ


def main(program, histories="5", seed="1"):
    draws, count, paths, merges, texts, names, differ = random.Random(int(seed)), 0, 0, 0, 0, 0, 0
    for _ in range(int(histories)):
        commits, objects = draw_history(draws)
        changes = draw_changes(draws, commits)
        with tempfile.TemporaryDirectory(prefix="compare-changes-") as folder:
            theirs = ask_git(folder, objects, changes)
        for change, one, other in zip(changes, ask_program(program, objects, changes), theirs, strict=True):
            count, paths, merges = count + 1, paths + len(other[1]), merges + ("M" in other[0])
            if one != other:
                differ += 1
                print("%s: git says %s, the program %s" % ([change[0], change[1].hex()[:7], change[2].hex()[:7]], other, one))
        asked, good, others = names_differ(program, draws)
        texts, names, differ = texts + asked, names + good, differ + len(others)
        for name, is_good in others:
            print("%r: the program says %s" % (name, is_good))
    said = int(histories), count, merges, paths, texts, names, differ
    print("%d histories, %d changes, %d of them bring a merge, %d paths; %d texts, %d of them names: %d differ" % said)
    return 1 if differ or not count else 0


if __name__ == "__main__":
    sys.exit(main(*sys.argv[1:]))
