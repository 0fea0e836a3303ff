#!/usr/bin/env python3
"""What fetches cost beside a history: fetch_costs.py PROGRAM[,PROGRAM ..] [CASE ..], by hand, never in the gate.

Each PROGRAM is a built gitolite_shell; all are asked the same, in turn. A CASE is a number of objects, or `topics`, `clones`, `hostile` or `pushes`; without
one all of these are run, and 4000, 40000 and 400000 objects. For a number a branch comes to so many objects, in pushes of many commits and, at the end, of
one each; a commit has a file, its folder and a root of its own. `topics` makes its history of twenty topics at once, a push for each commit. What is printed
is the least of some runs, in ms from a session's first byte to its reply, for each PROGRAM; and behind that, where the command `git` is there and the objects
are 400,000 at most, what `git upload-pack` takes for the same, in a repository of the same objects. With `CPU=1` in the environment it is the processor's
time in place of the clock's, of PROGRAM as of git, for a machine that does other things beside.
"""
import hashlib
import os
import random
import resource
import shutil
import subprocess
import sys
import tempfile
import time
import zlib

from push_costs import EMPTY, EMPTY_ID, FIRST, FIRST_ID, MOST_OBJECTS, Program, commit, entry_head, folders_of, object_id, packet, raw_pack, tree

REPOSITORY = "testing"
PER_COMMIT = 4
ONE_EACH = 120
RUNS = 5
ZERO = bytes(20)
GIT = dict(env={**os.environ, "GIT_CONFIG_GLOBAL": "/dev/null", "GIT_CONFIG_NOSYSTEM": "1"}, stdout=subprocess.PIPE, stderr=subprocess.DEVNULL)


CPU = bool(os.environ.get("CPU"))


class Timed(Program):
    """A running program; seconds are the processor's, where those are asked for."""

    def spent(self):
        with open("/proc/%d/schedstat" % self.child.pid) as it:
            return int(it.read().split()[0]) / 1e9

    def serve(self, data):
        before = self.spent()
        took, reply = super().serve(data)
        return self.spent() - before if CPU else took, reply


class Programs:
    """Running programs, which are given the same sessions."""

    def __init__(self, paths):
        self.all = [Timed(path) for path in paths.split(",")]

    def expect(self, data):
        return [it.expect(data) for it in self.all]

    def times(self, data, runs=RUNS):
        """The least milliseconds of each, and the objects that are sent, of which all send as many."""
        took, sent = [[] for _ in self.all], set()
        for _ in range(runs):
            for it, some in zip(self.all, took):
                seconds, reply = it.serve(data)
                at = reply.index(b"PACK\0\0\0\2")
                some.append(seconds * 1e3)
                sent.add(int.from_bytes(reply[at + 8 : at + 12], "big"))
        [count] = sent
        return [min(some) for some in took], count

    def end(self):
        for it in self.all:
            it.end()


class History:
    """Objects in the order in which they are made, and what names them. Those of forty files in four folders are kept by their contents."""

    def __init__(self, keeps):
        self.files, self.count, self.new, self.packs, self.keeps, self.made = [b"%d" % n for n in range(40)], 0, [], [], keeps, {}

    def add(self, item):
        self.new.append(item)
        self.count += 1
        return object_id(item)

    def id_of(self, text):
        if text not in self.made:
            self.made[text] = object_id(("blob", text))
        return self.made[text]

    def rows(self, files):
        """The folders of forty files, each with its tree."""
        return [(b"d%d" % k, tree([(b"100644", b"f%02d" % n, self.id_of(files[n])) for n in range(10 * k, 10 * k + 10)])) for k in range(4)]

    def root(self, rows):
        return tree([(b"40000", name, object_id(item)) for name, item in rows])

    def commit(self, parents, files, changed=None):
        """A commit of these files, with the objects of its trees, of which only the changed file and what is above it is new."""
        if len(self.made) > 10_000:
            self.made = {}
        rows = self.rows(files)
        for k, (_, item) in enumerate(rows):
            if changed is None or changed // 10 == k:
                self.add(item)
        for n in range(40) if changed is None else [changed]:
            self.add(("blob", files[n]))
        root = self.root(rows)
        self.add(root)
        return self.add(commit(b"%d\n" % self.count, object_id(root), parents))

    def next(self, tip):
        """One commit more, that changes one file."""
        n = self.count % 40
        self.files = [b"%d %d" % (n, self.count) if k == n else text for k, text in enumerate(self.files)]
        return self.commit([tip] if tip else [], self.files, n if tip else None)

    def take(self):
        items = list({object_id(it): it for it in self.new}.values())
        if self.keeps:
            self.packs.append(items)
        self.new = []
        return items


def pushed(changes, items):
    lines = [b"%s %s %s" % (old.hex().encode(), new.hex().encode(), ref) for ref, old, new in changes]
    lines = packet(lines[0] + b"\0report-status") + b"".join(map(packet, lines[1:]))
    return packet(b"carol git-receive-pack '%s'" % REPOSITORY.encode()) + lines + b"0000" + raw_pack(items)


def fetched(wants, haves):
    wanted = b"".join(packet(b"want %s" % want.hex().encode()) for want in wants)
    had = b"".join(packet(b"have %s" % have.hex().encode()) for have in haves)
    return packet(b"carol git-upload-pack '%s'" % REPOSITORY.encode()) + wanted + b"0000" + had + packet(b"done")


def grow(programs, history, ref, tips, now, objects):
    """Moves a branch on by so many objects, the last commits one by one."""
    end = history.count + objects
    while history.count < end - ONE_EACH * PER_COMMIT:
        while history.count < end - ONE_EACH * PER_COMMIT and len(history.new) < 20_000:
            tips.append(history.next(tips[-1] if tips else None))
        programs.expect(pushed([(ref, now, tips[-1])], history.take()))
        now = tips[-1]
    for _ in range(ONE_EACH):
        tips.append(history.next(tips[-1]))
        programs.expect(pushed([(ref, now, tips[-1])], history.take()))
        now = tips[-1]
    return tips


def cases(programs, history, tips):
    """What is asked: a word, the wants and the haves. What is wanted is pushed behind refs of its own."""
    old, tip = tips[len(tips) // 2], tips[-1]
    refs = history.refs

    def put(name, made):
        programs.expect(pushed([(b"refs/" + name, ZERO, made)], history.take()))
        refs[b"refs/" + name] = made
        return made

    for back in (2, 51):
        put(b"heads/back%d" % back, tips[-back])
    before = object_id(history.root(history.rows(history.files)))
    changed = history.next(tip)
    put(b"heads/changed", changed)
    revert = history.add(commit(b"revert\n", before, [changed]))
    put(b"heads/revert", revert)
    branch = put(b"heads/branch", history.commit([old], [b"branch" if n == 3 else text for n, text in enumerate(history.files)], 3))
    merge = put(b"heads/merge", history.add(commit(b"merge\n", before, [tip, branch])))
    tag = ("tag", b"object %s\ntype commit\ntag old\ntagger C <c@example.com> 1700000000 +0000\n\nold\n" % old.hex().encode())
    put(b"tags/old", history.add(tag))
    history.new.append(EMPTY)
    other = put(b"heads/other", history.add(commit(b"unrelated\n", EMPTY_ID)))
    yield "one commit more", [tip], [tips[-2]]
    yield "fifty commits more", [tip], [tips[-51]]
    yield "a revert", [revert], [changed]
    yield "a branch from an old commit", [branch], [tip]
    yield "a merge of it", [merge], [tip]
    yield "a tag of an old commit", [object_id(tag)], [tip]
    side = grow(programs, history, b"refs/heads/side", [old], ZERO, len(tips) * PER_COMMIT // 4)
    refs[b"refs/heads/side"] = side[-1]
    both = put(b"heads/both", history.add(commit(b"both\n", before, [tip, side[-1]])))
    yield "a merge of two long branches, both had", [both], [tip, side[-1]]
    yield "the same, one had", [both], [tip]
    yield "the same, and old commits of both had", [both], [tips[-100], side[-100]]
    yield "what came in large packs had, and none of the %d later" % ONE_EACH, [tip], [tips[-ONE_EACH - 1]]
    yield "a have that is an ancestor by half of all commits", [tip], [old]
    yield "an unrelated have", [tip], [other]
    lacking = [hashlib.sha1(b"%d" % n).digest() for n in range(99_990)]
    yield "one commit more, and 100 haves that aren't there", [tip], lacking[:100] + [tips[-2]]
    yield "a clone", [tip], []
    refs[b"refs/heads/master"] = tip


def many(programs, history, tips):
    """What a client may ask that means no good: as above."""
    some = tips[:: -(-len(tips) // 9_990)]
    programs.expect(pushed([(b"refs/some/%d" % n, ZERO, it) for n, it in enumerate(some)], []))
    old_first, lacking = tips[-99_000:-1], [hashlib.sha1(b"%d" % n).digest() for n in range(99_990)]
    yield "%d wants, one have" % len(some), some, [tips[-2]]
    yield "%d wants, no have" % len(some), some, []
    yield "%d wants, newest first, no have" % len(some), some[::-1], []
    yield "%d haves, oldest first" % len(old_first), [tips[-1]], old_first
    yield "%d haves, newest first" % len(old_first), [tips[-1]], old_first[::-1]
    yield "%d wants, %d haves" % (len(some), len(old_first)), some, old_first
    yield "99990 haves that aren't there, and one that is", [tips[-1]], lacking + [tips[-2]]


def compressed(items):
    """A pack as git has it."""
    data = b"PACK" + (2).to_bytes(4, "big") + len(items).to_bytes(4, "big") + b"".join(entry_head(kind, len(body)) + zlib.compress(body, 1) for kind, body in items)
    return data + hashlib.sha1(data).digest()


def git_repository(folder, history):
    subprocess.run(["git", "init", "-q", "--bare", folder], check=True, **GIT)
    for items in history.packs:
        if items:
            subprocess.run(["git", "-C", folder, "index-pack", "--stdin", "--fix-thin"], input=compressed(items), check=True, **GIT)
    text = b"".join(b"create %s %s\n" % (ref, made.hex().encode()) for ref, made in history.refs.items())
    subprocess.run(["git", "-C", folder, "update-ref", "--stdin"], input=text, check=True, **GIT)
    subprocess.run(["git", "-C", folder, "repack", "-adbq"], check=True, **GIT)


def git_takes(folder, wants, haves):
    data = fetched(wants, haves)
    data = data[int(data[:4], 16) :]
    took = []
    for _ in range(RUNS):
        clock = (lambda: sum(resource.getrusage(resource.RUSAGE_CHILDREN)[:2])) if CPU else time.perf_counter
        began = clock()
        subprocess.run(["git", "upload-pack", "--strict", folder], input=data, **GIT)
        took.append(clock() - began)
    return "%.1f" % (min(took) * 1e3)


def columns(took):
    return " ".join("%9.2f" % it for it in took)


def measure(paths, objects):
    programs, began = Programs(paths), time.perf_counter()
    beside = shutil.which("git") and objects <= 400_000
    history = History(beside)
    history.refs = {}
    tips = grow(programs, history, b"refs/heads/master", [], ZERO, objects)
    print("%d objects, %d commits, in %.1f s" % (history.count, len(tips), time.perf_counter() - began))
    asked = list(cases(programs, history, tips))
    with tempfile.TemporaryDirectory(prefix="fetch-costs-") as folder:
        if beside:
            git_repository(folder, history)
        for word, wants, haves in asked:
            took, sent = programs.times(fetched(wants, haves))
            print("  %-56s %s ms, %d objects%s" % (word, columns(took), sent, ", git " + git_takes(folder, wants, haves) if beside else ""), flush=True)
    for word, wants, haves in many(programs, history, tips):
        took, sent = programs.times(fetched(wants, haves), 2)
        print("  %-56s %s ms, %d objects" % (word, columns(took), sent), flush=True)
    programs.end()


def topics(paths):
    """Twenty topics at once, each of 3 to 25 commits, one in twenty of which takes an older file up again; a topic is merged, and its ref deleted, in one push."""
    draws, programs, history, took = random.Random(1), Programs(paths), History(False), []
    masters, files, now, number = [history.commit([], history.files)], [history.files], [], 0
    programs.expect(pushed([(b"refs/heads/master", ZERO, masters[0])], history.take()))
    while history.count < 100_000:
        if len(now) < 20 and draws.random() < 0.2:
            now.append(dict(ref=b"refs/heads/topic%d" % number, tip=None, base=masters[-1], files=files[-1], left=draws.randint(3, 25), mine={}))
            number += 1
        if not now:
            continue
        topic, n = draws.choice(now), draws.randrange(40)
        text = draws.choice(files[-200:])[n] if draws.random() < 0.05 else b"%d %d" % (n, history.count)
        topic["mine"][n] = text
        topic["files"] = [text if k == n else it for k, it in enumerate(topic["files"])]
        made = history.commit([topic["tip"] or topic["base"]], topic["files"], n)
        took.append(programs.expect(pushed([(topic["ref"], topic["tip"] or ZERO, made)], history.take())))
        topic["tip"], topic["left"] = made, topic["left"] - 1
        if topic["left"] <= 0:
            now.remove(topic)
            files.append([topic["mine"].get(k, it) for k, it in enumerate(files[-1])])
            for _, item in history.rows(files[-1]):
                history.add(item)
            root = history.root(history.rows(files[-1]))
            history.add(root)
            masters.append(history.add(commit(b"merge %d\n" % history.count, object_id(root), [masters[-1], made])))
            took.append(programs.expect(pushed([(b"refs/heads/master", masters[-2], masters[-1]), (topic["ref"], made, ZERO)], history.take())))
    print("topics: %d objects, %d pushes, %d of them merges" % (history.count, len(took), len(masters) - 1))
    for part in (took[: len(took) // 10], took[-len(took) // 10 :]):
        print("  %-56s %s ms" % ("a push, in the middle of a tenth of them", columns(sorted(it)[len(it) // 2] * 1e3 for it in zip(*part))))
    print("  %-56s %s s" % ("all pushes", columns(sum(it) for it in zip(*took))))
    for back in (2, 11, 101):
        show(programs, "master, and its value %d merges ago had" % (back - 1), [masters[-1]], [masters[-back]])
    for topic in [it for it in now if it["tip"]][:3]:
        show(programs, "a topic, and master had", [topic["tip"]], [masters[-1]])
        show(programs, "master, and the topic had", [masters[-1]], [topic["tip"]])
    show(programs, "a clone of master", [masters[-1]], [])
    show(programs, "a clone of all", [masters[-1]] + [it["tip"] for it in now if it["tip"]], [])
    programs.end()


def show(programs, word, wants, haves, runs=RUNS):
    took, sent = programs.times(fetched(wants, haves), runs)
    print("  %-56s %s ms, %d objects" % (word, columns(took), sent), flush=True)
    return took


def clones(paths):
    """Of 105 MB and of 90,000 small blobs; and once more when the branch was moved, so that what it led to is kept."""
    for blobs in ([("blob", bytes([n]) * (1 << 20)) for n in range(100)], [("blob", b"small %d" % n) for n in range(90_000)]):
        programs, (made, trees) = Programs(paths), folders_of(blobs)
        programs.expect(pushed([(b"refs/heads/master", ZERO, object_id(made))], [made] + trees + blobs))
        size = sum(len(body) for _, body in blobs) / 1e6
        took = show(programs, "a clone of %d blobs" % len(blobs), [object_id(made)], [], 3)
        next_one = commit(b"next\n", EMPTY_ID, [object_id(made)])
        programs.expect(pushed([(b"refs/heads/master", object_id(made), object_id(next_one))], [next_one, EMPTY]))
        again = show(programs, "the same, behind a push", [object_id(next_one)], [], 3)
        _, reply = programs.all[0].serve(fetched([object_id(next_one)], []))
        print("  %-56s %s MB/s, of %.1f MB of blobs and %.1f of a pack" % ("", columns(len(reply) / 1e3 / it for it in again), size, len(reply) / 1e6))
        show(programs, "one commit more", [object_id(next_one)], [object_id(made)])
        programs.end()


def rootless(paths):
    """Fetches by a client that has the top of a chain of commits whose first one never came."""
    programs, parent = Programs(paths), object_id(commit(b"never sent\n", EMPTY_ID))
    for number in range(4):
        items = []
        for n in range(MOST_OBJECTS - 2):
            items.append(commit(b"%d %d\n" % (number, n), EMPTY_ID, [parent]))
            parent = object_id(items[-1])
        programs.expect(pushed([(b"refs/tmp/%d" % number, ZERO, FIRST_ID)], [FIRST, EMPTY] + items))
    show(programs, "a have at the top of %d rootless commits" % (4 * (MOST_OBJECTS - 2)), [FIRST_ID], [parent])
    programs.end()


def long_branch(paths):
    """Pushes of one commit onto a branch of 90,000, of which nothing is kept, while a closure is kept of another branch that came later; and onto that one."""
    programs, items, tips = Programs(paths), [FIRST, EMPTY], {b"long": FIRST_ID, b"other": ZERO}
    for n in range(90_000):
        items.append(commit(b"%d\n" % n, EMPTY_ID, [tips[b"long"]]))
        tips[b"long"] = object_id(items[-1])
    programs.expect(pushed([(b"refs/heads/long", ZERO, tips[b"long"])], items))

    def push_one(ref, turn):
        made = commit(b"%s %d\n" % (ref, turn), EMPTY_ID, [] if tips[ref] == ZERO else [tips[ref]])
        took = programs.expect(pushed([(b"refs/heads/" + ref, tips[ref], object_id(made))], [made]))
        tips[ref] = object_id(made)
        return took

    for turn in range(4):
        push_one(b"other", turn)
    took = [[push_one(ref, turn) for ref in tips] for turn in range(4, 12)]
    for ref, some in zip(tips, zip(*took)):
        print("  %-56s %s ms" % ("a commit onto the branch %s" % ref.decode(), columns(min(it) * 1e3 for it in zip(*some))))
    programs.end()


def hostile(paths):
    rootless(paths)
    long_branch(paths)


def pushes(paths):
    """Of one commit, and of four and five updates by one commit, at a branch of 100,000 commits."""
    programs, history = Programs(paths), History(False)
    tips = grow(programs, history, b"refs/heads/master", [], ZERO, 400_000)
    took, now = [], tips[-1]
    for _ in range(100):
        made = history.next(now)
        took.append(programs.expect(pushed([(b"refs/heads/master", now, made)], history.take())))
        now = made
    print("  %-56s %s ms" % ("a push of one commit", columns(sorted(it)[50] * 1e3 for it in zip(*took))))
    programs.expect(pushed([(b"refs/heads/u%d" % n, ZERO, now) for n in range(9)], []))
    for refs in (range(4), range(4, 9)):
        took = []
        before = {n: now for n in refs}
        for _ in range(5):
            made = {n: history.next(before[n]) for n in refs}
            took.append(programs.expect(pushed([(b"refs/heads/u%d" % n, before[n], made[n]) for n in refs], history.take())))
            before = made
        print("  %-56s %s ms" % ("a push of %d updates by one commit" % len(refs), columns(min(it) * 1e3 for it in zip(*took))))
    programs.end()


NAMED = {"topics": topics, "clones": clones, "hostile": hostile, "pushes": pushes}

if __name__ == "__main__":
    for case in sys.argv[2:] or ["4000", "40000", "400000", *NAMED]:
        NAMED[case](sys.argv[1]) if case in NAMED else measure(sys.argv[1], int(case))
