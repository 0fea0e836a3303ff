#!/usr/bin/env python3
"""Clones and fetches of parts of a history, and pushes in slices, by the front end and by git alone: compare_clones.py SERVER [HISTORIES [SEED]]

SERVER is the built cerolimau. For each random history, of up to thirty commits with merges, tags and up to four branches:

- it is pushed by `git push --mirror` in slices of a few objects and cloned by `git clone --mirror`: refs are the same, the clone is sound by `git fsck`, and
  no ref of the slices is left;
- a branch is cloned by `--depth`, and fetched from again by a random line of `--depth`, `--deepen`, `--unshallow`, `--shallow-since` and plain fetches, by the
  front end and from the folder itself: the same steps succeed, commits and shallow commits are the same, and each is sound.

It prints what differs, and the counts at the end, and ends with 1 where anything does.
"""
import pathlib
import random
import shutil
import sys

sys.dont_write_bytecode = True
sys.path.insert(0, str(pathlib.Path(__file__).resolve().parent.parent / "front"))

from tests import world  # noqa: E402

NAMES = ["f%d" % number for number in range(4)] + ["d/e%d" % number for number in range(4)]
BRANCHES = "master", "side", "dev", "x/y"
BEGIN = 1_700_000_000
SINCE = "2023-11-15T06:00:00Z"  # some eight commits behind the first


def stream_of(source):
    """A fast-import stream, and the branches that it makes."""
    lines, marks, branches = [], [], set()
    for number in range(1, source.randrange(3, 31)):
        branch = source.choice(BRANCHES)
        parents = [source.choice(marks[-5:])] if marks and source.random() < 0.93 else []
        parents += [source.choice(marks)] if marks and source.random() < 0.25 else []
        lines.append("commit refs/heads/%s\nmark :%d\ncommitter C <c@example.com> %d +0000\ndata 2\nc\n" % (branch, number, BEGIN + number * 3600))
        lines += ["%s :%d\n" % ("merge" if index else "from", parent) for index, parent in enumerate(dict.fromkeys(parents))]
        for _ in range(source.randrange(4)):
            body = "%d\n" % source.randrange(6)  # so that old files come back
            lines.append("M 100644 inline %s\ndata %d\n%s\n" % (source.choice(NAMES), len(body), body))
        lines.append("\n")
        marks.append(number)
        branches.add(branch)
        if source.random() < 0.15:
            lines.append("tag t%d\nfrom :%d\ntagger C <c@example.com> %d +0000\ndata 2\nt\n\n" % (number, source.choice(marks), BEGIN))
    return "".join(lines), sorted(branches)


def random_steps(source):
    later = (
        lambda: ["fetch", "--depth", source.choice("1248")], lambda: ["fetch", "--deepen", source.choice("12")], lambda: ["fetch", "--unshallow"],
        lambda: ["fetch"], lambda: ["fetch", "--shallow-since", SINCE],
    )
    return [["clone", "--depth", source.choice("1235")]] + [source.choice(later)() for _ in range(source.randrange(3))]


def compare_push(here, made, url, source):
    """What is wrong with a push in slices."""
    here.git("ann", "push", "--mirror", url, cwd=made, options=("--slice", source.choice(["3", "5", "8", "20", "1000"])))
    here.git("bob", "clone", "--mirror", url, made / "mirror")
    here.git("bob", "fsck", "--strict", cwd=made / "mirror")
    refs = [here.git("ann", "for-each-ref", cwd=where) for where in (made, made / "mirror")]
    if refs[0] != refs[1] or "refs/slices/" in here.git("ann", "ls-remote", url):
        yield "pushed %s, and there are %s" % tuple(refs)


def compare_parts(here, made, url, branch, steps):
    found = [after_steps(here, made / name, there, branch, steps) for name, there in (("front", url), ("git", "file://%s" % made))]
    if found[0] != found[1]:
        yield "%s of %s: by the front end %s, by git %s" % (steps, branch, *found)


def after_steps(here, where, url, branch, steps):
    """Which steps succeeded, and the commits and the shallow ones behind them."""
    done = []
    for words in steps:
        into = ["--branch", branch, url, where] if words[0] == "clone" else ["origin", branch]
        try:
            here.git("bob", *words, "--no-tags", *into, cwd=where if where.exists() else where.parent)
            done.append(True)
        except AssertionError:
            done.append(False)
        here.git("bob", "fsck", cwd=where)
    shallow = where / ".git/shallow"
    commits = sorted(here.git("bob", "rev-list", "--all", cwd=where).split())
    return done, commits, sorted(shallow.read_text().split()) if shallow.exists() else []


def compare_history(here, seed):
    source, made, url = random.Random(seed), here.folder(), "here:t/h%d" % seed
    here.git("ann", "init", "-q", cwd=made)
    stream, branches = stream_of(source)
    (made / "stream").write_text(stream)
    world.run(["sh", "-c", "git fast-import --quiet --force < stream"], cwd=made, env=here.environment)
    yield from compare_push(here, made, url, source)
    yield from compare_parts(here, made, url, source.choice(branches), random_steps(source))
    shutil.rmtree(made)


def main():
    histories = int(sys.argv[2]) if len(sys.argv) > 2 else 20
    first = int(sys.argv[3]) if len(sys.argv) > 3 else 1
    server = str(pathlib.Path(sys.argv[1]).resolve())
    here = world.World(server, server)
    differ = 0
    try:
        here.start()
        for seed in range(first, first + histories):
            for fault in compare_history(here, seed):
                differ += 1
                print("history %d: %s" % (seed, fault), flush=True)
    finally:
        here.close()
    print("compare_clones: %d histories, %d differ" % (histories, differ))
    sys.exit(1 if differ else 0)


if __name__ == "__main__":
    main()
