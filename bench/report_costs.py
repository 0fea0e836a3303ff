#!/usr/bin/env python3
"""What a report of who may do what costs: report_costs.py PROGRAM [CASE ..], by hand, never in the gate.

PROGRAM is the built gitolite_shell. Each case makes questions and one conf, or two, and hands them to
`access`. Printed are how many questions there are and what `check` says of the first conf, the seconds of the
fastest of five runs and of one that asks nothing, the most memory that was seen to be taken by both, and how
much was printed. Without a CASE all are run; `list` names them.
"""
import os
import subprocess
import sys
import tempfile
import time

from check_costs import draws, installation

RUNS = 5


def fifty(repositories):
    """A repository has fifty rules, of refs and users that are drawn."""
    source = draws(3)
    lines = ["repo gitolite-admin", "    RW+ = admin"]
    for number in range(repositories):
        lines += ["repo r%d" % number, *("    RW+ refs/heads/u%d/%d/ = u%d" % (next(source) % 20, at, next(source) % 100) for at in range(49)), "    R = @all"]
    return lines


def groups(repositories):
    """Repositories and users stand in groups. Three blocks are of all repositories, and one of each."""
    lines = ["@team%d = %s" % (team, " ".join("u%d" % user for user in range(team, 100, 10))) for team in range(10)]
    lines += ["@all-repos = " + " ".join("r%d" % number for number in range(repositories))]
    lines += ["repo @all-repos", "    - refs/tags/v[0-9] = @team1 @team2", "    RW+ refs/heads/USER/ = @team3 @team4", "    R = @all"]
    for number in range(repositories):
        lines += ["repo r%d" % number, "    RW+CD = @team%d" % (number % 10), "    RW master$ release/ = @team%d u%d" % (number * 7 % 10, number % 100)]
    return lines


def patterns(repositories):
    """Repositories are made by users, below patterns."""
    lines = ["@staff = " + " ".join("u%d" % user for user in range(50))]
    for number in range(20):
        lines += ["repo p%d/CREATOR/[a-z].*" % number, "    C = @staff", "    RW+ = CREATOR", "    RW = WRITERS", "    R = READERS @staff"]
    return lines


def questions(names, users, refs):
    lines = ["repo " + name for name in names] + ["user u%d" % user for user in range(users)]
    return lines + ["ref " + ref for ref in ["refs/heads/master", "refs/tags/v1", "refs/heads/u7/x", *("refs/heads/release/%d" % ref for ref in range(refs))][:refs]]


def plain(count):
    return ["r%d" % number for number in range(count)]


def made(count):
    return ["p%d/u%d/x%d creator u%d" % (number % 20, number % 100, number, number % 100) for number in range(count)]


CASES = {
    "installation": ("300 repositories of three rules each", questions(plain(300), 98, 8), [installation(300, 100)]),
    "large": ("300 of 5,000 repositories of three rules each", questions(plain(300), 98, 8), [installation(5000, 100)]),
    "fifty": ("300 repositories of fifty rules each", questions(plain(300), 98, 8), [fifty(300)]),
    "groups": ("300 repositories in groups, and groups of users", questions(plain(300), 98, 8), [groups(300)]),
    "patterns": ("300 repositories that users made by twenty patterns", questions(made(300), 98, 8), [patterns(300)]),
    "change": ("two confs, the second without its last 300 lines", questions(plain(300), 98, 8), [groups(300), groups(300)[:-300]]),
    "users": ("1,000 users, each asked of two refs in 100 repositories", questions(plain(100), 1000, 2), [installation(100, 100)]),
    "refs": ("20 repositories, 12 users and 1,000 refs", questions(plain(20), 12, 1000), [groups(20)]),
}


def frames(asked, confs):
    texts = [("ask", asked), *(("conf", conf) for conf in confs)]
    bodies = [(word, "".join(line + "\n" for line in lines).encode()) for word, lines in texts]
    return b"".join(b"%s %d\n%s\n" % (word.encode(), len(body), body) for word, body in bodies)


def run(program, word, given):
    """Seconds, how much was printed, and its last line."""
    with tempfile.TemporaryFile() as source, tempfile.TemporaryFile() as sink:
        source.write(given)
        source.seek(0)
        begun = time.monotonic()
        ended = subprocess.run([program, word], stdin=source, stdout=sink)
        seconds = time.monotonic() - begun
        assert ended.returncode == 0, ended.returncode
        size = sink.tell()
        sink.seek(max(0, size - 100))
        return seconds, size, sink.read().splitlines()[-1].decode()


def memory(program, given):
    """The most megabytes that were seen while it ran."""
    most = 0
    with tempfile.TemporaryFile() as source:
        source.write(given)
        source.seek(0)
        ran = subprocess.Popen([program, "access"], stdin=source, stdout=subprocess.DEVNULL)
        while ran.poll() is None:
            with open("/proc/%d/status" % ran.pid) as status:
                most = max([most, *(int(line.split()[1]) for line in status if line.startswith("VmHWM"))])
    return most / 1024


def measure(program, name):
    title, asked, confs = CASES[name]
    given, nothing = frames(asked, confs), frames([], confs)
    seconds, size, _ = min(run(program, "access", given) for _ in range(RUNS))
    alone, _, _ = min(run(program, "access", nothing) for _ in range(RUNS))
    _, _, line = run(program, "check", "".join(line + "\n" for line in confs[0]).encode())
    counts = [sum(line.startswith(word) for line in asked) for word in ("repo ", "user ", "ref ")]
    most, least = (max(memory(program, it) for _ in range(RUNS)) for it in (given, nothing))
    print("%s (%s): %d questions, %s; %.3f s, %.3f s without questions; %.1f MB, %.1f MB without; %d MB printed" % (
        name, title, counts[0] * counts[1] * (2 + 4 * counts[2]), line, seconds, alone, most, least, size // 1000000))


def main():
    if sys.argv[2:] == ["list"]:
        print("\n".join("%s: %s" % (name, title) for name, (title, _, _) in CASES.items()))
        return
    for name in sys.argv[2:] or CASES:
        measure(sys.argv[1], name)


if __name__ == "__main__":
    main()
