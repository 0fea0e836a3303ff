#!/usr/bin/env python3
"""What checking a conf costs: check_costs.py PROGRAM [CASE ..], by hand, never in the gate.

PROGRAM is the built gitolite_shell. Each case makes a conf and hands it to `check`. Printed are its rules, the seconds of the
fastest of five runs and of one in which the last line has a fault, so that nothing is built of the rules or printed, and the
most memory that a run took. Without a CASE all are run; `list` names them.
"""
import os
import subprocess
import sys
import tempfile
import time

RUNS = 5


def draws(start):
    x = start % 65537
    while True:
        x = (75 * x + 74) % 65537
        yield x


def installation(repositories, users=10):
    """A repository has three rules: two of users that are drawn, one of everybody."""
    source = draws(2)
    lines = ["repo gitolite-admin", "    RW+ = admin"]
    for number in range(repositories):
        owner, writer = next(source) % users, next(source) % users
        lines += ["repo r%d" % number, "    RW+ = u%d" % owner, "    RW master$ = u%d" % writer, "    R = @all"]
    return lines


def users(repositories):
    """A repository has one line, with a rule for each of five users that are drawn."""
    source = draws(2)
    lines = []
    for number in range(repositories):
        names = " ".join("u%d" % (next(source) % 1000) for _ in range(5))
        lines += ["repo r%d" % number, "    RW = %s" % names]
    return lines


def patterns(count):
    """Each rule has a refex and a repository's pattern of its own."""
    lines = []
    for number in range(count):
        lines += ["repo u/[a-z]+/p%d" % number, "    RW v[0-9]+/%d = ann" % number]
    return lines


def groups(lines_of_rules, members):
    """A group of many users in every rule."""
    lines = ["@g = " + " ".join("m%d" % number for number in range(members)), "repo a"]
    return lines + ["    RW x%d = @g" % (number % 10) for number in range(lines_of_rules)]


CASES = {
    "installation": ("5,000 repositories", lambda: installation(5000)),
    "users": ("20,000 repositories, each with a rule for five users", lambda: users(20000)),
    "patterns": ("2,000 rules, each with two patterns of its own", lambda: patterns(2000)),
    "groups": ("10,000 rules for a group of 1,000 users", lambda: groups(10000, 1000)),
}


def run(program, conf, due):
    """Seconds, megabytes, and the last line that was printed."""
    with tempfile.TemporaryFile() as source, tempfile.TemporaryFile() as sink:
        source.write(conf)
        source.seek(0)
        begun = time.monotonic()
        started = subprocess.Popen([program, "check"], stdin=source, stdout=sink)
        _, status, usage = os.wait4(started.pid, 0)
        seconds = time.monotonic() - begun
        started.returncode = os.waitstatus_to_exitcode(status)
        assert started.returncode == due, started.returncode
        sink.seek(0)
        return seconds, usage.ru_maxrss // 1024, sink.read().splitlines()[-1].decode()


def measure(program, name):
    title, make = CASES[name]
    conf = "\n".join(make() + [""]).encode()
    seconds, memory, line = min(run(program, conf, 0) for _ in range(RUNS))
    faulty, _, _ = min(run(program, conf + b"    R = @nobody\n", 6) for _ in range(RUNS))
    print("%s (%s): %s; %.3f s, %.3f s to a fault in the last line; %d MB" % (name, title, line, seconds, faulty, memory))


def main():
    if sys.argv[2:] == ["list"]:
        print("\n".join("%s: %s" % (name, title) for name, (title, _) in CASES.items()))
        return
    for name in sys.argv[2:] or CASES:
        measure(sys.argv[1], name)


if __name__ == "__main__":
    main()
