#!/usr/bin/env python3
"""What git costs over the front end: front.py PROGRAM [CASE ..], by hand, never in the gate.

PROGRAM is the built gitolite_shell. It is started once, and serves all cases. Printed are wall-clock seconds, the fastest of some runs;
and of the last run the front end's seconds of processor and most memory, where /usr/bin/time is there. Without a CASE all are run;
`list` names them.
"""
import contextlib
import hashlib
import os
import pathlib
import pwd
import random
import shutil
import socket
import subprocess
import sys
import tempfile
import threading
import time

FRONT = pathlib.Path(__file__).resolve().parent.parent / "front/cerolimau-ssh"
SERVE = "serve", "--admin", "admin", "--workers", "8", "--sessions", "1000000"
RUNS = 3


class Bench:
    def __init__(self, room):
        self.room = room
        self.costs = room / "costs"
        front = "%s carol" % FRONT
        timed = "/usr/bin/time -a -f '%%U %%S %%M' -o %s %s" % (self.costs, front)
        self.environment = {
            **os.environ, "HOME": str(room), "GIT_SSH_VARIANT": "simple", "GIT_CONFIG_NOSYSTEM": "1",
            "GIT_SSH_COMMAND": timed if os.path.exists("/usr/bin/time") else front,
        }
        for name in "AUTHOR", "COMMITTER":
            self.environment.update({"GIT_%s_NAME" % name: "C", "GIT_%s_EMAIL" % name: "c@example.com"})

    def git(self, *words, data=None):
        quiet = {"stdout": subprocess.DEVNULL, "stderr": subprocess.DEVNULL}
        subprocess.run(["git", *map(str, words)], input=data, check=True, env=self.environment, **quiet)

    def seconds(self, *words):
        self.costs.write_text("")
        begun = time.monotonic()
        self.git(*words)
        return time.monotonic() - begun

    def front_cost(self):
        """Of the last command: what its sessions took."""
        rows = [row.split() for row in self.costs.read_text().splitlines() if row[:1].isdigit()]
        if not rows:
            return ""
        seconds = sum(float(row[0]) + float(row[1]) for row in rows)
        return "; the front end %.2f s of processor, %d MB" % (seconds, max(int(row[2]) for row in rows) // 1024)

    def repository(self, name, stream):
        """A bare repository of a fast-import stream."""
        made = self.room / name
        self.git("init", "--bare", "--initial-branch=master", made)
        self.git("-C", made, "fast-import", data=b"".join(stream))
        return made


def commit(number):
    return b"commit refs/heads/master\ncommitter C <c@example.com> %d +0000\ndata 2\nx\n" % (1_700_000_000 + number)


def text(source, size):
    """Lines of words, which zlib makes about as short as source code."""
    words = [hashlib.sha1(b"%d" % word).hexdigest()[:6] for word in range(300)]
    lines = [" ".join(source.choices(words, k=6)) for _ in range(200)]
    return "\n".join(source.choices(lines, k=size // 42 + 1)).encode()[:size]


def small(bench):
    """a commit with one file pushed"""
    made = bench.repository("small", [commit(0), b"M 100644 inline a\ndata 2\na\n\n"])
    bench.git("-C", made, "push", "here:testing", "master")
    times = []
    for number in range(2 * RUNS):
        change = b"from refs/heads/master^0\nM 100644 inline a\ndata 2\n%d\n\n" % number
        bench.git("-C", made, "fast-import", data=commit(number + 1) + change)
        times.append(bench.seconds("-C", made, "push", "here:testing", "master"))
    return "%.3f s" % min(times) + bench.front_cost()


def large(bench):
    """100 MB pushed, half of it text and half that doesn't get shorter; and the same to a repository on this machine"""
    source = random.Random(1)
    stream = [commit(0)]
    for number in range(50):
        for name, body in ("text", text(source, 1_000_000)), ("noise", source.randbytes(1_000_000)):
            stream.append(b"M 100644 inline %s%d\ndata %d\n%s\n" % (name.encode(), number, len(body), body))
    made = bench.repository("large", stream)
    over, pipe = [], []
    for number in range(RUNS):
        there = bench.room / ("pipe%d" % number)
        bench.git("init", "--bare", there)
        pipe.append(bench.seconds("-C", made, "push", there, "master"))
        shutil.rmtree(there)
        over.append(bench.seconds("-C", made, "push", "here:testing", "master:large%d" % number))
        cost = bench.front_cost()
        bench.git("-C", made, "push", "here:testing", ":large%d" % number)
    return "%.2f s, %.2f s over a pipe" % (min(over), min(pipe)) + cost


def clone(bench):
    """2,000 commits cloned: 10,000 objects, 130 MB of bodies"""
    source = random.Random(2)
    whole = text(source, 31_000)
    stream = []
    for number in range(2000):
        change = text(source, 200)
        at = number * 13 % 30_000
        whole = whole[:at] + change + whole[at + 200:]
        stream.append(commit(number))
        stream += [b"M 100644 inline f/%s\ndata %d\n%s\n" % (name, len(body), body) for name, body in ((b"a", whole), (b"b", whole[::-1]))]
    made = bench.repository("history", stream)
    bench.git("-C", made, "push", "here:testing", "master:history")
    times = []
    for number in range(RUNS):
        there = bench.room / ("clone%d" % number)
        times.append(bench.seconds("clone", "--bare", "--single-branch", "--branch", "history", "here:testing", there))
        cost = bench.front_cost()
        shutil.rmtree(there)
    return "%.2f s" % min(times) + cost


def history(bench):
    """60,000 commits, five branches and 364 tags: 180,000 objects, 330 MB of bodies. Made once."""
    made = bench.room / "long"
    if made.exists():
        return made
    source = random.Random(3)

    def files(names):
        for name in names:
            body = text(source, 300)
            yield b"M 100644 inline f%03d\ndata %d\n%s\n" % (name, len(body), body)

    def stream():
        mark = 0
        for number in range(60_000):
            mark += 1
            yield b"commit refs/heads/main\nmark :%d\n" % mark + b"\n".join(commit(number).split(b"\n")[1:])
            yield b"from :%d\n" % last if number else b""
            yield from files(range(150) if number == 0 else [source.randrange(150)])
            last = mark
            if number % 165 == 0:
                yield b"tag v%d\nfrom :%d\ntagger C <c@example.com> 1700000000 +0000\ndata 2\nt\n\n" % (number, mark)
            for extra in range(30 if number % 15_000 == 14_999 else 0):
                yield b"commit refs/heads/release%d\nmark :%d\n" % (number, mark + 1) + b"\n".join(commit(number).split(b"\n")[1:])
                yield b"from :%d\n" % mark
                yield from files([extra])
                mark += 1

    return bench.repository("long", stream())


def migration(bench):
    """a history of 60,000 commits and 180,000 objects pushed by --mirror and cloned by --mirror, over ssh"""
    made, said = history(bench), []
    with running_sshd(bench) as sshd:
        for key, url in ("front", "testing"), ("plain", bench.room / "beside"):
            bench.git("init", "--bare", bench.room / "beside")
            bench.environment["GIT_SSH_COMMAND"], bench.environment["GIT_SSH_VARIANT"] = sshd(key), "ssh"
            url = "%s@127.0.0.1:%s" % (pwd.getpwuid(os.getuid()).pw_name, url)
            there = bench.room / ("mirror-" + key)
            times = bench.seconds("-C", made, "push", "--mirror", url), bench.seconds("clone", "--mirror", url, there)
            bench.git("-C", there, "fsck")
            refs = [subprocess.run(["git", "for-each-ref"], cwd=where, capture_output=True, check=True).stdout for where in (made, there)]
            assert refs[0] == refs[1] and refs[0].count(b"\n") > 300
            said.append("%s: push %.1f s, clone %.1f s" % (key, *times))
            if key == "front":
                shallow = bench.room / "shallow"
                said[0] += ", clone --depth 1 %.1f s" % bench.seconds("clone", "--bare", "--depth", "1", url, shallow)
    return "; ".join(said)


@contextlib.contextmanager
def running_sshd(bench):
    """A sshd with a key `front`, which comes to the front end, and a key `plain`, which comes to git. Gives the ssh of each."""
    room = bench.room / "ssh"
    room.mkdir()
    for name in "host", "front", "plain":
        subprocess.run(["ssh-keygen", "-q", "-t", "ed25519", "-N", "", "-f", room / name], check=True)
    lines = ['command="%s carol",restrict %s' % (FRONT, (room / "front.pub").read_text()), (room / "plain.pub").read_text()]
    (room / "keys").write_text("".join(lines))
    with socket.create_server(("127.0.0.1", 0)) as free:
        port = free.getsockname()[1]
    (room / "config").write_text(
        "Port %d\nListenAddress 127.0.0.1\nHostKey %s/host\nAuthorizedKeysFile %s/keys\nPidFile none\nStrictModes no\nUsePAM no\n" % (port, room, room))
    os.makedirs("/run/sshd", exist_ok=True)
    options = "-oIdentitiesOnly=yes -oBatchMode=yes -oStrictHostKeyChecking=no -oUserKnownHostsFile=%s/known -oLogLevel=ERROR" % room
    with subprocess.Popen(["/usr/sbin/sshd", "-D", "-f", room / "config"], stderr=subprocess.DEVNULL) as started:
        time.sleep(1)
        yield lambda key: "ssh -F none -p %d -i %s/%s %s" % (port, room, key, options)
        started.kill()


def slow(bench):
    """forty clients that clone 10,000 objects and 130 MB at 20 KB/s"""
    clone(bench)
    with tempfile.TemporaryDirectory(dir="/var/tmp") as spool:
        front = [str(FRONT), *("--spool", spool, "--sessions", "100"), "carol", "here", "git-upload-pack 'testing'"]
        clients = [subprocess.Popen(front, stdin=subprocess.PIPE, stdout=subprocess.PIPE) for _ in range(40)]
        reading = [threading.Thread(target=read_slowly, args=(client,), daemon=True) for client in clients]
        for thread in reading:
            thread.start()
        times = []
        for _ in range(100):
            times.append(bench.seconds("ls-remote", "here:testing"))
            time.sleep(0.1)
        memory = sum(int(line.split()[1]) for client in clients for line in smaps(client) if line.startswith("Pss:"))
        disk = sum(int(path.read_text() or "0") for path in pathlib.Path(spool).glob("*.*") if path.name != ".lock")
        for client in clients:
            client.kill()
            client.wait()
    times.sort()
    return "ls-remote beside them %.2f s, at most %.2f s; they have %d MB of memory and %d MB of spools" % (
        times[len(times) // 2], times[-1], memory >> 10, disk >> 20)


def smaps(client):
    return pathlib.Path("/proc/%d/smaps_rollup" % client.pid).read_text().splitlines()


def read_slowly(client):
    """Wants the branch of the clone, and reads 20 KB in a second."""
    lines = b""
    while not lines.endswith(b"0000"):
        lines += client.stdout.read1(1)
    want = next(line for line in lines.split(b"\n") if line.endswith(b"refs/heads/history"))[4:44]
    client.stdin.write(b"0031want %s0000" % want + b"0009done\n")
    client.stdin.flush()
    while client.stdout.read1(2000):
        time.sleep(0.1)


CASES = {case.__name__: case for case in (small, large, clone, migration, slow)}


def main():
    if sys.argv[2:] == ["list"]:
        print("\n".join("%s: %s" % (name, case.__doc__) for name, case in CASES.items()))
        return
    with tempfile.TemporaryDirectory() as room, subprocess.Popen([sys.argv[1], *SERVE], stdout=subprocess.DEVNULL) as server:
        try:
            wait_for_server()
            for name in sys.argv[2:] or CASES:
                print("%s (%s): %s" % (name, CASES[name].__doc__, CASES[name](Bench(pathlib.Path(room)))), flush=True)
        finally:
            server.kill()


def wait_for_server():
    for _ in range(100):
        try:
            socket.create_connection(("127.0.0.1", 9418), 1).close()
            return
        except OSError:
            time.sleep(0.05)
    sys.exit("the server doesn't answer")


if __name__ == "__main__":
    main()
