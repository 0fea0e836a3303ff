"""Clients at their own pace, and what they may take together; a server that restarts."""
import os
import random
import signal
import subprocess
import sys
import threading
import time

from cerolimau.packets import FLUSH, packet

from .world import FRONT, SECONDS, at_once, expect, start_server

SLOW_PIPE = """
import subprocess, sys, time
rate, front = int(sys.argv[1]), sys.argv[2:]
with subprocess.Popen(front, stdin=subprocess.PIPE) as started:
    while piece := sys.stdin.buffer.read1(rate // 10):
        started.stdin.write(piece)
        started.stdin.flush()
        time.sleep(len(piece) / rate)
    started.stdin.close()
sys.exit(started.returncode)
"""
UPLOAD_SECONDS = 90
SLOW_BYTES = 20_000  # in a second
ENOUGH = "--sessions", "100"


def slow_clients(here):
    """An upload of 90 seconds is done; forty clients that download at 20 KB/s and twenty that send nothing hold up nobody."""
    made = here.repository({"noise": random.Random(1).randbytes(4_000_000)})
    here.git("ann", "push", "here:t/slow", "master", cwd=made)
    uploading = threading.Thread(target=lambda: uploaded.append(upload(here)))
    uploaded = []
    uploading.start()
    started = [start_slow(here, read_slowly) for _ in range(40)] + [start_slow(here, None) for _ in range(20)]
    try:
        time.sleep(5)
        for _ in range(10):
            here.git("bob", "ls-remote", "here:t/slow")
        assert all(client.poll() is None for client, _ in started)  # so nobody waited for one of them
    finally:
        for client, _ in started:
            client.kill()
            client.wait()
    uploading.join(SECONDS)
    assert uploaded and uploaded[0] >= UPLOAD_SECONDS, uploaded


def seconds(call):
    begun = time.monotonic()
    call()
    return time.monotonic() - begun


def upload(here):
    """Pushes a file so slowly that it takes 90 seconds. Returns how many it took."""
    made = here.repository({"noise": random.Random(2).randbytes(UPLOAD_SECONDS * SLOW_BYTES)})
    command = "#!/bin/sh\nexec %s -c '%s' %d %s \"$@\"\n"
    (here.room / "slow").write_text(command % (sys.executable, SLOW_PIPE, SLOW_BYTES, " ".join(here.front("bob"))))
    (here.room / "slow").chmod(0o755)
    took = seconds(lambda: here.git("bob", "push", "here:t/upload", "master", cwd=made, GIT_SSH_COMMAND=str(here.room / "slow")))
    assert here.git("bob", "ls-remote", "--heads", "here:t/upload").split()[0] == here.head(made)
    return took


def start_slow(here, behave):
    """A client of its own: it fetches all of `t/slow` and reads it by and by, or sends nothing."""
    words = [*here.front("ann", *ENOUGH), "here", "git-upload-pack 't/slow'"]
    started = subprocess.Popen(words, stdin=subprocess.PIPE, stdout=subprocess.PIPE, stderr=subprocess.DEVNULL)
    thread = None
    if behave:
        thread = threading.Thread(target=behave, args=(started,), daemon=True)
        thread.start()
    return started, thread


def read_slowly(started):
    head = started.stdout.read(44)[4:]
    line = b""
    while not line.endswith(FLUSH):
        line += started.stdout.read1(1)
    started.stdin.write(packet(b"want " + head) + FLUSH + packet(b"done"))
    started.stdin.flush()
    while started.stdout.read1(SLOW_BYTES // 10):
        time.sleep(0.1)


def sessions_of_a_user(here):
    """A user has so many sessions at once; one more waits, and is told so. Others aren't held up."""
    idle = [start_idle(here, "cal") for _ in range(4)]
    try:
        assert here.ask("cal", "info", status=1) == b"cerolimau: cal has 4 sessions already\n"
        expect(here.git("cal", "ls-remote", "here:testing", status=128), "remote error: cerolimau: cal has 4 sessions already")
        expect(here.ask("bob", "info"), "hello bob\n")
        waiting = threading.Timer(0.5, idle[0].kill)
        waiting.start()
        expect(here.ask("cal", "info", options=("--patience", "20")), "hello cal\n")
    finally:
        for client in idle:
            client.kill()
            client.wait()


def start_idle(here, user):
    """A session that has its advertisement, and sends nothing."""
    started = subprocess.Popen([*here.front(user), "here", "git-upload-pack 'testing'"], stdin=subprocess.PIPE, stdout=subprocess.PIPE)
    assert started.stdout.read(8)
    return started


def bytes_of_all(here):
    """What all sessions keep aside has a bound, and what a session had is free behind it, however it ended."""
    made = here.repository({"noise": random.Random(3).randbytes(20_000_000)[:16_000_000]})
    here.git("ann", "push", "here:t/bytes", "master", cwd=made)
    spool = here.folder() / "spool"
    bound = ("--spool", str(spool), "--spool-bytes", str(30 << 20), *ENOUGH)
    words = [*here.front("ann", *bound), "here", "git-upload-pack 't/bytes'"]
    started = subprocess.Popen(words, stdin=subprocess.PIPE, stdout=subprocess.PIPE)
    reading = threading.Thread(target=read_slowly, args=(started,), daemon=True)
    reading.start()
    wait_for_spool(spool)
    there = here.folder()
    said = here.git("bob", "clone", "here:t/bytes", there / "a", options=bound, status=128)
    expect(said, "cerolimau: too much is on its way for all users together: try again in some minutes")
    os.kill(started.pid, signal.SIGKILL)
    started.wait()
    here.git("bob", "clone", "here:t/bytes", there / "b", options=bound)


def wait_for_spool(folder):
    """Until a session has reserved room."""
    ends = time.monotonic() + SECONDS
    while not any(int(path.read_text() or "0") for path in folder.glob("*.*") if path.name != ".lock"):
        assert time.monotonic() < ends
        time.sleep(0.05)


def restart(here):
    """While the server restarts, a session waits and is served; a server that stays away is told; and all that was pushed is there behind a kill."""
    kept = here.git("ann", "ls-remote", "here:testing"), here.git("admin", "ls-remote", "here:gitolite-admin")
    here.server.kill()
    here.server.wait()
    patient = "--patience", "60"
    said = []
    asking = threading.Thread(target=lambda: said.append(here.ask("admin", "info", options=patient)))
    asking.start()
    made = here.repository()
    pushing = threading.Thread(target=lambda: said.append(here.git("ann", "push", "here:testing", "master:restart", cwd=made, options=patient)))
    pushing.start()
    expect(here.ask("ann", "info", status=1), "cerolimau: the server isn't there")
    here.server = start_server(here.host, here.room)
    asking.join(SECONDS)
    pushing.join(SECONDS)
    expect(b"".join(text if isinstance(text, bytes) else text.encode() for text in said), "hello admin\n", "master -> restart")
    here.server.kill()
    here.server.wait()
    here.server = start_server(here.host, here.room)
    there = here.git("ann", "ls-remote", "here:testing")
    expect(there, here.head(made) + "\trefs/heads/restart\n", *(line for line in kept[0].splitlines(keepends=True) if not line.endswith("\tHEAD\n")))
    assert here.git("admin", "ls-remote", "here:gitolite-admin") == kept[1]


def fresh_spool(here):
    """A folder that others may write to isn't taken for what is on its way."""
    where = here.folder() / "spool"
    where.mkdir(mode=0o777)
    where.chmod(0o777)
    expect(here.ask("ann", "info", status=1, options=("--spool", str(where))), "spool isn't a folder of this account alone")
    at_once([lambda: here.ask("ann", "info") for _ in range(8)])


TESTS = slow_clients, sessions_of_a_user, bytes_of_all, restart, fresh_spool
