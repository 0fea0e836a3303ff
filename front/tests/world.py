"""What a test has: a running server, users who work by the front end, and folders."""
import os
import pathlib
import shutil
import socket
import subprocess
import sys
import tempfile
import threading
import time

FRONT = pathlib.Path(__file__).resolve().parent.parent
sys.path.insert(0, str(FRONT))

ADDRESS = "127.0.0.1", 9418
HOST = "host", "--admin", "admin", "--http-port", "8418", "--journal"
SECONDS = 300  # that one command of a test may take
CONF = """\
@staff = ann bob
repo gitolite-admin
    RW+ = admin
    R = keeper
repo testing
    RW+ = @all
repo t/[a-z0-9-]+
    C = @all
    RW+ = @all
repo u/CREATOR/[a-z]+
    C = @all
    RW+ = CREATOR
    RW = WRITERS
    R = READERS
repo site
    - master$ refs/tags/ = cal
    RW+ personal/USER/ = @staff cal
    - personal/ = @all
    RW = @staff cal
repo secrets
    option deny-rules = 1
    - = bob
    RW+ = @staff
repo narrow
    RW master = ann
repo named
    - VREF/NAME/bad = ann
    RW+ = ann
"""
GIT_CONFIG = """\
[user]
    name = A U Thor
    email = author@example.com
[init]
    defaultBranch = master
[protocol "file"]
    allow = always
[core]
    fsync = none
[gc]
    auto = 0
"""


class Skip(Exception):
    """Why a test can't be run here."""


class World:
    def __init__(self, host, program):
        self.room = pathlib.Path(tempfile.mkdtemp(prefix="front-test-"))
        self.room.chmod(0o755)
        (self.room / "gitconfig").write_text(GIT_CONFIG)
        self.environment = {
            "PATH": os.environ["PATH"], "HOME": str(self.room), "LANG": "C.UTF-8", "GIT_CONFIG_NOSYSTEM": "1",
            "GIT_CONFIG_GLOBAL": str(self.room / "gitconfig"), "GIT_TERMINAL_PROMPT": "0", "GIT_SSH_VARIANT": "simple",
        }
        self.host = host
        self.program = program
        self.server = None
        self._folders = 0

    def start(self):
        self.server = start_server(self.host, self.room)
        self.put_conf(CONF)

    def close(self):
        if self.server:
            self.server.kill()
            self.server.wait()
        shutil.rmtree(self.room, ignore_errors=True)

    def folder(self):
        self._folders += 1
        made = self.room / ("%d" % self._folders)
        made.mkdir()
        return made

    def front(self, user, *options):
        """The words by which a user comes to the server."""
        return [str(FRONT / "cerolimau-ssh"), "--spool", str(self.room / "spool"), "--patience", "1", *options, user]

    def git(self, user, *words, cwd=None, status=0, options=(), **environment):
        """Runs git with the front end as its ssh, and returns all that it said."""
        environment = {**self.environment, "GIT_SSH_COMMAND": " ".join(self.front(user, *options)), **environment}
        return run(["git", *map(str, words)], status, cwd=cwd or self.room, env=environment)

    def ask(self, user, command, data=b"", status=0, options=(), **how):
        """A session by hand: what is asked for, and all that the client sends. Returns what it got."""
        ran = subprocess.run([*self.front(user, *options), "here", command], input=data, capture_output=True, timeout=SECONDS, **how)
        said = ran.stdout + ran.stderr
        assert ran.returncode == status, "status %d: %r" % (ran.returncode, said[-2000:])
        assert b"Traceback" not in said, said.decode(errors="replace")
        return said

    def put_conf(self, text, status=0, files=(), options=()):
        """The admin pushes a conf, and other files by their paths. Returns what git said."""
        where = self.room / "gitolite-admin"
        if not where.exists():
            self.git("admin", "clone", "here:gitolite-admin", where)
        write_files(where, {"conf/gitolite.conf": text, **dict(files)})
        self.git("admin", "add", "--all", cwd=where)
        self.git("admin", "commit", "--allow-empty", "-m", "conf", cwd=where)
        said = self.git("admin", "push", "origin", "master", cwd=where, status=status, options=options)
        if status:
            self.git("admin", "reset", "--hard", "origin/master", cwd=where)
        return said

    def repository(self, files=None):
        """A new repository with a commit of these files."""
        where = self.folder()
        self.git("ann", "init", cwd=where)
        self.commit(where, files or {"README": "hello\n"})
        return where

    def commit(self, where, files, message="a commit"):
        write_files(where, files)
        self.git("ann", "add", "--all", cwd=where)
        self.git("ann", "commit", "--allow-empty", "-m", message, cwd=where)

    def head(self, where, name="HEAD"):
        return self.git("ann", "rev-parse", name, cwd=where).strip()


def write_files(where, files):
    for name, content in files.items():
        path = where / name
        path.parent.mkdir(parents=True, exist_ok=True)
        path.write_bytes(content if isinstance(content, bytes) else content.encode())


def run(words, status=0, **how):
    """Runs a command to its end, and returns what it printed, both streams together. `status` None takes any but 0."""
    ran = subprocess.run(words, stdin=subprocess.DEVNULL, stdout=subprocess.PIPE, stderr=subprocess.STDOUT, timeout=SECONDS, **how)
    said = ran.stdout.decode(errors="replace")
    wrong = ran.returncode == 0 if status is None else ran.returncode != status
    assert not wrong and "Traceback" not in said, "%s ended with %d: %s" % (" ".join(words), ran.returncode, said[-2000:])
    return said


def expect(said, *texts):
    """Each of these texts is in what was said."""
    said = said.decode(errors="replace") if isinstance(said, bytes) else said
    for text in texts:
        assert text in said, "no %r in %r" % (text, said[-2000:])


def start_server(host, room):
    """The server at the journal of a folder, which is made where it isn't there."""
    if is_answering():
        sys.exit("front/test: something is at %s:%d already" % ADDRESS)
    log = room / "server.log"
    with open(log, "wb") as out:
        server = subprocess.Popen([host, *HOST, room / "cerolimau.journal"], stdin=subprocess.DEVNULL, stdout=out, stderr=out)
    ends = time.monotonic() + 30
    while not is_answering():
        if server.poll() is not None or time.monotonic() > ends:
            server.kill()
            sys.exit("front/test: %s doesn't serve: %s" % (host, log.read_text(errors="replace").strip()))
        time.sleep(0.02)
    return server


def is_answering():
    try:
        socket.create_connection(ADDRESS, 1).close()
    except OSError:
        return False
    return True


def at_once(calls):
    """Runs calls side by side. The first that fails fails all."""
    faults = []

    def attempt(call):
        try:
            call()
        except BaseException as fault:  # told below
            faults.append(fault)

    threads = [threading.Thread(target=attempt, args=(call,)) for call in calls]
    for thread in threads:
        thread.start()
    for thread in threads:
        thread.join()
    if faults:
        raise faults[0]
