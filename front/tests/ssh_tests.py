"""By a real sshd; and which accounts of the machine reach the server."""
import contextlib
import os
import pathlib
import pwd
import shutil
import socket
import subprocess
import sys
import time

from .world import FRONT, SECONDS, Skip, at_once, expect, is_answering, run

SSHD = "/usr/sbin/sshd"
PROXY = "/lib/systemd/systemd-socket-proxyd"
SSHD_CONFIG = """\
Port {port}
ListenAddress 127.0.0.1
HostKey {room}/host
AuthorizedKeysFile {room}/authorized_keys
PidFile none
StrictModes no
PasswordAuthentication no
KbdInteractiveAuthentication no
UsePAM no
PermitRootLogin prohibit-password
MaxStartups 100
"""


class Sshd:
    """A sshd of this account, with the users' keys and a file of their lines."""

    def __init__(self, here, users):
        if not os.path.exists(SSHD) or not shutil.which("ssh-keygen"):
            raise Skip("no sshd")
        self.here = here
        self.room = here.folder()
        self.keys = self.room / "authorized_keys"
        with socket.create_server(("127.0.0.1", 0)) as free:
            self.port = free.getsockname()[1]
        self.account = pwd.getpwuid(os.getuid()).pw_name
        (self.room / "keydir").mkdir()
        for name in "host", *users:
            run(["ssh-keygen", "-q", "-t", "ed25519", "-N", "", "-f", str(self.room / name)])
        for name in users:
            shutil.copy(self.room / (name + ".pub"), self.room / "keydir")
        (self.room / "config").write_text(SSHD_CONFIG.format(port=self.port, room=self.room))

    def write_lines(self):
        run([str(FRONT / "authorized-keys"), "--file", str(self.keys), str(self.room / "keydir")])

    def ssh(self, user):
        """The words by which a user of a key comes in."""
        options = "IdentitiesOnly=yes", "BatchMode=yes", "StrictHostKeyChecking=no", "UserKnownHostsFile=%s/known" % self.room, "LogLevel=ERROR"
        return ["ssh", "-F", "none", "-p", str(self.port), "-i", str(self.room / user), *("-o" + option for option in options)]

    def ask(self, user, *words, status=0):
        return run([*self.ssh(user), "%s@127.0.0.1" % self.account, *words], status)

    def git(self, user, *words, cwd=None, status=0):
        return self.here.git("nobody", *words, cwd=cwd, status=status, GIT_SSH_COMMAND=" ".join(self.ssh(user)), GIT_SSH_VARIANT="ssh")

    def url(self, repository):
        return "ssh://%s@127.0.0.1:%d/%s" % (self.account, self.port, repository)


@contextlib.contextmanager
def running_sshd(here, *users):
    sshd = Sshd(here, users)
    if os.getuid() == 0:
        os.makedirs("/run/sshd", exist_ok=True)
    with open(sshd.room / "log", "wb") as log:
        started = subprocess.Popen([SSHD, "-D", "-e", "-f", str(sshd.room / "config")], stdin=subprocess.DEVNULL, stdout=log, stderr=log)
    try:
        wait_for(lambda: can_connect(sshd.port) or started.poll() is not None)
        if started.poll() is not None:
            raise Skip("sshd doesn't start: %s" % (sshd.room / "log").read_text())
        yield sshd
    finally:
        started.kill()
        started.wait()


def wait_for(is_so):
    ends = time.monotonic() + SECONDS
    while not is_so():
        assert time.monotonic() < ends
        time.sleep(0.05)


def can_connect(port):
    with contextlib.suppress(OSError), socket.create_connection(("127.0.0.1", port), 1):
        return True
    return False


def git_over_ssh(here):
    """Over ssh the user is who the key says; a key that isn't known comes nowhere."""
    with running_sshd(here, "ann", "bob", "eve") as sshd:
        (sshd.room / "keydir/eve.pub").unlink()
        (sshd.room / "keydir/bob.pub").rename(sshd.room / "keydir/bob@laptop.pub")
        sshd.write_lines()
        expect(sshd.ask("ann"), "hello ann\n")
        expect(sshd.ask("bob", "info"), "hello bob\n")
        made = here.repository()
        sshd.git("ann", "push", sshd.url("u/ann/ssh"), "master", cwd=made)
        said = sshd.git("bob", "clone", sshd.url("u/ann/ssh"), cwd=here.folder(), status=128)
        expect(said, "remote error: R any u/ann/ssh bob DENIED by fallthru")
        assert sshd.ask("ann", "perms", "u/ann/ssh", "+", "READERS", "bob") == "perms: changed\n"
        there = here.folder()
        sshd.git("bob", "clone", sshd.url("u/ann/ssh.git"), ".", cwd=there)
        assert here.head(there) == here.head(made)
        sshd.git("bob", "clone", "--config", "protocol.version=2", sshd.url("u/ann/ssh"), cwd=there)
        for words in ["info"], ["git-upload-pack 'testing'"]:
            expect(sshd.ask("eve", *words, status=255), "Permission denied (publickey)")
        expect(sshd.git("eve", "ls-remote", sshd.url("testing"), status=128), "Permission denied (publickey)")


def nothing_but_sessions(here):
    """A key gives no shell, no terminal, no forwarding and no files."""
    with running_sshd(here, "ann") as sshd:
        sshd.write_lines()
        touched = here.folder() / "touched"
        for words in ["sh", "-c", "touch %s" % touched], ["info; touch %s" % touched], ["scp -t /tmp"], ["internal-sftp"]:
            expect(sshd.ask("ann", *words, status=1), "cerolimau: no such command")
        expect(run([*sshd.ssh("ann"), "-W", "127.0.0.1:9418", "%s@127.0.0.1" % sshd.account], status=None), "forwarding failed")
        expect(run([*sshd.ssh("ann"), "-tt", "%s@127.0.0.1" % sshd.account, "info"], status=255), "PTY allocation request failed")
        assert not touched.exists()


def keys_by_a_push(here):
    """A key that is pushed to keydir lets its user in, and one that is removed doesn't."""
    with running_sshd(here, "admin", "dora") as sshd:
        (sshd.room / "keydir/dora.pub").unlink()
        sshd.write_lines()
        expect(sshd.ask("dora", status=255), "Permission denied (publickey)")
        made = here.folder()
        sshd.git("admin", "clone", sshd.url("gitolite-admin"), ".", cwd=made)
        here.commit(made, {"keydir/%s.pub" % user: (sshd.room / (user + ".pub")).read_bytes() for user in ("admin", "dora")})
        sshd.git("admin", "push", "origin", "master", cwd=made)
        expect(sshd.ask("dora"), "hello dora\n")
        (made / "keydir/dora.pub").unlink()
        here.commit(made, {})
        sshd.git("admin", "push", "origin", "master", cwd=made)
        expect(sshd.ask("dora", status=255), "Permission denied (publickey)")


def eight_over_ssh(here):
    """Eight users push and clone over ssh at once."""
    users = ["user%d" % number for number in range(8)]
    with running_sshd(here, *users) as sshd:
        sshd.write_lines()
        made = {user: here.repository({"file": user * 1000}) for user in users}
        at_once([lambda user=user: sshd.git(user, "push", sshd.url("t/crowd"), "master:" + user, cwd=made[user]) for user in users])
        there = here.folder()
        at_once([lambda user=user: sshd.git(user, "clone", "--bare", sshd.url("t/crowd"), user, cwd=there) for user in users])
        assert all(here.git("ann", "for-each-ref", cwd=there / user).count("refs/heads/user") == 8 for user in users)


IN_OWN_NETWORK = """
import fcntl, os, socket, struct, sys
with socket.socket() as lo:
    fcntl.ioctl(lo, 0x8914, struct.pack("16sh14x", b"lo", 1))  # SIOCSIFFLAGS, IFF_UP
os.execv(sys.argv[1], sys.argv[1:])
"""
LISTENING = """
import os, sys
os.environ.update(LISTEN_PID=str(os.getpid()), LISTEN_FDS="1")
os.dup2(int(sys.argv[1]), 3)
os.execv(sys.argv[2], sys.argv[2:])
"""


def other_accounts(here):
    """Where the server has a network of its own, the account of the socket reaches it, and no other does: as the units have it."""
    if os.getuid() or not os.path.exists(PROXY) or subprocess.run(["unshare", "--net", "true"], capture_output=True).returncode:
        raise Skip("it wants root, unshare --net and %s" % PROXY)
    where = here.folder()
    shutil.copytree(FRONT, where / "front", ignore=shutil.ignore_patterns("__pycache__"))
    path = str(where / "socket")
    words = [here.program, "serve", "--admin", "owner", "--workers", "8", "--sessions", "1000"]
    server = subprocess.Popen(["unshare", "--net", sys.executable, "-c", IN_OWN_NETWORK, *words], stdout=subprocess.DEVNULL)
    with socket.socket(socket.AF_UNIX) as door:
        door.bind(path)
        door.listen()
        os.chown(path, 65533, -1)
        os.chmod(path, 0o600)
        wait_for(lambda: has_listener(server.pid))
        inside = ["nsenter", "--net=/proc/%d/ns/net" % server.pid, sys.executable, "-c", LISTENING, str(door.fileno())]
        proxy = subprocess.Popen([*inside, PROXY, "127.0.0.1:9418"], pass_fds=[door.fileno()], stderr=subprocess.DEVNULL)
    try:
        expect(ask_as(65533, where, path), "hello owner\n", "gitolite-admin")
        for account in 65534, 65532:
            expect(ask_as(account, where, path, status=1), "cerolimau: the server isn't there")
        assert is_answering() and "gitolite-admin" not in ask_as(65534, where, "127.0.0.1:9418")  # that is another server
        made = here.repository({"large": bytes(9_000_000)})
        git = ["setpriv", "--reuid=65533", "--clear-groups", str(where / "front/cerolimau-ssh"), "--server", path, "owner"]
        here.git("owner", "push", "here:testing", "master", cwd=made, GIT_SSH_COMMAND=" ".join(git))
        here.git("owner", "clone", "here:testing", where / "clone", GIT_SSH_COMMAND=" ".join(git))
    finally:
        for started in proxy, server:
            started.kill()
            started.wait()


def has_listener(process):
    """Whether it listens at 9418 in a network of its own: until it has one, it sees the other server."""
    with contextlib.suppress(OSError):
        apart = os.readlink("/proc/%d/ns/net" % process) != os.readlink("/proc/self/ns/net")
        return apart and ":24CA 00000000:0000 0A" in pathlib.Path("/proc/%d/net/tcp" % process).read_text()
    return False


def ask_as(account, where, server, status=0):
    front = [str(where / "front/cerolimau-ssh"), "--server", server, "owner", "here", "info"]
    return run(["setpriv", "--reuid=%d" % account, "--regid=65534", "--clear-groups", *front], status)


TESTS = git_over_ssh, nothing_but_sessions, keys_by_a_push, eight_over_ssh, other_accounts
