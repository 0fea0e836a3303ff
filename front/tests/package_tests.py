"""The package, installed into a machine of its own: the root of this one, below a layer that takes all changes."""
import contextlib
import os
import pathlib
import shutil
import subprocess

from .world import FRONT, Skip, expect, run

TOP = FRONT.parent
SSHD = "/usr/sbin/sshd"
INSIDE = """\
set -e
mount -t tmpfs tmpfs {room}
mkdir {room}/upper {room}/work {room}/top
mount -t overlay overlay -o lowerdir=/,upperdir={room}/upper,workdir={room}/work {room}/top
mount --bind /dev {room}/top/dev
mount -t tmpfs tmpfs {room}/top/run
mount -t tmpfs tmpfs {room}/top/tmp
cp -r {files}/* {room}/top/tmp
exec unshare --pid --fork --kill-child --mount-proc={room}/top/proc chroot {room}/top sh -ex /tmp/day
"""
COMMON = """\
export PATH=/usr/local/sbin:/usr/sbin:/sbin:/usr/local/bin:/usr/bin:/bin HOME=/tmp LANG=C.UTF-8 GIT_TERMINAL_PROMPT=0
export GIT_AUTHOR_NAME=x GIT_AUTHOR_EMAIL=x@example.com GIT_COMMITTER_NAME=x GIT_COMMITTER_EMAIL=x@example.com
python3 -c 'import fcntl, socket, struct; fcntl.ioctl(socket.socket(), 0x8914, struct.pack("16sh14x", b"lo", 1))'
cd /tmp
rm -f /etc/cerolimau.conf
ssh-keygen -q -t ed25519 -N '' -f root
ssh-keygen -q -t ed25519 -N '' -f bob
dpkg -i --force-depends cerolimau_*.deb
"""
DAY = COMMON + """\
man -l /usr/share/man/man8/cerolimau-setup.8.gz > /dev/null
cerolimau --version
cerolimau-setup root.pub
cerolimau-setup root.pub
printf '#!/bin/sh\\ncat > /var/lib/cerolimau-hooks/ran\\n' > /etc/cerolimau/after-push.d/10-note
chmod 755 /etc/cerolimau/after-push.d/10-note
mkdir -p /run/sshd
ssh-keygen -q -A
/usr/sbin/sshd
export GIT_SSH_COMMAND="ssh -i /tmp/root -o StrictHostKeyChecking=no -o IdentitiesOnly=yes -o BatchMode=yes -o LogLevel=ERROR"
git clone -q git@localhost:gitolite-admin
cd gitolite-admin
printf 'repo gitolite-admin\\n RW+ = root\\nrepo site\\n RW+ = root\\n R = bob\\n - refs/heads/x = bob\\n' > conf/gitolite.conf
cp /tmp/bob.pub keydir/
cerolimau-check-conf . --admin root
git add . && git commit -qm rules && git push -q origin master
git push -q git@localhost:site master
for second in 1 2 3 4 5; do grep -qs refs/heads/master /var/lib/cerolimau-hooks/ran && break; sleep 1; done
grep -q refs/heads/master /var/lib/cerolimau-hooks/ran
cd ..
GIT_SSH_COMMAND="ssh -i /tmp/bob -o StrictHostKeyChecking=no -o IdentitiesOnly=yes -o BatchMode=yes -o LogLevel=ERROR"
git clone -q git@localhost:site clone
git -C clone push origin master:x > /tmp/denied 2>&1 && exit 1
grep 'W any site bob DENIED' /tmp/denied
pkill -9 -x cerolimau
sleep 2
git -C clone fetch
dpkg -r cerolimau
test -s /var/lib/cerolimau/cerolimau.journal
dpkg --purge cerolimau
test ! -e /var/lib/cerolimau && test ! -e /etc/cerolimau.conf && ! id cerolimau
echo the day is over
"""
UNLOCK = COMMON + """\
cerolimau-setup root.pub
export GIT_SSH_COMMAND="setpriv --reuid=git --regid=git --clear-groups --reset-env /usr/lib/cerolimau/cerolimau-ssh root" GIT_SSH_VARIANT=simple
git clone -q here:gitolite-admin
cd gitolite-admin
git rm -q keydir/root.pub
mkdir keydir
cp /tmp/bob.pub keydir/
git add .
git commit -qm 'without the key of the admin'
git push -q origin master
grep -q ' bob$' ~git/.ssh/authorized_keys
grep ' root$' ~git/.ssh/authorized_keys && exit 1
printf 'repo gitolite-admin\\n RW+ = bob\\n R = root\\n' > conf/gitolite.conf
git commit -qam 'without a rule of the admin'
git push origin master > /tmp/said 2>&1
grep 'from now on root may not push to gitolite-admin: fallthru' /tmp/said
cd ..
cerolimau-setup --unlock root.pub && exit 1
cerolimau-setup --unlock bob.pub
export GIT_SSH_COMMAND="setpriv --reuid=git --regid=git --clear-groups --reset-env /usr/lib/cerolimau/cerolimau-ssh bob"
cd gitolite-admin
git pull -q origin master
printf 'repo gitolite-admin\\n RW+ = bob root\\n' > conf/gitolite.conf
git commit -qam 'with a rule of the admin'
git push -q origin master
cd ..
cerolimau-setup --unlock root.pub
grep -q ' root$' ~git/.ssh/authorized_keys
echo the day is over
"""


@contextlib.contextmanager
def built_package(here):
    if not shutil.which("dpkg-deb"):
        raise Skip("no dpkg-deb")
    where = here.folder()
    made = subprocess.run([str(TOP / "packaging/build-deb"), str(where)], stdout=subprocess.PIPE, stderr=subprocess.STDOUT, text=True)
    if made.returncode:
        raise Skip("the package wasn't built: " + made.stdout.strip())
    yield pathlib.Path(made.stdout.strip())


def in_a_machine(here, package, script, folders=()):
    """Runs a script as root in a copy of this machine, of which nothing is left."""
    if os.getuid() or subprocess.run(["unshare", "--mount", "--net", "true"], capture_output=True).returncode:
        raise Skip("it wants root and unshare")
    files, room = here.folder(), here.folder()
    shutil.copy(package, files)
    for folder in folders:
        shutil.move(folder, files)
    (files / "day").write_text(script)
    text = INSIDE.format(room=room, files=files)
    ran = subprocess.run(["unshare", "--mount", "--net", "sh", "-ex", "-c", text],
                         stdin=subprocess.DEVNULL, stdout=subprocess.PIPE, stderr=subprocess.STDOUT, text=True, errors="replace", timeout=900)
    if "wrong fs type" in ran.stdout:
        raise Skip("no overlay file system")
    expect(ran.stdout, "the day is over\n")
    return ran.stdout


def package_and_a_day(here):
    """The package is installed, set up, used by ssh, killed, removed and purged."""
    if not os.path.exists(SSHD):
        raise Skip("no sshd")
    with built_package(here) as package:
        if shutil.which("lintian"):
            said = subprocess.run(["lintian", "--allow-root", "--fail-on", "error", str(package)], stdout=subprocess.PIPE, text=True)
            assert said.returncode == 0, said.stdout
        in_a_machine(here, package, DAY)


def locked_out(here):
    """An admin whose key is gone comes in again, and one whose rule is gone is told so behind the push that takes it."""
    with built_package(here) as package:
        in_a_machine(here, package, UNLOCK)


TESTS = package_and_a_day, locked_out
