"""A Gitolite that is brought here: the same refs, readers and writers behind it."""
import contextlib
import os
import pathlib
import pwd
import shutil
import subprocess
import tempfile

from .package_tests import built_package, in_a_machine
from .world import Skip, expect, run

CONF = """\
@staff = ann bob
repo gitolite-admin
    RW+ = root
repo site web/shop
    RW+ = @staff
    R = cal
repo u/CREATOR/[a-z]+
    C = @all
    RW+ = CREATOR
    RW = WRITERS
    R = READERS
"""
# Who can do what behind the import, as `info` and git say it.
DAY = """\
export PATH=/usr/local/sbin:/usr/sbin:/sbin:/usr/local/bin:/usr/bin:/bin HOME=/tmp LANG=C.UTF-8 GIT_TERMINAL_PROMPT=0
python3 -c 'import fcntl, socket, struct; fcntl.ioctl(socket.socket(), 0x8914, struct.pack("16sh14x", b"lo", 1))'
cd /tmp
rm -f /etc/cerolimau.conf
dpkg -i --force-depends cerolimau_*.deb
cp gitolite/root.pub .
cerolimau-setup root.pub
cerolimau-setup --import-gitolite /tmp/gitolite
front() {
    setpriv --reuid=git --regid=git --clear-groups --reset-env /usr/lib/cerolimau/cerolimau-ssh "$1" here "$2"
}
for user in ann bob cal root; do front $user info; done
front ann 'perms u/ann/toy -l'
export GIT_SSH_VARIANT=simple
for repository in site web/shop u/ann/toy gitolite-admin; do
    user=ann; [ $repository != gitolite-admin ] || user=root
    export GIT_SSH_COMMAND="setpriv --reuid=git --regid=git --clear-groups --reset-env /usr/lib/cerolimau/cerolimau-ssh $user"
    git ls-remote here:$repository | grep -v HEAD > new
    git -c safe.directory='*' ls-remote /tmp/gitolite/repositories/$repository.git | grep -v HEAD > old
    cmp old new
done
grep -q ' ann$' ~git/.ssh/authorized_keys
echo the day is over
"""

@contextlib.contextmanager
def a_gitolite(here):
    """The home of a Gitolite with an admin, plain repositories with branches and tags, and a wild one with roles."""
    if os.getuid() or not shutil.which("gitolite"):
        raise Skip("it wants root and gitolite")
    room = pathlib.Path(tempfile.mkdtemp(prefix="gitolite-", dir="/var/tmp"))
    home = room / "gitolite"
    home.mkdir()
    account = pwd.getpwnam("nobody")
    run(["ssh-keygen", "-q", "-t", "ed25519", "-N", "", "-f", str(home / "root")])
    run(["ssh-keygen", "-q", "-t", "ed25519", "-N", "", "-f", str(home / "ann")])
    for path in room, home, *home.iterdir():
        os.chown(path, account.pw_uid, account.pw_gid)
    environment = {**here.environment, "HOME": str(home), "GL_BYPASS_ACCESS_CHECKS": "1", "GIT_AUTHOR_NAME": "x", "GIT_AUTHOR_EMAIL": "x@x",
                   "GIT_COMMITTER_NAME": "x", "GIT_COMMITTER_EMAIL": "x@x"}

    def as_gitolite(script):
        ran = subprocess.run(["sh", "-exc", script], user=account.pw_uid, group=account.pw_gid, extra_groups=[], cwd=home, env=environment,
                             stdout=subprocess.PIPE, stderr=subprocess.STDOUT, text=True)
        assert ran.returncode == 0, ran.stdout

    as_gitolite("gitolite setup -pk root.pub")
    (home / "conf").write_text(CONF)
    as_gitolite("""\
git clone -q repositories/gitolite-admin.git admin
cp conf admin/conf/gitolite.conf && cp ann.pub admin/keydir/
cd admin && git add . && git commit -qm rules && gitolite push -q origin HEAD:master && cd ..
git init -q work && cd work && echo one > one && git add one && git commit -qm one && git tag -m v1 v1 && git branch side && echo two > one
git commit -qam two
for repository in site web/shop; do gitolite push -q ../repositories/$repository.git master side v1; done
cd ..
git init -q --bare repositories/u/ann/toy.git
echo ann > repositories/u/ann/toy.git/gl-creator
printf 'READERS bob cal\\nWRITERS bob\\n' > repositories/u/ann/toy.git/gl-perms
git -C work push -q ../repositories/u/ann/toy.git master
""")
    try:
        yield home
    finally:
        shutil.rmtree(room)


def a_gitolite_is_brought(here):
    """Repositories, creators, roles, keys and rules of a Gitolite are there behind `--import-gitolite`, with the same refs."""
    with built_package(here) as package, a_gitolite(here) as home:
        copy = here.folder() / "gitolite"
        shutil.copytree(home, copy, symlinks=True)
        said = in_a_machine(here, package, DAY, [copy])
        expect(said, "u/ann/toy: brought, made by ann", "gitolite-admin: brought", "hello ann", "R W\tsite", "R W\tu/ann/toy", "R\tsite", "R\tu/ann/toy",
               "READERS bob", "READERS cal", "WRITERS bob")


TESTS = a_gitolite_is_brought,
