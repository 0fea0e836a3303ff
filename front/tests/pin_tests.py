"""Two sessions at once: a push is judged by the rules at its opening and by those just before it."""
import contextlib
import hashlib
import socket

from cerolimau.packets import FLUSH, packet
from cerolimau.raw_pack import BLOB, COMMIT, KIND_NAMES, TREE, entry_head, pack_header

from .world import ADDRESS, expect

ZERO = "0" * 40
WHO = b"author A <a@example.com> 1700000000 +0000\ncommitter A <a@example.com> 1700000000 +0000\n\n"


def raw_pack(objects):
    """A pack of whole objects, each a kind and its body."""
    data = pack_header(len(objects)) + b"".join(entry_head(kind, len(body)) + body for kind, body in objects)
    return data + hashlib.sha1(data).digest()


def commit(tree, *parents):
    lines = b"".join(b"parent %s\n" % parent.encode() for parent in parents)
    return COMMIT, b"tree %s\n" % tree.encode() + lines + WHO


def name_of(item):
    return hashlib.sha1(b"%s %d\0" % (KIND_NAMES[item[0]].encode(), len(item[1])) + item[1]).hexdigest()


EMPTY = TREE, b""
FIRST = commit(name_of(EMPTY))


class Session:
    """A session of which the opening and the push stand apart."""

    def __init__(self, user, repo):
        self.link = socket.create_connection(ADDRESS)
        self.link.sendall(packet(b"%s git-receive-pack '%s'" % (user, repo)))
        self.advertised = b""
        while not self.advertised.endswith(FLUSH) and not self.advertised[4:].startswith(b"ERR "):
            self.advertised += self.link.recv(65536)

    def push(self, old, new, ref, objects, *more, words="report-status"):
        """The report, in lines of which the lengths and the flush are cut off. Each further command is an old value, a new one and a ref."""
        commands = packet(("%s %s %s\0%s" % (old, new, ref, words)).encode()) + b"".join(packet(("%s %s %s" % one).encode()) for one in more)
        self.link.sendall(commands + FLUSH + raw_pack(objects))
        said = b"".join(iter(lambda: self.link.recv(65536), b""))
        self.link.close()
        assert said.endswith(FLUSH), said
        return [line[4:] for line in said[:-4].decode().split("\n")[:-1]]


def conf_with(here, text):
    where = here.room / "gitolite-admin/conf/gitolite.conf"
    return where.read_text() + text


@contextlib.contextmanager
def conf_as_it_was(here):
    was = conf_with(here, "")
    yield was
    here.put_conf(was)


def right_given_later(here):
    """A right that is given after an opening doesn't count for its push, and does at the next opening."""
    with conf_as_it_was(here) as was:
        here.put_conf(was + "repo given\n    RW topic = dave\n")
        opened = Session(b"dave", b"given")
        here.put_conf(was + "repo given\n    RW = dave\n")
        said = opened.push(ZERO, name_of(FIRST), "refs/heads/other", [FIRST, EMPTY])
        assert said == ["unpack ok", "ng refs/heads/other W refs/heads/other given dave DENIED by fallthru"], said
        said = Session(b"dave", b"given").push(ZERO, name_of(FIRST), "refs/heads/other", [FIRST, EMPTY])
        assert said == ["unpack ok", "ok refs/heads/other"], said


def right_taken_later(here):
    """A right that is taken away after an opening is gone at once, for its push too."""
    with conf_as_it_was(here) as was:
        here.put_conf(was + "repo taken\n    RW = alice\n")
        opened = Session(b"alice", b"taken")
        here.put_conf(was + "repo taken\n    RW = bob\n")
        said = opened.push(ZERO, name_of(FIRST), "refs/heads/master", [FIRST, EMPTY])
        assert said == ["unpack ok", "ng refs/heads/master W refs/heads/master taken alice DENIED by fallthru (rules at push)"], said
        expect(Session(b"alice", b"taken").advertised, "ERR W any taken alice DENIED by fallthru")


def role_taken_later(here):
    """So it is with a role, though the rules stay the same; one that is given later doesn't help."""
    with conf_as_it_was(here) as was:
        here.put_conf(was + "repo later/CREATOR/..*\n    C = @all\n    RW+ = CREATOR\n    R = @all\n    RW = WRITERS\n    RW topic = READERS\n")
        Session(b"alice", b"later/alice/x").push(ZERO, name_of(FIRST), "refs/heads/master", [FIRST, EMPTY])
        assert here.ask("alice", "perms later/alice/x + WRITERS bob") == b"perms: changed\n"
        opened, other = Session(b"bob", b"later/alice/x"), Session(b"bob", b"later/alice/x")
        assert here.ask("alice", "perms later/alice/x - WRITERS bob") == b"perms: changed\n"
        assert here.ask("alice", "perms later/alice/x + READERS bob") == b"perms: changed\n"
        said = opened.push(ZERO, name_of(FIRST), "refs/heads/other", [], (ZERO, name_of(FIRST), "refs/heads/topic"))
        assert said == ["unpack ok", "ng refs/heads/other W refs/heads/other later/alice/x bob DENIED by fallthru (rules at push)", "ok refs/heads/topic"], said
        assert here.ask("alice", "perms later/alice/x + WRITERS bob") == b"perms: changed\n"
        assert other.push(ZERO, name_of(FIRST), "refs/heads/other", []) == ["unpack ok", "ok refs/heads/other"]


def rule_on_paths_later(here):
    """A rule on paths that came after an opening denies a path too, and names itself; the rest of an atomic push goes with it."""
    blob = BLOB, b"all:\n"
    root = TREE, b"100644 Makefile\0" + bytes.fromhex(name_of(blob))
    made = commit(name_of(root))
    with conf_as_it_was(here) as was:
        here.put_conf(was + "repo paths\n    RW = alice\n")
        opened, atomic = Session(b"alice", b"paths"), Session(b"alice", b"paths")
        line = len(was.splitlines()) + 2
        here.put_conf(was + "repo paths\n    - VREF/NAME/Makefile = alice\n    RW = alice\n")
        denied = "ng refs/heads/one W VREF/NAME/Makefile paths alice DENIED by VREF/NAME/Makefile (gitolite.conf line %d) (rules at push)" % line
        assert opened.push(ZERO, name_of(made), "refs/heads/one", [made, root, blob]) == ["unpack ok", denied]
        said = atomic.push(ZERO, name_of(made), "refs/heads/one", [made, root, blob, FIRST, EMPTY], (ZERO, name_of(FIRST), "refs/heads/two"), words="report-status atomic")
        assert said == ["unpack ok", denied, "ng refs/heads/two atomic push refused with refs/heads/one"], said


def later_conf_is_stale(here):
    """Of two pushes of a conf, both opened before the first, the second is stale."""
    with conf_as_it_was(here) as was:
        head = here.head(here.room / "gitolite-admin")
        one, other = Session(b"admin", b"gitolite-admin"), Session(b"admin", b"gitolite-admin")
        made = []
        for word in "one", "other":
            text = BLOB, (was + "# %s\n" % word).encode()
            folder = TREE, b"100644 gitolite.conf\0" + bytes.fromhex(name_of(text))
            root = TREE, b"40000 conf\0" + bytes.fromhex(name_of(folder))
            made.append([commit(name_of(root), head), root, folder, text])
        first, second = name_of(made[0][0]), name_of(made[1][0])
        assert one.push(head, first, "refs/heads/master", made[0]) == ["unpack ok", "ok refs/heads/master"]
        said = other.push(head, second, "refs/heads/master", made[1])
        assert said == ["unpack ok", "ng refs/heads/master stale, it is " + first], said
        here.git("admin", "pull", "--ff-only", "origin", "master", cwd=here.room / "gitolite-admin")


TESTS = right_given_later, right_taken_later, role_taken_later, rule_on_paths_later, later_conf_is_stale
