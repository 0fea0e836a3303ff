"""Objects of a pack that are kept aside, and what they lead to."""
import re

from .kept_pack import KeptPack
from .raw_pack import BLOB, COMMIT, TAG, TREE, object_name
from .streams import Refused

PARENT = re.compile(rb"parent ([0-9a-f]{40})\n")
COMMITTER_TIME = re.compile(rb"^committer .*> (-?[0-9]+)", re.MULTILINE)
TREE_ENTRY = re.compile(rb"([0-7]+) ([^\0]*)\0(.{20})", re.DOTALL)
SUBMODULE = b"160000"


def tree_of(commit):
    return bytes.fromhex(commit[5:45].decode())


def parents_of(commit):
    names, at = [], 46
    while found := PARENT.match(commit, at):
        names.append(bytes.fromhex(found[1].decode()))
        at = found.end()
    return names


def time_of(commit):
    found = COMMITTER_TIME.search(commit.partition(b"\n\n")[0])
    return int(found[1]) if found else 0


def target_of(tag):
    """The name of the object that a tag is at."""
    return bytes.fromhex(tag[7:47].decode())


def links_of(kind, body):
    """The names that an object leads to; a tree's submodules are in other repositories."""
    if kind == COMMIT:
        return [tree_of(body), *parents_of(body)]
    if kind == TREE:
        return entries_of(body)
    return [target_of(body)] if kind == TAG else []


def entries_of(tree):
    return [name for mode, _, name in TREE_ENTRY.findall(tree) if mode != SUBMODULE]


class NamedObjects:
    """The objects of a raw pack of the server, by their names."""

    def __init__(self, source):
        self._pack = KeptPack(source)
        self._rows = {}
        for kind, body in self._pack.read():
            self._rows[object_name(kind, body)] = self._pack.rows[-1]

    def __contains__(self, name):
        return name in self._rows

    def kind(self, name):
        return self._rows[name][0]

    def body(self, name):
        return self._pack.body(self._rows[name])

    def of_kind(self, name, kind):
        """The body of the object that has to be there, and of this kind."""
        if name not in self._rows or self.kind(name) != kind:
            raise Refused("the server's pack lacks object %s" % name.hex())
        return self.body(name)

    def parents(self, commit):
        return parents_of(self.body(commit))

    def time(self, commit):
        """When it was committed, in seconds since 1970."""
        return time_of(self.body(commit))

    def commits_of(self, names):
        """The commits that these names are, or that chains of tags lead to from them."""
        commits = []
        for name in names:
            while name in self._rows and self.kind(name) == TAG:
                name = target_of(self.body(name))
            if name in self._rows and self.kind(name) == COMMIT:
                commits.append(name)
        return commits

    def history(self, commits, ends):
        """The commits from these on down, without the parents of those at which the history ends."""
        seen, todo = set(), list(commits)
        while todo:
            name = todo.pop()
            if name not in seen and name in self._rows:
                seen.add(name)
                todo += [] if name in ends else self.parents(name)
        return seen

    def reached(self, starts, seen, with_parents=False):
        """The objects of the pack that links lead to from these names and that aren't among those seen, which they join."""
        names, todo = [], list(starts)
        while todo:
            name = todo.pop()
            if name in seen or name not in self._rows:
                continue
            seen.add(name)
            names.append(name)
            kind = self.kind(name)
            if kind == COMMIT and not with_parents:
                todo.append(tree_of(self.body(name)))
            elif kind != BLOB:
                todo += links_of(kind, self.body(name))
        return names

    def pack(self, names):
        """What a pack of these objects has."""
        return len(names), ((self.kind(name), self.body(name)) for name in names)
