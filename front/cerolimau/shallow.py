"""Parts of a history: `--depth`, `--deepen`, `--shallow-since`, `--shallow-exclude`, `--unshallow` (gitprotocol-pack, "shallow-line" and
"depth-request"). The server sends whole histories, and they are cut here."""
from .packets import FLUSH, packet
from .streams import Refused


class Shallows:
    """What of the history the client has, and what it is to have. A shallow commit is one whose parents the client doesn't have."""

    def __init__(self):
        self.had = set()  # the client's shallow commits
        self.ends = self.had  # its shallow commits behind the fetch
        self.deeper = []  # the parents of those that aren't shallow any more
        self.excluded = []  # refs whose history is left out
        self.is_relative = False  # whether the depth counts from the commits that are shallow
        self._depth = 0
        self._since = None

    def take(self, word, text):
        """Takes one line of the request. Returns whether it is of this kind."""
        if word == b"shallow" and len(text) == 40 and not text.strip(b"0123456789abcdef"):
            self.had.add(bytes.fromhex(text.decode()))
        elif word == b"deepen" and text.isdigit() and len(text) < 20:
            self._depth = int(text)
        elif word == b"deepen-since" and text.isdigit() and len(text) < 20:
            self._since = int(text)
        elif word == b"deepen-not" and text:
            self.excluded.append(text)
        else:
            return False
        return True

    def are_asked(self):
        return bool(self.had) or self._is_deepening()

    def _is_deepening(self):
        return bool(self._depth or self.excluded) or self._since is not None

    def tell(self, client, objects, wants, refs):
        """Says which commits are shallow from here on, and which aren't any more."""
        if not self._is_deepening():
            return
        tips = objects.commits_of(bytes.fromhex(want.decode()) for want in wants)
        if self._since is not None or self.excluded:
            edge, inside = self._edge_by_choice(objects, tips, refs)
        else:
            edge, inside = self._edge_by_depth(objects, tips)
        self.ends = (self.had - inside) | edge
        self.deeper = [parent for commit in self.had & inside for parent in objects.parents(commit)]
        for word, commits in (b"shallow", edge - self.had), (b"unshallow", self.had & inside):
            for commit in sorted(commits):
                client.write(packet(b"%s %s\n" % (word, commit.hex().encode())))
        client.write(FLUSH)
        client.flush()

    def _edge_by_depth(self, objects, tips):
        """The commits at that depth, and those above them."""
        depth, front = self._depth, tips
        if self.is_relative:
            depth, front = depth + 1, objects.history(tips, ()) & self.had
        edge, inside = set(), set()
        while front:
            depth -= 1
            following = []
            for commit in front:
                if commit in edge or commit in inside:
                    continue
                if depth == 0:  # one without parents too, as in git
                    edge.add(commit)
                else:
                    inside.add(commit)
                    following += objects.parents(commit)
            front = following
        return edge, inside

    def _edge_by_choice(self, objects, tips, refs):
        """The commits that aren't too old and that no excluded ref leads to: those with a parent that isn't among them, and the others."""
        left_out = set()
        for text in self.excluded:
            where = refs.resolve(text)
            if where is None:
                raise Refused("no ref %s, whose history could be left out" % ascii(text))
            left_out |= objects.history(objects.commits_of([bytes.fromhex(where.decode())]), left_out)
        chosen, todo = {}, list(tips)
        while todo:
            commit = todo.pop()
            if commit not in chosen and commit not in left_out and (self._since is None or objects.time(commit) >= self._since):
                chosen[commit] = objects.parents(commit)
                todo += chosen[commit]
        if not chosen:
            raise Refused("no commits of the history are so new, or none is left")
        inside = {commit for commit, parents in chosen.items() if all(parent in chosen for parent in parents)}
        return (chosen.keys() | set(tips)) - inside, inside


def objects_for(objects, wants, haves, shallows):
    """The objects that the client is to have and hasn't: of each commit that it will have, the trees and blobs too."""
    wants, haves = ([bytes.fromhex(text.decode()) for text in texts] for texts in (wants, haves))
    seen = set()
    objects.reached(objects.history(objects.commits_of(haves), shallows.had), seen)
    commits = objects.history([*objects.commits_of(wants), *shallows.deeper], shallows.ends)
    return objects.reached([*wants, *commits], seen)
