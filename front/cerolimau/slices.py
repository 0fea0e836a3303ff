"""A push of more than one push may have: it is cut along its history, parents first, into pushes that each move a branch on.

A slice in which no branch moves, as one of the trees of a first commit that alone is too large, is held by a ref of its own below
refs/slices/, which is deleted behind it. The rules are asked of each.
"""
import os
import re

from .objects import parents_of, target_of, tree_of
from .push import MAX_COMMANDS, send_push
from .raw_pack import BLOB, COMMIT, MAX_BODIES, TAG, TREE
from .refs import ZERO_ID
from .streams import Refused

TREE_NAMES = re.compile(rb"[0-7]+ [^\0]*\0(.{20})", re.DOTALL)


def push_slices(client, sessions, rows, pack, most):
    """What becomes of each command, where a slice has so many objects at most."""
    slices = Plan(pack, rows, most).slices
    client.show_progress("%d objects are pushed in %d slices" % (len(pack.entries), len(slices)))
    pushing = Pushing(sessions, rows, pack)
    for number, part in enumerate(slices):
        client.show_progress("slice %d of %d: %d objects" % (number + 1, len(slices), len(part.entries)))
        if part is slices[-1] or not pushing.advance(part):
            pushing.finish(part.entries if part is slices[-1] else [])
            break
    return pushing.outcomes()


class Slice:
    """Entries of the pack, and to which commits branches move with them."""

    def __init__(self, most):
        self.entries = []
        self.bytes = 0
        self.moves = {}  # the new place by the number of the command
        self._most = most

    def fits(self, count, size):
        return len(self.entries) + count <= self._most and self.bytes + size <= MAX_BODIES

    def add(self, entries):
        self.entries += entries
        self.bytes += sum(entry.size for entry in entries)


class Plan:
    """How a push is cut. Each slice is whole with those before it: what its objects lead to is in them, or at the server. Objects that no
    ref of the push leads to are left out."""

    def __init__(self, pack, rows, most):
        self._pack = pack
        self._most = most
        self._entries = {entry.name: entry for entry in pack.entries}
        self._parents = {}  # of the commits of the pack, once they are read
        self._placed = set()
        self.slices = [Slice(most)]
        for number, (old, new, ref) in enumerate(rows):
            self._place_ref(number, old, bytes.fromhex(new.decode()), ref)

    def _place_ref(self, number, old, name, ref):
        tags = []
        while name in self._entries and self._entries[name].kind == TAG:
            tags.append(self._entries[name])
            name = target_of(self._pack.body(self._entries[name]))
        entry = self._entries.get(name)
        if entry and entry.kind == COMMIT:
            commits = self._new_history(name)
            carried = set() if tags or ref.startswith(b"refs/tags/") else self._path(bytes.fromhex(old.decode()), name, commits)
            for commit in commits:
                self._place([*self._new_below(tree_of(self._body(commit))), self._entries[commit]])
                if commit in carried:
                    self.slices[-1].moves[number] = commit
        elif entry:
            self._place(self._new_below(name))
        self._place([tag for tag in reversed(tags) if tag.name not in self._placed])

    def _body(self, name):
        return self._pack.body(self._entries[name])

    def _new_history(self, tip):
        """The commits that the tip leads to and that have no place yet, each behind its parents, and first those of first parents."""
        commits, seen, todo = [], set(), [(tip, False)]
        while todo:
            name, has_parents = todo.pop()
            if has_parents:
                commits.append(name)
            elif name not in seen and name not in self._placed and name in self._entries:
                seen.add(name)
                todo.append((name, True))
                todo += [(parent, False) for parent in reversed(self._parents_of(name))]
        return commits

    def _parents_of(self, name):
        if name not in self._parents:
            self._parents[name] = parents_of(self._body(name)) if self._entries[name].kind == COMMIT else []
        return self._parents[name]

    def _path(self, old, tip, commits):
        """The commits by which the branch comes to its tip, each a child of the one before. They begin at what it was at, where these
        commits say so."""
        ahead = {old}
        for commit in commits:
            if not ahead.isdisjoint(self._parents_of(commit)):
                ahead.add(commit)
        path, new = set(), set(commits)
        while tip in new:
            path.add(tip)
            parents = self._parents_of(tip)
            tip = next((parent for parent in parents if parent in ahead), None) if tip in ahead else parents[0] if parents else None
        return path

    def _new_below(self, name):
        """The trees and blobs that a tree leads to and that have no place yet, each behind what it leads to."""
        entries, todo = [], [(name, False)]
        while todo:
            name, is_read = todo.pop()
            entry = self._entries.get(name)
            if is_read:
                entries.append(entry)
            elif entry and name not in self._placed and entry.kind in (TREE, BLOB):
                self._placed.add(name)
                if entry.kind == BLOB:
                    entries.append(entry)
                    continue
                todo.append((name, True))
                todo += [(below, False) for below in TREE_NAMES.findall(self._pack.body(entry)) if below not in self._placed]
        return entries

    def _place(self, entries):
        """Puts entries into the last slice, and begins another where they don't fit. What is too large for any is cut."""
        size = sum(entry.size for entry in entries)
        self._placed.update(entry.name for entry in entries)
        if not self.slices[-1].fits(len(entries), size) and self.slices[-1].entries:
            self.slices.append(Slice(self._most))
        if self.slices[-1].fits(len(entries), size):
            self.slices[-1].add(entries)
            return
        for entry in entries:
            if not self.slices[-1].fits(1, entry.size):
                self.slices.append(Slice(self._most))
            self.slices[-1].add([entry])


class Pushing:
    """Slices on their way: where each ref is, what was refused, and the refs that hold slices."""

    def __init__(self, sessions, rows, pack):
        self._sessions = sessions
        self._pack = pack
        self._rows = rows
        self._places = [old for old, _, _ in rows]
        self._refusals = {}  # by the number of the command
        self._stopped = None  # why no more is pushed
        self._holders = []  # commands that delete the refs that hold slices
        self._prefix = b"refs/slices/" + os.urandom(4).hex().encode()

    def advance(self, part):
        """Pushes a slice that isn't the last. Returns whether the next can follow."""
        moves = {number: commit.hex().encode() for number, commit in part.moves.items() if number not in self._refusals}
        return self._move(moves, part.entries) or self._hold(part)

    def finish(self, entries):
        """Pushes all commands that aren't done yet, with these entries. Behind a slice that was refused they are none, and then those are
        done whose objects are there all the same."""
        left = [number for number, (_, new, _) in enumerate(self._rows) if number not in self._refusals and self._places[number] != new]
        stopped = self._stopped
        for at in range(0, len(left), MAX_COMMANDS):
            self._move({number: self._rows[number][1] for number in left[at:at + MAX_COMMANDS]}, entries)
            entries = []
        if stopped:
            for number in left:
                if self._refusals.get(number, b"").startswith(b"missing object "):
                    self._refusals[number] = stopped

    def outcomes(self):
        self._delete_holders()
        return [self._outcome(number) for number in range(len(self._rows))]

    def _move(self, places, entries):
        """Moves refs to these places with these objects. Returns whether some ref was moved, so that the objects are there."""
        rows = [(self._places[number], new, self._rows[number][2]) for number, new in places.items()]
        outcomes = self._push(rows, entries) if rows else []
        for (number, new), outcome in zip(places.items(), outcomes):
            if outcome == b"ok":
                self._places[number] = new
            else:
                self._refusals[number] = outcome
        return b"ok" in outcomes

    def _hold(self, part):
        ref, where = b"%s/%d" % (self._prefix, len(self._holders)), part.entries[-1].name.hex().encode()
        outcome, = self._push([(ZERO_ID, where, ref)], part.entries)
        if outcome != b"ok":
            self._stopped = self._stopped or b"a slice of the push was refused: " + next(iter(self._refusals.values()), outcome)
            return False
        self._holders.append((where, ZERO_ID, ref))
        return True

    def _push(self, rows, entries):
        """What becomes of each of these commands."""
        try:
            unpacked, outcomes = send_push(self._sessions, rows, b"report-status", self._pack, entries)
        except Refused as refused:
            unpacked = str(refused).encode()
        if unpacked == b"ok":
            return outcomes
        self._stopped = unpacked
        return [unpacked] * len(rows)

    def _delete_holders(self):
        for at in range(0, len(self._holders), MAX_COMMANDS):
            try:
                send_push(self._sessions, self._holders[at:at + MAX_COMMANDS], b"report-status", None, [])
            except Refused:
                pass  # they stay, and can be deleted by hand

    def _outcome(self, number):
        old, new, _ = self._rows[number]
        if self._places[number] == new and number not in self._refusals:
            return b"ok"
        reason = self._refusals.get(number) or self._stopped or b"not pushed"
        if self._places[number] != old:
            reason += b"; it is at %s, an older commit of the push" % self._places[number]
        return reason
