"""The refs that the server advertises, and what the front end adds to them."""
from .packets import FLUSH, packet

ZERO_ID = b"0" * 40
HEADS = b"refs/heads/"
NO_REFS = b"capabilities^{}"


class Refs:
    """The lines of an advertisement: names and ids as they stand there, and the words behind the first."""

    def __init__(self, lines):
        first, _, self.words = lines[0].rstrip(b"\n").partition(b"\0")
        self.rows = [(first[41:], first[:40])] + [(line[41:].rstrip(b"\n"), line[:40]) for line in lines[1:]]
        if self.rows[0][0] == NO_REFS:
            self.rows = []
        self.ids = dict(self.rows)

    def advertise(self, client, words):
        """The same lines, with these words behind the first."""
        rows = self.rows or [(NO_REFS, ZERO_ID)]
        client.write(packet(b"%s %s\0%s\n" % (rows[0][1], rows[0][0], b" ".join(words))))
        for name, where in rows[1:]:
            client.write(packet(b"%s %s\n" % (where, name)))
        client.write(FLUSH)
        client.flush()

    def put_head(self, chosen):
        """Puts the line of `HEAD` in front, and returns the branch that it is at, or None where there is no branch."""
        branch = self.default_branch(chosen)
        if branch:
            self.rows = [(b"HEAD", self.ids[branch])] + [row for row in self.rows if row[0] != b"HEAD"]
            self.ids = dict(self.rows)
        return branch

    def default_branch(self, chosen):
        """The branch that the setup chose where it is there, else master, main, or the first by name."""
        branches = [name for name, _ in self.rows if name.startswith(HEADS) and not name.endswith(b"^{}")]
        for name in chosen, HEADS + b"master", HEADS + b"main":
            if name in self.ids:
                return name
        return branches[0] if branches else None

    def resolve(self, text):
        """The id of the ref that a person names so (gitrevisions, "refname")."""
        for form in b"%s", b"refs/%s", b"refs/tags/%s", b"refs/heads/%s":
            if form % text in self.ids:
                return self.ids[form % text]
        return None


def chosen_branch(path, repository):
    """The default branch that a file of the setup chooses for a repository: lines `REPOSITORY BRANCH`, of which the last counts, `#` begins
    a comment, and `*` is any repository."""
    branch = b""
    if path:
        with open(path, "rb") as file:
            for line in file:
                words = line.partition(b"#")[0].split()
                if len(words) == 2 and words[0] in (b"*", repository.encode()):
                    branch = HEADS + words[1].removeprefix(HEADS)
    return branch
