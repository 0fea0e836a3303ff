"""`help`, `info` and `perms`: the server answers with lines, up to a flush."""
from .ends import ServerRefused
from .packets import FLUSH
from .streams import Refused

REFUSALS = b"perms: no such role\n", b"perms: not a wild repository of yours\n"
USAGES = {
    "help": "help",
    "info": "info [TEXT]",
    "perms": "perms REPOSITORY -l | perms [-c] REPOSITORY + ROLE USER .. | perms REPOSITORY - ROLE USER ..",
    "git-upload-pack": "git-upload-pack 'REPOSITORY'",
    "git-receive-pack": "git-receive-pack 'REPOSITORY'",
}
HELP = """\
%s

git clone, git fetch and git push, and these, as in `ssh HOST info`:

    help                                  this text
    info [TEXT]                           the repositories that you may read (R) and write (R W), and the patterns of those that you
                                          may make (C); with TEXT those alone that have it in their names
    perms REPOSITORY -l                   who has which role in a repository that you made
    perms REPOSITORY + ROLE USER ..       gives the role to these users, as in `perms REPOSITORY + READERS bob`
    perms REPOSITORY - ROLE USER ..       takes it from them
    perms -c REPOSITORY + ROLE USER ..    makes the repository, where it isn't there, and gives the role
"""


class BadCommand(Refused):
    """A command that hasn't its form."""

    def __init__(self, word):
        super().__init__("bad command; usage: " + USAGES[word])


def talk(client, sessions, user, words):
    """Returns the exit status."""
    if words[0] in ("help", "-h", "--help") or words[1:] in (["-h"], ["--help"]):
        client.write((HELP % ("hello " + user)).encode())
        return 0
    if words[0] == "info":
        return info(client, sessions, words[1:])
    return perms(client, sessions, words[1:])


def info(client, sessions, words):
    if len(words) > 1 or words and words[0].startswith("-"):
        raise BadCommand("info")
    hello, *lines = sessions.ask("info")
    client.write(hello)
    for line in lines:
        if not words or words[0].encode() in line.partition(b"\t")[2]:
            client.write(line)
    return 0


def perms(client, sessions, words):
    is_made = words[:1] == ["-c"]
    words = words[is_made:]
    if sorted(word == "-l" for word in words) == [False, True] and not is_made:
        name = next(word for word in words if word != "-l")
        return pass_lines(client, sessions, "perms -l %s" % name)
    if len(words) < 4 or words[1] not in ("+", "-"):
        raise BadCommand("perms")
    if is_made:
        server, _ = sessions.open("git-receive-pack %s" % words[0])
        server.send(FLUSH)
        server.close()
    return max([pass_lines(client, sessions, "perms %s %s %s %s" % (*words[:3], user)) for user in words[3:]])


def pass_lines(client, sessions, command):
    status = 0
    try:
        for line in sessions.ask(command):
            client.write(line)
            status |= line in REFUSALS
    except ServerRefused as refused:
        if str(refused) == "bad command":
            raise BadCommand("perms") from None
        raise
    return status
