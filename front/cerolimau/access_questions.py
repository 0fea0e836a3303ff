"""Who may do what by a conf: questions, and the answers of the programs that ask its rules."""
import collections
import re
import subprocess

from .admin_files import MAIN, ask_rules
from .names import is_user
from .streams import Refused

CHANGES = "create", "forward", "rewind", "delete"
FACTS = {"create": "create commits", "forward": "update commits forward", "rewind": "update commits", "delete": "delete commits"}
RULE = re.compile(r"([0-9]+) (\S+) (\S+) (\S+) (\S+) (\S+) ([0-9]+)")

Rule = collections.namedtuple("Rule", "number repository permission refex user file line")
Answer = collections.namedtuple("Answer", "letter word number")  # the word is allowed, denied or fallthru; the number is the deciding rule's, or 0


class Conf:
    """The files of a conf, and the rules that it comes to."""

    def __init__(self, name, files, program):
        self.name, self.files, self.program = name, files, program
        if MAIN not in files:
            raise Refused("%s has no file %s" % (name, MAIN))
        rules, repositories = ask_rules(program, files, ["rules", "repos"])
        if not rules or not rules[-1].startswith("ok "):
            raise Refused("%s: %s" % (name, " ".join(rules)))
        self.rules = [Rule(*found.groups()) for found in map(RULE.fullmatch, rules) if found]
        self.warnings = [line for line in rules[:-1] if not RULE.fullmatch(line)]
        self.repositories = repositories[0].split()[1:]
        self.lines = {name: data.decode(errors="replace").split("\n") for name, data in files.items()}

    def users(self):
        """The users whom its rules name, themselves or as members of groups, in the order of mention."""
        said = ask_rules(self.program, self.files, ["groups"])[0]
        members = {line.split()[1]: line.split()[3:] for line in said if line.startswith("rule ")}
        found = [user for rule in self.rules for user in members.get(rule.number, [rule.user])]
        return [user for user in dict.fromkeys(found) if is_user(user)]


class Questions:
    """What is asked: repositories with their creators and roles, users, and refs."""

    def __init__(self, repositories, users, refs):
        self.repositories, self.users, self.refs = repositories, users, refs

    @staticmethod
    def of(confs, refs):
        """All that the confs name."""
        repositories = dict.fromkeys(name for conf in confs for name in conf.repositories)
        return Questions([(name, "", []) for name in repositories], list(dict.fromkeys(user for conf in confs for user in conf.users())), list(refs))

    @staticmethod
    def read(text):
        asked = Questions([], [], [])
        for number, line in enumerate(text.splitlines(), 1):
            words = line.split(" ")
            if words[0] == "repo" and (len(words) == 2 or len(words) == 4 and words[2] == "creator"):
                asked.repositories.append((words[1], words[3] if len(words) == 4 else "", []))
            elif words[0] == "role" and len(words) == 3 and asked.repositories:
                asked.repositories[-1][2].append((words[1], words[2]))
            elif words[0] in ("user", "ref") and len(words) == 2:
                (asked.users if words[0] == "user" else asked.refs).append(words[1])
            else:
                raise Refused("bad question at line %d" % number)
        return asked

    def text(self):
        lines = []
        for name, creator, roles in self.repositories:
            lines.append("repo %s creator %s" % (name, creator) if creator else "repo %s" % name)
            lines += ["role %s %s" % role for role in roles]
        return "".join(line + "\n" for line in [*lines, *("user " + user for user in self.users), *("ref " + ref for ref in self.refs)])

    def keys(self):
        """Each question, in order: a place of a repository, a user, and `read`, `write`, or a ref and a change."""
        for place, _ in enumerate(self.repositories):
            for user in self.users:
                yield place, user, "read", ""
                yield place, user, "write", ""
                for ref in self.refs:
                    for change in CHANGES:
                        yield place, user, ref, change


def answers(conf, asked, program, server):
    """The answers by their keys, and the numbers of the idle rules: those that cover an asked repository and decide no question."""
    if len(conf.files) == 1 and has_command([program], "access"):
        return one_file(conf, asked, program)
    if has_command([server, "--help"], "report"):
        return all_files(conf, asked, server)
    return by_rules(conf, asked)


def has_command(words, command):
    """Whether what a program prints of itself names a command."""
    try:
        return " %s" % command in subprocess.run(words, stdin=subprocess.DEVNULL, stdout=subprocess.PIPE, text=True).stdout
    except OSError:
        return False


def frame(word, data):
    return b"%s %d\n%s\n" % (word, len(data), data)


def one_file(conf, asked, program):
    return by_report(conf, asked, [program, "access"], frame(b"conf", conf.files[MAIN]))


def all_files(conf, asked, server):
    files = (frame(b"file", b"first %s\n%s" % (name.encode(), data)) for name, data in conf.files.items())
    return by_report(conf, asked, [server, "report"], b"".join(files))


def by_report(conf, asked, words, frames):
    ran = subprocess.run(words, input=frame(b"ask", asked.text().encode()) + frames, stdout=subprocess.PIPE)
    lines = ran.stdout.decode(errors="replace").splitlines()
    if ran.returncode:
        raise Refused("%s: %s" % (conf.name, " ".join(lines) or "%s ended with %d" % (words[0], ran.returncode)))
    found = {}
    for key, line in zip(asked.keys(), lines):
        words = line.split(" ")
        at = next(at for at in range(len(words) - 1, 0, -1) if words[at] in ("allowed", "denied", "fallthru"))
        found[key] = Answer(words[at - 1], words[at], words[at + 2] if words[at] != "fallthru" else "")
    return found, lines[-1].split()[1:]


def by_rules(conf, asked):
    """The same by `access_rows`, which reads all files: the letter of each change first, and then each verdict. Rules of patterns aren't called idle, since
    it doesn't say which of them cover a repository."""
    found, covering = {}, set()
    for place, (name, creator, roles) in enumerate(asked.repositories):
        before = ["creator %s" % creator if creator else "creator", *("role %s %s" % role for role in roles)]
        asks = [*before, "numbers " + name]
        for ref in asked.refs:
            asks += ["letter %s %s%s" % (name, FACTS[change], " tag" * ref.startswith("refs/tags/")) for change in CHANGES]
        said = ask_rules(conf.program, conf.files, asks)[len(before):]
        covering |= {number for line in said[0][1:3] for number in line.split() if number.isdigit()}
        letters = {(ref, change): said[1 + at * len(CHANGES) + number][0] for at, ref in enumerate(asked.refs) for number, change in enumerate(CHANGES)}
        keys = [key for key in asked.keys() if key[0] == place]
        said = ask_rules(conf.program, conf.files, [*before, *(question(name, key, letters) for key in keys)])[len(before):]
        for key, lines in zip(keys, said):
            words = lines[0].split()
            letter = {"read": "R", "write": "W"}.get(key[2]) or letters[key[2], key[3]]
            found[key] = Answer(letter, words[0], words[1] if len(words) > 1 else "")
    decided = {answer.number for answer in found.values()}
    return found, sorted(covering - decided, key=int)


def question(name, key, letters):
    _, user, what, change = key
    if what in ("read", "write"):
        return "open %s %s %s" % (user, name, what[0].upper())
    return "change %s %s %s %s" % (user, name, letters[what, change], what)
