#!/usr/bin/env python3
"""Compares reports of who may do what with what sessions and a real Gitolite decide: compare_report.py PROGRAM [CONFS [SEED]]

Confs are drawn as compare_gitolite.py draws them (10, from SEED, 1), two at a time, with what their second file has written into the first, and without the third. By
the first of two, users open repositories by patterns, by which some are made, and their creators give roles. Then PROGRAM is asked by `access` who may do what over the
second conf, and by a script of sessions each opening and each change of a ref; where the command `gitolite` is there, `gitolite access` is asked too. Each verdict of a
report has to be what happens when the same is tried, and its rule the one that is told. The idle line is reckoned from the lines before it and from what `check` prints;
what changes between the two confs, from a report over each. It ends with 1 where two answers differ.
"""
import os, random, re, shutil, subprocess, sys, tempfile

import compare_gitolite as sessions

def frame(word, text):
    body = text.encode()
    return b"%s %d\n%s\n" % (word.encode(), len(body), body)


def run(program, word, text, statuses=(0,)):
    ran = subprocess.run([os.path.abspath(program), word], input=text, stdout=subprocess.PIPE)
    if ran.returncode not in statuses:
        sys.exit("%s ended with %d: %s" % (word, ran.returncode, ran.stdout.decode(errors="replace")[-300:]))
    return ran.stdout.decode()


def one_file(conf):
    """The main file with the one that it includes, and without the subconf."""
    text = conf["gitolite.conf"].replace('include "more.conf"\n', conf["more.conf"])
    return {"gitolite.conf": text.replace('subconf "s.conf"\n', "")}


def draw_visits(draws):
    visits = [("open", user, repo) for user in sessions.USERS for repo in sessions.WILD]
    draws.shuffle(visits)
    return visits


def draw_roles(draws, declared, creators):
    """Roles that creators give. Each is given once."""
    roles = ["READERS", "WRITERS", *declared]
    given = {(repo, draws.choice(roles), draws.choice(sessions.USERS)) for repo in creators for _ in range(4)}
    return [("change", creators[repo], repo, "+", role, user) for repo, role, user in sorted(given)]


def questions_of(creators, roles):
    """The lines that ask of all repositories that are there, users and refs."""
    lines = ["repo " + repo for repo in sessions.REPOS]
    for repo, creator in creators.items():
        lines.append("repo %s creator %s" % (repo, creator))
        lines += ["role %s %s" % (role, user) for _, _, where, _, role, user in roles if where == repo]
    lines += ["user " + user for user in sessions.USERS] + ["ref " + ref for ref in sessions.REFS]
    return "".join(line + "\n" for line in lines)


class Report:
    """A report over a conf, with the rules that `check` prints of it."""

    def __init__(self, program, asked, conf):
        self.text = run(program, "access", frame("ask", asked) + frame("conf", conf["gitolite.conf"]))
        self.rules = {}
        for line in run(program, "check", conf["gitolite.conf"].encode()).splitlines():
            words = line.split()
            if words[0].isdigit():
                self.rules[int(words[0])] = words
        *lines, last = self.text.splitlines()
        self.idle = [int(word) for word in last.split()[1:]]
        self.verdicts = {}
        for line in lines:
            repo, user, ref, change, letter, verdict = line.split(" ", 5)
            self.verdicts[repo, user, ref, change] = letter, verdict

    def told(self):
        """By question, repository and user: None where it is allowed, else the letter and what denies it, as compare_gitolite.py has it."""
        for (repo, user, ref, change), (letter, verdict) in self.verdicts.items():
            what = {"read": "R", "write": "W"}[change] if ref == "any" else (change, ref)
            yield (what, repo, user), self.denial(user, letter, verdict)

    def denial(self, user, letter, verdict):
        if verdict == "fallthru":
            return letter + " fallthru"
        said, by, number = verdict.split()
        return None if said == "allowed" else "%s %s" % (letter, self.rules[int(number)][3].replace("/USER/", "/%s/" % user))

    def idle_due(self, creators):
        """The rules that cover a repository that is asked of, and whose number no line has."""
        named = {int(verdict.split()[2]) for _, verdict in self.verdicts.values() if verdict != "fallthru"}
        repos = [(repo, None) for repo in sessions.REPOS] + list(creators.items())
        return [number for number, words in self.rules.items() if number not in named and any(covers(words[1], *repo) for repo in repos)]


def covers(word, repo, creator):
    if word == "@all" or word == repo:
        return True
    if not re.search(r"[^-a-zA-Z0-9._@+/]|\.\.", word) and "CREATOR" not in word:
        return False
    return (creator is not None or "CREATOR" not in word) and re.fullmatch(word.replace("CREATOR", creator or ""), repo) is not None


def changes_due(old, new):
    for key, (letter, verdict) in old.verdicts.items():
        other = new.verdicts[key]
        if verdict.startswith("allowed") != other[1].startswith("allowed"):
            yield "%s was %s %s now %s %s\n" % (" ".join(key), letter, verdict, *other)


def compare(program, home, draws):
    """How many verdicts were compared, how many of them with Gitolite, and the differences."""
    confs = [(one_file(conf), declared) for conf, declared in sessions.draw_confs(draws)]
    opens, creators = draw_visits(draws), {}
    for number, end in sorted(sessions.ask_program(program, [confs[0], confs[0]], opens, []).items()):
        if end:
            creators.setdefault(opens[number][2], opens[number][1])
    creators = {repo: creators[repo] for repo in sessions.WILD if repo in creators}
    roles = draw_roles(draws, confs[0][1], creators)
    visits, repos = opens + roles, sessions.REPOS + list(creators)
    done = sessions.ask_program(program, confs, visits, repos)
    roles = [role for number, role in enumerate(roles, len(opens)) if done[number]]
    asked = questions_of(creators, roles)
    old, new = (Report(program, asked, conf) for conf, _ in confs)
    told, differ = dict(new.told()), []
    for key, said in told.items():
        if key in done and done[key] != said:
            differ.append("%s: the report tells %s, a session %s" % (key, said, done[key]))
    compared, with_gitolite = sum(key in done for key in told), 0
    for report in old, new:
        if report.idle != report.idle_due(creators):
            differ.append("idle %s, and due is %s" % (report.idle, report.idle_due(creators)))
    changes = list(changes_due(old, new))
    due = "".join(changes) + "changed %d of %d\n" % (len(changes), len(told))
    if run(program, "access", frame("ask", asked) + b"".join(frame("conf", conf["gitolite.conf"]) for conf, _ in confs)) != due:
        differ.append("another change is printed than that of the two reports")
    if home:
        _, theirs = sessions.ask_gitolite(home, confs, visits)
        for key, said in told.items():
            if key in theirs:
                with_gitolite += 1
                if theirs[key] != said:
                    differ.append("%s: the report tells %s, Gitolite %s" % (key, said, theirs[key]))
    return compared, with_gitolite, [it + "\n" + sessions.text_of(confs[1][0]) + asked for it in differ]


def main(program, confs="10", seed="1"):
    draws, compared, with_gitolite, differ = random.Random(int(seed)), 0, 0, []
    with tempfile.TemporaryDirectory(prefix="compare-report-") as home:
        there = shutil.which("gitolite")
        if there:
            sessions.gitolite_home(home)
        for _ in range(int(confs)):
            more, theirs, found = compare(program, there and home, draws)
            compared, with_gitolite, differ = compared + more, with_gitolite + theirs, differ + found
    print("\n".join(differ[:3]), end="\n" if differ else "")
    print("%s confs: %d verdicts compared with sessions, %d with Gitolite, %d differ" % (confs, compared, with_gitolite, len(differ)))
    sys.exit(1 if differ else 0)


if __name__ == "__main__":
    main(*sys.argv[1:])
