#!/usr/bin/env python3
"""Compares which lines of a conf are taken, and what they come to, with a real Gitolite: compare_lines.py PROGRAM [CONFS [SEED]]

It needs what compare_gitolite.py needs. Each of CONFS random confs (40, drawn from SEED, 1) has a few rules for two users in two repositories, and one or two lines
whose spaces, words, permissions, refexes, users and options are drawn with less care. Where both take the conf, each user is asked for in each repository: reading, writing,
and creating two branches. A conf that the program refuses has to be one of which Gitolite ignores a line with a warning, or the line has to be of a kind that
docs/ACCESS.md names; and so the other way round. It ends with 1 where something else differs.
"""
import os, random, re, subprocess, sys, tempfile
from compare_gitolite import EMPTY, HERE, ROOT, ZERO, Gitolite, conf_push, gitolite_home, name_of, open_conf, packet, push, replies

NAMES = ["ann", "bob", "@g", "@h", "@all", "a.b", "CREATOR", "READERS", "Ann", "ann@x"]
REPOS = ["a", "b", "@f", "a b", "a.git", "@all", "[ab]", "a.*", "x/..*", "A", "b-1", "a/b"]
REFEXES = ["master", "master$", "dev", "refs/heads/m", "refs/tags/", "[m]", "dev master", "@r", "m.*r", "/x/", "NAME/x", "m+", "(master|dev)", "ma?ster", "^master", "\\w+", "d[ev]{2}", "v1.0"]
PERMS = ["R", "RW", "RW+", "RWC", "RW+C", "RWD", "RWCD", "RWDC", "RW+DC", "RWM", "RW+CDM", "RW+DCM", "-", "C", "RC", "R+", "W", "RWCM", "RWMC", "rw", "RW+CC", "RW++"]
OTHERS = ["# c", "", "   ", "#", 'desc = "x y"', "config core.x = 1", "owner = z", "category = q", "= begin testconf", "hello", 'include "none.conf"', "desc=x", "gitweb.owner = x"]
QUESTIONS = [("R", "any"), ("W", "any"), ("C", "refs/heads/master"), ("C", "refs/heads/dev")]

# lines that Gitolite takes and the program doesn't, and what Gitolite refuses and the program takes, by
# docs/ACCESS.md
REFUSED_HERE = [r"option \S+ = \S+ \S", r"\S+ \^", r"= begin testconf", r"include "]
REFUSED_THERE = [r"git config '.*' not allowed"]


# ---- confs


def draw_conf(draws):
    rules = ["repo a", "R = zed", "repo b", "R = zed"]
    for _ in range(draws.randint(1, 3)):
        rules.append("repo " + draws.choice(["a", "b", "a b", "@f", "@all"]))
        for _ in range(draws.randint(1, 2)):
            rules.append("%s = %s" % (draws.choice(["RW", "R", "RW+", "RWC"]), draws.choice(["ann", "bob", "@g", "@all"])))
    for _ in range(draws.randint(1, 2)):
        rules.insert(draws.randint(4, len(rules)), draw_line(draws))
    return "\n".join(["@g = ann", "@h = bob", "@f = a", "@r = master", *rules, "repo gitolite-admin", "RW+ = admin"]) + "\n"


def draw_line(draws):
    kind, equals = draws.random(), draws.choice([" = ", " = ", " = ", "=", " =", "= ", "\t=\t", "  =  "])
    if kind < 0.12:
        members = draws.sample(["ann", "bob", "a", "b", "master", "dev", "@g", "@h"], draws.randint(0, 2))
        return "@%s%s%s" % (draws.choice(["g", "h", "f", "r", "G", "g-1"]), equals, " ".join(members))
    if kind < 0.3:
        return "repo%s%s" % (draws.choice([" ", " ", "  ", "\t"]), draws.choice(REPOS))
    if kind < 0.38:
        return "option%s%s%s%s" % (draws.choice([" ", "  "]), draws.choice(["deny-rules", "deny-rules", "x"]), equals, draws.choice(["1", "0", "1", "", "1 2"]))
    if kind < 0.42:
        return draws.choice(OTHERS)
    perm = draws.choice(PERMS) if draws.random() < 0.35 else draws.choice(["R", "RW", "RW+", "RWC", "-", "RW+CD"])
    refex = " " + draws.choice(REFEXES) if draws.random() < 0.45 else ""
    users = draws.sample(NAMES, draws.randint(1, 2)) if draws.random() < 0.3 else [draws.choice(["ann", "bob", "@g", "@all"])]
    end = draws.choice([" # c", "# c", "\r", ' "# c', '#" x', "  "]) if draws.random() < 0.12 else ""
    return draws.choice(["", "    ", "\t"]) + perm + refex + equals + " ".join(users) + end


# ---- the answers, or that the conf is refused: None, and why


def ask_gitolite(home, conf):
    with open(home + "/.gitolite/conf/gitolite.conf", "w") as it:
        it.write(conf)
    ran = subprocess.run(["gitolite", "compile"], env=dict(os.environ, HOME=home), stdout=subprocess.PIPE, stderr=subprocess.STDOUT, text=True)
    if ran.returncode:
        return None, ran.stdout
    told, there = {}, Gitolite(home, {"gitolite.conf": conf})
    for letter, ref in QUESTIONS:
        for repo, user, said in there.access(letter, ref, ["a", "b"], ["ann", "bob"]):
            told[repo, user, letter, ref] = "DENIED" not in said
    return told, ran.stdout


def ask_program(program, conf):
    made, head = conf_push(open_conf(["a", "b"]), None)
    sessions = [(None, made), ("conf", conf_push({"gitolite.conf": conf}, head)[0])]
    for repo in "a", "b":
        for user in "ann", "bob":
            for letter, ref in QUESTIONS:
                opening = b"%s git-%s-pack '%s'" % (user.encode(), b"upload" if letter == "R" else b"receive", repo.encode())
                commands = [(ZERO, name_of(*HERE), ref), (name_of(*ROOT), ZERO, "refs/heads/a..b")]
                text = packet(opening) + b"0000" if ref == "any" else push(user, repo, commands, [HERE, ROOT, EMPTY], b"report-status atomic")
                sessions.append(((repo, user, letter, ref), text))
    told = {}
    for what, end, reply in replies(program, sessions):
        if what == "conf" and b"ok refs/heads/master" not in reply:
            said = re.search(rb"gitolite\.conf line (\d+): ([^\n]*)", reply)
            return None, conf.split("\n")[int(said.group(1)) - 1], said.group(2).decode()
        if what not in (None, "conf"):
            told[what] = end == "served" and b"DENIED" not in reply
    return told, None, None


def is_named(line):
    return any(re.match(kind, " ".join(re.sub("=", " = ", line, count=1).split())) for kind in REFUSED_HERE)


def is_ignored(line, warned):
    """Gitolite ignores this line with a warning, which has the line without its comment, with other spaces, and with `VREF/` before `NAME/`."""
    ignored = re.findall("syntax error, ignoring: '(.*)'", warned)
    return any("".join(line.split()).startswith("".join(it.replace("VREF/NAME", "NAME").split())) for it in ignored)


def main(program, confs="40", seed="1"):
    draws, both, count, refused, differ = random.Random(int(seed)), 0, 0, 0, 0
    with tempfile.TemporaryDirectory(prefix="compare-lines-") as home:
        gitolite_home(home)
        for _ in range(int(confs)):
            conf = draw_conf(draws)
            theirs, warned = ask_gitolite(home, conf)
            ours, line, why = ask_program(program, conf)
            if theirs is None or ours is None:
                refused += 1
                is_due = theirs is None and ours is None
                is_due |= theirs is not None and (is_ignored(line, warned) or is_named(line))
                is_due |= theirs is None and any(re.search(kind, warned) for kind in REFUSED_THERE)
                if not is_due:
                    differ += 1
                    print("of\n%s\nGitolite says %r, the program %r of %r" % (conf, warned[-300:], why, line))
                continue
            both, count = both + 1, count + len(theirs)
            for what, said in theirs.items():
                if ours[what] != said:
                    differ += 1
                    print("%s: Gitolite says %s, the program %s, of\n%s" % (what, said, ours[what], conf))
    print("%d confs, %d taken by both, %d answers; %d refused by one or both: %d differ" % (int(confs), both, count, refused, differ))
    return 1 if differ or not both else 0


if __name__ == "__main__":
    sys.exit(main(*sys.argv[1:]))
