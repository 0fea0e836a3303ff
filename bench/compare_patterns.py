#!/usr/bin/env python3
"""Compares what patterns match with Perl: compare_patterns.py PROGRAM [CONFS [SEED]]

It needs the command `perl` and Python's standard library. Each of CONFS random confs (20, drawn from SEED, 1) has forty refexes, or forty patterns of repositories,
one for each of forty users. PROGRAM is asked by a script of sessions which refs each user may create, or which repositories each may open, and Perl which of their
names the patterns match: refexes from a ref's start, and patterns of repositories whole. A pattern stands in a group for Perl, since an alternation is anchored as
a whole here; with a refex its prefix `refs/heads/` does, which so belongs to the first branch. A pattern that the program refuses is left out and counted:
docs/PATTERNS.md has what it refuses. It ends with 1 where two answers differ, or where it refuses more than one in thirty.
"""
import random, re, subprocess, sys
from compare_gitolite import ADMIN, EMPTY, HERE, ROOT, ZERO, conf_push, name_of, open_conf, packet, push, replies

LETTERS, SIGNS, KINDS = "abcx01_-/", ".+{}()$|-!/^*?[]\\", "dwsDWS"
COUNTS = ["*", "+", "?", "{2}", "{1,2}", "{0,1}", "{1,}", "{0}", "{3}", "{0,2}"]


# ---- patterns


def draw_pattern(draws, of_refs):
    pattern = draw_alternation(draws, 3) if draws.random() < 0.2 else (draw_sequence(draws, 3) or "a") + draws.choice(["", "$"])
    return pattern if of_refs or draws.random() < 0.9 else "^" + pattern


def draw_alternation(draws, depth):
    return "|".join(draw_sequence(draws, depth) for _ in range(draws.choice([1, 1, 1, 2, 3])))


def draw_sequence(draws, depth):
    parts = [draw_atom(draws, depth) + (draws.choice(COUNTS) if draws.random() < 0.25 else "") for _ in range(draws.randint(0, 4))]
    return "".join(parts)


def draw_atom(draws, depth):
    kind = draws.random()
    if kind < 0.45:
        return draws.choice(LETTERS)
    if kind < 0.52:
        return "\\" + draws.choice(SIGNS)
    if kind < 0.60:
        return "\\" + draws.choice(KINDS)
    if kind < 0.66:
        return "."
    if kind < 0.82 or not depth:
        return draw_class(draws)
    return draws.choice(["(", "(", "(?:"]) + draw_alternation(draws, depth - 1) + ")"


def draw_class(draws):
    items = "".join(draw_item(draws) for _ in range(draws.randint(1, 3)))
    items = draws.choice(["", "", "", "", "]", "-"]) + items + draws.choice(["", "", "", "", "", "-"])
    return "[" + draws.choice(["", "", "", "^"]) + items + "]"


def draw_item(draws):
    kind = draws.random()
    if kind < 0.4:
        return draws.choice("abcx01_.+$(|")
    if kind < 0.7:
        return "-".join(sorted(draws.sample(draws.choice(["abcdxyz", "0123"]), 2)))
    if kind < 0.85:
        return "\\" + draws.choice("dws")
    return draws.choice(["\\]", "\\\\", "\\-", "\\^", "\\[", "\\/", "!-/", "+--", "a-"])


# ---- names, some of a pattern's own bytes


def draw_names(draws, pattern, of_refs):
    own = re.sub(r"[\\\[\]^?*]", "", pattern) or "a"
    names, is_good = set(), is_ref_part if of_refs else is_repo_name
    while len(names) < 20:
        letters = draws.choice(["abc01_-+.{}()$|!x/", own + "ab0_"])
        name = "".join(draws.choice(letters) for _ in range(draws.randint(1, 6)))
        if is_good(name):
            names.add(name)
    return sorted(names)


def is_ref_part(name):
    return not re.search(r"\.\.|//|@\{|\.lock(/|$)|(^|/)\.|\.(/|$)|/$|^/|[\x00-\x20~^:?*\[\\\x7f]", name)


def is_repo_name(name):
    return re.fullmatch(r"[0-9a-zA-Z][-0-9a-zA-Z._@+]*(/[-0-9a-zA-Z_@+][-0-9a-zA-Z._@+]*)*", name) and ".." not in name and not name.endswith(".git")


# ---- Perl

PERL = r"""
no warnings;
while (<STDIN>) {
    chomp;
    my ($whole, $pattern, $name) = split /\t/;
    print(($whole ? $name =~ /^(?:$pattern)\z/ : "refs/heads/$name" =~ /^(?:refs\/heads\/$pattern)/) ? "1\n" : "0\n");
}
"""


def ask_perl(asked, of_refs):
    text = "".join("%d\t%s\t%s\n" % (not of_refs, pattern, name) for pattern, name in asked)
    return [line == "1" for line in subprocess.run(["perl", "-e", PERL], input=text, stdout=subprocess.PIPE, check=True, text=True).stdout.split()]


# ---- the program


def conf_of(patterns, of_refs):
    """A conf with a rule, or a block, for each pattern; and at which of its lines the first stands, and how many each takes."""
    if of_refs:
        return ADMIN + "repo r\n" + "".join("    RW %s = u%d\n" % (pattern, user) for user, pattern in enumerate(patterns)), 4, 1
    return ADMIN + "".join("repo %s\n    C = u%d\n    R = u%d\n" % (pattern, user, user) for user, pattern in enumerate(patterns)), 3, 3


def ask_program(program, patterns, asked, of_refs):
    """The answers, or the place of a pattern that is refused."""
    conf, first, lines = conf_of(patterns, of_refs)
    made, head = conf_push(open_conf(["r"]), None)
    sessions = [(None, made), ("conf", conf_push({"gitolite.conf": conf}, head)[0])]
    for user, name in asked:
        if of_refs:
            commands = [(ZERO, name_of(*HERE), "refs/heads/" + name), (name_of(*ROOT), ZERO, "refs/heads/a..b")]
            sessions.append(("ask", push("u%d" % user, "r", commands, [HERE, ROOT, EMPTY], b"report-status atomic")))
        else:
            sessions.append(("ask", packet(b"u%d git-upload-pack '%s'" % (user, name.encode())) + b"0000"))
    told = []
    for what, end, reply in replies(program, sessions):
        if what == "conf" and b"ok refs/heads/master" not in reply:
            return int(re.search(rb"gitolite\.conf line (\d+): (bad pattern|pattern)", reply).group(1)) // lines - first // lines, None
        if what == "ask":
            if of_refs and (b"DENIED" in reply) == (b"atomic push refused" in reply):
                sys.exit("no verdict: %r" % reply[-300:])
            told.append(b"DENIED" not in reply if of_refs else end == "served")
    return None, told


def main(program, confs="20", seed="1"):
    draws, count, matched, taken, refused, differ = random.Random(int(seed)), 0, 0, 0, 0, 0
    for number in range(int(confs)):
        of_refs = number % 2 == 0
        patterns = [draw_pattern(draws, of_refs) for _ in range(40)]
        # an empty word is none, and one that is a name names one repository
        patterns = [it for it in patterns if it and (of_refs or not is_repo_name(it))]
        names = {pattern: draw_names(draws, pattern, of_refs) for pattern in patterns}
        told = None
        while told is None:
            asked = [(user, name) for user, pattern in enumerate(patterns) for name in names[pattern]]
            bad, told = ask_program(program, patterns, asked, of_refs)
            if told is None:
                refused += 1
                del patterns[bad]
        taken += len(patterns)
        theirs = ask_perl([(patterns[user], name) for user, name in asked], of_refs)
        for (user, name), one, other in zip(asked, told, theirs, strict=True):
            count, matched = count + 1, matched + other
            if one != other:
                differ += 1
                print("%s and %s: Perl says %s, the program %s" % (patterns[user], name, other, one))
    print("%d confs, %d patterns, %d more refused, %d answers, %d of them matches: %d differ" % (int(confs), taken, refused, count, matched, differ))
    return 1 if differ or not matched or refused * 29 > taken else 0


if __name__ == "__main__":
    sys.exit(main(*sys.argv[1:]))
