#!/usr/bin/env python3
"""Compares what becomes of pushes with a real Gitolite: compare_pushes.py PROGRAM [CONFS [SEED]]

It needs what compare_gitolite.py needs. For each of CONFS random confs (5, drawn from SEED, 1), whose rules ask for changed paths and for merges too, it asks
Gitolite's own update hook, in its own repositories, and PROGRAM by a script of sessions, whether each user who may open a repository may make each change to each
ref; and which rule denies it, and for which path. The changes are creates, deletes, moves forward and back and to the side, and such that bring a merge, of commits whose trees
differ in a few files. Before the hook is asked `gitolite access` is, as Gitolite does at a push. The confs keep to what both decide alike: docs/ACCESS.md has
where they part. It ends with 1 where two verdicts differ.
"""
import os, random, re, sys, tempfile
from concurrent.futures import ThreadPoolExecutor
from compare_gitolite import ADMIN, ZERO, Gitolite, conf_push, gitolite_home, name_of, open_conf, push, replies, tree_of, write_objects

USERS = ["u1", "u2", "u3"]
REPOS = ["r1", "r2"]
REFS = ["refs/heads/master", "refs/heads/dev/x", "refs/heads/personal/u2/a", "refs/tags/v1"]
REFEXES = ["", "", "master", "dev/", "personal/USER/", "refs/tags/", "refs/heads/[d-p]"]
PATHS = ["NAME/", "NAME/src/", "NAME/src/[a-z]+\\.c$", "NAME/docs/", "NAME/secret$", "NAME/[A-M]", "VREF/NAME/docs/secret", "VREF/NAME/.*\\.c$", "NAME/USER/"]
MERGES = ["VREF/MERGE-CHECK", "VREF/MERGE-CHECK/master", "VREF/MERGE-CHECK/dev"]
PERMS = ["R", "RW", "RW", "RW+", "RW+", "RWC", "RW+C", "RW+D", "RWCD", "RW+CD", "RWM", "RW+M", "RWCM", "RW+CDM", "-"]


def draw_conf(draws):
    """A conf of two blocks or three, of which one in two has rules of paths and the others one of merges."""
    lines = [ADMIN + "    RW+ NAME/ VREF/MERGE-CHECK = admin", "@g = " + " ".join(draws.sample(USERS, 2)), "repo " + " ".join(REPOS), "    R = nobody"]
    users = [*USERS, "@g", "@all"]
    kind = draws.choice([PATHS, [draws.choice(MERGES)]])
    for _ in range(draws.randint(2, 3)):
        lines.append("repo " + draws.choice([*REPOS, "@all", "r[12]", " ".join(REPOS)]))
        rules = ["    %s %s = %s" % (draws.choice(["-", "-", "-", "RW", "RW+", "RWC"]), draws.choice(kind), draws.choice(users)) for _ in range(draws.randint(1, 3))]
        for _ in range(draws.randint(1, 3)):
            rules.append("    %s %s = %s" % (draws.choice(PERMS), draws.choice(REFEXES), draws.choice(users)))
        draws.shuffle(rules)
        lines += rules
    return {"gitolite.conf": "\n".join([*lines, "repo " + " ".join(REPOS), "    RW+ = " + draws.choice(users)]) + "\n"}


# ---- commits whose trees differ in a few files


def text_of(path, version):
    """A file's text, which is like that of no other file or version, so that no renaming is found."""
    return b"".join(b"%s\n" % name_of(b"blob", b"%s %d %d" % (path.encode(), version, line)).hex().encode() for line in range(3))


def files_of(changes={}):
    """The base's files, with other versions of some, or none; each has a text of its own by its path and version."""
    files = dict.fromkeys(["Makefile", "README", "secret", "src/a.c", "src/lib/b.c", "docs/x", "docs/secret", "u2/x"], 1) | changes
    return {path: (b"100644", text_of(path, version)) for path, version in files.items() if version}


def commit(text, files, *parents):
    lines = b"tree %s\n" % tree_of(files, OBJECTS).hex().encode() + b"".join(b"parent %s\n" % it.hex().encode() for it in parents)
    made = b"commit", lines + b"author a <a> 1 +0000\ncommitter a <a> 1 +0000\n\n" + text
    OBJECTS[name_of(*made)] = made
    return name_of(*made)


OBJECTS = {}
CODE_FILES = {"src/a.c": 2}
DOCS_FILES = {"docs/new": 1, "secret": None, "docs/secret": 2}
BASE = commit(b"base", files_of())
SAME = commit(b"the same files", files_of(), BASE)
CODE = commit(b"code", files_of(CODE_FILES), BASE)
DOCS = commit(b"docs", files_of(DOCS_FILES), BASE)
MORE = commit(b"more", files_of(CODE_FILES | {"Makefile": 2, "u2/x": None}), CODE)
BOTH = commit(b"merge", files_of(CODE_FILES | DOCS_FILES), CODE, DOCS)
BACK = commit(b"behind a merge", files_of(CODE_FILES | {"docs/new": 1}), BOTH)

CHANGES = {
    ZERO: [BASE, DOCS, BOTH],
    BASE: [SAME, CODE, DOCS, BOTH, ZERO],
    CODE: [BOTH, BACK, MORE, BASE, DOCS],
    MORE: [BOTH, BASE],
    BOTH: [BACK, DOCS, MORE, ZERO],
}


def asked():
    for old, moves in CHANGES.items():
        for new in moves:
            for ref in REFS:
                for repo in REPOS:
                    for user in USERS:
                        yield old, new, ref, repo, user


# ---- Gitolite


def ask_gitolite(home, conf):
    """The verdicts, by change, ref, repository and user, and of each opening for writing: the words of a denial, or None where it is allowed."""
    there = Gitolite(home, conf)
    told = {("opening", repo, user): words_of(said) for repo, user, said in there.access("W", "any", REPOS, USERS)}
    for repo in REPOS:
        write_objects(there.folder(repo), OBJECTS)

    def ask(what):
        old, new, ref, repo, user = what
        ran = there.update(user, repo, ref, old, new)
        said = words_of(ran.stderr)
        if (ran.returncode == 0) != (said is None):
            sys.exit("the hook ended with %d, and said %r" % (ran.returncode, ran.stderr))
        return what, said

    with ThreadPoolExecutor(os.cpu_count()) as pool:
        told.update(pool.map(ask, [it for it in asked() if told["opening", it[3], it[4]] is None]))
    return told


def words_of(said):
    """A denial's letter, what it was asked of, and its rule."""
    found = re.search(r"(\S+) (\S+) \S+ \S+ DENIED by (\S+)", said)
    return found and " ".join(found.groups())


# ---- the program


def script_of(conf):
    """The sessions, each with what it asks, or None where it only prepares the hub."""
    head, now = None, {repo: {ref: ZERO for ref in REFS} for repo in REPOS}
    for old in CHANGES:
        text, head = conf_push(open_conf(REPOS), head)
        yield None, text
        for repo in REPOS:
            commands = [(before, old, ref) for ref, before in now[repo].items() if before != old]
            now[repo] = {ref: old for ref in REFS}
            if commands:
                yield None, push("root", repo, commands, OBJECTS.values(), b"report-status")
        text, head = conf_push(conf, head)
        yield None, text
        for what in asked():
            if what[0] == old:
                _, new, ref, repo, user = what
                commands = [(old, new, ref), (BASE, ZERO, "refs/heads/a..b")]
                yield what, push(user, repo, commands, OBJECTS.values() if new != ZERO else None, b"report-status atomic")


def ask_program(program, conf):
    told = {}
    for what, _, reply in replies(program, script_of(conf)):
        if what is None:
            continue
        ref, repo, user = what[2:]
        said = re.search(rb"ERR (\S+ any \S+ \S+ DENIED by [^\n]*)", reply)
        told["opening", repo, user] = said and normal(said.group(1), user)
        if said:
            continue
        said = re.search(rb"ng %s (\S+ \S+ \S+ \S+ DENIED by \S+)" % re.escape(ref.encode()), reply)
        if not said and b"ng %s atomic push refused" % ref.encode() not in reply:
            sys.exit("no verdict for %s: %r" % (what, reply[-300:]))
        told[what] = said and normal(said.group(1), user)
    return told


def normal(said, user):
    """The words as Gitolite has them: the user's name in the rule, and of a merge its refex, and not the ref."""
    words = words_of(said.decode().replace("/USER/", "/%s/" % user))
    merge = re.fullmatch(r"(\S+) VREF/MERGE-CHECK/\S* VREF/MERGE-CHECK(\S*)", words)
    if merge:
        refex = "VREF/MERGE-CHECK" + re.sub("^/refs/heads/", "/", merge.group(2))
        return "%s %s %s" % (merge.group(1), refex, refex)
    return words


def main(program, confs="5", seed="1"):
    draws, count, denied, of_paths, of_merges, differ = random.Random(int(seed)), 0, 0, 0, 0, 0
    with tempfile.TemporaryDirectory(prefix="compare-pushes-") as home:
        gitolite_home(home)
        for _ in range(int(confs)):
            conf = draw_conf(draws)
            theirs, ours = ask_gitolite(home, conf), ask_program(os.path.abspath(program), conf)
            for what in [*ours, *(it for it in theirs if it not in ours)]:
                said, other = ours.get(what, "not asked"), theirs.get(what, "not asked")
                count, denied = count + 1, denied + (said is not None)
                of_paths, of_merges = of_paths + ("VREF/NAME" in (said or "")), of_merges + ("VREF/MERGE" in (said or ""))
                if other != said:
                    differ += 1
                    print("%s: Gitolite says %s, the program %s, of\n%s" % ([it.hex()[:7] if isinstance(it, bytes) else it for it in what], other, said, conf["gitolite.conf"]))
    print("%d confs, %d verdicts, %d of them denials, %d for a path and %d for a merge: %d differ" % (int(confs), count, denied, of_paths, of_merges, differ))
    return 1 if differ or not count else 0


if __name__ == "__main__":
    sys.exit(main(*sys.argv[1:]))
