#!/usr/bin/env python3
"""Compares what becomes of the pushes of a git client with a real Gitolite: compare_clients.py SERVER [CONFS [SEED]]

It needs what compare_gitolite.py needs, and nothing may listen at 127.0.0.1:9418. For each of CONFS random confs (3, drawn from SEED, 1), over repositories that stay,
git makes the same forty random pushes to Gitolite, by its gitolite-shell, and to SERVER, the built cerolimau, through the front end: of up to four refs, creates, moves and deletes
of branches, tags and other refs, some in the way of others, some atomic, some forced. After each, the mark that `git push --porcelain` has for each ref has to be
the same, and whether it is git itself that refuses; so have git's status and all refs. Gitolite's git is told to follow no renames, and to let the branch of HEAD be
deleted; no ref is deleted that isn't there, and of an atomic push no ref is in the way of another: docs/ACCESS.md has these. HEAD is left out, which is at `master` alone
there (docs/FRONT.md). It ends with 1 where two answers differ.
"""
import os, pathlib, random, subprocess, sys, tempfile
from compare_changes import PATHS, draw_history, store_objects
from compare_gitolite import ADMIN, Gitolite, gitolite_home

sys.path.insert(0, str(pathlib.Path(__file__).resolve().parent.parent / "front"))
from tests import world  # noqa: E402

USERS, REPOS, PUSHES = ["u1", "u2", "u3"], ["r1", "r2"], 40
REFS = ["refs/heads/master", "refs/heads/dev", "refs/heads/dev/x", "refs/heads/personal/u2/a", "refs/tags/v1", "refs/tags/v2", "refs/x/y"]
REFEXES = ["", "", "", "master", "dev", "personal/USER/", "refs/tags/", "refs/heads/[d-p]", "refs/x"]
PERMS = ["R", "RW", "RW", "RW+", "RW+", "RWC", "RW+C", "RW+D", "RWCD", "RW+CD", "RWM", "RW+CDM", "-"]


def without_head(listing):
    """A listing of refs without the line of HEAD."""
    return "".join(line for line in listing.splitlines(keepends=True) if not line.endswith("\tHEAD\n"))


def draw_conf(draws):
    lines = [ADMIN + "    RW+ NAME/ VREF/MERGE-CHECK = admin", "@g = " + " ".join(draws.sample(USERS, 2)), "repo " + " ".join(REPOS), "    R = keeper"]
    users = [*USERS, "@g", "@all"]
    virtual = draws.choice([["NAME/%s" % it for it in PATHS] + ["NAME/d/", "NAME/f/g/"], ["VREF/MERGE-CHECK"], []])
    for _ in range(draws.randint(2, 4)):
        lines.append("repo " + draws.choice([*REPOS, "@all", "r[12]"]))
        rules = ["    - %s = %s" % (draws.choice(virtual), draws.choice(users)) for _ in range(draws.randint(0, 2)) if virtual]
        rules += ["    %s %s = %s" % (draws.choice(PERMS), draws.choice(REFEXES), draws.choice(users)) for _ in range(draws.randint(1, 3))]
        draws.shuffle(rules)
        lines += rules
    return "\n".join([*lines, "repo " + " ".join(REPOS), "    %s = %s" % (draws.choice(["RW+", "RW+CD", "RW+CDM"]), draws.choice(users))]) + "\n"


def draw_push(draws, commits, there):
    """Who pushes where, and git's words, by the refs that are there in each repository."""
    user, repo, forced, atomic = draws.choice(USERS), draws.choice(REPOS), draws.random() < 0.7, draws.random() < 0.3
    changes = []
    refs = draws.sample(REFS, draws.choice([1, 1, 2, 3, 4]))
    if atomic and "refs/heads/dev" in refs:
        refs = [ref for ref in refs if ref != "refs/heads/dev/x"]
    for ref in refs:
        value = "" if ref in there[repo] and draws.random() < 0.25 else draws.choice(commits).hex()
        changes.append("%s:%s" % (value, ref))
    return user, repo, ["--force"] * forced + ["--atomic"] * atomic, changes


def marks(said):
    """Of each ref of `git push --porcelain` its mark: new, moved, forced, deleted, as it was, refused by the server (`!`), or by git itself (`!!`)."""
    lines = [line.split("\t") for line in said.splitlines() if line.count("\t") == 2]
    return sorted((names.rpartition(":")[2], mark + "!" * why.startswith("[rejected]")) for mark, names, why in lines)


class Sides:
    """Gitolite and the program, each as git comes to it."""

    def __init__(self, home, here, client):
        self.home, self.here, self.client = home, here, client
        self.shell = home + "/shell"

    def put_conf(self, conf):
        there = Gitolite(self.home, {"gitolite.conf": conf})
        with open(self.shell, "w") as it:
            it.write('#!/bin/sh\nSSH_CONNECTION="127.0.0.1 1 127.0.0.1 22" SSH_ORIGINAL_COMMAND="$3" exec %s/gitolite-shell "$1"\n' % there.places["GL_BINDIR"])
        os.chmod(self.shell, 0o755)
        self.here.put_conf(conf)

    def git(self, user, *words):
        """What git said to Gitolite, and to the program."""
        env = dict(os.environ, HOME=self.home, GIT_SSH_VARIANT="simple", GIT_SSH_COMMAND="%s %s" % (self.shell, user))
        yield subprocess.run(["git", "-C", self.client, *words], env=env, stdout=subprocess.PIPE, stderr=subprocess.PIPE, text=True)
        env = dict(self.here.environment, GIT_SSH_COMMAND=" ".join(self.here.front(user)))
        yield subprocess.run(["git", "-C", self.client, *words], env=env, stdout=subprocess.PIPE, stderr=subprocess.PIPE, text=True)


def main(server, confs="3", seed="1"):
    draws, count, denied, differ = random.Random(int(seed)), dict.fromkeys(["done", "as it was", "!", "!!"], 0), 0, 0
    commits, objects = draw_history(draws)
    there = {repo: [] for repo in REPOS}
    with tempfile.TemporaryDirectory(prefix="compare-clients-") as home:
        here = world.World(os.path.abspath(server), os.path.abspath(server))
        try:
            gitolite_home(home)
            for name, value in [("diff.renames", "false"), ("receive.denyDeleteCurrent", "ignore"), ("gc.auto", "0")]:
                subprocess.run(["git", "config", "--global", name, value], check=True, env=dict(os.environ, HOME=home))
            store_objects(home + "/client", objects)
            here.start()
            sides = Sides(home, here, home + "/client")
            for _ in range(int(confs)):
                conf = draw_conf(draws)
                sides.put_conf(conf)
                for _ in range(PUSHES):
                    user, repo, words, changes = draw_push(draws, commits, there)
                    said = list(sides.git(user, "push", "--porcelain", *words, "here:" + repo, *changes))
                    looks = list(sides.git("keeper", "ls-remote", "here:" + repo))
                    refs = [without_head(ran.stdout) for ran in looks]
                    there[repo] = refs[0].split()
                    if any(ran.returncode for ran in looks):
                        sys.exit("the refs can't be listed: %s" % looks)
                    theirs, ours = [(marks(ran.stdout), ran.returncode) for ran in said]
                    denied += not ours[0]
                    for _, mark in ours[0]:
                        count[mark if mark in count else "as it was" if mark == "=" else "done"] += 1
                    if theirs != ours or refs[0] != refs[1]:
                        differ += 1
                        print("%s pushes to %s: %s\nGitolite: %s\nthe program: %s\nof\n%s" % (user, repo, [*words, *changes], said[0], said[1], conf))
                        if refs[0] != refs[1]:
                            sys.exit("the refs differ: %s, %s" % (refs[0], refs[1]))
        finally:
            here.close()
    said = int(confs), int(confs) * PUSHES, denied, *count.values(), differ
    print("%d confs, %d pushes, %d denied at the opening; changes: %d done, %d as it was, %d refused, %d refused by git itself: %d differ" % said)
    return 1 if differ or not count["done"] or not count["!"] else 0


if __name__ == "__main__":
    sys.exit(main(*sys.argv[1:]))
