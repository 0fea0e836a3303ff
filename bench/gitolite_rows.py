#!/usr/bin/env python3
"""Asks a real Gitolite and the program what docs/ACCESS.md says of where they part: gitolite_rows.py [PROGRAM]

It needs what compare_gitolite.py needs. Each row is a conf, a question, and the two answers; some have roles that Gitolite's rc file has beside READERS and
WRITERS, and what comes before the question: a repository is made, a role is given in it, and another conf comes into force. It ends with 1 where an answer is
another. Without PROGRAM only Gitolite is asked.
"""
import os, re, shutil, subprocess, sys, tempfile
import compare_pushes as pushes
from compare_gitolite import ADMIN, ZERO, Gitolite, conf_push, gitolite_home, name_of, open_conf, packet, push, replies, text_of, write_objects

ALLOWED, DENIED, TAKEN, REFUSED, TOLD, SILENT = "allowed", "denied", "taken", "refused", "told", "silent"


# ---- commits: some files, and changes of them


def commit(files, *parents):
    """A commit of files, each with a text of its own; of a file that is moved there are both paths, with `>` between them."""
    moves = [path.partition(">") for path in files]
    return pushes.commit(b"row", {new or old: (b"100644", old.encode() * 3 + b"\n") for old, _, new in moves}, *parents)


BASE = commit(["README"])
NEXT = commit(["README", "a"], BASE)
SECRET = commit(["README", "secret"])
MOVED = commit(["README", "secret>open"], SECRET)
MAKEFILE = commit(["Makefile"])
UMLAUT = commit(["README", "d/é"])
SIDE = commit(["README", "b"], BASE)
MERGE = commit(["README", "a", "b"], NEXT, SIDE)
TAG = b"tag", b"object %s\ntype commit\ntag v\ntagger a <a> 1 +0000\n\ntag\n" % NEXT.hex().encode()
pushes.OBJECTS[name_of(*TAG)] = TAG


# ---- rows: a conf, in which `; ` ends a line, or its files; a question; what the server says, and what Gitolite says


def files_of(conf):
    files = conf if isinstance(conf, dict) else {"gitolite.conf": conf}
    return {name: text.replace("; ", "\n") + "\n" for name, text in files.items()}


def row(conf, question, here, there, rc=(), made=None, then=None):
    """`rc` are roles of Gitolite's own file; `made` is who makes which repository before, and perhaps a role and to whom it is given then; and `then` is a conf, and
    such roles, that come into force before the question."""
    return [(files_of(conf), rc), *([(files_of(then[0]), then[1])] if then else [])], made, question, here, there


def read(user, repo):
    return "open", user, repo, "R"


def write(user, repo):
    return "open", user, repo, "W"


def change(user, repo, ref, old, new):
    return "change", user, repo, ref, old, new


def create(user, repo, ref, new=BASE):
    return change(user, repo, ref, ZERO, new)


def roles(user, repo, *words):
    """A change of roles by who made the repository just before."""
    return "roles", user, repo, *words


CONF, WARNING = ("conf",), ("warning",)
T, MASTER = "repo t; ", "refs/heads/master"
U = "repo u/..*; C = ann; RW+ = CREATOR"
TESTERS, DECLARED, TO_BOB = U + "; R = TESTERS", "; option role.TESTERS = 1", ("+", "TESTERS", "bob")
IN_GROUP = "@g = TESTERS; " + U + "; - = TESTERS; R = @g" + DECLARED
RC, BY_ANN, BOB_HOLDS = ["TESTERS"], ("ann", "u/x"), ("ann", "u/x", "TESTERS", "bob")

ROWS = [
    # decisions
    row("repo @all; C = ann; R = ann", read("ann", "new"), DENIED, ALLOWED),
    row("@own = CREATOR; repo u/..*; C = ann; R = ann; RW = @own", write("ann", "u/x"), ALLOWED, DENIED),
    row("repo u/..*; C = CREATOR; R = @all", read("ann", "u/x"), ALLOWED, DENIED),
    row("repo u/[a-z]+; R = bob", read("bob", "u/x"), DENIED, DENIED),
    row(U, read("ann", "u//x"), REFUSED, ALLOWED),
    row(T + "RW VREF/NAME/x = ann; - VREF/MERGE-CHECK = ann; RW = ann", change("ann", "t", MASTER, NEXT, MERGE), DENIED, DENIED),
    row(T + "- VREF/MERGE-CHECK/master = ann; RW = ann", change("ann", "t", MASTER, NEXT, MERGE), DENIED, DENIED),
    row(T + "- VREF/MERGE-CHECK/dev/x = ann; RW = ann", change("ann", "t", "refs/heads/dev/y", NEXT, MERGE), ALLOWED, DENIED),
    row(T + "- VREF/MERGE-CHECK/refs/tags/ = ann; RW+ = ann", change("ann", "t", "refs/tags/v", NEXT, MERGE), DENIED, ALLOWED),
    row(T + "RW VREF/MERGE-CHECK/mast[e]r = ann; RW = ann", change("ann", "t", MASTER, NEXT, MERGE), ALLOWED, DENIED),
    row(T + "RW VREF/MERGE-CHECK/mast[e]r = ann; RW = ann", change("ann", "t", "refs/heads/dev", NEXT, MERGE), ALLOWED, ALLOWED),
    row(T + "RW = ann", change("ann", "t", "refs/x/y", BASE, name_of(*TAG)), DENIED, ALLOWED),
    row(T + "- VREF/NAME/secret$ = ann; RW = ann", change("ann", "t", MASTER, SECRET, MOVED), DENIED, ALLOWED),
    row(T + "option deny-rules = yes; - = bob; R = @all", read("bob", "t"), ALLOWED, DENIED),
    row(T + "option deny-rules = 1; - = bob; R = @all", read("bob", "t"), DENIED, DENIED),
    row(T + "RW = @all", create("ann", "t", "refs/heads/a=b"), ALLOWED, DENIED),
    row(T + "- VREF/NAME/d/ = ann; RW = ann", create("ann", "t", MASTER, UMLAUT), DENIED, ALLOWED),
    # patterns
    row(T + "RW x|d = ann", create("ann", "t", MASTER), DENIED, ALLOWED),
    row(T + "- x|d = ann; RW = ann", create("ann", "t", "refs/heads/dev"), ALLOWED, DENIED),
    row(T + "- NAME/secret|Makefile = ann; RW = ann", create("ann", "t", MASTER, MAKEFILE), ALLOWED, DENIED),
    row(T + "- NAME/(secret|Makefile) = ann; RW = ann", create("ann", "t", MASTER, MAKEFILE), DENIED, DENIED),
    row("repo foo|bar; C = ann; RW = ann", read("ann", "fooxyz"), DENIED, ALLOWED),
    row("repo foo|bar; C = ann; RW = ann", read("ann", "foo"), ALLOWED, ALLOWED),
    row(T + "RW p/USER/ = @all", create("a.b", "t", "refs/heads/p/axb/c"), DENIED, ALLOWED),
    row(T + "RW p/USER/ = @all", create("a+b", "t", "refs/heads/p/a+b/c"), ALLOWED, DENIED),
    row(T + "RW p/USER/ = @all", create("a+b", "t", "refs/heads/p/aab/c"), DENIED, ALLOWED),
    row("repo [a-z]+/CREATOR; C = ann; R = ann", read("ann", "ann/ann"), ALLOWED, DENIED),
    row("repo xCREATOR/..*; C = ann; R = ann", read("ann", "xann/y"), ALLOWED, DENIED),
    row(T + "RW (master$|dev)$ = ann", create("ann", "t", MASTER), DENIED, ALLOWED),
    row(T + "RW a*? = ann", CONF, REFUSED, TAKEN),
    row(T + "RW (x)\\1 = ann", CONF, REFUSED, TAKEN),
    row(T + "RW a{b = ann", CONF, REFUSED, TAKEN),
    row(T + "RW \\bx = ann", CONF, REFUSED, TAKEN),
    row(T + "RW ^refs/heads/x = ann", CONF, REFUSED, TAKEN),
    row(T + "RW ^refs/heads/x = ann", create("ann", "t", "refs/heads/x"), REFUSED, DENIED),
    row(T + "RW (?:a)b = ann", CONF, TAKEN, REFUSED),
    row(T + "RW a~b = ann", CONF, TAKEN, REFUSED),
    row("repo f..; RW = ann", CONF, TAKEN, REFUSED),
    row("repo a//b; RW = ann", CONF, TAKEN, TAKEN),
    row("repo a/.b; C = ann; RW = ann", write("ann", "a/xb"), ALLOWED, DENIED),
    row(T + "- (master$|dev)$ = ann; RW = ann", create("ann", "t", MASTER), ALLOWED, DENIED),
    row("repo x/; RW = ann", CONF, TAKEN, REFUSED),
    # roles
    row(U + "; R = READERS", roles("ann", "u/x", "+", "READERS", "bob"), ALLOWED, ALLOWED),
    row(U, roles("ann", "u/x", "+", "READERS", "bob"), ALLOWED, DENIED),
    row(U, roles("ann", "u/x", "-", "READERS", "bob"), ALLOWED, ALLOWED),
    row(U, roles("ann", "u/x", "-", "TESTERS", "bob"), DENIED, ALLOWED),
    row("@g = bob; " + U + "; R = READERS", roles("ann", "u/x", "+", "READERS", "@g"), REFUSED, ALLOWED),
    # roles that a conf declares, and those of Gitolite's rc file
    row(TESTERS + DECLARED, roles("ann", "u/x", *TO_BOB), ALLOWED, ALLOWED, RC),
    row(TESTERS + DECLARED, roles("ann", "u/x", *TO_BOB), ALLOWED, DENIED),
    row(TESTERS, roles("ann", "u/x", *TO_BOB), DENIED, ALLOWED, RC),
    row(TESTERS, roles("ann", "u/x", *TO_BOB), DENIED, DENIED),
    row(TESTERS + "; option role.TESTERS = yes", roles("ann", "u/x", *TO_BOB), DENIED, ALLOWED, RC),
    row(U + DECLARED, roles("ann", "u/x", *TO_BOB), ALLOWED, DENIED, RC),
    row(U + "; R = testers; option role.testers = 1", roles("ann", "u/x", "+", "testers", "bob"), DENIED, ALLOWED, ["testers"]),
    row(TESTERS + DECLARED, read("bob", "u/x"), ALLOWED, ALLOWED, RC, BOB_HOLDS),
    row(TESTERS + DECLARED, read("TESTERS", "u/x"), DENIED, DENIED, RC, BY_ANN),
    row(TESTERS + DECLARED, read("TESTERS", "u/x"), DENIED, ALLOWED, (), BY_ANN),
    row(TESTERS, read("TESTERS", "u/x"), ALLOWED, DENIED, RC, BY_ANN),
    row(T + "RW = TESTERS", write("TESTERS", "t"), ALLOWED, ALLOWED),
    row(T + "RW = TESTERS", write("TESTERS", "t"), ALLOWED, DENIED, RC),
    row(T + "RW = TESTERS" + DECLARED, write("TESTERS", "t"), DENIED, ALLOWED),
    row("repo v/..*; R = ann" + DECLARED + "; " + TESTERS, read("TESTERS", "u/x"), ALLOWED, DENIED, RC, BY_ANN),
    row(IN_GROUP, read("bob", "u/x"), ALLOWED, DENIED, RC, BOB_HOLDS),
    row(IN_GROUP, read("TESTERS", "u/x"), DENIED, ALLOWED, RC, BY_ANN),
    row(TESTERS + DECLARED, read("bob", "u/x"), DENIED, DENIED, RC, BOB_HOLDS, (TESTERS, ())),
    row(TESTERS + DECLARED, read("TESTERS", "u/x"), ALLOWED, ALLOWED, RC, BOB_HOLDS, (TESTERS, ())),
    row(TESTERS + DECLARED, roles("ann", "u/x", "-", "TESTERS", "bob"), ALLOWED, ALLOWED, RC, BOB_HOLDS),
    row(TESTERS + DECLARED, roles("ann", "u/x", "-", "TESTERS", "bob"), DENIED, ALLOWED, RC, BOB_HOLDS, (TESTERS, ())),
    # the conf
    row("hello", CONF, REFUSED, TAKEN),
    row(T + "X = ann", CONF, REFUSED, TAKEN),
    row("RW = ann", CONF, REFUSED, TAKEN),
    row(T + "R = @none", CONF, REFUSED, TAKEN),
    row('include "none.conf"', CONF, REFUSED, TAKEN),
    row("repo @none; RW = ann", CONF, REFUSED, TAKEN),
    row({"gitolite.conf": 'include "t[12].conf"', "t1.conf": T + "RW = ann"}, write("ann", "t"), REFUSED, ALLOWED),
    row({"gitolite.conf": 'include "{s,t}.conf"', "s.conf": T, "t.conf": T + "RW = ann"}, write("ann", "t"), REFUSED, ALLOWED),
    row({"gitolite.conf": 'include "?.conf"', "t.conf": T + "RW = ann"}, write("ann", "t"), REFUSED, ALLOWED),
    row({"gitolite.conf": 'include "*.conf"', "t.conf": T + "RW = ann"}, write("ann", "t"), ALLOWED, ALLOWED),
    row({"gitolite.conf": '@b = a; repo a; R = zed; subconf b "x.conf"', "x.conf": "repo a; RW = bob"}, write("bob", "a"), REFUSED, ALLOWED),
    row({"gitolite.conf": '@b = a; repo a; R = zed; subconf "b.conf"', "b.conf": "repo a; RW = bob"}, write("bob", "a"), ALLOWED, ALLOWED),
    row({"gitolite.conf": '@b = a; repo c; R = zed; subconf "b.conf"', "b.conf": "repo a c; RW = bob"}, write("bob", "c"), DENIED, DENIED),
    row({"gitolite.conf": '@b = a; repo c; R = zed; subconf "b.conf"', "b.conf": "repo a c; RW = bob"}, WARNING, SILENT, TOLD),
    row({"gitolite.conf": 'repo a; R = @b; subconf "b.conf"; @b = a', "b.conf": "RW = bob"}, CONF, REFUSED, TAKEN),
    row({"gitolite.conf": '@b = a; repo a; subconf "b.conf"', "b.conf": "RW = bob"}, write("bob", "a"), REFUSED, ALLOWED),
    row({"gitolite.conf": '@b = c; repo a; subconf "b.conf"; RW = bob', "b.conf": "repo c; R = ann"}, write("bob", "c"), REFUSED, ALLOWED),
    row({"gitolite.conf": '@b = a; @g = ann; subconf "b.conf"', "b.conf": "@g = bob; repo a; RW = @g"}, write("ann", "a"), ALLOWED, DENIED),
    row({"gitolite.conf": '@b = r[12]; repo r1; R = zed; subconf "b.conf"', "b.conf": "repo r[12]; RW = bob"}, write("bob", "r1"), ALLOWED, DENIED),
    row({"gitolite.conf": '@b = r..*; repo r1; R = zed; subconf "b.conf"', "b.conf": "repo r..*; RW = bob"}, write("bob", "r1"), ALLOWED, ALLOWED),
    row({"gitolite.conf": '@b = x/..*; subconf "b.conf"', "b.conf": "repo x/y[0-9]; C = bob; RW = bob"}, write("bob", "x/y1"), DENIED, ALLOWED),
    row("@r = NAME/x; repo a; - @r = ann; RW = ann", create("ann", "a", MASTER, commit(["x"])), DENIED, ALLOWED),
    row("@r = NAME/x; repo a; RW @r = ann", create("ann", "a", "refs/heads/NAME/x"), DENIED, ALLOWED),
    row("@g = @all", CONF, REFUSED, TAKEN),
    row(T + "RW = @READERS", CONF, REFUSED, TAKEN),
    row(T + "RW = " + "u" * 65, CONF, REFUSED, TAKEN),
    row("repo " + "r" * 201 + "; RW = ann", CONF, REFUSED, TAKEN),
    row(T + "RW = ann; include x.conf", CONF, REFUSED, REFUSED),
    row({"gitolite.conf": "include x.conf", "x.conf": T + "RW = ann"}, CONF, TAKEN, REFUSED),
    row(T + "RW = ann; desc = x", CONF, TAKEN, REFUSED),
    row(T + "RW = ann; option x = a b", CONF, REFUSED, TAKEN),
    row(T + "RW = ann; option x =", CONF, REFUSED, TAKEN),
    row(T + "RW = ann; = begin testconf; hello; = end", CONF, REFUSED, TAKEN),
    row("repo _x; RW = ann", CONF, TAKEN, REFUSED),
    row(T + "RW VREF/COUNT/5 = ann", CONF, REFUSED, TAKEN),
    row(T + "option CREATE_IS_C = 0; RWC = bob; RW = ann", create("ann", "t", MASTER), DENIED, DENIED),
    row(T + "option CREATE_IS_C = 1; RW = ann", create("ann", "t", MASTER), ALLOWED, DENIED),
    row(T + "option DELETE_IS_D = 1; RW+ = ann", change("ann", "t", MASTER, BASE, ZERO), ALLOWED, DENIED),
    row(T + "option MERGE_CHECK = 1; RW = ann", change("ann", "t", MASTER, NEXT, MERGE), ALLOWED, DENIED),
    row(T + "RWC = bob; RW = ann; option CREATE_IS_C = 0", create("ann", "t", MASTER), DENIED, ALLOWED),
]


def denied(said):
    """A refusal, where it is for one of the reasons that rules give."""
    reasons = ["DENIED by", "no such repository", "Invalid role", "no such role", "invalid characters in ref or filename"]
    return (DENIED if any(it in said for it in reasons) else "failed") + ": " + said


# ---- Gitolite


def ask_gitolite(home, confs, made, question):
    for place in [home + "/.gitolite/conf", home + "/repositories"]:
        for name in os.listdir(place):
            if name not in ["gitolite-admin.git", "testing.git"]:
                (shutil.rmtree if os.path.isdir("%s/%s" % (place, name)) else os.remove)("%s/%s" % (place, name))
    for conf, rc in confs:
        try:
            there = Gitolite(home, {**conf, "gitolite.conf": conf["gitolite.conf"] + ADMIN}, rc)
        except subprocess.CalledProcessError as failed:
            return REFUSED + ": " + failed.stderr.strip().split("\n")[-1]
        if made:
            make(there, *made)
            made = None
    if question == CONF:
        return TAKEN
    if question == WARNING:
        return TOLD if there.warned else SILENT
    if question[0] == "open":
        _, user, repo, want = question
        ran = there.shell(user, "git-%s-pack '%s'" % ("upload" if want == "R" else "receive", repo))
    elif question[0] == "roles":
        _, user, repo, *words = question
        make(there, user, repo)
        ran = there.run("gitolite", "perms", repo, *words, check=False, env=dict(GL_USER=user))
    else:
        write_objects(there.folder(question[2]), pushes.OBJECTS)
        ran = there.update(*question[1:])
    return ALLOWED if ran.returncode == 0 else denied(ran.stderr.strip())


def make(there, user, repo, *role):
    """The repository is made by the user, where it isn't there, and a role in it given to another."""
    if not os.path.isdir(there.folder(repo)):
        there.run("gitolite", "create", repo, env=dict(GL_USER=user))
    if role:
        there.run("gitolite", "perms", repo, "+", *role, env=dict(GL_USER=user))


# ---- the program


def ask_program(program, confs, made, question):
    text, head = conf_push(open_conf(["t", "a"]), None)
    sessions = [(None, text)]
    if question[0] == "change" and question[4] != ZERO:
        sessions.append((None, push("root", question[2], [(ZERO, question[4], question[3])], pushes.OBJECTS.values(), b"report-status")))
    for conf, _ in confs:
        text, head = conf_push({**conf, "gitolite.conf": conf["gitolite.conf"] + ADMIN}, head)
        sessions.append(("conf", text))
        if made:
            user, repo, *role = made
            sessions.append((None, opening(user, repo, "R")))
            if role:
                sessions.append(("given", packet(" ".join([user, "perms", repo, "+", *role]).encode())))
            made = None
    if question[0] == "open":
        sessions.append(("ask", opening(*question[1:])))
    elif question[0] == "roles":
        _, user, repo, *words = question
        sessions.append((None, opening(user, repo, "R")))
        sessions.append(("ask", packet(" ".join([user, "perms", repo, *words]).encode())))
    elif question[0] == "change":
        _, user, repo, ref, old, new = question
        sessions.append(("ask", push(user, repo, [(old, new, ref)], pushes.OBJECTS.values() if new != ZERO else None, b"report-status")))
    said = TAKEN
    for what, end, reply in replies(program, sessions):
        if what == "conf" and b"ok refs/heads/master" not in reply:
            return REFUSED + ": " + re.search(rb"ng refs/heads/master ([^\n]*)", reply).group(1).decode()
        if what == "conf" and question == WARNING:
            said = TOLD if b"subconf" in reply else SILENT
        if what == "given" and b"perms: changed" not in reply:
            return "failed: " + reply.decode()
        if what == "ask":
            is_done = end == "served" and b"ng " not in reply and (question[0] != "roles" or b"perms: changed" in reply or b"perms: already so" in reply)
            said = ALLOWED if is_done else (REFUSED + ": " if end == "bad-command" else "") + denied(reply.decode(errors="replace"))
    return said


def opening(user, repo, want):
    return packet(b"%s git-%s-pack '%s'" % (user.encode(), b"upload" if want == "R" else b"receive", repo.encode())) + b"0000"


def main(program=None):
    differ = 0
    with tempfile.TemporaryDirectory(prefix="gitolite-rows-") as home:
        gitolite_home(home)
        for confs, made, question, here, there in ROWS:
            said = ask_gitolite(home, confs, made, question)
            ours = ask_program(program, confs, made, question) if program else here
            for who, due, answer in (("Gitolite", there, said), ("the program", here, ours)):
                if answer.split(":")[0] != due:
                    differ += 1
                    print("%s says %s, not %s: %s\n%s" % (who, answer, due, [it.hex()[:7] if isinstance(it, bytes) else it for it in question], text_of(confs[0][0])))
    print("%d rows, %d answers differ" % (len(ROWS), differ))
    return 1 if differ else 0


if __name__ == "__main__":
    sys.exit(main(*sys.argv[1:]))
