#!/usr/bin/env python3
"""Asks the program what a conf decides: access_verdicts.py PROGRAM CONF [ADMIN] < QUESTIONS

Each line of QUESTIONS is a user, a repository, a ref and a letter: `ann site refs/heads/master +`. The ref `any` with `R` or `W` is an opening; the
others are a change of that ref: `C` creates it, `W` forwards it, `+` rewinds it, and `D` deletes it. For each comes the line with `allowed`, or `denied` and what denies it: the letter, the refex with file and line, or the fallthrough. `no repository`
stands where an opening finds none. The letter that is told is the one that the conf asks of such a change, as `W` of a create where no rule has `RWC`.

CONF is a gitolite.conf that lets ADMIN (`admin`) push to `gitolite-admin`. The program is asked by a script of sessions. A push that asks changes
nothing: it is atomic, and its second command is always refused. `gitolite access` answers the same questions: docs/ACCESS.md says where they part.
"""
import os, re, subprocess, sys

import compare_gitolite as sessions

KINDS = {"C": "create", "W": "forward", "+": "rewind", "D": "delete"}
ROOT = "verdicts-root"


def conf_for_all(repos, admin):
    """A conf by which ROOT may make all refs that are asked for."""
    return "repo gitolite-admin\n    RW+ = %s\n" % admin + "repo %s\n    RW+C = %s\n" % (" ".join(repos), ROOT)


def push_conf(conf, before, admin):
    text, name = sessions.conf_push({"gitolite.conf": conf}, before)
    return text.replace(sessions.packet(b"admin git-receive-pack 'gitolite-admin'"), sessions.packet(b"%s git-receive-pack 'gitolite-admin'" % admin.encode())), name


def script_of(conf, questions, admin):
    """The sessions, each with the number of its question, or None where it only prepares the hub."""
    repos = sorted({it[1] for it in questions} - {"gitolite-admin"})
    made, name = push_conf(conf_for_all(repos, admin), None, admin) if repos else (None, None)
    if made:
        yield None, made
    there = {}
    for user, repo, ref, letter in questions:
        if ref != "any" and letter != "C":
            there.setdefault(repo, set()).add(ref)
    for stage in ("C", "WD+"):
        if stage != "C":
            back, name = push_conf(conf_for_all(repos, admin), name, admin)
            yield None, back
            for repo, refs in there.items():
                commands = [(sessions.ZERO, sessions.name_of(*sessions.HERE), ref) for ref in sorted(refs)]
                yield None, sessions.push(ROOT, repo, commands, [sessions.HERE, sessions.ROOT, sessions.EMPTY], b"report-status")
        put, name = push_conf(conf, name, admin)
        yield None, put
        for number, (user, repo, ref, letter) in enumerate(questions):
            if ref == "any" and stage == "C":
                service = b"git-upload-pack" if letter == "R" else b"git-receive-pack"
                yield number, sessions.packet(b"%s %s '%s'" % (user.encode(), service, repo.encode())) + b"0000"
            elif ref != "any" and letter in stage:
                yield number, sessions.question(user, repo, KINDS[letter], ref)


def verdict_of(question, reply):
    user, repo, ref, letter = question
    said = re.search(rb"ERR (\S+) any \S+ \S+ DENIED by ([^\n]*)", reply) or re.search(
        rb"ng %s (\S+) \S+ \S+ \S+ DENIED by ([^\n]*?)\n?(?=[0-9a-f]{4}|$)" % re.escape(ref.encode()), reply
    )
    if said:
        return "denied %s %s" % (said.group(1).decode(), said.group(2).decode())
    if b"ERR no such repository" in reply or b"ERR no repository" in reply:
        return "no repository"
    if ref == "any" or re.search(rb"ng %s atomic push refused" % re.escape(ref.encode()), reply):
        return "allowed"
    return "no verdict: %r" % reply[-200:]


def replies_of(program, script, admin):
    text = b"".join(b"session %d\n%s\n" % (len(it), it) for _, it in script)
    ran = subprocess.run([program, "script", "--admin", admin], input=text, stdout=subprocess.PIPE, check=True)
    at = 0
    for what, _ in script:
        end = ran.stdout.index(b"\n", at)
        size = int(ran.stdout[at:end].split()[3])
        yield what, ran.stdout[end + 1 : end + 1 + size]
        at = end + 2 + size


def main(program, conf, admin="admin"):
    questions = [tuple(line.split()) for line in sys.stdin if line.strip()]
    bad = [it for it in questions if len(it) != 4 or it[3] not in "RWCD+" or (it[2] == "any" and it[3] not in "RW") or (it[2] != "any" and it[3] == "R")]
    if bad:
        sys.exit("no question: %s" % " ".join(bad[0]))
    script = list(script_of(open(conf).read(), questions, admin))
    told = {}
    for what, reply in replies_of(os.path.abspath(program), script, admin):
        if what is not None:
            told[what] = verdict_of(questions[what], reply)
        elif b"ng " in reply or b"ERR" in reply:
            sys.exit("the conf isn't taken: %s" % reply.decode(errors="replace")[-300:])
    for number, question in enumerate(questions):
        print(" ".join(question), told[number])


if __name__ == "__main__":
    main(*sys.argv[1:])
