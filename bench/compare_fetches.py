#!/usr/bin/env python3
"""Compares what a fetch is told and sent with git: compare_fetches.py PROGRAM [HISTORIES [SEED [FETCHES]]]

It needs git and Python's standard library. For each of HISTORIES random histories (5, drawn from SEED, 1), those of compare_changes.py with commits that take
files of older ones up again or move some elsewhere, criss-cross merges, commits whose tree or parent never came, and annotated tags, of trees too, it asks
PROGRAM by a script of sessions, and git in a repository that has the same objects and refs: which refs are advertised (`git show-ref --head -d`; capabilities
aren't compared), and what is sent for random wants to a client that has random objects. That is what a walk along all links finds behind the wants, without
what it finds behind those of the client's objects that are there: of FETCHES fetches (30) by a walk in Python, and of the first 30 for which the client has
no commit that lacks its parent, at which git gives up, by `git rev-list --objects` too. The objects have to come in the order in which they were pushed: in
many pushes, each of which moves one of three branches, forward or not, so that PROGRAM keeps what some commits lead to. It ends with 1 where two answers
differ.
"""
import random, re, subprocess, sys, tempfile
from compare_changes import GIT, draw_files, store_objects, tree_of
from compare_gitolite import ZERO, conf_push, name_of, open_conf, packet, push, replies

KINDS = {1: b"commit", 2: b"tree", 3: b"blob", 4: b"tag"}
COMMITS = [25, 25, 100]
FETCHES = 30
MOVING = ["refs/heads/moving", "refs/heads/other", "refs/heads/master"]


def moved_files(draws, files):
    """The same files, one of them at another path, or a folder under another name."""
    path = draws.choice(sorted(files))
    folder = draws.choice([path, path.split("/")[0]])
    to = draws.choice(["moved", "moved/d", "y"])
    kept = {it: file for it, file in files.items() if it != folder and not it.startswith(folder + "/") and it.split("/")[0] != to.split("/")[0]}
    return kept | {to + it[len(folder) :]: file for it, file in files.items() if it == folder or it.startswith(folder + "/")}


def draw_history(draws):
    """Commits, and all objects by name. One in ten commits lacks its tree or its parent, and isn't among the commits."""
    commits, files, objects, count = [], [], {}, draws.choice(COMMITS)

    def add(tree, parents, word):
        lines = b"tree %s\n" % tree.hex().encode() + b"".join(b"parent %s\n" % it.hex().encode() for it in parents)
        made = b"commit", lines + b"author a <a> 1 +0000\ncommitter a <a> 1 +0000\n\n%s\n" % word
        objects[name_of(*made)] = made
        return name_of(*made)

    while len(commits) < count:
        number = len(commits)
        parents = draws.sample(range(number), min(number, draws.choice([0, 1, 1, 1, 1, 1, 2, 2, 3]))) if number else []
        near = [it for it in parents if it >= number - 8] or parents
        some = draws.choice(files) if files and draws.random() < 0.25 else files[near[0]] if near else {}
        files.append(moved_files(draws, some) if some and draws.random() < 0.2 else draw_files(draws, some))
        commits.append(add(tree_of(files[-1], objects), [commits[it] for it in parents], b"%d" % number))
        if len(parents) == 2 and draws.random() < 0.5:
            files.append(draw_files(draws, files[parents[1]]))
            commits.append(add(tree_of(files[-1], objects), [commits[it] for it in reversed(parents)], b"%d across" % number))
        if draws.random() < 0.1:
            some = draws.sample(commits, draws.randint(0, 1))
            lacks_tree = draws.random() < 0.5
            add(draws.randbytes(20) if lacks_tree else tree_of(files[-1], objects), some if lacks_tree else some + [draws.randbytes(20)], b"lacks something")
    return commits, objects


def draw_pushes(draws, commits, objects):
    """Pushes of all objects, but for what behind the last one is left: each moves a branch from a value to another, and brings objects in any order; the branches behind them."""
    pushes, rest, now, known = [], [], {ref: ZERO for ref in MOVING}, []
    for name in objects:
        rest.append(name)
        known += [name] if name in commits else []
        if known and draws.random() < 0.3:
            ref, to = draws.choice(MOVING), draws.choice([known[-1], known[-1], draws.choice(known)])
            if to != now[ref]:
                draws.shuffle(rest)
                pushes.append((ref, now[ref], to, rest))
                now[ref], rest = to, []
    return pushes, now, rest


def draw_refs(draws, commits, objects):
    """Refs at commits and at annotated tags, some of which name tags, or trees."""
    refs = {"refs/heads/n%d" % number: commit for number, commit in enumerate(draws.sample(commits, 6))}
    if draws.random() < 0.7:
        refs["refs/heads/master"] = draws.choice(commits)
    named = draws.choice(commits), b"commit"
    for number in range(3):
        tag = b"tag", b"object %s\ntype %s\ntag v%d\ntagger a <a> 1 +0000\n\n" % (named[0].hex().encode(), named[1], number)
        objects[name_of(*tag)] = tag
        refs["refs/tags/v%d" % number] = name_of(*tag)
        trees = sorted(name for name, it in objects.items() if it[0] == b"tree")
        named = draws.choice([(name_of(*tag), b"tag"), (draws.choice(commits), b"commit"), (draws.choice(trees), b"tree")])
    refs["refs/tags/light"] = draws.choice(commits)
    return refs


def draw_fetches(draws, refs, objects, count):
    """What is wanted, and what the client has, some of which nobody has."""
    values, names = sorted(set(refs.values())), sorted(objects)
    for _ in range(count):
        has = draws.sample(names, draws.choice([0, 1, 1, 2, 5])) + [draws.randbytes(20) for _ in range(draws.randint(0, 2))]
        draws.shuffle(has)
        yield draws.sample(values, draws.randint(1, min(4, len(values)))), has


# ---- a walk along all links


def links_of(kind, body):
    """The names to which an object links; a submodule's commit isn't one."""
    if kind in (b"commit", b"tag"):
        head = body.split(b"\n\n")[0]
        return [bytes.fromhex(it.decode()) for it in re.findall(rb"(?m)^(?:tree|parent|object) ([0-9a-f]{40})$", head)]
    names, at = [], 0
    while kind == b"tree" and at < len(body):
        end = body.index(b"\0", at)
        names += [] if body[at:end].startswith(b"160000 ") else [body[end + 1 : end + 21]]
        at = end + 21
    return names


def walk(objects, fetches):
    """Of each fetch the names that are sent."""
    links = {name: links_of(*it) for name, it in objects.items()}

    def behind(names):
        met, left = set(), list(names)
        while left:
            name = left.pop()
            if name in links and name not in met:
                met.add(name)
                left += links[name]
        return met

    for wants, has in fetches:
        found = behind(wants) - behind(has)
        yield [name for name in objects if name in found]


# ---- git


def ask_git(folder, objects, refs, fetches):
    """The lines that are advertised, and of the first fetches for which git gives an answer, by their numbers, the names that are sent."""
    store_objects(folder, objects)
    subprocess.run(["git", "-C", folder, "symbolic-ref", "HEAD", "refs/heads/master"], check=True, **GIT)
    text = "".join("create %s %s\n" % (ref, value.hex()) for ref, value in refs.items())
    subprocess.run(["git", "-C", folder, "update-ref", "--stdin"], input=text, check=True, text=True, **GIT)

    def lines(*words):
        return subprocess.run(["git", "-C", folder, *words], stdout=subprocess.PIPE, check=True, text=True, **GIT).stdout.splitlines()

    def closure(names):
        return {bytes.fromhex(line) for line in lines("rev-list", "--objects", "--no-object-names", "--missing=allow-any", *(it.hex() for it in names))} if names else set()

    sent, lacks_parent = {}, {name for name, it in objects.items() if it[0] == b"commit" and any(to not in objects for to in links_of(*it)[1:])}
    for number in [number for number, (_, has) in enumerate(fetches) if not lacks_parent & {*has}][:FETCHES]:
        wants, has = fetches[number]
        found = closure(wants) - closure([it for it in has if it in objects])
        sent[number] = [name for name in objects if name in found]
    return lines("show-ref", "--head", "-d"), sent


# ---- the program


def ask_program(program, objects, pushes, refs, fetches):
    made, _ = conf_push(open_conf(["r"]), None)
    moves, last, rest = pushes
    put = [(last.get(ref, ZERO), refs.get(ref, ZERO), ref) for ref in sorted({*refs, *last}) if last.get(ref, ZERO) != refs.get(ref, ZERO)]
    sessions = [(None, made)] + [(None, push("root", "r", [(old, new, ref)], [objects[it] for it in brings], b"report-status")) for ref, old, new, brings in moves]
    sessions.append((None, push("root", "r", put, [objects[it] for it in rest], b"report-status")))
    for number, (wants, has) in enumerate(fetches):
        lines = [b"want %s\n" % it.hex().encode() for it in wants]
        text = b"".join(map(packet, lines)) + b"0000" + b"".join(packet(b"have %s\n" % it.hex().encode()) for it in has)
        sessions.append((number, packet(b"root git-upload-pack 'r'") + text + packet(b"done\n")))
    advertised, sent = set(), []
    for number, _, reply in replies(program, sessions):
        if number is None:
            continue
        lines, rest = packets(reply)
        advertised.add("\n".join(re.sub(r"\0.*", "", line) for line in lines))
        common = [it.hex() for it in fetches[number][1] if it in objects]
        due = packet(b"ACK %s\n" % common[0].encode() if common else b"NAK\n")
        if not rest.startswith(due + b"PACK"):
            sys.exit("not the acknowledgement that is due: %r" % rest[:100])
        sent.append(unpacked(rest[len(due) :]))
    [told] = advertised
    return told.split("\n"), sent


def packets(text):
    """The lines up to a flush, and what comes behind it."""
    lines, at = [], 0
    while size := int(text[at : at + 4], 16):
        lines.append(text[at + 4 : at + size].decode().rstrip("\n"))
        at += size
    return lines, text[at + 4 :]


def unpacked(text):
    """The names of a pack's objects, which are whole and not compressed."""
    names, at = [], 12
    for _ in range(int.from_bytes(text[8:12], "big")):
        kind, size, shift = text[at] >> 4 & 7, text[at] & 15, 4
        while text[at] & 128:
            at += 1
            size, shift = size | (text[at] & 127) << shift, shift + 7
        names.append(name_of(KINDS[kind], text[at + 1 : at + 1 + size]))
        at += 1 + size
    assert len(text) == at + 20
    return names


def main(program, histories="5", seed="1", fetches="30"):
    draws, count, whole, differ = random.Random(int(seed)), 0, 0, 0
    for _ in range(int(histories)):
        commits, objects = draw_history(draws)
        refs = draw_refs(draws, commits, objects)
        pushes = draw_pushes(draws, commits, objects)
        objects = {name: objects[name] for name in [it for _, _, _, brings in pushes[0] for it in brings] + pushes[2]}
        asked = list(draw_fetches(draws, refs, objects, int(fetches)))
        with tempfile.TemporaryDirectory(prefix="compare-fetches-") as folder:
            theirs = ask_git(folder, objects, refs, asked)
        ours, due = ask_program(program, objects, pushes, refs, asked), list(walk(objects, asked))
        if ours[0] != theirs[0]:
            differ += 1
            print("git advertises %s, the program %s" % (theirs[0], ours[0]))
        for number, ((wants, has), one, other) in enumerate(zip(asked, ours[1], due, strict=True)):
            count, whole = count + 1, whole + len(one)
            gits = theirs[1].get(number, other)
            if one != other or one != gits:
                differ += 1
                names = [it.hex()[:7] for it in wants], [it.hex()[:7] for it in has]
                print("wants %s, has %s: a walk finds %d, git %d, the program sends %d" % (*names, len(other), len(gits), len(one)))
    print("%d histories, %d fetches, %d objects sent: %d differ" % (int(histories), count, whole, differ))
    return 1 if differ or not count else 0


if __name__ == "__main__":
    sys.exit(main(*sys.argv[1:]))
