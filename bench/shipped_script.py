#!/usr/bin/env python3
"""The script that is shipped: shipped_script.py > crates/gitolite_shell/stdin

Each session is a line below: who asks for what, the commands, and the pack's objects. Nothing is proved of it and the gate doesn't run it.
"""
import sys

from push_costs import ZERO, object_id, packet, raw_pack, tree

CAROL = b"author Carol <carol@example.com> 1700000000 +0000\ncommitter Carol <carol@example.com> 1700000000 +0000\n\n"
EMPTY_TREE = ("tree", b"")
EMPTY_BLOB = ("blob", b"")
NO_OBJECTS = raw_pack([])
sessions = []


def hexed(item):
    return ZERO if item is None else object_id(item).hex()


def carols(word, root, *parents):
    lines = b"".join(b"parent %s\n" % hexed(parent).encode() for parent in parents)
    return "commit", b"tree " + hexed(root).encode() + b"\n" + lines + CAROL + word + b"\n"


def command(old, new, ref, words=b""):
    return packet(("%s %s " % (hexed(old), hexed(new))).encode() + ref + words)


def pushes(who, repo, changes, pack=NO_OBJECTS, words=b"\0report-status", feed=b""):
    """A push of changes, each an old object, a new one and a ref; `pack` are the bytes behind the flush."""
    lines = [command(old, new, ref, (words if at == 0 else b"") + feed) for at, (old, new, ref) in enumerate(changes)]
    return asks(who, b"git-receive-pack '%s'" % repo) + b"".join(lines) + b"0000" + pack


def asks(who, words):
    return packet(who + b" " + words)


def session(body):
    sessions.append(body)


def files(named):
    """A commit whose tree has these files, and all of its objects: names of the form FILE or FOLDER/FILE, in order."""
    folders, objects, rows = {}, [], []
    for name, text in named:
        blob = ("blob", text)
        objects.append(blob)
        folder, _, last = name.rpartition(b"/")
        folders.setdefault(folder, []).append((b"100644", last, object_id(blob)))
    for folder, entries in folders.items():
        if folder:
            inner = tree(entries)
            objects.append(inner)
            rows.append((b"40000", folder, object_id(inner)))
        else:
            rows += entries
    root = tree(sorted(rows, key=lambda row: row[1] + (b"/" if row[0] == b"40000" else b"")))
    return root, objects + [root]


def conf(text, *parents):
    """A commit of a conf, and its objects."""
    root, objects = files([(b"conf/gitolite.conf", text)])
    made = carols(b"conf", root, *parents)
    return made, [made] + objects


# I. carol pushes into `testing`, by the rules of the setup

first = carols(b"first", EMPTY_TREE)
first_pack = raw_pack([first, EMPTY_TREE])
row = tree([(b"100644", b"a", object_id(EMPTY_BLOB))])
x = ("commit", b"tree " + hexed(row).encode() + b"\n\nx\n")
second = carols(b"second", EMPTY_TREE, first)
third = carols(b"third", EMPTY_TREE, second)
side = carols(b"side", EMPTY_TREE, first)


def carol(changes, pack=NO_OBJECTS, words=b"\0report-status", feed=b""):
    session(pushes(b"carol", b"testing", changes, pack, words, feed))


def branch(name):
    return b"refs/heads/" + name


# 1 to 10: outcomes of creates
carol([(None, first, branch(b"master"))], first_pack)
carol([(None, first, branch(b"master"))], first_pack)
carol([(None, first, branch(b"a"))])
carol([(None, first, branch(b"b")), (None, first, branch(b"b"))])
carol([(None, first, branch(b"a..b")), (None, first, branch(b"b"))], feed=b"\n")
carol([(None, first, branch(b"a/b")), (None, first, branch(b"c")), (None, first, branch(b"c/d"))])
carol([(None, x, branch(b"d"))], raw_pack([x, row]))
carol([(None, EMPTY_TREE, branch(b"d")), (None, EMPTY_TREE, b"refs/x/tree")])
carol([(None, x, branch(b"d"))])
carol([(None, x, branch(b"d"))], raw_pack([x, row, EMPTY_BLOB]))

# 11 to 21: packs that are refused
two = [(None, first, branch(b"e")), (None, first, branch(b"e.."))]
for pack in [
    first_pack[:-1],
    first_pack[:-1] + b"\0",
    b"",
    b"PACX",
    b"PACK\0\0\0\3",
    b"PACK\0\0\0\2\0\1\x86\xa1",
    b"PACK\0\0\0\2\0\0\0\1\x60",
    b"PACK\0\0\0\2\0\0\0\1\0",
    b"PACK\0\0\0\2\0\0\0\1\xb0\x80\x80\x80\x80",
    b"PACK\0\0\0\2\0\0\0\1\x10",
]:
    carol(two, pack)
unsorted = tree([(b"100644", b"b", object_id(EMPTY_BLOB)), (b"100644", b"a", object_id(EMPTY_BLOB))])
carol(two, raw_pack([unsorted])[:-20])

# 22 to 30: updates, rewinds and deletes
carol([(first, second, branch(b"master"))], raw_pack([second]))
carol([(first, third, branch(b"master"))], raw_pack([third]))
carol([(second, side, branch(b"master"))], raw_pack([side]))
carol([(side, side, branch(b"master")), (None, None, branch(b"none"))], raw_pack([]))
carol([(first, None, branch(b"b")), (first, None, branch(b"c"))], b"")
carol([(first, second, branch(b"a")), (side, None, branch(b"topic"))], words=b"\0report-status atomic")
carol([(first, second, branch(b"a")), (side, None, branch(b"master"))], words=b"\0 agent=x  atomic report-status")
carol([(None, first, branch(b"quiet"))], words=b"\0Report-Status")
carol([(None, first, branch(b"loud"))], first_pack[:-1], words=b"")

# 31 to 46: what leaves the form
opening = asks(b"carol", b"git-receive-pack 'testing'")
create = command(None, first, branch(b"e"), b"\0report-status")
session(opening + b"0000")
session(opening)
session(opening + b"0003")
session(opening + b"00zz0000")
session(opening + create)
session(opening + create + b"0004" + b"0000")
session(opening + create + command(None, first, branch(b"f"), b"\0report-status") + b"0000")
session(opening + command(None, first, b"", b"\0report-status") + b"0000")
session(opening + packet(b"zzzz" + create[8:]) + b"0000")
session(b"")
session(b"0000")
session(b"0003")
session(asks(b"carol!", b"git-receive-pack 'testing'"))
session(asks(b"carol", b"git-fetch 'testing'"))
session(asks(b"carol", b"git-receive-pack 'testing"))
session(asks(b"carol", b"git-upload-pack 'testing'"))

# 47 to 50: names of repositories, refs with odd bytes
session(asks(b"carol", b"git-receive-pack /testing.git") + b"0000")
session(asks(b"carol", b"git-receive-pack 'nothing'"))
session(asks(b"carol", b"git-receive-pack 'gitolite-admin'"))
carol([(None, first, branch(b"topic")), (None, first, branch(b"l\nf"))])

# II. the admin pushes confs

SETUP = b"repo gitolite-admin\n    RW+  = admin\n\nrepo testing\n    RW+  = @all\n"
MASTER = b"refs/heads/master"
WILD = b"""repo CREATOR/[a-z]+
    C    = alice
    RW+  = CREATOR
    RW   = WRITERS
    R    = READERS
repo app
    -    VREF/NAME/Makefile = junior
    -    VREF/MERGE-CHECK/refs/heads/master = junior
    RW   = junior
    RWCD = @all
"""
refused, refused_objects = conf(SETUP + b"repo web\n    RW  v[0-9 = carol\n")
wild, wild_objects = conf(SETUP + WILD)

# 51 to 53: a conf with a fault, a commit without a conf, and one that is taken
session(pushes(b"admin", b"gitolite-admin", [(None, refused, MASTER)], raw_pack(refused_objects)))
session(pushes(b"admin", b"gitolite-admin", [(None, first, MASTER)], first_pack))
session(pushes(b"admin", b"gitolite-admin", [(None, wild, MASTER)], raw_pack(wild_objects)))

# 54 to 67: a repository that alice makes, and its roles
ALICES = [(None, first, MASTER)]
session(asks(b"bob", b"git-receive-pack 'bob/x'"))
session(asks(b"alice", b"git-receive-pack 'alice/x'") + b"0000")
session(asks(b"bob", b"git-receive-pack 'alice/x'"))
session(asks(b"alice", b"perms alice/x + WRITERS bob"))
session(asks(b"alice", b"perms alice/x + WRITERS bob"))
session(asks(b"alice", b"perms alice/x + READERS cal\n"))
session(asks(b"alice", b"perms alice/x + OWNERS bob"))
session(asks(b"bob", b"perms alice/x + READERS bob"))
session(asks(b"alice", b"perms testing + READERS bob"))
session(asks(b"alice", b"perms -l 'alice/x.git'"))
session(pushes(b"bob", b"alice/x", ALICES, first_pack))
session(asks(b"alice", b"perms alice/x - WRITERS bob"))
session(asks(b"alice", b"perms alice/x - WRITERS bob"))
session(asks(b"alice", b"perms alice/x * WRITERS bob"))

# 68 to 76: letters and virtual refs, in `app`
base_root, base_objects = files([(b"a.c", b"a\n")])
base = carols(b"base", base_root)
make_root, make_objects = files([(b"Makefile", b"all:\n"), (b"a.c", b"a\n")])
make = carols(b"make", make_root, base)
more_root, more_objects = files([(b"a.c", b"b\n")])
more = carols(b"more", more_root, base)
merge = carols(b"merge", more_root, more, make)
topic = branch(b"topic")
session(pushes(b"ann", b"app", [(None, base, topic), (None, base, MASTER)], raw_pack([base] + base_objects)))
session(pushes(b"junior", b"app", [(base, make, topic)], raw_pack([make] + make_objects)))
session(pushes(b"junior", b"app", [(base, more, topic)], raw_pack([more] + more_objects)))
session(pushes(b"junior", b"app", [(more, base, topic), (more, None, topic)], NO_OBJECTS))
session(pushes(b"junior", b"app", [(more, base, topic)], NO_OBJECTS))
session(pushes(b"junior", b"app", [(more, None, topic)], b""))
session(pushes(b"junior", b"app", [(None, more, branch(b"new"))], NO_OBJECTS))
session(pushes(b"ann", b"app", [(base, more, MASTER)], NO_OBJECTS))
session(pushes(b"junior", b"app", [(more, merge, MASTER)], raw_pack([merge, make] + make_objects)))

# 77 to 83: a conf of eight people and twelve repositories, whose admin is ann
PEOPLE = b"""@staff     = ann bob
@interns   = cal
@web       = site blog shop
@infra     = dns mail backup

repo gitolite-admin
    RW+     = ann
repo @web
    -   master$ refs/tags/  = @interns
    RW+ personal/USER/      = @staff @interns
    -   personal/           = @all
    RW                      = @staff @interns
    desc = "public web"
repo @infra
    RW+                     = ann
    R                       = @staff
    config hooks.mailinglist = infra@example.com
repo wiki notes
    RW                      = @all
repo secrets
    option deny-rules = 1
    -                       = bob
    RW+                     = @staff
repo docs drafts
    RWC                     = @staff
    R                       = @interns     # read only
"""
people, people_objects = conf(PEOPLE, wild)
session(pushes(b"admin", b"gitolite-admin", [(wild, people, MASTER)], raw_pack(people_objects)))
session(pushes(b"admin", b"gitolite-admin", [(people, wild, MASTER)], NO_OBJECTS))
session(pushes(b"carol", b"testing", [(None, first, branch(b"late"))]))
session(
    pushes(
        b"cal",
        b"site",
        [(None, first, branch(b"personal/cal/x")), (None, first, branch(b"personal/ann/x")), (None, first, MASTER)],
        first_pack,
    )
)
session(pushes(b"ann", b"docs", [(None, first, branch(b"plan"))], first_pack))
session(asks(b"bob", b"git-receive-pack 'secrets'"))
session(asks(b"cal", b"git-receive-pack 'docs'"))

# 84 to 86: what each of them sees
session(asks(b"ann", b"info"))
session(asks(b"bob", b"info"))
session(asks(b"cal", b"info\n"))

# 87 to 90: the conf before, by a rewind, and what alice, bob and ann see with it
session(pushes(b"ann", b"gitolite-admin", [(people, wild, MASTER)], NO_OBJECTS))
session(asks(b"alice", b"info"))
session(asks(b"bob", b"info"))
session(asks(b"ann", b"info"))

# III. letters, virtual refs and subconfs, one repository each

ROWS = b"""repo four
    RW   master$ = dev
    -    master  = dev
    RW+          = dev
repo five
    RW   dev = dev
    RW+  d   = dev
repo six
    RWC  = ann
    RW   = bob
repo seven
    RW+  = ann
repo eight
    RW+  = ann
    RWD  = bob
repo nine
    RW+M master = ann
    RW          = bob
repo make
    -    VREF/NAME/Makefile = junior
    RW   = junior ann
repo source
    RW   NAME/src/ = junior
    -    NAME/     = junior
    RW             = junior
repo deep
    -    VREF/NAME/x$ = bob
    RW                = bob
"""
rows, rows_objects = conf(SETUP + ROWS, wild)
base_pack = raw_pack([base] + base_objects)
session(pushes(b"admin", b"gitolite-admin", [(wild, rows, MASTER)], raw_pack(rows_objects)))

# 92 to 98: what a rule's refex starts, rewinds, creates
session(pushes(b"dev", b"four", [(None, base, MASTER), (None, base, branch(b"master2")), (None, base, topic)], base_pack))
session(pushes(b"dev", b"five", [(None, base, branch(b"dev"))], base_pack))
session(pushes(b"dev", b"five", [(base, more, branch(b"dev"))], raw_pack([more] + more_objects)))
session(pushes(b"dev", b"five", [(more, base, branch(b"dev"))]))
session(pushes(b"bob", b"six", [(None, base, topic)], base_pack))
session(pushes(b"ann", b"six", [(None, base, topic)], base_pack))
session(pushes(b"bob", b"six", [(base, more, topic)], raw_pack([more] + more_objects)))

# 99 to 102: deletes, which have a letter of their own where some rule has it
session(pushes(b"ann", b"seven", [(None, base, topic)], base_pack))
session(pushes(b"ann", b"seven", [(base, None, topic)], b""))
session(pushes(b"ann", b"eight", [(None, base, topic)], base_pack))
session(pushes(b"ann", b"eight", [(base, None, topic)], b""))

# 103 and 104: merges
merge_pack = raw_pack([merge, more, make] + more_objects + make_objects)
session(pushes(b"bob", b"nine", [(None, base, topic)], base_pack))
session(pushes(b"bob", b"nine", [(base, merge, topic), (None, merge, branch(b"new"))], merge_pack))

# 105 to 110: names of changed paths
am_root, am_objects = files([(b"Makefile.am", b"all:\n"), (b"a.c", b"a\n")])
am = carols(b"am", am_root, base)
unmake = carols(b"unmake", base_root, make)
session(pushes(b"ann", b"make", [(None, base, MASTER), (None, make, topic)], raw_pack([base, make] + base_objects + make_objects)))
session(pushes(b"junior", b"make", [(base, am, MASTER)], raw_pack([am] + am_objects)))
session(pushes(b"junior", b"make", [(make, unmake, topic)], raw_pack([unmake])))
session(pushes(b"junior", b"make", [(base, more, MASTER)], raw_pack([more] + more_objects)))
inside_root, inside_objects = files([(b"src/a.c", b"a\n")])
inside = carols(b"inside", inside_root)
session(pushes(b"junior", b"source", [(None, inside, MASTER)], raw_pack([inside] + inside_objects)))
session(pushes(b"junior", b"source", [(None, base, topic)], base_pack))


def nested(depth):
    """A commit of trees nested so deep, each with two entries of one and the same next tree, the last of an empty blob."""
    inner, mode, objects = EMPTY_BLOB, b"100644", [EMPTY_BLOB]
    for _ in range(depth):
        inner = tree([(mode, b"a", object_id(inner)), (mode, b"b", object_id(inner))])
        mode = b"40000"
        objects.append(inner)
    commit = carols(b"deep", inner)
    return commit, raw_pack([commit] + objects)


# 111 and 112: 131,070 changed rows, and 262,142
session(pushes(b"bob", b"deep", [(None, nested(16)[0], branch(b"a"))], nested(16)[1]))
session(pushes(b"bob", b"deep", [(None, nested(17)[0], branch(b"b"))], nested(17)[1]))

# 113 to 117: a subconf whose repository isn't its own, and one whose is
MAIN = b"repo gitolite-admin\n    RW+ = admin\n%ssubconf \"web.conf\"\n"
WEB = b"repo core\n    RW+ = wanda\n"


def subconf(group, parent):
    root, objects = files([(b"conf/gitolite.conf", MAIN % group), (b"conf/web.conf", WEB)])
    made = carols(b"subconf", root, parent)
    return made, raw_pack([made] + objects)


apart, apart_pack = subconf(b"", rows)
own, own_pack = subconf(b"@web = core\n", apart)
session(pushes(b"admin", b"gitolite-admin", [(rows, apart, MASTER)], apart_pack))
session(asks(b"wanda", b"git-receive-pack 'core'"))
session(pushes(b"admin", b"gitolite-admin", [(apart, own, MASTER)], own_pack))
session(pushes(b"wanda", b"core", [(None, base, MASTER)], base_pack))
session(asks(b"wanda", b"info"))

# IV. fetches

SHELF = b"""repo shelf copy
    RW+  = carol
    R    = bob
repo bare
    R    = bob
repo CREATOR/[a-z]+
    C    = alice
    RW+  = CREATOR
    R    = READERS
"""
shelf, shelf_objects = conf(SETUP + SHELF, own)
tag = ("tag", b"object " + hexed(second).encode() + b"\ntype commit\ntag v1\ntagger Carol <carol@example.com> 1700000000 +0000\n\none\n")
TAG = b"refs/tags/v1"
DONE = packet(b"done\n")


def line(word, item):
    return packet(word + b" " + hexed(item).encode() + b"\n")


def fetches(who, repo, behind):
    session(asks(who, b"git-upload-pack '%s'" % repo) + behind)


# 118 to 120: the conf, the first push, and a child of its commit with a tag
session(pushes(b"admin", b"gitolite-admin", [(own, shelf, MASTER)], raw_pack([shelf] + shelf_objects)))
session(pushes(b"carol", b"shelf", [(None, first, MASTER)], first_pack))
session(pushes(b"carol", b"shelf", [(first, second, MASTER), (None, tag, TAG)], raw_pack([second, tag])))

# 121 to 128: what is common, and what isn't advertised
fetches(b"bob", b"shelf", line(b"want", tag) + b"0000" + line(b"have", first) + DONE)
fetches(b"bob", b"shelf", line(b"want", tag) + b"0000" + DONE)
fetches(b"bob", b"shelf", line(b"want", EMPTY_BLOB) + b"0000" + DONE)
fetches(b"bob", b"shelf", b"0000")
fetches(b"bob", b"shelf", packet(b"want " + hexed(second).encode() + b" multi_ack agent=git/2\n") + line(b"want", tag) + b"00000000" + line(b"have", side) + b"0000" + line(b"have", first) + line(b"have", EMPTY_TREE) + b"0000" + DONE)
fetches(b"bob", b"shelf", line(b"want", second) + b"0000" + line(b"have", second) + DONE)
fetches(b"bob", b"shelf", line(b"want", second) + line(b"have", first) + DONE)
fetches(b"bob", b"shelf", line(b"want", second) + b"0000" + line(b"have", first))

# 129 to 135: an empty repository, who may read, and a repository that is made by a fetch
fetches(b"bob", b"bare", b"0000")
fetches(b"dave", b"shelf", b"0000")
fetches(b"alice", b"alice/y", b"0000")
fetches(b"bob", b"alice/y", b"0000")
session(asks(b"alice", b"perms alice/y + READERS bob"))
fetches(b"bob", b"alice/y", b"0000")
fetches(b"bob", b"bob/y", b"0000")

# 136 and 137: the pack of 122 is pushed into another repository, and fetched from there
session(pushes(b"carol", b"copy", [(None, second, MASTER), (None, tag, TAG)], raw_pack([first, EMPTY_TREE, second, tag])))
fetches(b"bob", b"copy", line(b"want", tag) + b"0000" + DONE)

# V. tags, merges, a subconf's own group, and the end of the conf's branch

LATER = b"""repo gitolite-admin
    RW+  = admin
repo testing
    RW   = bob
repo merges
    -    VREF/MERGE-CHECK/master = bob
    RW   = bob
"""
later, later_objects = conf(LATER, shelf)
merge_all = raw_pack([base, merge, more, make] + base_objects + more_objects + make_objects)

# 138 to 142: a tag that moves, and a merge that is checked in one branch alone
session(pushes(b"admin", b"gitolite-admin", [(shelf, later, MASTER)], raw_pack([later] + later_objects)))
session(pushes(b"bob", b"testing", [(None, first, TAG)], first_pack))
session(pushes(b"bob", b"testing", [(first, second, TAG)], raw_pack([second])))
session(pushes(b"bob", b"merges", [(None, base, MASTER), (None, base, topic)], base_pack))
session(pushes(b"bob", b"merges", [(base, merge, MASTER), (base, merge, topic)], merge_all))

# 143 and 144: a subconf that names its own group, which counts for nothing
inner_root, inner_objects = files([(b"conf/gitolite.conf", MAIN % b""), (b"conf/web.conf", b"@web = core2\n" + WEB.replace(b"core", b"core2"))])
inner = carols(b"subconf", inner_root, later)
session(pushes(b"admin", b"gitolite-admin", [(later, inner, MASTER)], raw_pack([inner] + inner_objects)))
session(asks(b"wanda", b"git-receive-pack 'core2'"))

# 145: the conf's branch isn't deleted
session(pushes(b"admin", b"gitolite-admin", [(inner, None, MASTER)], b""))

# VI. more fetches of `shelf`, whose lines end in no line feed, and a tag of a tag

SHELVES = b"""repo gitolite-admin
    RW+  = admin
repo shelf
    RW+  = carol
    R    = bob
repo bare
    R    = bob
"""
shelves, shelves_objects = conf(SHELVES, inner)
outer = ("tag", b"object " + hexed(tag).encode() + b"\ntype tag\ntag v2\ntagger Carol <carol@example.com> 1700000000 +0000\n\ntwo\n")


def bare_line(word, item, words=b""):
    return packet(word + b" " + hexed(item).encode() + words)


# 146: the conf, under which the refs of 120 are there
session(pushes(b"admin", b"gitolite-admin", [(inner, shelves, MASTER)], raw_pack([shelves] + shelves_objects)))

# 147 to 152: nothing in common; words, flushes and haves; a tag in common; what isn't advertised; what leaves
# the form
fetches(b"bob", b"shelf", bare_line(b"want", tag) + b"0000" + packet(b"done"))
fetches(
    b"bob",
    b"shelf",
    bare_line(b"want", second, b" ofs-delta")
    + bare_line(b"want", tag)
    + b"00000000"
    + bare_line(b"have", side)
    + bare_line(b"have", first)
    + b"0000"
    + bare_line(b"have", second)
    + packet(b"done"),
)
fetches(b"bob", b"shelf", bare_line(b"want", second, b" ") + b"0000" + bare_line(b"have", tag) + packet(b"done"))
fetches(b"bob", b"shelf", bare_line(b"want", second) + bare_line(b"want", first) + b"0000")
fetches(b"bob", b"shelf", bare_line(b"want", second, b"x"))
fetches(b"bob", b"shelf", bare_line(b"want", second) + bare_line(b"want", second, b" a") + b"0000")

# 153: forty zeros of a repository without refs
fetches(b"bob", b"bare", bare_line(b"want", None) + b"0000")

# 154 and 155: a tag of the tag
session(pushes(b"carol", b"shelf", [(None, outer, b"refs/tags/v2")], raw_pack([outer])))
fetches(b"bob", b"shelf", b"0000")

# 156: the tag of the tag, with all behind it
fetches(b"bob", b"shelf", line(b"want", outer) + b"0000" + DONE)

# 157 and 158: a tag that moves to a child of its commit, by who may rewind
session(pushes(b"carol", b"shelf", [(None, first, b"refs/tags/v3")]))
session(pushes(b"carol", b"shelf", [(first, second, b"refs/tags/v3")]))

# 159: names of refs that only the rules judge
session(pushes(b"carol", b"shelf", [(None, first, branch(b"feature#7")), (None, first, branch(b"a=b")), (None, first, branch("é".encode()))]))

# 160 to 162: a ref's name of 1,025 bytes, and of 1,024
session(pushes(b"carol", b"shelf", [(None, first, branch(b"a" * 1014))]))
session(pushes(b"carol", b"shelf", [(None, first, branch(b"a" * 1013))]))
session(pushes(b"carol", b"shelf", [(first, None, branch(b"a" * 1013))], b""))

# 163 and 164: a commit that no ref leads to is stored, and is common though its tree isn't there
lost = ("commit", b"tree " + b"1" * 40 + b"\n\nlost\n")
session(pushes(b"carol", b"shelf", [(None, first, branch(b"keep"))], raw_pack([lost])))
fetches(b"bob", b"shelf", line(b"want", second) + b"0000" + line(b"have", lost) + DONE)

# 165: nothing in common at first, then all
fetches(b"bob", b"shelf", line(b"want", second) + b"00000000" + line(b"have", second) + DONE)

# VII. who may create and not read, and paths in a push

ODD = b"""repo gitolite-admin
    RW+  = admin
repo shelf
    RW+  = carol
    R    = bob
repo u/..*
    C    = ann
    R    = bob
repo paths
    -    VREF/NAME/d/ VREF/NAME/secret$ = junior
    RW   = junior ann
"""
odd, odd_objects = conf(ODD, shelves)

# 166 to 168: nothing is made by who may not read it
session(pushes(b"admin", b"gitolite-admin", [(shelves, odd, MASTER)], raw_pack([odd] + odd_objects)))
fetches(b"ann", b"u/x", b"0000")
fetches(b"bob", b"u/x", b"0000")

# 169 to 171: a path with bytes above 127, and a file that goes under another name
kept_root, kept_objects = files([(b"secret", b"a\n")])
kept = carols(b"secret", kept_root)
accent_root, accent_objects = files([("d/é".encode(), b"b\n"), (b"secret", b"a\n")])
accent = carols(b"accent", accent_root, kept)
renamed_root, renamed_objects = files([(b"open", b"a\n")])
renamed = carols(b"renamed", renamed_root, kept)
session(pushes(b"ann", b"paths", [(None, kept, MASTER)], raw_pack([kept] + kept_objects)))
session(pushes(b"junior", b"paths", [(kept, accent, MASTER)], raw_pack([accent] + accent_objects)))
session(pushes(b"junior", b"paths", [(kept, renamed, MASTER)], raw_pack([renamed] + renamed_objects)))

# 172: what came with a conf that was refused isn't there
session(pushes(b"admin", b"gitolite-admin", [(None, refused, branch(b"x"))]))

# 173 and 174: a user's name of 64 bytes, and of 65
session(asks(b"a" * 64, b"info"))
session(asks(b"a" * 65, b"info"))

# VIII. a role that a conf declares

UNDECLARED = b"""repo gitolite-admin
    RW+  = admin
repo CREATOR/[a-z]+
    C    = alice
    RW+  = CREATOR
    RW   = TESTERS
    R    = READERS
"""
DECLARED = UNDECLARED + b"    option role.TESTERS = 1\n"
declared, declared_objects = conf(DECLARED, odd)
undeclared, undeclared_objects = conf(UNDECLARED, declared)

# 175 to 179: alice makes a repository, and gives the role to bob; a user whose name is that word isn't let in
session(pushes(b"admin", b"gitolite-admin", [(odd, declared, MASTER)], raw_pack([declared] + declared_objects)))
session(asks(b"alice", b"git-receive-pack 'alice/z'") + b"0000")
session(asks(b"alice", b"perms alice/z + TESTERS bob"))
session(asks(b"bob", b"git-receive-pack 'alice/z'") + b"0000")
session(asks(b"TESTERS", b"git-receive-pack 'alice/z'"))

# 180 to 184: without the option the word is a name; who holds the role is kept, and can't be changed
session(pushes(b"admin", b"gitolite-admin", [(declared, undeclared, MASTER)], raw_pack([undeclared] + undeclared_objects)))
session(asks(b"bob", b"git-receive-pack 'alice/z'"))
session(asks(b"TESTERS", b"git-receive-pack 'alice/z'") + b"0000")
session(asks(b"alice", b"perms -l 'alice/z'"))
session(asks(b"alice", b"perms alice/z + TESTERS cal"))

# 185 and 186: with the first conf again it is a role
session(pushes(b"admin", b"gitolite-admin", [(undeclared, declared, MASTER)], NO_OBJECTS))
session(asks(b"bob", b"git-receive-pack 'alice/z'") + b"0000")


if __name__ == "__main__":
    for body in sessions:
        sys.stdout.buffer.write(b"session %d\n" % len(body) + body + b"\n")
