#!/usr/bin/env python3
"""What pushes and fetches cost: push_costs.py PROGRAM [CASE ..], by hand, never in the gate.

PROGRAM is the built gitolite_shell. Each case makes its input, hands it to one running program session by session, and
prints seconds from a session's first byte to its reply. `one_ref` and `large_pack` run a script from a file to a file, and print the
seconds of the run. Without a CASE all are run; `list` names them. Two of them, `refused` and `old`, fill repositories of millions of
objects, and take some minutes and gigabytes.
"""
import hashlib
import struct
import subprocess
import sys
import tempfile
import time

ZERO = "0" * 40
KINDS = {"commit": 1, "tree": 2, "blob": 3, "tag": 4}
IDENTITY = b"author C <c@example.com> 1700000000 +0000\ncommitter C <c@example.com> 1700000000 +0000\n\n"
MOST_OBJECTS = 99_990  # of a pack of fill: a pack has 100,000 entries at most


def object_id(item):
    kind, body = item
    return hashlib.sha1(b"%s %d\0" % (kind.encode(), len(body)) + body).digest()


def entry_head(kind, size):
    byte, size = KINDS[kind] << 4 | size & 15, size >> 4
    head = bytearray()
    while size:
        head.append(byte | 128)
        byte, size = size & 127, size >> 7
    head.append(byte)
    return bytes(head)


def raw_pack(items):
    data = b"PACK" + struct.pack(">II", 2, len(items)) + b"".join(entry_head(kind, len(body)) + body for kind, body in items)
    return data + hashlib.sha1(data).digest()


def packet(data):
    return b"%04x" % (len(data) + 4) + data


def push(creates, items):
    """A session that creates these refs, each a name and an id, and sends a pack of these objects."""
    out = [packet(b"carol git-receive-pack 'testing'")]
    for at, (ref, new) in enumerate(creates):
        out.append(packet(("%s %s %s" % (ZERO, new.hex(), ref)).encode() + (b"\0report-status" if at == 0 else b"")))
    return b"".join(out) + b"0000" + raw_pack(items)


def commit(word, tree, parents=()):
    lines = b"".join(b"parent %s\n" % parent.hex().encode() for parent in parents)
    return "commit", b"tree " + tree.hex().encode() + b"\n" + lines + IDENTITY + word


def tree(rows):
    return "tree", b"".join(mode + b" " + name + b"\0" + new for mode, name, new in rows)


EMPTY = tree([])
EMPTY_ID = object_id(EMPTY)
FIRST = commit(b"first\n", EMPTY_ID)
FIRST_ID = object_id(FIRST)


class Program:
    """A running program, which is given a session at a time."""

    def __init__(self, path):
        self.child = subprocess.Popen([path, "script", "--admin", "admin"], stdin=subprocess.PIPE, stdout=subprocess.PIPE)

    def serve(self, data):
        """Seconds from the first byte written to the last one read, and the reply."""
        frame = b"session %d\n" % len(data) + data + b"\n"
        began = time.perf_counter()
        self.child.stdin.write(frame)
        self.child.stdin.flush()
        head = self.child.stdout.readline().split()
        printed = self.child.stdout.read(int(head[3]) + 1)
        return time.perf_counter() - began, printed[:-1]

    def expect(self, data, word=b"ok refs/"):
        took, reply = self.serve(data)
        assert word in reply, reply[-300:]
        return took

    def fill(self, packs, first=0):
        """Stores so many packs of small blobs, each behind a ref of its own."""
        for number in range(first, first + packs):
            blobs = [("blob", b"fill %d %d" % (number, n)) for n in range(MOST_OBJECTS)]
            self.expect(push([("refs/fill/%d" % number, FIRST_ID)], ([FIRST, EMPTY] if number == 0 else []) + blobs))

    def end(self):
        self.child.stdin.close()
        self.child.stdout.read()
        self.child.wait()


def run_script(program, sessions):
    """Seconds of a run from a file of these sessions to another file, from start to end, the least of five; and what it printed."""
    with tempfile.TemporaryFile() as script, tempfile.TemporaryFile() as printed:
        for data in sessions:
            script.write(b"session %d\n" % len(data) + data + b"\n")
        took = []
        for _ in range(5):
            script.seek(0)
            printed.seek(0)
            printed.truncate()
            began = time.perf_counter()
            subprocess.run([program, "script", "--admin", "admin"], stdin=script, stdout=printed, check=True)
            took.append(time.perf_counter() - began)
        printed.seek(0)
        return min(took), printed.read()


def times(seconds):
    return "least %.3f, most %.3f ms" % (min(seconds) * 1e3, max(seconds) * 1e3)


def refused(program):
    """A refused push of 100,000 small blobs, into an empty repository and into ones that halve from 3,200,000 down."""
    for packs in (0, 63):
        program_now = Program(program)
        program_now.fill(packs)
        took = []
        for turn in range(3):
            blobs = [("blob", b"refused %d %d" % (turn, n)) for n in range(MOST_OBJECTS)]
            took.append(program_now.expect(push([("refs/heads/a..b", FIRST_ID)], blobs), b"bad ref name"))
        print("refused push of %d blobs beside %d objects: %s" % (MOST_OBJECTS, packs * MOST_OBJECTS, times(took)))
        program_now.end()


def old(program):
    """Creates at older commits, with an empty pack, in a repository of a million objects, a history of 333,000 commits."""
    program_now, commits = Program(program), [FIRST_ID]
    program_now.expect(push([("refs/heads/first", FIRST_ID)], [FIRST, EMPTY]))
    for number in range(10):
        items = []
        for n in range(MOST_OBJECTS // 3):
            blob = ("blob", b"%d %d" % (number, n))
            files = tree([(b"100644", b"f", object_id(blob))])
            made = commit(b"%d %d\n" % (number, n), object_id(files), [commits[-1]])
            commits.append(object_id(made))
            items += [made, files, blob]
        program_now.expect(push([("refs/heads/at%d" % number, commits[-1])], items))
    took = [program_now.expect(push([("refs/heads/old%d" % n, commits[-2 - n])], [])) for n in range(8)]
    print("create at an older commit, empty pack, beside a million objects: %s" % times(took))
    program_now.end()


def one_file(program):
    """One file changed among 90,000 in 300 folders, behind 0 and 1,000,000 older objects."""
    blobs, folders = [], []
    for n in range(300):
        some = [("blob", b"%d %d" % (n, k)) for k in range(300)]
        blobs += some
        folders.append(tree([(b"100644", b"%03d" % k, object_id(blob)) for k, blob in enumerate(some)]))
    top = tree([(b"40000", b"%03d" % n, object_id(folder)) for n, folder in enumerate(folders)])
    base = commit(b"base\n", object_id(top))
    for packs in (0, 10):
        program_now = Program(program)
        program_now.fill(packs)
        first = program_now.expect(push([("refs/heads/base", object_id(base))], [base, top] + folders + blobs))
        took = []
        for n in range(8):
            blob = ("blob", b"changed %d" % n)
            rows = [(b"100644", b"%03d" % k, object_id(blob if k == 7 else ("blob", b"7 %d" % k))) for k in range(300)]
            folder = tree(rows)
            root = tree([(b"40000", b"%03d" % k, object_id(folder if k == 7 else folders[k])) for k in range(300)])
            made = commit(b"change %d\n" % n, object_id(root), [object_id(base)])
            took.append(program_now.expect(push([("refs/heads/c%d" % n, object_id(made))], [made, root, folder, blob])))
        print("one file changed among 90,000 beside %d older objects: %s (the first push %.3f s)" % (packs * MOST_OBJECTS, times(took), first))
        program_now.end()


def rootless(program):
    """Creates at the top of a stored chain of commits whose first tree never came, with an empty pack."""
    for packs in (1, 4, 10):
        program_now, parent = Program(program), object_id(commit(b"never sent\n", EMPTY_ID))
        for number in range(packs):
            items = []
            for n in range(MOST_OBJECTS):
                made = commit(b"%d %d\n" % (number, n), EMPTY_ID, [parent])
                parent = object_id(made)
                items.append(made)
            program_now.expect(push([("refs/tmp/%d" % number, FIRST_ID)], [FIRST, EMPTY] + items))
        took = [program_now.expect(push([("refs/heads/top", parent)], []), b"missing object") for _ in range(4)]
        print("create at the top of %d rootless commits: first %.3f s, then %s" % (packs * MOST_OBJECTS, took[0], times(took[1:])))
        program_now.end()


def large_trees(program):
    """A push of one tree of 480,000 entries, and of 15."""
    blob = ("blob", b"")
    for count in (1, 15):
        made = [tree([(b"100644", b"%06d" % (n + k), object_id(blob)) for n in range(480_000)]) for k in range(count)]
        root = tree([(b"40000", b"%06d" % k, object_id(item)) for k, item in enumerate(made)])
        top = commit(b"trees\n", object_id(root))
        program_now = Program(program)
        took = program_now.expect(push([("refs/heads/trees", object_id(top))], [top, root, blob] + made))
        print("%d trees of 480,000 entries: %.3f s" % (count, took))
        program_now.end()


def deep_refs(program):
    """10,000 creates of refs with 510 slashes."""
    program_now = Program(program)
    creates = [("refs/" + "a/" * 506 + "%05d" % n, FIRST_ID) for n in range(10_000)]
    print("10,000 creates of refs with 507 slashes: %.3f s" % program_now.expect(push(creates, [FIRST, EMPTY])))
    program_now.end()


def one_ref(program):
    """10,000 sessions at one ref, in one script."""
    data = push([("refs/heads/master", FIRST_ID)], [FIRST, EMPTY])
    took, printed = run_script(program, [data] * 10_000)
    assert printed.count(b" served ") == 10_000
    print("10,000 sessions at one ref: %.3f s" % took)


def large_pack(program):
    """A pack of 100 blobs of 1 MiB, in one script."""
    blobs = [("blob", bytes([n]) * (1 << 20)) for n in range(100)]
    data = push([("refs/heads/master", FIRST_ID)], [FIRST, EMPTY] + blobs)
    took, printed = run_script(program, [data])
    assert b"ok refs/heads/master" in printed
    print("a pack of %.1f MB: %.3f s, %.0f MB/s" % (len(data) / 1e6, took, len(data) / 1e6 / took))


def generated_conf(repositories):
    """The conf of the admin's repository and so many others, whose two users are drawn."""
    text, drawn = b"repo gitolite-admin\n    RW+ = admin\n", 2
    for number in range(repositories):
        users = []
        for _ in range(2):
            drawn = (75 * drawn + 74) % 65537
            users.append(drawn % 10)
        text += b"repo r%d\n    RW+ = u%d\n    RW master$ = u%d\n    R = @all\n" % (number, users[0], users[1])
    return text


def admin_push(text):
    """A session by which the admin pushes this conf, the first one."""
    blob = ("blob", text)
    inner = tree([(b"100644", b"gitolite.conf", object_id(blob))])
    root = tree([(b"40000", b"conf", object_id(inner))])
    made = ("commit", b"tree " + object_id(root).hex().encode() + b"\n")
    line = packet(("%s %s refs/heads/master" % (ZERO, object_id(made).hex())).encode() + b"\0report-status")
    return packet(b"admin git-receive-pack 'gitolite-admin'") + line + b"0000" + raw_pack([made, root, inner, blob])


def installation(program):
    """A push of a conf of 300 and of 5,000 repositories; what a user sees then, an opening, and a push."""
    for repositories in (300, 5_000):
        program_now = Program(program)
        pushed = program_now.expect(admin_push(generated_conf(repositories)))
        seen = [program_now.expect(packet(b"u1 info"), b"hello u1") for _ in range(5)]
        denied = [program_now.expect(packet(b"nobody git-receive-pack 'r%d'" % n), b"DENIED") for n in range(100)]
        owner = next(k for k in range(10) if b"DENIED" not in program_now.serve(packet(b"u%d git-receive-pack 'r7'" % k) + b"0000")[1])
        body = push([("refs/heads/master", FIRST_ID)], [FIRST, EMPTY])[len(packet(b"carol git-receive-pack 'testing'")) :]
        took = program_now.expect(packet(b"u%d git-receive-pack 'r7'" % owner) + body)
        print("%d repositories: the admin's push %.3f s; a listing: %s; a denied opening: %s; a push: %.3f ms" % (repositories, pushed, times(seen), times(denied), took * 1e3))
        program_now.end()


def folders_of(blobs):
    """A commit of these blobs in folders of 300, with its trees."""
    folders = [tree([(b"100644", b"%03d" % k, object_id(blob)) for k, blob in enumerate(blobs[n : n + 300])]) for n in range(0, len(blobs), 300)]
    root = tree([(b"40000", b"%03d" % n, object_id(folder)) for n, folder in enumerate(folders)])
    return commit(b"folders\n", object_id(root)), [root] + folders


def clone(program):
    """A clone of 100 blobs of 1 MiB, and of 90,000 small ones; a fetch of one commit more, behind the second."""
    for blobs in ([("blob", bytes([n]) * (1 << 20)) for n in range(100)], [("blob", b"small %d" % n) for n in range(90_000)]):
        program_now, (made, trees) = Program(program), folders_of(blobs)
        program_now.expect(push([("refs/heads/master", object_id(made))], [made] + trees + blobs))
        want = packet(b"carol git-upload-pack 'testing'") + packet(b"want " + object_id(made).hex().encode()) + b"0000"
        took = []
        for _ in range(3):
            seconds, reply = program_now.serve(want + packet(b"done"))
            took.append(seconds)
        print("a clone of %d blobs, %.1f MB: %s, %.0f MB/s" % (len(blobs), len(reply) / 1e6, times(took), len(reply) / 1e6 / min(took)))
        next_one = commit(b"next\n", EMPTY_ID, [object_id(made)])
        program_now.expect(push([("refs/heads/next", object_id(next_one))], [next_one, EMPTY]))
        want = packet(b"carol git-upload-pack 'testing'") + packet(b"want " + object_id(next_one).hex().encode()) + b"0000"
        took = [program_now.expect(want + packet(b"have " + object_id(made).hex().encode()) + packet(b"done"), b"ACK") for _ in range(5)]
        print("a fetch of one commit more: %s" % times(took))
        program_now.end()


def others(program):
    """Openings and pushes of one commit in `testing`, beside no other repository and beside 99,000."""
    for repositories in (0, 99_000):
        program_now = Program(program)
        names = b"".join(b"repo " + b" ".join(b"r%d" % k for k in range(n, min(n + 100, repositories))) + b"\n    R = @all\n" for n in range(0, repositories, 100))
        conf = program_now.expect(admin_push(b"repo gitolite-admin\n    RW+ = admin\nrepo testing\n    RW+ = @all\n" + names))
        program_now.expect(push([("refs/heads/master", FIRST_ID)], [FIRST, EMPTY]))
        opened = [program_now.serve(packet(b"carol git-receive-pack 'testing'") + b"0000")[0] for _ in range(1_000)]
        pushed = [program_now.expect(push([("refs/heads/b%d" % n, FIRST_ID)], [])) for n in range(200)]
        print("beside %d repositories (the admin's push %.3f s): an opening: %s; a push: %s" % (repositories, conf, times(opened), times(pushed)))
        program_now.end()


def update(old, new, ref, items):
    line = packet(("%s %s %s" % (old.hex(), new.hex(), ref)).encode() + b"\0report-status")
    return packet(b"carol git-receive-pack 'testing'") + line + b"0000" + raw_pack(items)


def history(program):
    """Over a chain of 300,000 commits: a commit more, a rewind by one, a merge of a topic that was forked one commit ago, and a create at an older commit."""
    program_now, parent, ids, made = Program(program), None, [], []
    for n in range(300_000):
        item = commit(b"%d" % n, EMPTY_ID, [parent] if parent else [])
        parent = object_id(item)
        ids.append(parent)
        made.append(item)
        if len(made) == MOST_OBJECTS or n == 299_999:
            program_now.expect(push([("refs/heads/part%d" % n, parent)], made + [EMPTY]))
            made = []
    program_now.expect(push([("refs/heads/master", ids[-1])], []))
    topic = commit(b"topic", EMPTY_ID, [ids[-2]])
    program_now.expect(push([("refs/heads/topic", object_id(topic))], [topic]))
    merge = commit(b"merge", EMPTY_ID, [ids[-1], object_id(topic)])
    more = commit(b"more", EMPTY_ID, [object_id(merge)])
    master = "refs/heads/master"
    print("a merge of a topic: %.2f ms" % (program_now.expect(update(ids[-1], object_id(merge), master, [merge])) * 1e3))
    print("a commit more: %.2f ms" % (program_now.expect(update(object_id(merge), object_id(more), master, [more])) * 1e3))
    print("a rewind by one: %.2f ms" % (program_now.expect(update(object_id(more), object_id(merge), master, [])) * 1e3))
    print("a create at an older commit: %.2f ms" % (program_now.expect(push([("refs/heads/old", ids[1_000])], [])) * 1e3))
    program_now.end()


def many_paths(width):
    """Trees of so many entries, three deep: a root under which so many files to the third power stand, though all of them are one."""
    blob = ("blob", b"one\n")
    files = tree([(b"100644", b"%03d" % k, object_id(blob)) for k in range(width)])
    folders = tree([(b"40000", b"%03d" % k, object_id(files)) for k in range(width)])
    root = tree([(b"40000", b"%03d" % k, object_id(folders)) for k in range(width)])
    return root, [root, folders, files, blob]


ASKS_PATHS = b"repo gitolite-admin\n    RW+ = admin\nrepo testing\n    - VREF/NAME/none/ = bob\n    RW+ = @all\n"


def alike(program):
    """Trees of 10,000 files on each side of an update, each nearly equal to each: every one of 100, of 200 and of 300 is compared with every one, where a rule asks of paths."""
    base = [b"100644 %05d\0" % k + object_id(("blob", b"base %d" % k)) for k in range(10_000)]
    for count in (100, 200, 300):
        blobs = [("blob", b"base %d" % k) for k in range(10_000)] + [("blob", b"side %d %d" % (side, n)) for side in range(2) for n in range(count)]
        sides = [[("tree", b"".join(base[:5_000]) + b"100644 05000\0" + object_id(("blob", b"side %d %d" % (side, n))) + b"".join(base[5_001:])) for n in range(count)] for side in range(2)]
        ids = [[object_id(it) for it in side] for side in sides]
        roots = [("tree", b"".join(b"40000 %05d\0" % (n * count + k) + ids[side][(n, k)[side]] for n in range(count) for k in range(count))) for side in range(2)]
        made = commit(b"old\n", object_id(roots[0]))
        next_one = commit(b"new\n", object_id(roots[1]), [object_id(made)])
        program_now = Program(program)
        program_now.expect(admin_push(ASKS_PATHS))
        program_now.expect(push([("refs/heads/master", object_id(made))], [made, roots[0]] + sides[0] + blobs))
        took = {}
        for user in (b"bob", b"carol"):
            line = packet(("%s %s refs/heads/master" % (object_id(made).hex(), object_id(next_one).hex())).encode() + b"\0report-status")
            took[user] = program_now.expect(packet(user + b" git-receive-pack 'testing'") + line + b"0000" + raw_pack([next_one, roots[1]] + sides[1]))
            back = packet(("%s %s refs/heads/master" % (object_id(next_one).hex(), object_id(made).hex())).encode() + b"\0report-status")
            program_now.expect(packet(b"carol git-receive-pack 'testing'") + back + b"0000" + raw_pack([]))
        print("%d trees of 10,000 files on each side: a push %.2f s, and with its paths asked for %.2f s" % (count, took[b"carol"], took[b"bob"]))
        program_now.end()


def paths(program):
    """Creates at one commit over small trees with 64,000 paths, where a rule asks of paths; and at as many commits of that one tree."""
    root, items = many_paths(40)
    made = commit(b"paths\n", object_id(root))
    for commands in (1, 40, 10_000):
        program_now = Program(program)
        program_now.expect(admin_push(ASKS_PATHS))
        sent = push([("refs/heads/b%05d" % n, object_id(made)) for n in range(commands)], [made] + items)
        took = program_now.expect(sent.replace(packet(b"carol git-receive-pack 'testing'"), packet(b"bob git-receive-pack 'testing'")))
        print("%d creates at one commit with 64,000 paths: %.2f s" % (commands, took))
        program_now.end()
    commits = [commit(b"%d\n" % n, object_id(root)) for n in range(10_000)]
    program_now = Program(program)
    program_now.expect(admin_push(ASKS_PATHS))
    sent = push([("refs/heads/b%05d" % n, object_id(made)) for n, made in enumerate(commits)], commits + items)
    took = program_now.expect(sent.replace(packet(b"carol git-receive-pack 'testing'"), packet(b"bob git-receive-pack 'testing'")))
    print("10,000 creates at 10,000 commits of one tree with 64,000 paths: %.2f s" % took)
    program_now.end()


CASES = {case.__name__: case for case in (refused, old, one_file, rootless, large_trees, deep_refs, one_ref, large_pack, installation, clone, others, history, alike, paths)}


def main():
    if len(sys.argv) < 2 or sys.argv[1:] == ["list"]:
        print(__doc__)
        for name, case in CASES.items():
            print("%-12s %s" % (name, case.__doc__))
        return
    for name in sys.argv[2:] or CASES:
        CASES[name](sys.argv[1])


if __name__ == "__main__":
    main()
