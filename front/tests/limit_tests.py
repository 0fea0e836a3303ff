"""The server's limits, as the front end tells them."""
import hashlib
import os
import struct
import zlib

from cerolimau.packets import FLUSH, packet
from cerolimau.raw_pack import entry_head

from .world import FRONT, expect, run

ZERO = "0" * 40
MB16 = 16_777_216


def import_blobs(here, where, bodies):
    """A commit on master that has these blobs, in a folder for each hundred."""
    with open(where / "stream", "wb") as stream:
        stream.write(b"commit refs/heads/master\ncommitter B <b@x> 1700000000 +0000\ndata 2\nx\n")
        for number, body in enumerate(bodies):
            stream.write(b"M 100644 inline %d/%d\ndata %d\n%s\n" % (number // 100, number, len(body), body))
    run(["sh", "-c", "git fast-import --quiet < stream"], cwd=where, env=here.environment)


def too_many_objects(here):
    """An atomic push of more than 100,000 objects is told so."""
    made = here.folder()
    here.git("ann", "init", cwd=made)
    import_blobs(here, made, (b"%d" % number for number in range(100_000)))
    said = here.git("ann", "push", "--atomic", "here:t/many", "master", cwd=made, status=1)
    expect(said, "remote unpack failed: the push has 101002 objects, and one that is atomic, or goes to gitolite-admin, may have 100000 at most")
    expect(said, "[remote rejected]     master -> master (unpacker error)")
    assert "died of signal" not in said, said


def too_large_object(here):
    """An object of more than 16 MiB is named; one of just so many bytes is taken."""
    made = here.repository({"fits": bytes(MB16), "large": bytes(MB16 + 1)})
    said = here.git("ann", "push", "here:t/large", "master", cwd=made, status=1)
    name = here.head(made, "HEAD:large")
    expect(said, "remote unpack failed: blob %s has 16777217 bytes, and an object may have 16777216 at most" % name)
    here.git("ann", "rm", "large", cwd=made)
    here.git("ann", "commit", "--amend", "-m", "without it", cwd=made)
    here.git("ann", "push", "here:t/large", "master", cwd=made)


def pack_of(entries):
    """A pack of entries, each a kind, the bytes behind the head, and those that are compressed."""
    data = b"PACK" + struct.pack(">II", 2, len(entries))
    data += b"".join(entry_head(kind, len(body)) + base + zlib.compress(body, 1) for kind, base, body in entries)
    return data + hashlib.sha1(data).digest()


def size_of(number):
    """A size as a delta's head has it."""
    digits = bytearray()
    while number > 127:
        digits.append(number & 127 | 128)
        number >>= 7
    return bytes(digits) + bytes([number])


def blob_name(body):
    return hashlib.sha1(b"blob %d\0" % len(body) + body).digest()


def push_of(pack, words="report-status"):
    return packet(("%s %s refs/heads/x\0%s" % (ZERO, "1" * 40, words)).encode()) + FLUSH + pack


def too_large_by_delta(here):
    """So is an object that a delta makes too large."""
    base = bytes(MB16)
    delta = size_of(MB16) + size_of(MB16 + 2) + copies(MB16) + b"\x02ab"
    said = here.ask("ann", "git-receive-pack 't/large'", push_of(pack_of([(3, b"", base), (7, blob_name(base), delta)])), status=1)
    expect(said, "unpack blob %s has 16777218 bytes, and an object may have 16777216 at most" % blob_name(base + b"ab").hex())


def copies(size):
    """Instructions that copy so many bytes, a multiple of 65,536, from the base's beginning on."""
    return b"".join(b"\x8c" + bytes([at >> 16 & 255, at >> 24]) for at in range(0, size, 1 << 16))


def too_many_bytes(here):
    """An atomic push of more than 256 MiB is told so."""
    bodies = [bytes([number]) * (MB16 - 1) for number in range(17)]
    said = here.ask("ann", "git-receive-pack 't/large'", push_of(pack_of([(3, b"", body) for body in bodies]), "report-status atomic"), status=1)
    expect(said, "unpack the push has more than 268435456 bytes of objects, which are the most of one that is atomic, or goes to gitolite-admin,")


def too_many_bytes_by_deltas(here):
    """So are small deltas that make many bytes."""
    base = bytes(MB16)
    delta = size_of(MB16) + size_of(MB16) + copies(MB16)
    pack = pack_of([(3, b"", base)] + [(7, blob_name(base), delta)] * 16)
    said = here.ask("ann", "git-receive-pack 't/large'", push_of(pack, "report-status atomic"), status=1)
    expect(said, "unpack the push has more than 268435456 bytes of objects")


def huge_sizes(here):
    """Sizes that nothing has are refused before a byte of theirs is read."""
    huge = 1 << 60
    base = b"hello\n"
    start = b"PACK" + struct.pack(">II", 2, 1)
    for pack, told in (
        (start + entry_head(3, huge), "entry 0 has %d bytes, and an object may have" % huge),
        (start + b"\xbf" + b"\xff" * 5000, "bytes, and an object may have"),
        (start + entry_head(7, huge) + bytes(20), "the delta of entry 0 has %d bytes" % huge),
        (start + entry_head(6, 3) + b"\xff" * 5000, "entry 0 is a delta over no entry before it"),
        (pack_of([(3, b"", base), (7, blob_name(base), size_of(6) + size_of(huge) + b"\x90\x06" * 9)]), "entry 1 has %d bytes" % huge),
        (pack_of([(3, b"", base), (7, blob_name(base), size_of(6) + b"\xff" * 5000)]), "bad delta at entry 1"),
    ):
        expect(here.ask("ann", "git-receive-pack 'testing'", push_of(pack), status=1), told, "ng refs/heads/x unpacker error\n0000")


def too_many_lines(here):
    """Commands, wants and haves are counted."""
    commands = b"".join(packet(("%s %s refs/heads/%d" % (ZERO, "1" * 40, number)).encode()) for number in range(10_001)) + FLUSH
    expect(here.ask("ann", "git-receive-pack 'testing'", commands, status=1), "ERR cerolimau: a push may change 10000 refs at most")
    made = here.repository()
    here.git("ann", "push", "here:t/lines", "master", cwd=made)
    want = packet(b"want " + here.head(made).encode())
    said = here.ask("ann", "git-upload-pack 't/lines'", want * 10_001 + FLUSH, status=1)
    expect(said, "ERR cerolimau: a fetch may want 10000 objects at most")
    have = packet(b"have " + b"1" * 40)
    said = here.ask("ann", "git-upload-pack 't/lines'", want + FLUSH + have * 100_001 + packet(b"done"), status=1)
    expect(said, "ERR cerolimau: a fetch may name 100000 commits that it has at most")
    expect(here.ask("ann", "git-upload-pack 't/lines'", want + FLUSH + have * 100_000 + packet(b"done")), "0008NAK\nPACK")


def slices(here):
    """push-in-slices pushes a history with merges, goes on where it was cut, takes all branches, and names what is too large for any push."""
    made = here.repository()
    for number in range(20):
        here.commit(made, {"%d/%d" % (number, file): "%d %d\n" % (number, file) for file in range(5)})
        if number % 5 == 4:
            here.git("ann", "checkout", "-q", "-b", "side%d" % number, "HEAD~1", cwd=made)
            here.commit(made, {"side%d" % number: "side\n"})
            here.git("ann", "checkout", "-q", "master", cwd=made)
            here.git("ann", "merge", "-m", "a merge", "side%d" % number, cwd=made)
    how = {"cwd": made, "env": {**here.environment, "GIT_SSH_COMMAND": " ".join(here.front("ann"))}}
    program = str(FRONT / "push-in-slices")
    here.git("ann", "push", "here:t/slices", "HEAD~12:refs/heads/master", cwd=made)
    said = run([program, "--objects", "30", "here:t/slices", "master"], **how)
    expect(said, "refs/heads/master, push 1 of ")
    assert said.count("refs/heads/master, push ") >= 3, said
    assert here.git("ann", "ls-remote", "here:t/slices", "master").split()[0] == here.head(made)
    expect(run([program, "here:t/slices", "master"], **how), "Everything up-to-date")
    here.git("ann", "tag", "-m", "a tag", "v1", cwd=made)
    expect(run([program, "--all", "--objects", "30", "here:t/slices2"], **how), "refs/heads/master, push 2 of ", "v1 -> v1")
    assert here.git("ann", "ls-remote", "here:t/slices2").count("refs/heads/") == 5
    here.commit(made, {"folder/large": bytes(MB16 + 1)})
    said = run([program, "here:t/slices", "master"], status=1, **how)
    expect(said, "nothing was pushed", "%s folder/large has 16777217 bytes" % here.head(made, "HEAD:folder/large"))


def refused_bytes(here):
    """What refused pushes bring stays in the log, so a user has a bound on it for each day; what is done doesn't count."""
    made = here.repository({"large": os.urandom(300_000)})
    options = "--refused-bytes", "500000", "--spool", str(here.folder() / "spool")
    denied = "master:refs/heads/personal/ann/x"
    for _ in range(2):
        expect(here.git("cal", "push", "here:site", denied, cwd=made, status=1, options=options), "DENIED by refs/heads/personal/")
    here.git("bob", "push", "here:t/refused", "master", cwd=made, options=options)
    for command in denied, "master:refs/heads/personal/cal/bytes":
        said = here.git("cal", "push", "here:site", command, cwd=made, status=1, options=options)
        expect(said, "remote unpack failed: refused pushes of cal have brought 600", "bytes today, and may bring 500000: wait until tomorrow")
    here.git("cal", "fetch", "here:t/refused", "master", cwd=made, options=options)
    here.git("bob", "push", "here:t/refused", "master:more", cwd=made, options=options)


TESTS = (
    too_many_objects, too_large_object, too_large_by_delta, too_many_bytes, too_many_bytes_by_deltas, huge_sizes, too_many_lines,
    slices, refused_bytes,
)
