"""Hostile use of the built programs, as tables: each byte at which an input is cut, a long chain of tags, a conf that includes itself."""
import hashlib
import re
import subprocess

from cerolimau.packets import FLUSH, packet

from .http_tests import sent
from .world import expect

ZERO = b"0" * 40
COMMIT, TREE, BLOB, TAG = 1, 2, 3, 4
KINDS = {COMMIT: b"commit", TREE: b"tree", BLOB: b"blob", TAG: b"tag"}
WHO = b"A U Thor <a@example.com> 1700000000 +0000"
EMPTY_TREE = TREE, b""


def object_name(kind, body):
    return hashlib.sha1(b"%s %d\0" % (KINDS[kind], len(body)) + body).hexdigest().encode()


def raw_pack(*objects):
    """A pack of whole objects, as the server reads and writes it."""
    made = b"PACK" + (2).to_bytes(4, "big") + len(objects).to_bytes(4, "big")
    for kind, body in objects:
        size = len(body)
        head, size = [kind << 4 | size & 15], size >> 4
        while size:
            head[-1] |= 128
            head.append(size & 127)
            size >>= 7
        made += bytes(head) + body
    return made + hashlib.sha1(made).digest()


def commit_of(tree, text):
    return COMMIT, b"tree %s\nauthor %s\ncommitter %s\n\n%s\n" % (object_name(*tree), WHO, WHO, text)


FIRST = commit_of(EMPTY_TREE, b"first")


def asked(user, words):
    return packet(b"%s %s" % (user, words))


def push_body(ref, value, *objects):
    return packet(b"%s %s %s\0report-status" % (ZERO, object_name(*value), ref)) + FLUSH + raw_pack(*objects)


def push_of(user, repo, ref, value, *objects):
    return asked(user, b"git-receive-pack '%s'" % repo) + push_body(ref, value, *objects)


def script(here, *bodies):
    """Runs sessions one after the other, and returns for each how it ended and what it wrote."""
    frames = b"".join(b"session %d\n%s\n" % (len(body), body) for body in bodies)
    ran = subprocess.run([here.program, "script", "--admin", "admin"], input=frames, capture_output=True, timeout=300)
    assert ran.returncode == 0 and not ran.stderr, (ran.returncode, ran.stdout[-500:], ran.stderr)
    rest, told = ran.stdout, []
    while rest:
        line, _, rest = rest.partition(b"\n")
        found = re.fullmatch(rb"session (\d+) ([a-z-]+) (\d+)", line)
        assert found and int(found[1]) == len(told) + 1, line
        told.append((found[2], rest[: int(found[3])]))
        rest = rest[int(found[3]) + 1 :]
    assert len(told) == len(bodies), len(told)
    return told


def cut_sessions(here):
    """A push, a fetch, a change and a listing of roles, and a look, cut at every byte: nothing is changed."""
    pushed = push_of(b"carol", b"testing", b"refs/heads/master", FIRST, FIRST, EMPTY_TREE)
    fetched = asked(b"carol", b"git-upload-pack 'testing'") + packet(b"want %s\n" % object_name(*FIRST)) + FLUSH + packet(b"done\n")
    others = (asked(b"carol", words) for words in (b"info", b"perms testing + READERS bob", b"perms -l testing"))
    for whole, before in ((pushed, ()), (fetched, (pushed,)), *((other, ()) for other in others)):
        told = script(here, *before, *(whole[:end] for end in range(len(whole))), whole)[len(before) :]
        ended, reply = told[-1]
        assert ended == b"served", (whole, ended, reply)
        for end, (ended, part) in enumerate(told[:-1]):
            # cut before the pack the session ends with a beginning of its reply, and inside the pack nothing of it is done
            begun = ended == b"truncated" and reply.startswith(part) and len(part) < len(reply)
            refused = ended == b"bad-pack" and b"unpack truncated at " in part and b"ng refs/heads/master unpacker error\n" in part and b"ok refs" not in part
            assert begun or refused and whole is pushed, (whole[:end], ended, part)


def tags_of_tags(here):
    """A thousand tags, each of the one before: pushed with the commit, and fetched with all that they lead to."""
    named, chain = FIRST, []
    for number in range(1000):
        kind = KINDS[named[0]]
        named = TAG, b"object %s\ntype %s\ntag t%d\ntagger %s\n\na tag\n" % (object_name(*named), kind, number, WHO)
        chain.append(named)
    pushed = push_of(b"carol", b"testing", b"refs/tags/deep", named, FIRST, EMPTY_TREE, *chain)
    fetched = asked(b"carol", b"git-upload-pack 'testing'") + packet(b"want %s\n" % object_name(*named)) + FLUSH + packet(b"done\n")
    missing = push_of(b"carol", b"testing", b"refs/tags/broken", (TAG, named[1] + b"more\n"), *chain[1:500], (TAG, named[1] + b"more\n"))
    told = script(here, pushed, fetched, missing)
    assert told[0][1].endswith(packet(b"unpack ok\n") + packet(b"ok refs/tags/deep\n") + FLUSH), told[0]
    # what the last tag leads to is advertised too
    advertised = packet(b"%s refs/tags/deep\0" % object_name(*named))[4:-1]
    expect(told[1][1], advertised.decode(), (object_name(*FIRST) + b" refs/tags/deep^{}").decode())
    pack = told[1][1].partition(b"PACK")[2]
    assert int.from_bytes(pack[4:8], "big") == 1002, pack[:8]
    assert b"ok refs/tags/broken" in told[2][1], told[2]


def conf_that_includes_itself(here):
    """A conf that includes itself by its own name is read once, and its rules count."""
    conf = BLOB, b'repo gitolite-admin\n    RW+ = admin\ninclude "gitolite.conf"\nrepo testing\n    RW+ = carol\n'
    folder = TREE, b"100644 gitolite.conf\0" + bytes.fromhex(object_name(*conf).decode())
    top = TREE, b"40000 conf\0" + bytes.fromhex(object_name(*folder).decode())
    swap = commit_of(top, b"rules")
    told = script(
        here,
        push_of(b"admin", b"gitolite-admin", b"refs/heads/master", swap, swap, top, folder, conf),
        push_of(b"carol", b"testing", b"refs/heads/master", FIRST, FIRST, EMPTY_TREE),
        push_of(b"dave", b"testing", b"refs/heads/other", FIRST, FIRST, EMPTY_TREE),
    )
    expect(told[0][1], "ok refs/heads/master")
    expect(told[1][1], "ok refs/heads/master")
    assert told[2][0] == b"denied", told[2]
    expect(told[2][1], "W any testing dave DENIED by fallthru")


def cut_requests(here):
    """A push by HTTP cut at every byte: nothing of it is done or stored; whole it is done, once."""
    here.git("ann", "ls-remote", "here:t/cut")
    body = push_body(b"refs/heads/master", FIRST, FIRST, EMPTY_TREE)
    head = b"POST /t/cut/git-receive-pack HTTP/1.1\r\nX-Git-User: ann\r\nContent-Type: application/x-git-receive-pack-request\r\nContent-Length: %d\r\n\r\n" % len(body)
    journal = here.room / "cerolimau.journal"
    begun = b"HTTP/1.1 200 OK\r\nContent-Type: application/x-git-receive-pack-result\r\nCache-Control: no-cache\r\nConnection: close\r\n\r\n"
    for end in range(len(head + body)):
        reply = sent((head + body)[:end])
        refused = reply.startswith(begun + b"00") and b"unpack truncated at " in reply and b"ng refs/heads/master unpacker error\n" in reply and b"ok refs" not in reply
        assert reply == (begun if end >= len(head) else b"") or refused, (end, reply)
    assert b" refs/heads/master" not in sent(b"GET /t/cut/info/refs?service=git-upload-pack HTTP/1.1\r\nX-Git-User: ann\r\n\r\n")
    assert FIRST[1] not in journal.read_bytes()
    expect(sent(head + body), "unpack ok\n", "ok refs/heads/master\n")
    assert FIRST[1] in journal.read_bytes()
    expect(sent(head + body), "ng refs/heads/master ")


def cut_reports(here):
    """Questions cut at every byte: the answers before the cut, and what is bad."""
    asks = b"repo testing\nuser carol\nref refs/heads/x\n"
    conf = b"repo testing\n    RW+ = carol\n"
    whole = b"ask %d\n%s\nconf %d\n%s\n" % (len(asks), asks, len(conf), conf)
    statuses = set()
    for end in range(len(whole) + 1):
        ran = subprocess.run([here.program, "access"], input=whole[:end], capture_output=True, timeout=60)
        statuses.add(ran.returncode)
        assert ran.returncode in (0, 7, 10) and not ran.stderr and ran.stdout, (end, ran)
        assert (ran.returncode == 0) == (end == len(whole)), (end, ran)
    assert statuses == {0, 7} or statuses == {0, 7, 10}, statuses


def refused_journals(here):
    """A file that is no journal, one of another admin, and one with a broken record are refused, and left as they are."""
    other = b"GITOLOG1\x05other\0"
    broken = here.folder() / "gitolite.journal"
    push = push_of(b"carol", b"testing", b"refs/heads/master", FIRST, FIRST, EMPTY_TREE)
    ran = subprocess.run([here.program, "keep", "--admin", "admin"], input=b"session %d\n%s\n" % (len(push), push), capture_output=True, cwd=broken.parent, timeout=60)
    assert ran.returncode == 0 and b"ok refs/heads/master" in ran.stdout, ran
    kept = bytearray(broken.read_bytes())
    kept[kept.index(FIRST[1])] ^= 1
    for held, said in ((b"no journal", b"not a journal\n"), (other, b"other admin\n"), (other[:-1], b"not a journal\n"), (bytes(kept), b"bad ")):
        for words, name in ((("keep", "--admin", "admin"), "gitolite.journal"), (("host", "--admin", "admin", "--port", "9419", "--journal", "file"), "file")):
            where = here.folder()
            (where / name).write_bytes(held)
            ran = subprocess.run([here.host if words[0] == "host" else here.program, *words], stdin=subprocess.DEVNULL, capture_output=True, cwd=where, timeout=60)
            assert ran.returncode == 9 and ran.stdout.startswith(said), (words, held[:40], ran)
            assert (where / name).read_bytes() == held, (words, held[:40])


TESTS = refused_journals, cut_sessions, tags_of_tags, conf_that_includes_itself, cut_requests, cut_reports
