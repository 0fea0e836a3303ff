"""What is refused, and how it is told: one line, and no traceback."""
import contextlib
import hashlib
import os
import socket
import subprocess
import threading

from cerolimau.packets import FLUSH, packet
from cerolimau.raw_pack import object_name

from .limit_tests import blob_name, pack_of, push_of, size_of
from .world import SECONDS, expect, run

ZERO = "0" * 40
LACKS = "which the pack doesn't have"
EMPTY_PACK = b"PACK\0\0\0\2\0\0\0\0"
LINE = packet(ZERO.encode() + b" capabilities^{}\0report-status\n") + FLUSH


@contextlib.contextmanager
def fake_server(reply):
    """A server that in each session reads what comes first, writes the reply and closes. Gives the options that lead there."""
    door = socket.create_server(("127.0.0.1", 0))

    def serve():
        with contextlib.suppress(OSError):
            while True:
                link, _ = door.accept()
                with contextlib.suppress(OSError), link:
                    link.recv(1 << 16)
                    link.sendall(reply)

    serving = threading.Thread(target=serve, daemon=True)
    serving.start()
    try:
        yield "--server", "127.0.0.1:%d" % door.getsockname()[1]
    finally:
        door.shutdown(socket.SHUT_RDWR)  # else the thread would go on at the next socket with this number
        serving.join()
        door.close()


def no_server(here):
    """A server that isn't there."""
    nowhere = "--server", "127.0.0.1:1"
    said = here.git("ann", "ls-remote", "here:testing", status=128, options=nowhere)
    expect(said, "fatal: remote error: cerolimau: the server isn't there")
    assert here.ask("ann", "info", status=1, options=nowhere) == b"cerolimau: the server isn't there\n"


def cut_connections(here):
    """A server that closes at any moment."""
    made = here.repository()
    closed = "cerolimau: the server closed the connection"
    for reply in b"", LINE[:20], LINE[:-4]:
        with fake_server(reply) as there:
            expect(here.git("ann", "ls-remote", "here:x", status=128, options=there), "fatal: remote error: " + closed)
    with fake_server(LINE) as there:
        said = here.git("ann", "push", "here:x", "master", cwd=made, status=None, options=there)
        expect(said, closed + ", and the push may be done or not")
    with fake_server(packet(b"hello ann\n")) as there:
        assert here.ask("ann", "info", status=1, options=there).endswith(closed.encode() + b"\n")
    head = "1" * 40
    wants = packet(b"want " + head.encode()) + FLUSH + packet(b"done")
    advertised = packet(head.encode() + b" refs/heads/master\0\n") + FLUSH
    for reply, said in (
        (b"", b"ERR cerolimau: the server closed the connection"),
        (packet(b"NAK\n") + EMPTY_PACK, b"cerolimau: the server closed the connection inside the pack\n"),
        (packet(b"NAK\n") + EMPTY_PACK + bytes(20), b"cerolimau: the server's pack is broken: its trailer differs\n"),
        (b"00zz", b"ERR cerolimau: a packet of a bad length: b'00zz'"),
    ):
        with fake_server(advertised + reply) as there:
            assert here.ask("ann", "git-upload-pack 'x'", wants, status=1, options=there).endswith(said), said


def bad_packs(here):
    """Packs that break their form, each told in the report."""
    hello = b"hello\n"
    good = pack_of([(3, b"", hello)])
    stray = b"\x20" * 20
    for pack, told in (
        (b"JUNK" + good[4:], "not a pack"),
        (b"PACK\0\0\0\3" + good[8:], "version 3"),
        (good[:-1] + b"\0", "trailer differs"),
        (good[:20], "truncated at entry 0"),
        (good[:-1], "truncated at entry 1"),
        (good[:12] + b"\x56" + good[13:], "bad head at entry 0"),
        (good[:14] + b"\xff\xff" + good[16:], "bad zlib stream at entry 0"),
        (good[:12] + b"\x37" + good[13:], "bad zlib stream at entry 0"),
        (good[:12] + b"\x35" + good[13:], "bad zlib stream at entry 0"),
        (pack_of([(7, stray, size_of(6) + size_of(1) + b"\x01a")]), "entry 0 is a delta over object %s, %s" % (stray.hex(), LACKS)),
        (pack_of([(6, b"\x05", size_of(6) + size_of(1) + b"\x01a")]), "entry 0 is a delta over no entry before it"),
        (pack_of([(3, b"", hello), (7, blob_name(hello), size_of(7) + size_of(1) + b"\x01a")]), "bad delta at entry 1"),
        (pack_of([(3, b"", hello), (7, blob_name(hello), size_of(6) + size_of(2) + b"\x01a")]), "bad delta at entry 1"),
        (pack_of([(3, b"", hello), (7, blob_name(hello), size_of(6) + size_of(9) + b"\x90\x09")]), "bad delta at entry 1"),
        (pack_of([(3, b"", hello), (7, blob_name(hello), size_of(6) + size_of(2) + b"\x00")]), "bad delta at entry 1"),
        (pack_of([(3, b"", hello), (7, blob_name(hello), b"\x86")]), "bad delta at entry 1"),
    ):
        said = here.ask("ann", "git-receive-pack 'testing'", push_of(pack), status=1)
        expect(said, "unpack %s\n" % told, "ng refs/heads/x unpacker error\n0000")


def bad_object(here):
    """An object that the server refuses is named."""
    tree = b"100600 file\0" + hashlib.sha1(b"blob 0\0").digest()
    said = here.ask("ann", "git-receive-pack 'testing'", push_of(pack_of([(3, b"", b""), (2, b"", tree)])), status=1)
    expect(said, "unpack bad object at entry 1\n", "cerolimau: entry 1 is tree %s\n" % object_name(2, tree).hex())


def named_twice(here):
    """Each command has its line in the report, also where two name one ref."""
    command = "%s %s refs/heads/twice" % (ZERO, "1" * 40)
    lines = packet((command + "\0report-status").encode()) + packet(command.encode()) + FLUSH
    said = here.ask("ann", "git-receive-pack 'testing'", lines + pack_of([]), status=1)
    assert said.count(b"ng refs/heads/twice named twice\n") == 2, said


def refused_while_sending(here):
    """A server that refuses a large pack at its beginning is heard to the end."""
    bodies = [b"x", *(bytes([number]) * 9_000_000 for number in range(8))]
    said = here.ask("ann", "git-receive-pack 'testing'", push_of(pack_of([(2, b"", b"x")] + [(3, b"", body) for body in bodies])), status=1)
    expect(said, "unpack bad object at entry 0\n", "ng refs/heads/x unpacker error\n0000")


def without_report(here):
    """A client that asks for no report gets none, and is told of a bad pack all the same."""
    command = packet(("%s %s refs/heads/none" % (ZERO, "1" * 40)).encode()) + FLUSH
    said = here.ask("ann", "git-receive-pack 'testing'", command + pack_of([]), status=1)
    assert said.endswith(b"0000cerolimau: refs/heads/none: missing object %s\n" % (b"1" * 40)), said
    expect(here.ask("ann", "git-receive-pack 'testing'", packet(b"no command\0report-status") + FLUSH, status=1), "ERR malformed input")
    assert here.ask("ann", "git-receive-pack 'testing'", command + b"JUNK" * 9, status=1).endswith(b"0000cerolimau: not a pack\n")


def other_commands(here):
    """Other commands are refused, and no shell sees them."""
    touched = here.folder() / "touched"
    for command in (
        "sh", "git-upload-archive 'testing'", "git-lfs-authenticate testing download", "touch %s" % touched, "info; touch %s" % touched,
        "info`touch %s`" % touched, "git-upload-packs 'testing'", "git", "git shell", "create x", "info\n", "perms\tx", "x" * 2000,
        "git-upload-pack '\xe9'",
    ):
        expect(here.ask("ann", command, status=1), "cerolimau: no such command")
    for command in "git-upload-pack", "git-upload-pack 'testing", "git-upload-pack '$(touch %s)'" % touched, "git-receive-pack a b":
        word = command.split()[0]
        assert here.ask("ann", command, status=1) == b"cerolimau: bad command; usage: %s 'REPOSITORY'\n" % word.encode(), command
    for command in "info -lc", "info a b":
        assert here.ask("ann", command, status=1) == b"cerolimau: bad command; usage: info [TEXT]\n", command
    for command in "perms", "perms testing", "perms -l testing; touch %s" % touched, "perms u/ann/x +READERS bob", "perms u/ann/x + READ.ERS bob":
        expect(here.ask("ann", command, status=1), "cerolimau: bad command; usage: perms REPOSITORY -l | ")
    assert not touched.exists()
    for form in "git upload-pack 'testing'", "git-upload-pack testing", "git-upload-pack '/testing.git'":
        assert here.ask("ann", form, FLUSH).endswith(b"0000")


def no_packets_for_a_person(here):
    """Who types git's command at a terminal is told in words."""
    terminal, end = os.openpty()
    with os.fdopen(terminal, "rb", buffering=0) as reading:
        words = [*here.front("ann"), "here", "git-upload-pack 'testing'"]
        ran = subprocess.run(words, stdin=subprocess.DEVNULL, stdout=end, stderr=end, timeout=SECONDS)
        os.close(end)
        assert ran.returncode == 1 and reading.read(1000) == b"cerolimau: git-upload-pack is for git: a person sees nothing in it\r\n"


def users_of_the_line(here):
    """The user is the one of the command line, whatever the client asks."""
    for user in "", "CREATOR", "a b", "-x", "ann\n", "a" * 65, "\xe9":
        expect(here.ask(user, "info", status=1), "usage: cerolimau-ssh")
    expect(here.ask("ann", "info"), "hello ann\n")
    said = run([*here.front("ann")], env={**here.environment, "SSH_ORIGINAL_COMMAND": "info"})
    expect(said, "hello ann\n")
    expect(run([*here.front("ann"), "bob"], status=1, env={**here.environment, "SSH_ORIGINAL_COMMAND": "info"}), "usage: cerolimau-ssh")


def idle_client(here):
    """A client that sends nothing for too long is told so, and the session ends."""
    words = [*here.front("ann", "--idle", "1"), "here", "git-upload-pack 'testing'"]
    started = subprocess.Popen(words, stdin=subprocess.PIPE, stdout=subprocess.PIPE, stderr=subprocess.STDOUT)
    expect(started.stdout.read(), "ERR cerolimau: nothing came or went for 1 seconds")
    assert started.wait() == 1
    started.stdin.close()


def what_clients_want(here):
    """What git says where it asks for what isn't there: the table of docs/FRONT.md."""
    made, there = here.repository(), here.folder()
    here.git("ann", "push", "here:t/wants", "master", cwd=made)

    def clone(*words, status=0):
        return here.git("bob", *words, "here:t/wants", there / ("%d" % len(list(there.iterdir()))), status=status)

    expect(clone("clone", "--filter=blob:none"), "warning: filtering not recognized by server, ignoring")
    for version in "0", "1", "2":
        clone("-c", "protocol.version=" + version, "clone")
    said = here.git("ann", "push", "-o", "x", "here:t/wants", "master:o", cwd=made, status=128)
    expect(said, "fatal: the receiving end does not support push options")
    said = here.git("ann", "push", "--signed", "here:t/wants", "master:s", cwd=made, status=128)
    expect(said, "fatal: the receiving end does not support --signed push")
    here.git("ann", "init", "--object-format=sha256", there / "sha256")
    here.git("ann", "commit", "--allow-empty", "-m", "x", cwd=there / "sha256")
    said = here.git("ann", "push", "here:t/wants", "HEAD:sha256", cwd=there / "sha256", status=128)
    expect(said, "fatal: the receiving end does not support this repository's hash algorithm")
    expect(here.git("bob", "archive", "--remote", "here:t/wants", "HEAD", status=128), "cerolimau: no such command: git-upload-archive")


def words_of_fetches(here):
    """A client that asks for what wasn't advertised is told in words."""
    made = here.repository()
    here.git("ann", "push", "here:t/words", "master", cwd=made)
    want = packet(b"want " + here.head(made).encode() + b" ofs-delta")
    said = here.ask("ann", "git-upload-pack 't/words'", want + packet(b"filter blob:none") + FLUSH + packet(b"done"), status=1)
    expect(said, "ERR cerolimau: no partial clones here")
    for line in b"shallow x", b"deepen -1", b"deepen-since x", b"deepen-not ", b"want 1":
        expect(here.ask("ann", "git-upload-pack 't/words'", want + packet(line) + FLUSH, status=1), "ERR malformed input")
    said = here.ask("ann", "git-upload-pack 't/words'", want + packet(b"deepen-not none") + FLUSH, status=1)
    expect(said, "ERR cerolimau: no ref b'none', whose history could be left out")
    said = here.ask("ann", "git-upload-pack 't/words'", want + packet(b"deepen-since 4000000000") + FLUSH, status=1)
    expect(said, "ERR cerolimau: no commits of the history are so new, or none is left")
    expect(here.ask("ann", "git-upload-pack 't/words'", want + packet(b"wont") + FLUSH, status=1), "ERR malformed input")
    other = packet(b"want " + b"1" * 40) + FLUSH
    expect(here.ask("ann", "git-upload-pack 't/words'", other, status=1), "ERR upload-pack: not our ref " + "1" * 40)


TESTS = (
    no_server, cut_connections, bad_packs, bad_object, named_twice, refused_while_sending, without_report, other_commands,
    no_packets_for_a_person, users_of_the_line, idle_client, what_clients_want, words_of_fetches,
)
