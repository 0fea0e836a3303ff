"""The program as the system runs it: its words, its streams, and the status with which it ends."""
import os
import resource
import subprocess

from cerolimau.packets import packet

SCRIPT = "script", "--admin", "admin"
USAGE = b"usage: gitolite_shell script --admin NAME | serve --admin NAME --workers K --sessions N | http --admin NAME --workers K --sessions N | check | load N START | keep --admin NAME | access\n"
EMPTY = b"session 0\n\n"
SERVED = b"session 1 truncated 0\n\n"


def ends(here, words, status, printed=b"", given=b"", **how):
    """Runs the program, and compares its status and what it prints."""
    if "stdin" not in how:
        how["input"] = given
    how = {"stdout": subprocess.PIPE, "stderr": subprocess.PIPE, "timeout": 60, **how}
    ran = subprocess.run([here.program, *words], **how)
    found = ran.returncode, ran.stdout, ran.stderr
    assert found == (status, None if how["stdout"] != subprocess.PIPE else printed, b""), (words, found)


def words(here):
    """Words that are no command."""
    for given in (), ("script",), ("script", "--admin"), ("script", "--admin", "a", "b"), ("--help",), ("-h",), ("help",), ("--version",), ("check", "a"):
        ends(here, given, 1, USAGE)
    for given in ("script", "--admin", ""), ("script", "--admin", "-a"), ("serve", "--admin", "a"), ("http", "--admin", "a"), ("check", "--admin"), ("Check",), ("load", "3"):
        ends(here, given, 1, USAGE)
    for given in (b"\xff",), ("serve", "--admin", "a", "--workers", "9", "--sessions", "1"), ("load", "0", "1"), ("load", "5001", "1"), ("load", "01", "1"), ("serve", "--admin", "ann", "--workers", "1", "--sessions", "0"):
        ends(here, given, 1, USAGE)


def scripts(here):
    """Scripts that end well, and bad ones."""
    ends(here, SCRIPT, 0)
    ends(here, ("script", "--admin=admin"), 0, SERVED, EMPTY)
    for bad in b"5\nabc", b"5\nabcde", b"5\nabcdef", b"05\nabcde\n", b"+5\nabcde\n", b"\n\n", b"300000001\n", b"4294967301\nabcde\n":
        ends(here, SCRIPT, 7, b"bad script at 0\n", b"session " + bad)
    for bad in b"Session 5\nabcde\n", b"\n":
        ends(here, SCRIPT, 7, b"bad script at 0\n", bad)
    ends(here, SCRIPT, 7, SERVED + b"bad script at 11\n", EMPTY + b"x")
    advertised = b"0066" + b"0" * 40 + b" capabilities^{}\0report-status delete-refs no-thin atomic\n0000"
    ends(here, SCRIPT, 0, b"session 1 malformed 129\n" + advertised + b"0017ERR malformed input\n", b"session 40\n0024carol git-receive-pack 'testing'0003\n")
    commands = [packet(b"%s %s refs/heads/%d" % (b"0" * 40, b"1" * 40, number)) for number in range(10_001)]
    for last, said in (commands[-1], b"too-long 122\n" + advertised + b"0010ERR too long\n"), (b"0004", b"malformed 129\n" + advertised + b"0017ERR malformed input\n"):
        body = packet(b"carol git-receive-pack 'testing'") + b"".join(commands[:-1]) + last + b"0000"
        ends(here, SCRIPT, 0, b"session 1 " + said, b"session %d\n" % len(body) + body + b"\n")


def confs(here):
    """Good confs, the setup's and an empty one among them, and a bad one."""
    ends(here, ("check",), 0, b"ok 0 rules, 0 repositories\n")
    setup = b"repo gitolite-admin\n    RW+     =   admin\n\nrepo testing\n    RW+     =   @all\n"
    rules = b"1 gitolite-admin RW+ refs/.* admin gitolite.conf 2\n2 testing RW+ refs/.* @all gitolite.conf 5\nok 2 rules, 2 repositories\n"
    ends(here, ("check",), 0, rules, setup)
    ends(here, ("check",), 0, b"1 a RW refs/.* b gitolite.conf 2\nok 1 rules, 1 repositories\n", b"repo a\n RW = b\n")
    declared = b"repo a\n option role.TESTERS = 1\n RW = TESTERS\n"
    ends(here, ("check",), 0, b"1 a RW refs/.* TESTERS gitolite.conf 3\nok 1 rules, 1 repositories\n", declared)
    ends(here, ("check",), 6, b"gitolite.conf line 1: rule before repo\n", b"RW = b\n")
    ends(here, ("check",), 6, b"gitolite.conf line 2: bad word at 9\n", b"repo a\nRW = ann \\\n")
    refexes = b"repo r\n    R" + b"".join(b" x%d" % number for number in range(4_096))
    ends(here, ("check",), 6, b"gitolite.conf line 2: bad pattern refs/heads/( at 11\n", refexes + b" ( = u\n")
    patterns = b"repo" + b"".join(b" p%d*" % number for number in range(4_095)) + b"\nR x = u\n"
    ends(here, ("check",), 6, b"gitolite.conf line 3: too many rules\n", patterns + b"R y = u\n")
    lines = b"".join(b"%d p%d* R refs/heads/x u gitolite.conf 2\n" % (number + 1, number) for number in range(4_095))
    ends(here, ("check",), 0, lines + b"ok 4095 rules, 0 repositories\n", patterns)


def frame(word, body):
    return b"%s %d\n%s\n" % (word, len(body), body)


def reports(here):
    """Who may do what, by the shipped conf and without one of its lines; and inputs that are bad, at each place where one may be."""
    with open("crates/gitolite_shell/data/gitolite.conf", "rb") as conf:
        lines = conf.read().splitlines(keepends=True)
    asked, first = frame(b"ask", b"repo site\nuser cal\nref refs/heads/personal/ann/x\n"), frame(b"conf", b"".join(lines))
    told = b"any read R allowed by 9", b"any write W allowed by 9", *(b"refs/heads/personal/ann/x %s denied by 14" % it for it in (b"create W", b"forward W", b"rewind +", b"delete +"))
    ends(here, ("access",), 0, b"".join(b"site cal %s\n" % it for it in told) + b"idle 2 3 8 17 18\n", asked + first)
    changed = b"".join(b"site cal refs/heads/personal/ann/x %s was W denied by 14 now W allowed by 15\n" % it for it in (b"create", b"forward"))
    ends(here, ("access",), 0, changed + b"changed 2 of 6\n", asked + first + frame(b"conf", b"".join(lines[:10] + lines[11:])))
    ends(here, ("access",), 10, b"bad question at line 1\n", frame(b"ask", b"user a!\n") + first)
    setup = b"repo gitolite-admin\n    RW+     =   admin\n\nrepo testing\n    RW+     =   @all\n"
    ends(here, ("access",), 0, b"idle\n", frame(b"ask", b"") + frame(b"conf", setup))
    many = frame(b"ask", b"".join(b"user u%d\n" % number for number in range(1_001)))
    ends(here, ("access",), 10, b"too many questions\n", many + first)
    ends(here, ("access",), 6, b"gitolite.conf line 1: rule before repo\n", asked + frame(b"conf", b"R = a\n") + frame(b"conf", b"x\n"))
    ends(here, ("access",), 6, b"gitolite.conf line 1: not a statement\n", asked + first + frame(b"conf", b"x\n"))
    bad = (b"", 0), (b"ask 5\nabc", 0), (b"conf 0\n\n", 0), (asked, len(asked)), (asked + asked, len(asked)), (asked + first + b"x", len(asked + first))
    for given, offset in *bad, (asked + first + asked, len(asked + first)), (asked + first + first + b"x", len(asked + first + first)):
        ends(here, ("access",), 7, b"bad script at %d\n" % offset, given)
    ends(here, ("access", "a"), 1, USAGE)


def reports_of_files(here):
    """The same over confs of several files, in any order; and inputs that are bad there."""
    asked = frame(b"ask", b"repo web\nuser cal\n")
    main, teams = frame(b"file", b"first gitolite.conf\ninclude \"teams.conf\"\n"), frame(b"file", b"first teams.conf\nrepo web\n    RW  =   cal\n")
    told = b"web cal any read R allowed by 1\nweb cal any write W allowed by 1\nidle\n"
    changed = b"web cal any write was W allowed by 1 now W fallthru\nchanged 1 of 2\n"
    second = frame(b"file", b"second gitolite.conf\nrepo web\n    R = cal\n")
    bad = (b"", 0), (main, 0), (asked + main + b"x", len(asked + main)), (asked + main + frame(b"file", b"third x\n"), len(asked + main))
    rows = (
        (0, told, asked + main + teams), (0, told, asked + teams + main), (0, changed, asked + main + teams + second),
        (6, b"gitolite.conf line 1: no file teams.conf\n", asked + main), (6, b"gitolite.conf line 0: no file gitolite.conf\n", asked),
        (6, b"gitolite.conf line 0: no file gitolite.conf\n", asked + main + teams + frame(b"file", b"second x.conf\n")),
        (10, b"bad question at line 1\n", frame(b"ask", b"user a!\n") + main), (7, b"bad script at %d\n" % len(asked + main), asked + main + frame(b"file", b"first x")),
        *((7, b"bad script at %d\n" % offset, given) for given, offset in bad),
    )
    for status, text, given in rows:
        ended = subprocess.run([here.host, "report"], input=given, stdout=subprocess.PIPE)
        assert (ended.returncode, ended.stdout) == (status, text), (ended, given)


def installations(here):
    """Generated installations, one of them twice, whose lines were reckoned apart from the program."""
    for number, start, line in (3, 2, "done 2, denied 2, refused 0, refs 2"), (1, 1, "done 1, denied 1, refused 0, refs 1"), (300, 7, "done 42, denied 259, refused 0, refs 41"), (300, 7, "done 42, denied 259, refused 0, refs 41"), (5000, 1, "done 694, denied 4307, refused 0, refs 665"):
        ends(here, ("load", str(number), str(start)), 0, b"load %d %d: sessions %d, %s\n" % (number, start, number + 1, line.encode()))


def failing_input(here):
    """A folder as input, and an input that is closed."""
    room = os.open(here.room, os.O_RDONLY)
    ends(here, SCRIPT, 2, stdin=room)
    ends(here, ("check",), 2, stdin=room)
    ends(here, ("access",), 2, stdin=room)
    os.close(room)
    ends(here, SCRIPT, 2, stdin=None, preexec_fn=lambda: os.close(0))


def failing_output(here):
    """A full device, an output that is closed, and one that nobody reads any more."""
    with open("/dev/full", "wb") as full:
        for given, text in (SCRIPT, EMPTY), (SCRIPT, b"x"), (("check",), b"repo a\n"), (("access",), b""), (("load", "1", "1"), b""), ((), b""):
            ends(here, given, 3, given=text, stdout=full)
    ends(here, SCRIPT, 3, given=EMPTY, stdout=None, preexec_fn=lambda: os.close(1))
    reader, writer = os.pipe()
    os.close(reader)
    ends(here, SCRIPT, 3, given=EMPTY, stdout=writer)
    os.close(writer)


def too_little_memory(here):
    """An address space of eight megabytes."""
    eight = 8 << 20
    ends(here, ("load", "5000", "1"), 4, preexec_fn=lambda: resource.setrlimit(resource.RLIMIT_AS, (eight, eight)))


def no_room_by_a_claim(here):
    """A frame that claims 300 MB and has three bytes, in an address space of 64 MB."""
    small = 64 << 20
    ends(here, SCRIPT, 7, b"bad script at 0\n", b"session 300000000\nabc", preexec_fn=lambda: resource.setrlimit(resource.RLIMIT_AS, (small, small)))


def address_in_use(here):
    """A second server at the same address."""
    ends(here, ("serve", "--admin", "admin", "--workers", "1", "--sessions", "1"), 5, b"served 0 sessions, 0 events\n")


TESTS = words, scripts, confs, reports, reports_of_files, installations, failing_input, failing_output, too_little_memory, no_room_by_a_claim, address_in_use
