"""What git does day by day."""
import hashlib
import os
import random

from cerolimau.packets import FLUSH, packet

from .world import at_once, expect, run

ZERO = "0" * 40


def empty_repository(here):
    """An empty repository is cloned, listed and fetched from."""
    expect(here.git("ann", "clone", "here:t/empty", cwd=here.folder()), "You appear to have cloned an empty repository")
    assert here.git("ann", "ls-remote", "here:t/empty") == ""


def everything_there_and_back(here):
    """All kinds of objects and refs are pushed, cloned in four ways, and are the same."""
    made = here.repository({"README": "hello\n", "run": "#!/bin/sh\n"})
    fill(here, made)
    said = here.git("ann", "push", "--mirror", "here:t/all", cwd=made)
    expect(said, "[new branch]      side -> side", "[new tag]         tag-of-tag -> tag-of-tag")
    there = here.folder()
    here.git("bob", "clone", "here:t/all", "whole", cwd=there)
    here.git("bob", "clone", "--bare", "here:t/all", "bare", cwd=there)
    here.git("bob", "clone", "--mirror", "here:t/all", "mirror", cwd=there)
    here.git("bob", "clone", "--single-branch", "--branch", "side", "here:t/all", "side", cwd=there)
    for name in "whole", "bare", "mirror", "side":
        here.git("bob", "fsck", "--strict", cwd=there / name)
    for ask in ["for-each-ref"], ["cat-file", "--batch-all-objects", "--batch-check"]:
        assert here.git("ann", *ask, cwd=made) == here.git("ann", *ask, cwd=there / "mirror"), ask
    whole = there / "whole"
    assert os.readlink(whole / "link") == "README" and os.access(whole / "run", os.X_OK)
    assert (whole / "large").read_bytes() == (made / "large").read_bytes()
    assert here.git("bob", "branch", "--remotes", cwd=there / "side").split() == ["origin/side"]


def fill(here, made):
    random_bytes = random.Random(1).randbytes(15_000_000)
    (made / "run").chmod(0o755)
    (made / "link").symlink_to("README")
    here.git("ann", "update-index", "--add", "--cacheinfo", "160000,%s,module" % ("1" * 40), cwd=made)
    (made / "module").mkdir()
    here.commit(made, {"large": random_bytes})
    for number in range(10):
        lines = ["line %d %s\n" % (line, hashlib.sha1(b"%d" % line).hexdigest()) for line in range(500)]
        here.commit(made, {"text": "".join(lines[number:] + lines[:number])})
    here.git("ann", "checkout", "-b", "side", "HEAD~3", cwd=made)
    here.commit(made, {"small/%d" % number: "%d\n" % number for number in range(5000)})
    here.git("ann", "tag", "light", cwd=made)
    here.git("ann", "tag", "-m", "a tag", "heavy", cwd=made)
    here.git("ann", "tag", "-m", "a tag of a tag", "tag-of-tag", "heavy", cwd=made)
    here.git("ann", "tag", "-m", "a tag of a blob", "tag-of-blob", "HEAD:README", cwd=made)
    here.git("ann", "checkout", "master", cwd=made)
    here.git("ann", "merge", "-m", "a merge", "side", cwd=made)


def deltas_of_both_kinds(here):
    """A pack with offset deltas and one with reference deltas are taken, chains of them too."""
    made = here.repository()
    lines = ["line %d %d\n" % (line, line * line) for line in range(400)]
    for number in range(30):
        lines[number * 7:number * 7] = ["new %d\n" % number]
        here.commit(made, {"text": "".join(lines)})
    for kind, options in ("offset", ["--delta-base-offset"]), ("reference", []):
        pack = made / "deltas.pack"
        words = ["git", "pack-objects", "--all", "--stdout", "--no-reuse-delta", "--depth=50", "-q", *options]
        run(["sh", "-c", " ".join(words) + " < /dev/null > deltas.pack"], cwd=made, env=here.environment)
        here.git("ann", "index-pack", "deltas.pack", cwd=made)
        expect(here.git("ann", "verify-pack", "--stat-only", "deltas.idx", cwd=made), "chain length = 3")
        command = ("%s %s refs/heads/master\0report-status" % (ZERO, here.head(made))).encode()
        said = here.ask("ann", "git-receive-pack 't/%s'" % kind, packet(command) + FLUSH + pack.read_bytes())
        expect(said, "unpack ok\n", "ok refs/heads/master\n")
        there = here.folder()
        here.git("ann", "clone", "here:t/%s" % kind, ".", cwd=there)
        assert (there / "text").read_bytes() == (made / "text").read_bytes()
        here.git("ann", "fsck", "--strict", cwd=there)


def incremental_fetch(here):
    """A fetch finds what is common behind 2,000 commits that the server hasn't, and gets just what is new."""
    made, there = here.repository(), here.folder()
    here.git("ann", "push", "here:t/more", "master", cwd=made)
    here.git("bob", "clone", "here:t/more", ".", cwd=there)
    commits = "".join("commit refs/heads/own\ncommitter B <b@x> %d +0000\ndata 2\nx\n%s" % (
        2_000_000_000 + number, "" if number else "from refs/heads/master^0\n") for number in range(2000))
    (there / "stream").write_text(commits)
    run(["sh", "-c", "git fast-import --quiet < stream"], cwd=there, env=here.environment)
    here.commit(made, {"new": "new\n"})
    here.git("ann", "push", "here:t/more", "master", cwd=made)
    before = set(objects_of(here, there))
    expect(here.git("bob", "fetch", cwd=there), "master     -> origin/master")
    assert here.head(there, "origin/master") == here.head(made)
    assert len(set(objects_of(here, there)) - before) == 3
    assert here.git("bob", "fetch", cwd=there) == ""


def objects_of(here, where):
    return here.git("ann", "cat-file", "--batch-all-objects", "--batch-check", cwd=where).splitlines()


def tags_follow(here):
    """A fetch brings the tags of what it fetches."""
    made, there = here.repository(), here.folder()
    here.git("ann", "push", "here:t/tags", "master", cwd=made)
    here.git("bob", "clone", "here:t/tags", ".", cwd=there)
    here.commit(made, {"new": "new\n"})
    here.git("ann", "tag", "-m", "a tag", "v1", cwd=made)
    here.git("ann", "push", "here:t/tags", "master", "v1", cwd=made)
    expect(here.git("bob", "pull", cwd=there), "[new tag]         v1         -> v1")
    assert here.head(there, "v1") == here.head(made, "v1")


def forced_and_with_lease(here):
    """A rewind is refused by git itself, and done when it is forced; a lease that is out of date is refused."""
    made, there = here.repository(), here.folder()
    here.git("ann", "push", "here:t/force", "master", cwd=made)
    here.git("bob", "clone", "here:t/force", ".", cwd=there)
    here.git("ann", "commit", "--amend", "-m", "another", cwd=made)
    expect(here.git("ann", "push", "here:t/force", "master", cwd=made, status=1), "[rejected]        master -> master (non-fast-forward)")
    expect(here.git("ann", "push", "--force", "here:t/force", "master", cwd=made), "(forced update)")
    here.git("bob", "commit", "--amend", "-m", "a third", cwd=there)
    expect(here.git("bob", "push", "--force-with-lease", "origin", "master", cwd=there, status=1), "(stale info)")
    here.git("bob", "fetch", cwd=there)
    expect(here.git("bob", "push", "--force-with-lease", "origin", "master", cwd=there), "(forced update)")


def deletes(here):
    """Branches and tags are deleted, in a push without a pack and in one with."""
    made = here.repository()
    here.git("ann", "tag", "v1", cwd=made)
    here.git("ann", "push", "here:t/delete", "master", "master:a", "master:b", "v1", cwd=made)
    expect(here.git("ann", "push", "here:t/delete", ":a", ":v1", cwd=made), "[deleted]         a", "[deleted]         v1")
    here.commit(made, {"new": "new\n"})
    here.git("ann", "push", "here:t/delete", ":b", "master", cwd=made)
    assert here.git("ann", "ls-remote", "--heads", "--tags", "here:t/delete").split() == [here.head(made), "refs/heads/master"]


def atomic(here):
    """Of an atomic push all refs move or none."""
    made = here.repository()
    said = here.git("bob", "push", "--atomic", "here:site", "master:atomic", "master:personal/ann/x", cwd=made, status=1)
    expect(said, "atomic push refused with refs/heads/personal/ann/x", "DENIED by refs/heads/personal/ (gitolite.conf line")
    assert "atomic" not in here.git("bob", "ls-remote", "here:site")
    here.git("bob", "push", "--atomic", "here:site", "master:atomic", "master:personal/bob/x", cwd=made)
    expect(here.git("bob", "ls-remote", "here:site"), "refs/heads/atomic", "refs/heads/personal/bob/x")


def notes(here):
    """Notes are pushed and fetched."""
    made, there = here.repository(), here.folder()
    here.git("ann", "notes", "add", "-m", "a note", cwd=made)
    here.git("ann", "push", "here:t/notes", "master", "refs/notes/*", cwd=made)
    here.git("bob", "clone", "here:t/notes", ".", cwd=there)
    here.git("bob", "fetch", "origin", "refs/notes/*:refs/notes/*", cwd=there)
    assert here.git("bob", "notes", "show", cwd=there) == "a note\n"


def nothing_new(here):
    """Pushes and fetches of what is there already, and a push that is only tried."""
    made = here.repository()
    here.git("ann", "push", "here:t/nothing", "master", cwd=made)
    expect(here.git("ann", "push", "here:t/nothing", "master", cwd=made), "Everything up-to-date")
    expect(here.git("ann", "push", "--dry-run", "here:t/nothing", "master:x", cwd=made), "[new branch]")
    expect(here.git("ann", "push", "here:t/nothing", "master:same", cwd=made), "[new branch]")
    assert here.git("ann", "ls-remote", "--heads", "here:t/nothing").count("refs/heads/") == 2


def many_refs(here):
    """Two thousand refs in one push, all of them advertised then."""
    made = here.repository()
    head = here.head(made)
    (made / ".git/packed-refs").write_text("".join("%s refs/tags/v%04d\n" % (head, number) for number in range(2_000)))
    here.git("ann", "push", "here:t/refs", "master", "refs/tags/*", cwd=made)
    assert here.git("bob", "ls-remote", "--tags", "here:t/refs").count("refs/tags/v") == 2_000


def denials(here):
    """What is denied is told with the rule, its file and its line."""
    made = here.repository()
    said = here.git("cal", "push", "here:site", "master", "master:personal/cal/x", "master:personal/ann/x", cwd=made, status=1)
    expect(
        said, "master -> personal/cal/x",
        "[remote rejected] master -> master (W refs/heads/master site cal DENIED by refs/heads/master$ (gitolite.conf line 16))",
        "[remote rejected] master -> personal/ann/x "
        "(W refs/heads/personal/ann/x site cal DENIED by refs/heads/personal/ (gitolite.conf line 18))",
    )
    said = here.git("bob", "clone", "here:secrets", cwd=here.folder(), status=128)
    expect(said, "fatal: remote error: R any secrets bob DENIED by refs/.* (gitolite.conf line 22)")
    said = here.git("cal", "push", "here:secrets", "master", cwd=made, status=128)
    expect(said, "fatal: remote error: W any secrets cal DENIED by fallthru")
    expect(here.git("ann", "ls-remote", "here:u/bob/x", status=128), "remote error: R any u/bob/x ann DENIED by fallthru")


def conf_takes_effect(here):
    """A conf that is pushed is in force for the next session."""
    made = here.repository()
    expect(here.git("dave", "push", "here:later", "master", cwd=made, status=128), "W any later dave DENIED by fallthru")
    here.put_conf((here.room / "gitolite-admin/conf/gitolite.conf").read_text() + "repo later\n    RW = dave\n")
    here.git("dave", "push", "here:later", "master", cwd=made)
    expect(here.ask("dave", "info"), "R W\tlater\n")


def conf_refused(here):
    """A conf with a fault is refused with its line, and the one in force stays."""
    conf = (here.room / "gitolite-admin/conf/gitolite.conf").read_text()
    lines = conf.count("\n") + 2
    said = here.put_conf(conf + "repo a\n    RX = ann\n", status=1)
    expect(said, "[remote rejected] master -> master (conf refused: gitolite.conf line %d: bad permission)" % lines)
    here.git("ann", "ls-remote", "here:site")


def confs_at_their_limits(here):
    """Subconfs with as many patterns as a conf may have beside that of the main file, and with one more; a group that has more; a line too many."""
    was = (here.room / "gitolite-admin/conf/gitolite.conf").read_text()
    main = "repo gitolite-admin\n    RW+ = admin\n%s"

    def refused(text, subconf):
        return here.put_conf(main % text, status=1, files={"conf/w.conf": subconf})

    def refexes(count):
        return "".join(" x%d" % number for number in range(count))

    here.put_conf(main % "subconf w.conf\n", files={"conf/w.conf": "repo z\n    R%s = u\n" % refexes(4_095)})
    expect(refused("subconf w.conf\n", "repo z\n    R%s = u\n" % refexes(4_096)), "conf refused: w.conf line 2: too many rules")
    patterns = "".join(" p%d*" % number for number in range(4_097))
    here.put_conf("@w =%s\n" % patterns + main % "subconf w.conf\n", files={"conf/w.conf": "repo w\n    R = u\n"})
    expect(refused("\n" * 65_533 + "subconf w.conf\n", "subconf x*\n"), "conf refused: w.conf line 1: too long")
    here.put_conf(was, files={"conf/w.conf": ""})


def info_and_perms(here):
    """What a user may see, and roles given and taken."""
    made = here.repository()
    here.git("alice", "push", "here:u/alice/x", "master", cwd=made)
    expect(here.ask("alice", ""), "hello alice\n", "R W\tu/alice/x\n", "C\tu/CREATOR/[a-z]+\n")
    assert b"u/alice/x" not in here.ask("bob", "info")
    assert here.ask("alice", "perms u/alice/x + READERS bob") == b"perms: changed\n"
    assert here.ask("alice", "perms u/alice/x + READERS bob") == b"perms: already so\n"
    assert here.ask("alice", "perms -l u/alice/x") == b"READERS bob\n"
    assert here.ask("alice", "perms u/alice/x + OWNERS bob", status=1) == b"perms: no such role\n"
    assert here.ask("bob", "perms u/alice/x + READERS cal", status=1) == b"perms: not a wild repository of yours\n"
    expect(here.ask("bob", "info"), "R\tu/alice/x\n")
    here.git("bob", "ls-remote", "here:u/alice/x")
    assert here.ask("alice", "perms u/alice/x - READERS bob") == b"perms: changed\n"
    expect(here.git("bob", "ls-remote", "here:u/alice/x", status=128), "DENIED by fallthru")


def declared_roles(here):
    """A role that the conf declares is given, covers whom it was given to, and no user of that name; it rests while the conf doesn't declare it."""
    conf = (here.room / "gitolite-admin/conf/gitolite.conf").read_text()
    block = "repo w/CREATOR/[a-z]+\n    C = alice\n    RW+ = CREATOR\n    RW = TESTERS\n"
    declared = conf + block + "    option role.TESTERS = 1\n"
    here.put_conf(declared)
    made = here.repository()
    here.git("alice", "push", "here:w/alice/x", "master", cwd=made)
    assert here.ask("alice", "perms w/alice/x + TESTERS bob") == b"perms: changed\n"
    here.git("bob", "push", "here:w/alice/x", "master:bobs", cwd=made)
    expect(here.git("TESTERS", "push", "here:w/alice/x", "master:x", cwd=made, status=128), "W any w/alice/x TESTERS DENIED by fallthru")
    here.put_conf(conf + block)
    expect(here.git("bob", "push", "here:w/alice/x", "master:again", cwd=made, status=128), "W any w/alice/x bob DENIED by fallthru")
    here.git("TESTERS", "push", "here:w/alice/x", "master:x", cwd=made)
    assert here.ask("alice", "perms w/alice/x -l") == b"TESTERS bob\n"
    assert here.ask("alice", "perms w/alice/x + TESTERS cal", status=1) == b"perms: no such role\n"
    here.put_conf(declared)
    here.git("bob", "push", "here:w/alice/x", "master:again", cwd=made)
    here.put_conf(conf)


def as_gitolites_users_type(here):
    """`help`, `info` with a text, and `perms` in the forms of Gitolite, for several users at once too."""
    for command in "help", "-h", "info -h", "perms --help":
        expect(here.ask("alice", command), "hello alice\n", "perms REPOSITORY + ROLE USER ..")
    assert here.ask("alice", "perms -c u/alice/typed + READERS bob cal") == b"perms: changed\n" * 2
    assert here.ask("alice", "perms u/alice/typed -l") == here.ask("alice", "perms -l u/alice/typed") == b"READERS bob\nREADERS cal\n"
    assert here.ask("alice", "perms u/alice/typed - READERS bob cal") == b"perms: changed\n" * 2
    assert here.ask("alice", "info typed") == b"hello alice\nR W\tu/alice/typed\n"
    assert here.ask("bob", "info typed") == b"hello bob\n"
    expect(here.ask("bob", "perms -c u/alice/other + READERS bob", status=1), "cerolimau: W any u/alice/other bob DENIED by fallthru")


def eight_at_once(here):
    """Eight clients push to one repository and clone it at once."""
    made = [here.repository({"file": "%d\n" % number * 1000}) for number in range(8)]
    at_once([lambda at=at: here.git("ann", "push", "here:t/eight", "master:b%d" % at, cwd=made[at]) for at in range(8)])
    there = here.folder()
    at_once([lambda at=at: here.git("bob", "clone", "--mirror", "here:t/eight", "c%d" % at, cwd=there) for at in range(8)])
    for at in range(8):
        assert here.git("bob", "for-each-ref", cwd=there / ("c%d" % at)).count("refs/heads/b") == 8


TESTS = (
    empty_repository, everything_there_and_back, deltas_of_both_kinds, incremental_fetch, tags_follow, forced_and_with_lease, deletes,
    atomic, notes, nothing_new, many_refs, denials, conf_takes_effect, conf_refused, confs_at_their_limits, info_and_perms,
    declared_roles, as_gitolites_users_type, eight_at_once,
)
