"""Default branches, and parts of a history as CI systems fetch them."""
import shutil

from cerolimau.packets import FLUSH, packet

from .world import expect


def history(here, name, branch="master", count=12):
    """A repository with merges, a reverted file and tags, pushed as `t/NAME` with this branch alone. Each commit is a day younger."""
    made = here.repository({"README": "0\n"})
    for number in range(1, count):
        dates = {"%s_DATE" % who: "2024-01-%02dT12:00:00Z" % (number + 1) for who in ("GIT_AUTHOR", "GIT_COMMITTER")}
        if number % 4 == 3:
            here.git("ann", "checkout", "-q", "-b", "side%d" % number, "HEAD~1", cwd=made)
            (made / ("side%d" % number)).write_text("side\n")
            here.git("ann", "add", "--all", cwd=made)
            here.git("ann", "commit", "-q", "-m", "side", cwd=made, **dates)
            here.git("ann", "checkout", "-q", "master", cwd=made)
            here.git("ann", "merge", "-q", "-m", "merge %d" % number, "side%d" % number, cwd=made, **dates)
        else:
            (made / "README").write_text("%d\n" % (number % 3))  # an old file comes back
            (made / ("%d" % number)).write_text("%d\n" % number)
            here.git("ann", "add", "--all", cwd=made)
            here.git("ann", "commit", "-q", "-m", "commit %d" % number, cwd=made, **dates)
    here.git("ann", "tag", "-m", "a tag", "v1", "HEAD~2", cwd=made)
    here.git("ann", "push", "-q", "here:t/" + name, "master:refs/heads/" + branch, "v1", cwd=made)
    return made


def default_branch(here):
    """HEAD is at master, else at main, else at the one branch; a plain clone checks it out, and so do --depth and --single-branch."""
    for name, branch in ("main", "main"), ("trunk", "trunk"):
        made = history(here, name, branch, 4)
        for words in [], ["--depth", "1"], ["--single-branch"]:
            there = here.folder()
            here.git("bob", "clone", *words, "here:t/" + name, ".", cwd=there)
            assert here.head(there) == here.head(made) and (there / "README").exists(), words
            assert here.git("bob", "symbolic-ref", "HEAD", cwd=there) == "refs/heads/%s\n" % branch
        expect(here.git("bob", "ls-remote", "--symref", "here:t/" + name, "HEAD"), "ref: refs/heads/%s\tHEAD" % branch)
    here.git("ann", "push", "-q", "here:t/trunk", "master~1:refs/heads/develop", cwd=made)
    expect(here.git("bob", "ls-remote", "--symref", "here:t/trunk", "HEAD"), "ref: refs/heads/develop\tHEAD")
    heads = here.folder() / "heads"
    heads.write_text("# which branch\nother main\nt/trunk trunk\n")
    said = here.git("bob", "ls-remote", "--symref", "here:t/trunk", "HEAD", options=("--heads", str(heads)))
    expect(said, "ref: refs/heads/trunk\tHEAD")
    here.git("ann", "push", "-q", "here:t/trunk", "master~2:refs/heads/master", cwd=made)
    expect(here.git("bob", "ls-remote", "--symref", "here:t/trunk", "HEAD"), "ref: refs/heads/master\tHEAD")


def like_git(here):
    """Clones and fetches of a part have the commits, shallow commits and files that git gives from a folder."""
    made = history(here, "parts")
    beside = "file://%s" % made
    for steps in (
        [["clone", "--depth", "1"]],
        [["clone", "--depth", "3"], ["fetch", "--depth", "5"], ["fetch", "--depth", "2"]],
        [["clone", "--depth", "2"], ["fetch", "--deepen", "2"], ["fetch", "--unshallow"]],
        [["clone", "--depth", "2", "--no-single-branch"], ["fetch", "--unshallow"]],
        [["clone", "--shallow-since", "2024-01-05T00:00:00Z"], ["fetch", "--shallow-since", "2024-01-03T00:00:00Z"]],
        [["clone", "--shallow-exclude", "v1"], ["fetch", "--depth", "100"]],
        [["clone", "--single-branch"], ["fetch", "--depth", "2"]],
    ):
        there = here.folder()
        for url, name in ("here:t/parts", "front"), (beside, "git"):
            for words in steps:
                if words[0] == "clone":
                    here.git("bob", *words, "--no-tags", "--branch", "master", url, name, cwd=there)
                else:
                    here.git("bob", *words, "--no-tags", "origin", "master", cwd=there / name)
                here.git("bob", "fsck", cwd=there / name)
        found, wanted = state(here, there / "front"), state(here, there / "git")
        assert found == wanted, "%s: %s, and git has %s" % (steps, found, wanted)


def state(here, where):
    """The commits and the shallow ones."""
    shallow = where / ".git/shallow"
    return sorted(here.git("bob", "rev-list", "--all", cwd=where).split()), sorted(shallow.read_text().split()) if shallow.exists() else []


def fetch_in_a_shallow_clone(here):
    """A plain fetch in a shallow clone brings what is new, an old file that came back too."""
    made = history(here, "grow")
    there = here.folder()
    here.git("bob", "clone", "--depth", "1", "here:t/grow", ".", cwd=there)
    old = here.git("ann", "show", "HEAD~9:README", cwd=made)
    here.commit(made, {"README": old, "new": "new\n"})
    here.git("ann", "push", "-q", "here:t/grow", "master", cwd=made)
    here.git("bob", "pull", cwd=there)
    here.git("bob", "fsck", cwd=there)
    assert here.head(there) == here.head(made) and (there / "README").read_text() == old
    assert len(here.git("bob", "rev-list", "HEAD", cwd=there).split()) == 2


def fetch_by_id(here):
    """A CI job fetches a commit by its id, one that no ref is at any more too; one that nothing leads to is refused."""
    made = history(here, "ids")
    for revision in "HEAD", "HEAD~3":
        there = here.folder()
        here.git("bob", "init", "-q", cwd=there)
        here.git("bob", "fetch", "--depth", "1", "here:t/ids", here.head(made, revision), cwd=there)
        assert here.head(there, "FETCH_HEAD") == here.head(made, revision)
        assert len(here.git("bob", "rev-list", "FETCH_HEAD", cwd=there).split()) == 1
        here.git("bob", "checkout", "-q", "FETCH_HEAD", cwd=there)
    there = here.folder()
    here.git("bob", "init", "-q", cwd=there)
    here.git("bob", "fetch", "here:t/ids", here.head(made, "HEAD~3"), cwd=there)
    assert here.git("bob", "rev-list", "FETCH_HEAD", cwd=there) == here.git("bob", "rev-list", "HEAD~3", cwd=made)
    said = here.git("bob", "fetch", "--depth", "1", "here:t/ids", "1" * 40, cwd=there, status=128)
    expect(said, "remote error: upload-pack: not our ref " + "1" * 40)


def push_from_a_shallow_clone(here):
    """What was committed in a shallow clone is pushed; where the server lacks what is behind it, it says so."""
    made = history(here, "back")
    there = here.folder()
    here.git("bob", "clone", "--depth", "1", "here:t/back", ".", cwd=there)
    here.commit(there, {"new": "new\n"})
    here.git("bob", "push", "origin", "master", cwd=there)
    assert here.git("bob", "ls-remote", "here:t/back", "master").split()[0] == here.head(there)
    said = here.git("bob", "push", "here:t/back-to-none", "master", cwd=there, status=None)
    expect(said, "[remote rejected] master -> master (missing object ")
    shutil.rmtree(made)


def a_ref_that_moves(here):
    """A branch that moves between the advertisement and the pack doesn't fail the fetch."""
    made = history(here, "moves", count=3)
    old = here.head(made)
    here.commit(made, {"new": "new\n"})
    here.git("ann", "push", "-q", "here:t/moves", "master", cwd=made)
    said = here.ask("bob", "git-upload-pack 't/moves'", packet(b"want " + old.encode()) + FLUSH + packet(b"done"))
    pack = said[said.index(b"PACK"):]
    there = here.folder()
    here.git("bob", "init", "-q", cwd=there)
    (there / ".git/objects/pack/pack-x.pack").write_bytes(pack)
    here.git("bob", "index-pack", ".git/objects/pack/pack-x.pack", cwd=there)
    here.git("bob", "rev-list", "--objects", old, cwd=there)
    assert here.git("bob", "rev-list", "--count", old, cwd=there) == "3\n"


TESTS = default_branch, like_git, fetch_in_a_shallow_clone, fetch_by_id, push_from_a_shallow_clone, a_ref_that_moves
