"""Pushes of more than one push may have."""
from .world import expect


def equal(here, made, url):
    """Whether a mirror of it has the same refs and objects."""
    there = here.folder() / "mirror"
    here.git("bob", "clone", "--mirror", url, there)
    here.git("bob", "fsck", "--strict", cwd=there)
    for ask in ["for-each-ref"], ["cat-file", "--batch-all-objects", "--batch-check"]:
        if here.git("ann", *ask, cwd=made) != here.git("ann", *ask, cwd=there):
            return False
    return True


def long_history(here):
    """Forty commits with merges, a tag each tenth, three branches, a tag of a tag and one of a blob."""
    made = here.repository()
    for number in range(40):
        here.commit(made, {"%d/%d" % (number, file): "%d %d\n" % (number, file) for file in range(3)})
        if number % 10 == 9:
            here.git("ann", "checkout", "-q", "-b", "side%d" % number, "HEAD~2", cwd=made)
            here.commit(made, {"side%d" % number: "side\n"})
            here.git("ann", "checkout", "-q", "master", cwd=made)
            here.git("ann", "merge", "-q", "-m", "a merge", "side%d" % number, cwd=made)
            here.git("ann", "tag", "-m", "a tag", "v%d" % number, cwd=made)
    here.git("ann", "branch", "-D", "side9", cwd=made)
    here.git("ann", "branch", "old", "HEAD~20", cwd=made)
    here.git("ann", "tag", "-m", "a tag of a tag", "tag-of-tag", "v9", cwd=made)
    here.git("ann", "tag", "-m", "a tag of a blob", "tag-of-blob", "HEAD:README", cwd=made)
    return made


def first_push_in_slices(here):
    """An existing history is pushed as it is, several branches and tags at once, and the report is one."""
    made = long_history(here)
    said = here.git("ann", "push", "--mirror", "here:t/first", cwd=made, options=("--slice", "40"))
    expect(said, "remote: cerolimau: slice 2 of ", "[new branch]      master -> master", "[new tag]         tag-of-tag -> tag-of-tag")
    assert said.count("[new branch]      master") == 1
    assert equal(here, made, "here:t/first")
    here.commit(made, {"b/%d" % number: "%d\n" % number for number in range(30)})
    here.commit(made, {"a/%d" % number: "a %d\n" % number for number in range(30)})
    here.git("ann", "push", "--mirror", "here:t/first", cwd=made, options=("--slice", "40"))
    assert equal(here, made, "here:t/first")


def large_first_commit(here):
    """A first commit that alone has too many objects goes in by its trees, and no ref of those is left."""
    made = here.repository({"%d/%d" % (number // 20, number): "%d\n" % number for number in range(200)})
    here.git("ann", "push", "--mirror", "here:t/vendor", cwd=made, options=("--slice", "50"))
    assert equal(here, made, "here:t/vendor")
    assert "refs/slices/" not in here.git("ann", "ls-remote", "here:t/vendor")
    said = here.git("ann", "push", "here:narrow", "master", cwd=made, status=1, options=("--slice", "50"))
    expect(said, "[remote rejected] master -> master (a slice of the push was refused: ", "refs/slices/", "narrow ann DENIED by fallthru)")


def refused_slice(here):
    """Where a slice is refused, the report says where the branch is; what doesn't hang on it is done."""
    made = here.repository()
    for number in range(12):
        here.commit(made, {"bad" if number == 8 else "%d" % number: "%d\n" % number})
    said = here.git("ann", "push", "here:named", "master", "master~11:refs/heads/first", cwd=made, status=1, options=("--slice", "10"))
    where = here.git("ann", "ls-remote", "here:named", "refs/heads/master").split()[0]
    expect(said, "[remote rejected] master -> master (W VREF/NAME/bad named ann DENIED by VREF/NAME/bad", "; it is at %s, an older commit" % where)
    expect(said, "[new branch]      master~11 -> first")
    assert int(here.git("ann", "rev-list", "--count", where, cwd=made)) > 2


def never_in_slices(here):
    """An atomic push, and one to gitolite-admin, is done or refused as a whole."""
    made = here.repository({"%d" % number: "%d\n" % number for number in range(30)})
    here.git("ann", "push", "--atomic", "here:t/atomic", "master", cwd=made, options=("--slice", "10"))
    said = here.put_conf((here.room / "gitolite-admin/conf/gitolite.conf").read_text(), options=("--slice", "1"))
    assert "slice" not in said, said


TESTS = first_push_in_slices, large_first_commit, refused_slice, never_in_slices
