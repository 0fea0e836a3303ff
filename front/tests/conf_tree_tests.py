"""The files of a conf: commits with each kind of entry, and confs at their limits, each pushed to a new hub by a script of the program.

What is due was worked out by hand from docs/CONF.md, "The conf at a commit". What no push brings isn't here, as a tree that names an object which
isn't there: such rows are in crates/policy_swap_tests.
"""
from cerolimau.packets import FLUSH, packet
from cerolimau.raw_pack import BLOB, TREE

from .pin_tests import ZERO, commit, name_of, raw_pack
from .program_tests import SCRIPT, ends

ADVERTISED = packet(b"%s capabilities^{}\0report-status delete-refs no-thin atomic\n" % ZERO.encode()) + FLUSH
FILE, EXECUTABLE, GROUP_FILE, LINK, MODULE, FOLDER = b"100644", b"100755", b"100664", b"120000", b"160000", b"40000"
MAIN = b"gitolite.conf"


def repo(name):
    """Lines by which ann sees a repository."""
    return b"repo %s\n    RW = ann\n" % name


WIKI = repo(b"wiki")
IN_WIKI = [(FILE, MAIN, WIKI)]
BAD_LINE = b"repo wiki\n    RX = ann\n"
BELOW = [(FILE, b"b", repo(b"b")), (FOLDER, b"c", [(FILE, b"deep.conf", repo(b"deep"))])]
TWICE = [(FOLDER, b"x", BELOW), (FOLDER, b"y", BELOW)]
LACKS_MAIN = b"gitolite.conf line 0: no file gitolite.conf"
TOO_LONG = b"gitolite.conf line 0: too long"

# What the folder `conf` has, each entry a mode, a name and what it names: the text of a blob, or the entries
# of a tree. Behind that what is due: the repositories that ann sees, or the fault.
CONFS = (
    # the three modes of files
    (IN_WIKI, [b"wiki"]),
    ([(EXECUTABLE, MAIN, WIKI)], [b"wiki"]),
    ([(GROUP_FILE, MAIN, WIKI)], [b"wiki"]),
    # what is no file: a link, a submodule, a folder with such a file in it
    ([(LINK, MAIN, WIKI)], LACKS_MAIN),
    ([(MODULE, MAIN, WIKI)], LACKS_MAIN),
    ([(FOLDER, MAIN, IN_WIKI)], LACKS_MAIN),
    # folders, and the order around a slash
    ([
        (FILE, b"a-b", repo(b"dash")),
        (EXECUTABLE, b"a.b", repo(b"dot")),
        (FOLDER, b"a", [(GROUP_FILE, b"b", repo(b"below")), (FOLDER, b"c", [(FILE, b"deep.conf", repo(b"deep"))])]),
        (FILE, b"a0", repo(b"zero")),
        (FILE, MAIN, WIKI + b"include *\ninclude */*\ninclude */*/*\n"),
        (LINK, b"link", repo(b"link")),
        (MODULE, b"module", repo(b"module")),
    ], [b"below", b"dash", b"deep", b"dot", b"wiki", b"zero"]),
    # one folder at two names, without the main file and with it
    (TWICE, LACKS_MAIN),
    ([(FILE, MAIN, WIKI + b"include x/b\ninclude y/c/deep.conf\n"), *TWICE], [b"b", b"deep", b"wiki"]),
    ([(FILE, MAIN, WIKI + b"include x/b\ninclude y/deep.conf\n"), *TWICE], b"gitolite.conf line 4: no file y/deep.conf"),
    # a fault at a line, and no entries
    ([(FILE, MAIN, BAD_LINE)], b"gitolite.conf line 2: bad permission"),
    ([], LACKS_MAIN),
)

# Roots of commits without a folder `conf`: such a commit has no files.
ROOTS = (
    [(FILE, b"conf", WIKI)],
    [(LINK, b"conf", WIKI)],
    [(MODULE, b"conf", IN_WIKI)],
    [(FOLDER, b"Conf", IN_WIKI)],
    [(FOLDER, b"conf.d", IN_WIKI)],
    [(FOLDER, b"a", [(FOLDER, b"conf", IN_WIKI)])],
    IN_WIKI,
    [],
)

# How many folders there are beside the main file, all of one tree, how many entries of a mode each has, and
# the fault, if there is one.
WIDE = (
    # 10,000 rows and 10,001
    (99, 100, LINK, None),
    (1, 9_998, LINK, None),
    (1, 9_999, LINK, TOO_LONG),
    (100, 99, LINK, TOO_LONG),
    (101, 98, MODULE, None),
    # 1,000 files and 1,001
    (1, 999, FILE, None),
    (27, 37, EXECUTABLE, None),
    (1, 1_000, FILE, TOO_LONG),
    (40, 25, GROUP_FILE, TOO_LONG),
)

# How many bytes the name of a folder has in which a file is, and the name of that file; and whether it is a
# file of the conf. Without a folder it is beside the main one.
LENGTHS = (
    (0, 255, True),
    (0, 256, False),
    (127, 127, True),
    (127, 128, False),
    (253, 1, True),
    (254, 1, False),
    (255, 1, False),
    (1_000, 100, False),
)


def add_object(objects, kind, body):
    if (kind, body) not in objects:
        objects[kind, body] = name_of((kind, body))
    return objects[kind, body]


def add_tree(objects, what):
    """Adds the text of a blob, or the entries of a tree with all that is below it, and returns its name."""
    if isinstance(what, bytes):
        return add_object(objects, BLOB, what)
    return add_object(objects, TREE, b"".join(b"%s %s\0" % (mode, name) + bytes.fromhex(add_tree(objects, named)) for mode, name, named in what))


def session(body):
    return b"session %d\n" % len(body) + body + b"\n"


def served(number, reply):
    return b"session %d served %d\n" % (number, len(reply)) + reply + b"\n"


def push(here, root, due):
    """The admin pushes a commit with this root, and ann lists what she sees. After a fault that is what the setup's conf has."""
    objects = {}  # the name of each
    made = commit(add_tree(objects, root))
    told, seen = (b"ng refs/heads/master conf refused: %s\n" % due, [b"testing"]) if isinstance(due, bytes) else (b"ok refs/heads/master\n", due)
    command = packet(b"%s %s refs/heads/master\0report-status" % (ZERO.encode(), name_of(made).encode()))
    body = packet(b"admin git-receive-pack 'gitolite-admin'") + command + FLUSH + raw_pack([made, *objects])
    report = ADVERTISED + packet(b"unpack ok\n") + packet(told) + FLUSH
    listing = packet(b"hello ann\n") + b"".join(packet(b"R W\t%s\n" % name) for name in seen) + FLUSH
    ends(here, SCRIPT, 0, served(1, report) + served(2, listing), session(body) + session(packet(b"ann info")))


def push_conf(here, entries, due):
    push(here, [(FOLDER, b"conf", entries)], due)


def numbered(count, mode, what):
    """Entries of one mode that all name one object; their names are numbers."""
    return [(mode, b"%d" % number, what) for number in range(10_000, 10_000 + count)]


def entries_of_confs(here):
    """Each kind of entry at the main file and beside it."""
    for entries, due in CONFS:
        push_conf(here, entries, due)


def roots_without_conf(here):
    """A commit without a folder `conf`."""
    for entries in ROOTS:
        push(here, entries, LACKS_MAIN)


def rows_and_files_of_confs(here):
    """As many rows and files as there may be, and one more. The files of a good conf are each included by name; what is no file isn't included."""
    for folders, count, mode, fault in WIDE:
        is_link = mode in (LINK, MODULE)
        names = (b"include %d/%d\n" % (10_000 + folder, 10_000 + number) for folder in range(folders) for number in range(count))
        main = WIKI + (b"include */*\n" if is_link else b"".join(names))
        entries = numbered(folders, FOLDER, numbered(count, mode, repo(b"other"))) + [(FILE, MAIN, main)]
        push_conf(here, entries, fault or ([b"wiki"] if is_link else [b"other", b"wiki"]))


def long_names_in_confs(here):
    """A file with a long name is included where it is a file of the conf, and counts as the 1,001st there."""
    for folder, length, is_file in LENGTHS:
        file = FILE, b"a" * length, repo(b"long")
        entries = [(FOLDER, b"a" * folder, [file]) if folder else file, (FILE, MAIN, WIKI + b"include a*\ninclude a*/a*\n")]
        push_conf(here, entries, [b"long", b"wiki"] if is_file else [b"wiki"])
        push_conf(here, entries + [(FOLDER, b"others", numbered(999, FILE, b"#"))], TOO_LONG if is_file else [b"wiki"])


def bytes_of_confs(here):
    """67,108,864 bytes in all files, and one more."""
    others = numbered(1, FOLDER, numbered(999, FILE, b"#" * 67_108))
    for size, due in (67_972, [b"wiki"]), (67_973, TOO_LONG):
        push_conf(here, others + [(FILE, MAIN, WIKI.ljust(size, b"#"))], due)


TESTS = entries_of_confs, roots_without_conf, rows_and_files_of_confs, long_names_in_confs, bytes_of_confs
