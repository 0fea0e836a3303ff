"""The files of `gitolite-admin`, fetched from the server: keys, and the conf, which is looked at once more behind a push."""
import subprocess

from .objects import TREE_ENTRY, NamedObjects, tree_of
from .packets import FLUSH, packet
from .raw_pack import BLOB, COMMIT, TREE
from .refs import Refs
from .streams import Refused

BRANCH = b"refs/heads/master"
FOLDERS = b"keydir", b"conf"
MAIN = "gitolite.conf"


def fetch_files(sessions):
    """The files below the folders `keydir` and `conf`, as bytes by paths; a folder that isn't there has none."""
    server, lines = sessions.open()
    commit = Refs(lines).ids.get(BRANCH)
    if commit is None:
        raise Refused("it has no branch master")
    server.send(packet(b"want " + commit) + FLUSH + packet(b"done"))
    server.read_packet()  # NAK
    objects = NamedObjects(server.source)
    server.close()
    root = tree_of(objects.of_kind(bytes.fromhex(commit.decode()), COMMIT))
    folders = [(name, tree) for mode, name, tree in entries(objects, root) if mode == b"40000" and name in FOLDERS]
    return read_files(objects, folders)


def entries(objects, tree):
    """Modes, names and ids."""
    return TREE_ENTRY.findall(objects.of_kind(tree, TREE))


def read_files(objects, folders):
    files = {}
    while folders:
        folder, tree = folders.pop()
        for mode, name, where in entries(objects, tree):
            path = folder + b"/" + name
            if mode == b"40000":
                folders.append((path, where))
            elif mode.startswith(b"100"):
                files[path.decode(errors="replace")] = objects.of_kind(where, BLOB)
    return files


def keys_of(files):
    """The files of keys; None where the branch has no folder of them."""
    if not any(path.startswith("keydir/") for path in files):
        return None
    return {path: data for path, data in files.items() if path.startswith("keydir/") and path.endswith(".pub")}


def conf_of(files):
    """The files of the conf by their names below `conf`."""
    return {path.removeprefix("conf/"): data for path, data in files.items() if path.startswith("conf/")}


def warnings_of(program, files, user):
    """What a conf that was taken does and its admin may not want: lines of a subconf that set nothing, and that the user may not change the conf
    any more. `program` is `access_rows`, which asks the rules."""
    conf = conf_of(files)
    said = ask_rules(program, conf, ["rules", "open %s gitolite-admin W" % user])
    warnings = [line for line in said[0] if ": subconf " in line]
    if said[1] and not said[1][0].startswith("allowed"):
        warnings.append("from now on %s may not push to gitolite-admin: %s" % (user, said[1][0]))
    return warnings


def ask_rules(program, conf, questions):
    """For each question the lines of its answer by the conf of these files."""
    names = [MAIN, *sorted(conf.keys() - {MAIN})]
    lines = []
    for name in names:
        lines.append(b"%s %s" % (b"file" if lines else b"conf", name.encode()))
        lines += [b"|" + line for line in conf.get(name, b"").split(b"\n")]
    asked = [question.encode() for question in questions]
    ran = subprocess.run([program], input=b"\n".join([*lines, *asked, b""]), stdout=subprocess.PIPE, timeout=60)
    if ran.returncode:
        raise Refused("%s failed at the conf" % program)
    printed = ran.stdout.split(b"\n")[len(lines):]
    answers, at = [], 0
    for question in asked:
        assert printed[at] == question
        end = at + 1
        while end < len(printed) and printed[end].startswith(b"= "):
            end += 1
        answers.append([line[2:].decode(errors="replace") for line in printed[at + 1:end]])
        at = end
    return answers
