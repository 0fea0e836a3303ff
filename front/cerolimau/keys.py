"""The lines of an authorized_keys file: one for each key of a keydir, as Gitolite has it."""
import binascii
import fcntl
import os
import re

from .names import is_user
from .streams import Refused

START = "# cerolimau start: these lines are made from a keydir"
END = "# cerolimau end"
KEY_TYPES = (
    "ssh-ed25519", "ssh-rsa", "ecdsa-sha2-nistp256", "ecdsa-sha2-nistp384", "ecdsa-sha2-nistp521",
    "sk-ssh-ed25519@openssh.com", "sk-ecdsa-sha2-nistp256@openssh.com",
)
AS_IT_IS = {"encoding": "utf-8", "errors": "surrogateescape", "newline": "\n"}  # any bytes are read and written back
SAFE_WORD = re.compile(r"[A-Za-z0-9/._@+:,=-]+")  # means itself to a shell and inside of quotes


class BadKey(Exception):
    """Why a file gives no line."""


def user_of(path):
    """The user whose key is in the file: `alice.pub`, `laptop/alice.pub` and `alice@laptop.pub` are alice's, as in Gitolite."""
    user = re.sub(r"(@[^.]+)?\.pub$", "", os.path.basename(path))
    if not is_user(user):
        raise BadKey("%s is no user's name" % ascii(user))
    return user


def read_key(data):
    """The key's type and its base64 text."""
    lines = [line for line in data.decode("ascii", "replace").splitlines() if line.strip()]
    if len(lines) != 1:
        raise BadKey("it has %d lines, and not one key" % len(lines))
    words = lines[0].split()
    if words[0] not in KEY_TYPES or len(words) < 2:
        raise BadKey("it doesn't begin with a key's type and the key")
    try:
        blob = binascii.a2b_base64(words[1].encode(), strict_mode=True)
    except ValueError:
        raise BadKey("its key isn't base64") from None
    kind = words[0].encode()
    if not blob.startswith(len(kind).to_bytes(4, "big") + kind) or len(blob) < len(kind) + 36:
        raise BadKey("its key isn't one of %s" % words[0])
    return words[0], binascii.b2a_base64(blob, newline=False).decode()  # the one spelling of these bytes


def key_lines(files, command, taken):
    """The lines for files, given as bytes by paths, and a text for each that gives none. `taken` has keys that others have."""
    lines, faults, owners = [], [], dict.fromkeys(taken, "a line that isn't of a keydir")
    for path, data in sorted(files.items()):
        try:
            user, (kind, key) = user_of(path), read_key(data)
            if key in owners:
                raise BadKey("%s has the same key" % owners[key])
        except BadKey as fault:
            faults.append("%s is left out: %s" % (path, fault))
            continue
        owners[key] = path
        lines.append('command="%s",restrict %s %s %s' % (" ".join([*command, user]), kind, key, user))
    return lines, faults


def split_lines(text):
    """The lines before those of a keydir, and the lines behind them."""
    lines = text.removesuffix("\n").split("\n") if text else []
    if START not in lines and END not in lines:
        return lines, []
    if lines.count(START) != 1 or lines.count(END) != 1 or lines.index(START) > lines.index(END):
        raise Refused("the file of keys has not one `%s` line and one `%s` line behind it" % (START, END))
    return lines[:lines.index(START)], lines[lines.index(END) + 1:]


class KeyFile:
    """An authorized_keys file, locked against whoever else writes it by this class."""

    def __init__(self, path):
        self._path = os.path.realpath(path)

    def __enter__(self):
        self._lock = open(self._path + ".lock", "w")
        fcntl.flock(self._lock, fcntl.LOCK_EX)
        return self

    def __exit__(self, *_):
        self._lock.close()

    def put(self, files, command):
        """Writes the lines of these files in place of those that were, all or nothing. Returns what is wrong with files."""
        for word in command:
            if not SAFE_WORD.fullmatch(word):
                raise Refused("the command has a word that a shell could read otherwise: %s" % ascii(word))
        before, behind = split_lines(self._read())
        others = {word for line in before + behind if not line.lstrip().startswith("#") for word in line.split()}
        lines, faults = key_lines(files, command, others)
        if not lines:
            raise Refused("; ".join(["there is no good key, so the keys stay as they were", *faults]))
        self._replace("\n".join([*before, START, *lines, END, *behind, ""]))
        return faults

    def _read(self):
        try:
            with open(self._path, **AS_IT_IS) as file:
                return file.read()
        except FileNotFoundError:
            return ""

    def _replace(self, text):
        made = self._path + ".new"
        with open(made, "w", opener=_private, **AS_IT_IS) as file:
            file.write(text)
            file.flush()
            os.fsync(file.fileno())
        os.replace(made, self._path)


def _private(path, flags):
    return os.open(path, flags, 0o600)
