"""What one user, and all together, may take: so many sessions at a time, so many bytes of spools, and so many workers of the server.

A folder has a file `USER.NUMBER` for each session that there was at once. Its session holds a lock on it, and it says how many bytes of
spools are the session's. So what a session had is free when its process ends, however it ends. A file `.KIND.NUMBER` is a worker's.
"""
import fcntl
import os
import stat
import time

from .streams import Refused

UNIT = 16 << 20  # bytes of spools are reserved by so many
PAUSE = 0.1
BUSY_SECONDS = 600


def take_slot(folder, user, sessions, bytes_of_all, patience):
    """A slot of this user, as soon as one is free."""
    prepare_folder(folder)
    ends = time.monotonic() + patience
    while True:
        with _locked(os.path.join(folder, ".lock")):
            for number in range(sessions):
                file = open(os.path.join(folder, "%s.%d" % (user, number)), "a+b", buffering=0)
                if _try_lock(file):
                    return Slot(folder, file, bytes_of_all)
                file.close()
        if time.monotonic() >= ends:
            raise Refused("%s has %d sessions already" % (user, sessions))
        time.sleep(PAUSE)


def take_worker(folder, kind, count):
    """One of so many workers, as soon as one is free: a file that is locked until it is closed. Packs of fetches and of pushes don't get all
    workers, so that shorter sessions find one."""
    ends = time.monotonic() + BUSY_SECONDS
    while True:
        for number in range(count):
            file = open(os.path.join(folder, ".%s.%d" % (kind, number)), "a+b")
            if _try_lock(file):
                return file
            file.close()
        if time.monotonic() >= ends:
            raise Refused("the server is busy: try again in some minutes")
        time.sleep(PAUSE / 2)


def prepare_folder(folder):
    """Makes the folder, which is its owner's alone."""
    try:
        os.mkdir(folder, 0o700)
    except FileExistsError:
        found = os.lstat(folder)
        if not stat.S_ISDIR(found.st_mode) or found.st_uid != os.geteuid() or found.st_mode & 0o022:
            raise Refused("%s isn't a folder of this account alone" % folder) from None


class Slot:
    """One session's place. It is free again when its file is closed."""

    def __init__(self, folder, file, bytes_of_all):
        self._folder = folder
        self._file = file
        self._bytes_of_all = bytes_of_all
        self._used = self._reserved = 0
        self._write()

    def reserve(self, count):
        """So many bytes more go into this session's spools."""
        self._used += count
        if self._used <= self._reserved:
            return
        wanted = -(-self._used // UNIT) * UNIT
        with _locked(os.path.join(self._folder, ".lock")):
            if self._bytes_of_others() + wanted > self._bytes_of_all:
                raise Refused("too much is on its way for all users together: try again in some minutes")
            self._reserved = wanted
            self._write()

    def _write(self):
        self._file.truncate(0)
        self._file.write(b"%d" % self._reserved)

    def _bytes_of_others(self):
        total = 0
        for entry in os.scandir(self._folder):
            if entry.name.startswith(".") or os.path.samestat(entry.stat(), os.fstat(self._file.fileno())):
                continue
            with open(entry.path, "rb") as file:
                if not _try_lock(file):
                    total += int(file.read() or b"0")
        return total


class RefusedBytes:
    """How many bytes of objects a user's refused pushes have brought since midnight (UTC): the server's log keeps them for ever, so there is a bound."""

    def __init__(self, folder, user, most):
        self._path = os.path.join(folder, ".refused." + user)
        self._user, self._most = user, most

    def fault(self):
        """Why no further push is taken today; empty where one is."""
        with _locked(self._path) as file:
            total = self._read(file)
        if total <= self._most:
            return ""
        return "refused pushes of %s have brought %d bytes today, and may bring %d: wait until tomorrow" % (self._user, total, self._most)

    def add(self, count):
        with _locked(self._path) as file:
            total = self._read(file) + count
            file.truncate(0)
            file.write(b"%d %d" % (_day(), total))

    def _read(self, file):
        file.seek(0)
        words = file.read().split()
        return int(words[1]) if len(words) == 2 and int(words[0]) == _day() else 0


def _day():
    return int(time.time()) // 86_400


def _locked(path):
    """A file that is locked until it is closed."""
    file = open(path, "a+b")
    fcntl.flock(file, fcntl.LOCK_EX)
    return file


def _try_lock(file):
    try:
        fcntl.flock(file, fcntl.LOCK_EX | fcntl.LOCK_NB)
    except BlockingIOError:
        return False
    return True
