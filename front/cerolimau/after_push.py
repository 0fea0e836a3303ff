"""What follows a push: a file in a queue for each, which `front/after-push` reads with an account of its own."""
import os
import time

FORM = "%020d-%d"  # so names in their order are in the order of time


def enqueue(queue, user, repository, address, changes):
    """Puts a job into the queue, whole or not at all. Its first line is the user, the repository and the address, and behind it are the lines that
    git gives to a `post-receive`: an old id, a new one and a ref."""
    name = FORM % (time.time_ns(), os.getpid())
    lines = [b"%s %s %s\n" % (user.encode(), repository.encode(), address.encode() or b"-")]
    lines += [b"%s %s %s\n" % change for change in changes]
    made = os.path.join(queue, "." + name)
    with open(made, "wb", opener=_shared) as file:
        file.writelines(lines)
    os.rename(made, os.path.join(queue, name))


def read_job(path):
    """The user, the repository, the address, and the lines for `post-receive`."""
    with open(path, "rb") as file:
        first, *lines = file.readlines()
    user, repository, address = first.decode().split()
    return user, repository, "" if address == "-" else address, b"".join(lines)


def _shared(path, flags):
    """The account of the hooks reads it, whatever the umask; the queue's folder keeps others out."""
    made = os.open(path, flags, 0o644)
    os.fchmod(made, 0o644)
    return made
