#!/usr/bin/env python3
"""full_disk.py PROGRAM [TIMES]: what `host` of PROGRAM, the built cerolimau, does where its journal can't grow; by hand, never in the gate.

Four clients push until the server ends: where a file may have so many bytes (a limit of the process), and on a file system that has so many (tmpfs, where
this is root). It has to end with status 8, and a server over the same file, once there is room, has every ref that was answered. Each is done so often (10),
with other sizes. Its status is 1 where that isn't so.
"""
import os
import resource
import shutil
import signal
import subprocess
import sys
import tempfile

from host_stops import CONF, Client, converse, free_port
from push_costs import admin_push
from stops import ADVERTISE, refs_of


class Server:
    def __init__(self, program, journal, bytes_allowed=None):
        def limit():
            signal.signal(signal.SIGXFSZ, signal.SIG_IGN)
            if bytes_allowed:
                resource.setrlimit(resource.RLIMIT_FSIZE, (bytes_allowed, bytes_allowed))

        self.port = free_port()
        words = [program, "host", "--admin", "admin", "--port", str(self.port), "--workers", "4", "--journal", journal]
        self.child = subprocess.Popen(words, stdout=subprocess.DEVNULL, stderr=subprocess.DEVNULL, preexec_fn=limit)
        while not (said := converse(self.port, ADVERTISE)):
            if self.child.poll() is not None:
                sys.exit("the server ended with %d" % self.child.returncode)
        self.refs = refs_of(said)


def fill(program, journal, name, bytes_allowed=None):
    """Pushes until the server ends: its status, and the refs that were answered."""
    server = Server(program, journal, bytes_allowed)
    converse(server.port, admin_push(CONF))
    clients = [Client(server.port, "%s-%d" % (name, number)) for number in range(4)]
    for client in clients:
        client.start()
    status = server.child.wait(timeout=120)
    for client in clients:
        client.join()
    return status, {ref: value for client in clients for ref, value in client.kept.items()}


def look(program, journal):
    server = Server(program, journal)
    server.child.kill()
    server.child.wait()
    return server.refs


def one(program, name, fold, bytes_allowed=None):
    journal = fold + "/full.journal"
    status, kept = fill(program, journal, name, bytes_allowed)
    size = os.stat(journal).st_size
    roomy = tempfile.mkdtemp(prefix="full-disk-")
    try:
        shutil.copy(journal, roomy + "/full.journal")
        refs = look(program, roomy + "/full.journal")
    finally:
        shutil.rmtree(roomy)
    lost = [ref for ref, value in kept.items() if refs.get(ref) != value]
    print("%s: status %d, a file of %d bytes, %d refs answered, %d there, %d lost" % (name, status, size, len(kept), len(refs), len(lost)), flush=True)
    return status != 8 or bool(lost)


def main(program, times):
    wrong = 0
    for number in range(times):
        with tempfile.TemporaryDirectory(prefix="full-disk-") as fold:
            wrong += one(program, "limit-%d" % number, fold, 4_000 + 7_919 * number)
    if os.geteuid() == 0:
        for number in range(times):
            with tempfile.TemporaryDirectory(prefix="full-disk-") as fold:
                if subprocess.run(["mount", "-t", "tmpfs", "-o", "size=%d" % (4_096 * (2 + 7 * number)), "none", fold], stderr=subprocess.DEVNULL).returncode:
                    print("no file system can be mounted here")
                    break
                try:
                    wrong += one(program, "tmpfs-%d" % number, fold)
                finally:
                    subprocess.run(["umount", fold], check=True)
    return 1 if wrong else 0


if __name__ == "__main__":
    sys.exit(main(os.path.realpath(sys.argv[1]), int(sys.argv[2]) if sys.argv[2:] else 10))
