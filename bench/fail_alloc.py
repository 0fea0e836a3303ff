#!/usr/bin/env python3
"""Each allocation of the program failing in turn: fail_alloc.py PROGRAM [CASE ..], by hand, never in the gate. It needs gcc.

PROGRAM is the built gitolite_shell, and each case a script of a few sessions, questions of a report, a script of `keep`, or requests at `http`. The
program is run once for each number, of which the allocation of that number is refused, until sixty numbers in a row change nothing. A run has to end
with 4, and have printed a beginning of what is printed without a refusal, or with 0 and all of it. Behind `keep` another run has to find the push, or
nothing where it wasn't told that it is done; each reply to a request has to be a beginning of the one without a refusal, or of the one without the push.
It ends with 1 where one doesn't. `requests` wants the port 8418 of 127.0.0.1.
"""
import os, socket, subprocess, sys, tempfile, time

import shipped_script as shipped

SHIM = r"""
#define _GNU_SOURCE
#include <dlfcn.h>
#include <stdlib.h>
static void *(*real_malloc)(size_t), *(*real_realloc)(void *, size_t);
static long calls, at;
static int fails(void) {
    if (!real_malloc) {
        real_malloc = dlsym(RTLD_NEXT, "malloc");
        real_realloc = dlsym(RTLD_NEXT, "realloc");
        char *text = getenv("FAIL");
        at = text ? atol(text) : 0;
    }
    return ++calls == at;
}
void *malloc(size_t size) { return fails() ? NULL : real_malloc(size); }
void *realloc(void *old, size_t size) { return fails() ? NULL : real_realloc(old, size); }
"""


def framed(*bodies):
    return b"".join(b"session %d\n%s\n" % (len(it), it) for it in bodies)


def cases():
    first, second = shipped.first, shipped.second
    push = shipped.pushes(b"carol", b"testing", [(None, first, shipped.MASTER)], shipped.first_pack)
    want = shipped.line(b"want", first) + b"0000" + shipped.DONE
    clone = shipped.asks(b"carol", b"git-upload-pack 'testing'") + want
    swap = shipped.pushes(b"admin", b"gitolite-admin", [(None, shipped.wild, shipped.MASTER)], shipped.raw_pack(shipped.wild_objects))
    alices = shipped.pushes(b"alice", b"alice/x", [(None, first, shipped.MASTER)], shipped.first_pack)
    grant = shipped.asks(b"alice", b"perms alice/x + WRITERS bob")
    listed = shipped.asks(b"alice", b"perms -l alice/x")
    update = shipped.pushes(b"bob", b"alice/x", [(first, second, shipped.MASTER)], shipped.raw_pack([second]))
    denied = shipped.pushes(b"cal", b"alice/x", [(first, second, shipped.MASTER)], shipped.raw_pack([second]))
    refused = shipped.pushes(b"admin", b"gitolite-admin", [(None, shipped.refused, shipped.MASTER)], shipped.raw_pack(shipped.refused_objects))
    tagged = shipped.pushes(b"carol", b"testing", [(first, second, shipped.MASTER), (None, shipped.tag, shipped.TAG)], shipped.raw_pack([second, shipped.tag]))
    behind = shipped.line(b"want", shipped.tag) + b"0000" + shipped.line(b"have", first) + shipped.DONE
    fetch = shipped.asks(b"carol", b"git-upload-pack 'testing'") + behind
    return {
        "push": framed(push, shipped.asks(b"carol", b"perms -l testing"), shipped.asks(b"carol", b"info")),
        "clone": framed(push, clone),
        "refused": framed(refused),
        "fetch": framed(push, tagged, fetch),
        "conf": framed(swap, alices, grant, listed, update, denied, shipped.asks(b"alice", b"info")),
    }


def questions():
    """A report by two confs."""
    asks = b"".join(b"repo %s\nuser %s\nref refs/heads/x\n" % (repo, user) for repo in (b"testing", b"alice/x") for user in (b"ann", b"cal"))
    confs = [b"@dev = ann bob\nrepo testing\n    RW+ = @dev\n", b"repo testing\n    RW master$ = ann\nrepo CREATOR/[a-z]+\n    C = @all\n    RW+ = CREATOR\n"]
    return b"ask %d\n%s\n" % (len(asks), asks) + b"".join(b"conf %d\n%s\n" % (len(conf), conf) for conf in confs)


def refusing(library, number):
    return {"LD_PRELOAD": library, "FAIL": str(number)}


def sweep(run, is_right):
    """How many allocations there are, and the numbers of those behind whose refusal it isn't right."""
    whole, number, same, wrong = run(0), 0, 0, []
    while same < 60:
        number += 1
        found = run(number)
        same = same + 1 if found == whole else 0
        if same == 0 and not is_right(found, whole):
            wrong.append((number, found))
    return number - same, wrong


def by_input(program, library, words, text):
    """The status and the output of a run with this input."""
    def run(number):
        ran = subprocess.run([program, *words], input=text, stdout=subprocess.PIPE, stderr=subprocess.PIPE, env=refusing(library, number), timeout=60)
        return ran.returncode, ran.stdout, ran.stderr

    return sweep(run, lambda found, whole: found[0] == 4 and whole[1].startswith(found[1]) and not found[2])


def by_journal(program, library, text):
    """The status and the output of `keep`, and what the next run says of the refs."""
    look = framed(shipped.asks(b"carol", b"git-upload-pack 'testing'") + b"0000")

    def run(number):
        with tempfile.TemporaryDirectory() as folder:
            ran = [subprocess.run([program, "keep", "--admin", "admin"], input=it, stdout=subprocess.PIPE, env=refusing(library, at), cwd=folder, timeout=60) for it, at in ((text, number), (look, 0))]
        return ran[0].returncode, ran[0].stdout, ran[1].stdout

    def is_right(found, whole):
        told = b"ok refs/heads/master" in found[1]
        return found[0] in (4, 8) and whole[1].startswith(found[1]) and (found[2] == whole[2] or not told and b"refs/heads" not in found[2] and found[2].startswith(b"session 1 served"))

    return sweep(run, is_right)


def request(first, body=None, service=b"git-upload-pack"):
    fields = b"" if body is None else b"Content-Type: application/x-%s-request\r\nContent-Length: %d\r\n" % (service, len(body))
    return b"%s HTTP/1.1\r\nX-Git-User: carol\r\n%s\r\n%s" % (first, fields, body or b"")


def by_requests(program, library, pushes):
    """The status of `http`, and its replies, with a push first or without."""
    push = shipped.pushes(b"carol", b"testing", [(None, shipped.first, shipped.MASTER)], shipped.first_pack)
    body = push[int(push[:4], 16):]
    refs = request(b"GET /testing/info/refs?service=git-upload-pack")
    fetch = request(b"POST /testing/git-upload-pack", shipped.line(b"want", shipped.first) + b"0000" + shipped.DONE)
    asked = [request(b"POST /testing/git-receive-pack", body, b"git-receive-pack") if pushes else refs, refs, fetch, request(b"GET /no/such")]

    def run(number):
        words = [program, "http", "--admin", "admin", "--workers", "1", "--sessions", str(len(asked))]
        with subprocess.Popen(words, stdout=subprocess.PIPE, env=refusing(library, number)) as server:
            replies = [reply_to(it, server) for it in asked]
            server.stdout.read()
            return (server.wait(60), *replies)

    return run


def reply_to(sent, server):
    while True:
        try:
            with socket.create_connection(("127.0.0.1", 8418), 20) as link:
                link.sendall(sent)
                link.shutdown(socket.SHUT_WR)
                reply = b""
                while part := link.recv(65536):
                    reply += part
                return reply
        except ConnectionRefusedError:
            if server.poll() is not None:
                return b""
            time.sleep(0.002)
        except OSError:
            return b""


def sweep_requests(program, library):
    without = by_requests(program, library, False)(0)

    def is_right(found, whole):
        return found[0] in (0, 4) and all(one.startswith(it) or other.startswith(it) for it, one, other in zip(found[1:], whole[1:], (b"", *without[2:])))

    return sweep(by_requests(program, library, True), is_right)


def main(program, *names):
    with tempfile.TemporaryDirectory() as at:
        source, library = at + "/shim.c", at + "/shim.so"
        with open(source, "w") as it:
            it.write(SHIM)
        subprocess.run(["gcc", "-shared", "-fPIC", "-O2", "-o", library, source, "-ldl"], check=True)
        bad, program = 0, os.path.abspath(program)
        script = "script", "--admin", "admin"
        runs = {name: lambda text=text: by_input(program, library, script, text) for name, text in cases().items()}
        runs["report"] = lambda: by_input(program, library, ("access",), questions())
        runs["keep"] = lambda: by_journal(program, library, cases()["push"])
        runs["requests"] = lambda: sweep_requests(program, library)
        for name, swept in runs.items():
            if not names or name in names:
                last, wrong = swept()
                bad += len(wrong)
                print("%s: %d allocations, %d ended wrongly" % (name, last, len(wrong)), *wrong[:5], sep="\n    ")
        return 1 if bad else 0


if __name__ == "__main__":
    sys.exit(main(*sys.argv[1:]))
