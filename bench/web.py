#!/usr/bin/env python3
"""What git costs over HTTP, beside `git http-backend` behind the same nginx and beside the front end without a web server: web.py SERVER, by hand, as root.

SERVER is the built cerolimau. It wants nginx and fcgiwrap. Printed are wall-clock seconds, the fastest of some runs.
"""
import os
import pathlib
import subprocess
import sys
import time

TOP = pathlib.Path(__file__).resolve().parent.parent
sys.path[:0] = [str(TOP / "front"), str(TOP / "bench")]

from front import commit, text  # noqa: E402
from tests import web_tests  # noqa: E402
from tests.world import World  # noqa: E402

import random  # noqa: E402

RUNS = 3
BACKEND = """
        location /plain/ {
            client_max_body_size 0;
            fastcgi_pass unix:/run/cerolimau/cgi.sock;
            fastcgi_param SCRIPT_FILENAME /usr/lib/git-core/git-http-backend;
            fastcgi_split_path_info ^(/plain)(/.+)$;
            fastcgi_param PATH_INFO $fastcgi_path_info;
            fastcgi_param GIT_PROJECT_ROOT ROOM/plain;
            fastcgi_param GIT_HTTP_EXPORT_ALL 1;
            fastcgi_param REMOTE_USER ann;
            fastcgi_param REQUEST_METHOD $request_method;
            fastcgi_param QUERY_STRING $query_string;
            fastcgi_param CONTENT_TYPE $content_type;
            fastcgi_param CONTENT_LENGTH $content_length;
            fastcgi_buffering off;
        }
"""


def history(here, count):
    """A bare repository of so many commits, each of two files of 31 kB: 10,000 objects and 130 MB for 2,000."""
    made = here.folder()
    here.git("ann", "init", "--bare", cwd=made)
    source = random.Random(2)
    whole, stream = text(source, 31_000), []
    for number in range(count):
        at = number * 13 % 30_000
        whole = whole[:at] + text(source, 200) + whole[at + 200:]
        stream.append(commit(number))
        stream += [b"M 100644 inline f/%s\ndata %d\n%s\n" % (name, len(body), body) for name, body in ((b"a", whole), (b"b", whole[::-1]))]
    subprocess.run(["git", "fast-import", "--quiet"], input=b"".join(stream), cwd=made, env=here.environment, check=True)
    return made


def fastest(call):
    times = []
    for _ in range(RUNS):
        begun = time.monotonic()
        call()
        times.append(time.monotonic() - begun)
    return min(times)


def measure(here, web, made):
    """For each way in: the first push of all of it, as a migration makes it, a small push, a whole clone, one of depth 1."""
    plain = "http://127.0.0.1:%d/plain/bench" % web.port
    ways = {"cerolimau over HTTP": (web.git, web.url("t/bench")), "git http-backend": (web.git, plain), "cerolimau without a web server": (here.git, "here:t/bench2")}
    for name, (git, url) in ways.items():
        begun = time.monotonic()
        git("ann", "push", "-q", url, "master", cwd=made)
        whole = time.monotonic() - begun
        clone = here.folder()
        git("ann", "clone", "-q", "--depth", "1", url, ".", cwd=clone)

        def push():
            here.commit(clone, {"more": str(time.monotonic())})
            git("ann", "push", "-q", url, "master", cwd=clone)

        rows = fastest(push), fastest(lambda: git("ann", "clone", "-q", "--bare", url, here.folder() / "bare")), fastest(
            lambda: git("ann", "clone", "-q", "--depth", "1", url, here.folder() / "shallow"))
        print("%s: all pushed %.2f s; a small push %.3f s; a clone %.2f s; of depth 1 %.2f s" % (name, whole, *rows), flush=True)


def main():
    here = World(sys.argv[1], "")
    before = web_tests.NGINX_CONF
    try:
        here.start()
        made = history(here, 2000)
        plain = here.room / "plain/bench"
        here.git("ann", "init", "--bare", "-q", plain)
        here.git("ann", "config", "http.receivepack", "true", cwd=plain)
        web_tests.NGINX_CONF = before.replace("{location}\n", "{location}\n" + BACKEND.replace("{", "{{").replace("}", "}}"))
        location_of = web_tests.location_of

        def with_backend(kind, program, door, conf, passwords, is_open):
            web_tests.NGINX_CONF = web_tests.NGINX_CONF.replace("/run/cerolimau/cgi.sock", str(door)).replace("ROOM", str(here.room))
            return location_of(kind, program, door, conf, passwords, is_open)

        web_tests.location_of = with_backend
        with web_tests.running_web(here, "nginx") as web:
            measure(here, web, made)
    finally:
        here.close()


if __name__ == "__main__":
    os.environ.setdefault("LANG", "C.UTF-8")
    main()
