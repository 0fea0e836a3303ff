"""Smart HTTP, as the server beside its sessions serves it: requests to the byte, hostile ones among them, and clients."""
import re
import shutil
import socket
import subprocess

from .world import FRONT, Skip, expect, run

PORT = 8418
TARGET = b"/testing/info/refs?service=git-upload-pack"
USER = b"X-Git-User: ann"
UPLOAD = b"Content-Type: application/x-git-upload-pack-request"
PHRASES = {200: b"OK", 400: b"Bad Request", 403: b"Forbidden", 404: b"Not Found", 405: b"Method Not Allowed", 411: b"Length Required",
           415: b"Unsupported Media Type", 431: b"Request Header Fields Too Large"}
HEAD_LIMIT = 16_384


def lines(first, *fields, end=b"\r\n"):
    """A head of these lines."""
    return end.join((first, *fields, b"", b""))


def get(*fields, target=TARGET, method=b"GET", version=b"HTTP/1.1"):
    return lines(b"%s %s %s" % (method, target, version), *fields)


def long_head(size):
    """A head of so many bytes."""
    bare = len(get(USER, b"A: "))
    return get(USER, b"A: " + b"a" * (size - bare))


def post(*fields, body=b"0000", target=b"/testing/git-upload-pack"):
    return get(USER, *fields, target=target, method=b"POST") + body


def sized(length, *fields, body=b"0000"):
    return post(UPLOAD, b"Content-Length: " + length, *fields, body=body)


BAD_HEAD = 400, b"bad head"
BAD_LENGTH = 400, b"bad length"
BAD_MEDIA = 415, b"bad media"
BAD_METHOD = 405, b"bad method"
BAD_USER = 400, b"bad user"
NO_LENGTH = 411, b"no length"
NO_TARGET = 404, b"no such target"
TOO_LONG = 431, b"head too long"
ADVERTISED = 200, b"001e# service=git-upload-pack\n0000"
CALLED = 200, b""
CUT = None, b""

# What is sent, and the status and text with which it is refused, or with what the body begins where it isn't.
ROWS = (
    # the end of a head
    (b"", CUT), (b"G", CUT), (get(USER)[:-1], CUT), (get(USER)[:-2], CUT), (long_head(HEAD_LIMIT - 1), ADVERTISED), (long_head(HEAD_LIMIT), ADVERTISED),
    (long_head(HEAD_LIMIT + 1), TOO_LONG), (b"a" * HEAD_LIMIT, TOO_LONG), (b"\r\n" + get(USER), ADVERTISED), (b"\n" + get(USER), ADVERTISED),
    (b"\r\n\r\n" + get(USER), BAD_HEAD), (lines(b"GET %s HTTP/1.1" % TARGET, USER, end=b"\n"), ADVERTISED), (get(USER) + b"more", ADVERTISED),
    # fields
    (get(USER, *[b"A: b"] * 63), ADVERTISED), (get(USER, *[b"A: b"] * 64), BAD_HEAD), (get(USER, b"A b: c"), BAD_HEAD), (get(USER, b"A\x7f: b"), BAD_HEAD),
    (get(USER, b"A\x80: b"), BAD_HEAD), (get(USER, b"(A): b"), BAD_HEAD), (get(USER, b"A\0: b"), BAD_HEAD), (get(USER, b": b"), BAD_HEAD), (get(USER, b"A"), BAD_HEAD),
    (get(USER, b"!#$%&'*+-.^_`|~09az: b"), ADVERTISED), (get(USER, b"A:b"), ADVERTISED), (get(USER, b"A:"), ADVERTISED), (get(USER, b"A : b"), BAD_HEAD),
    (get(USER, b"A: b", b" c"), BAD_HEAD), (get(USER, b"A: \x80\xff\t~"), ADVERTISED), (get(USER, b"A: b\0c"), BAD_HEAD), (get(USER, b"A: b\x01c"), BAD_HEAD), (get(USER, b"A: b\x7fc"), BAD_HEAD),
    (get(USER, b"A: b\rc"), BAD_HEAD), (get(USER, b"A: b\r"), BAD_HEAD), (get(USER, b"A\r: b"), BAD_HEAD), (b"GET %s HTTP/1.1\r%s\r\n\r\n" % (TARGET, USER), BAD_HEAD),
    # the first line
    (get(USER, method=b"get"), BAD_METHOD), (get(USER, method=b"HEAD"), BAD_METHOD), (get(USER, method=b"OPTIONS"), BAD_METHOD), (get(USER, method=b"POST"), BAD_METHOD),
    (get(USER, method=b"G(T"), BAD_HEAD), (get(USER, method=b""), BAD_HEAD), (get(USER, version=b"HTTP/1.0"), ADVERTISED), (get(USER, version=b"HTTP/1.2"), BAD_HEAD),
    (get(USER, version=b"HTTP/0.9"), BAD_HEAD), (get(USER, version=b"HTTP/2.0"), BAD_HEAD), (get(USER, version=b"http/1.1"), BAD_HEAD), (get(USER, version=b""), BAD_HEAD),
    (lines(b"GET %s" % TARGET, USER), BAD_HEAD), (lines(b"GET  %s HTTP/1.1" % TARGET, USER), BAD_HEAD), (lines(b"PRI * HTTP/2.0"), BAD_HEAD),
    # targets
    *((get(USER, target=target), NO_TARGET) for target in (
        b"/%74esting/info/refs?service=git-upload-pack", b"/testing/info/refs%3Fservice=git-upload-pack", b"/../testing/info/refs?service=git-upload-pack",
        b"/t/../testing/info/refs?service=git-upload-pack", b"//testing/info/refs?service=git-upload-pack", b"/testing//info/refs?service=git-upload-pack",
        b"http://127.0.0.1:8418/testing/info/refs?service=git-upload-pack", b"*", b"/", b"testing/info/refs?service=git-upload-pack", b"/info/refs?service=git-upload-pack",
        b"/testing/info/refs", b"/testing/info/refs?service=git-upload-archive", b"/testing/info/refs?service=git-upload-pack&a=b", b"/testing/info/refs?a=b&service=git-upload-pack",
        b"/testing/HEAD", b"/testing/objects/info/packs", b"/testing/info/refs?service=", b"/testing/info/refs?SERVICE=git-upload-pack", b"/testing/info/refs?service=git-upload-pack#a",
        b"/.git/info/refs?service=git-upload-pack", b"/-a/info/refs?service=git-upload-pack", b"/testing/Info/refs?service=git-upload-pack")),
    (get(USER, target=b"/testing.git/info/refs?service=git-upload-pack"), ADVERTISED), (get(USER, target=b"/t\x80/info/refs?service=git-upload-pack"), BAD_HEAD),
    (get(USER, target=b"/t\xc3\xa4/info/refs?service=git-upload-pack"), NO_TARGET), (get(USER, target=b"/testing/git-upload-pack"), BAD_METHOD),
    (get(USER, target=b"/nowhere/info/refs?service=git-upload-pack"), (403, b"R any nowhere ann DENIED by fallthru")),
    (get(USER, target=b"/gitolite-admin/info/refs?service=git-receive-pack"), (403, b"W any gitolite-admin ann DENIED by fallthru")),
    # users
    (get(), BAD_USER), (get(USER, USER), BAD_USER), (get(USER, b"x-git-user: bob"), BAD_USER), (get(b"x-GIT-user: ann"), ADVERTISED), (get(b"X-Git-User:"), BAD_USER), (get(b"X-Git-User: -a"), BAD_USER),
    (get(b"X-Git-User: a b"), BAD_USER), (get(b"X-Git-User: " + b"a" * 64), ADVERTISED), (get(b"X-Git-User: " + b"a" * 65), BAD_USER), (get(b"X-Git-User: READERS"), BAD_USER), (get(b"X-Git_User: ann"), BAD_USER),
    # bodies
    (post(UPLOAD), NO_LENGTH), (sized(b"4", b"Transfer-Encoding: chunked"), NO_LENGTH), (post(UPLOAD, b"Transfer-Encoding: identity"), NO_LENGTH), (sized(b"4", b"Content-Length: 4"), BAD_LENGTH), (sized(b"4", b"Content-Length: 5"), BAD_LENGTH),
    (sized(b"4"), CALLED), (sized(b"000000004"), CALLED), (sized(b"0000000004"), BAD_LENGTH), (sized(b"300000000"), CALLED), (sized(b"300000001"), BAD_LENGTH), (sized(b"999999999"), BAD_LENGTH),
    (sized(b"1000000000"), BAD_LENGTH), (sized(b""), BAD_LENGTH), (sized(b"+4"), BAD_LENGTH), (sized(b"-4"), BAD_LENGTH), (sized(b"0x4"), BAD_LENGTH), (sized(b"4 4"), BAD_LENGTH), (sized(b"4,4"), BAD_LENGTH),
    (sized(b"0", body=b""), CALLED), (sized(b"4", body=b"0000more"), CALLED), (sized(b"5", body=b"0000"), CALLED), (sized(b"4", body=b"0003"), (200, b"0017ERR malformed input")),
    (post(b"Content-Length: 4"), BAD_MEDIA), (sized(b"4", UPLOAD), BAD_MEDIA), (sized(b"4", b"Content-Encoding: gzip"), BAD_MEDIA), (sized(b"4", b"Content-Encoding: identity"), BAD_MEDIA),
    (post(b"Content-Type: application/x-git-receive-pack-request", b"Content-Length: 4"), BAD_MEDIA), (post(b"Content-Type: Application/x-git-upload-pack-request", b"Content-Length: 4"), BAD_MEDIA),
    (post(UPLOAD + b"; charset=a", b"Content-Length: 4"), BAD_MEDIA), (get(USER, b"Content-Length: 4") + b"0000", ADVERTISED), (get(USER, b"Content-Length: many", b"Transfer-Encoding: chunked"), ADVERTISED),
)


def sent(request):
    """All that the server answers to these bytes, behind which the client sends no more."""
    with socket.create_connection(("127.0.0.1", PORT), 20) as link:
        try:
            link.sendall(request)
            link.shutdown(socket.SHUT_WR)
        except OSError:
            pass  # it answered before it read all
        reply = b""
        try:
            while part := link.recv(65_536):
                reply += part
        except ConnectionResetError:
            pass
        return reply


def hostile_requests(here):
    """Requests at each limit and one beyond, and of odd forms: each is answered to the byte, and none makes an event that is stored."""
    journal = here.room / "cerolimau.journal"
    before = journal.stat().st_size
    wrong = []
    for request, (status, text) in ROWS:
        reply = sent(request)
        if status is None:
            fits = reply == b""
        elif status == 200:
            kind = b"result" if request.startswith(b"POST") else b"advertisement"
            head = b"HTTP/1.1 200 OK\r\nContent-Type: application/x-git-upload-pack-%s\r\nCache-Control: no-cache\r\nConnection: close\r\n\r\n" % kind
            fits = reply.startswith(head + text)
        else:
            head = b"HTTP/1.1 %d %s\r\nContent-Type: text/plain\r\nCache-Control: no-cache\r\nConnection: close\r\n\r\n" % (status, PHRASES[status])
            fits = reply == head + text + b"\n"
        if not fits:
            wrong.append("%r: %r, not %r" % (request[:100], reply[:200], (status, text)))
    assert not wrong, "\n".join(wrong)
    assert journal.stat().st_size == before


def slow_requests(here):
    """A request that comes byte by byte is answered as one that comes at once."""
    request = sized(b"4")
    with socket.create_connection(("127.0.0.1", PORT), 20) as link:
        link.setsockopt(socket.IPPROTO_TCP, socket.TCP_NODELAY, 1)
        for byte in request:
            link.sendall(bytes([byte]))
        link.shutdown(socket.SHUT_WR)
        reply = b""
        while part := link.recv(65_536):
            reply += part
    assert reply == sent(request), reply


def page_client(here):
    """The client of docs/HTTP.md creates a repository, pushes to it and fetches; its sessions and a refused push see the same."""
    page = (FRONT.parent / "docs/HTTP.md").read_text()
    client = re.search(r"```python\n(.*?)```", page, re.DOTALL).group(1)
    ran = subprocess.run(["/usr/bin/python3", "-"], input=client.encode(), capture_output=True, timeout=60, cwd=here.room)
    assert ran.returncode == 0, ran.stderr.decode(errors="replace")
    said = ran.stdout.decode(errors="replace").splitlines()
    assert len(said) == 3, said
    expect(said[0], "unpack ok", "ok refs/heads/first")
    expect(said[1], "# service=git-upload-pack", "refs/heads/first")
    expect(said[2], "NAK", "PACK", "A commit by HTTP")
    expect(here.git("ann", "ls-remote", "here:t/http"), "refs/heads/first")
    # the same push once more: its old value isn't current any more
    again = subprocess.run(["/usr/bin/python3", "-"], input=client.encode(), capture_output=True, timeout=60, cwd=here.room)
    expect(again.stdout, "ng refs/heads/first")


def other_clients(here):
    """curl and git itself read the refs."""
    if not shutil.which("curl"):
        raise Skip("no curl")
    made = here.repository()
    here.git("ann", "push", "here:t/read", "master", cwd=made)
    url = "http://127.0.0.1:%d/t/read" % PORT
    said = run(["curl", "--silent", "--show-error", "--fail", "--header", "X-Git-User: bob", url + ".git/info/refs?service=git-upload-pack"])
    expect(said, "001e# service=git-upload-pack", here.head(made) + " refs/heads/master")
    expect(here.git("bob", "-c", "http.extraHeader=X-Git-User: bob", "ls-remote", url), here.head(made) + "\trefs/heads/master")
    expect(here.git("bob", "-c", "http.extraHeader=X-Git-User: bob", "ls-remote", "http://127.0.0.1:%d/secrets" % PORT, status=128), "403")


TESTS = hostile_requests, slow_requests, page_client, other_clients
