"""Git's smart HTTP (gitprotocol-http), as a CGI program (RFC 3875): one request, of a user whom the web server names.

Each request is served by sessions at the server, as a command over ssh is. Nothing that the client sends says who it is: `REMOTE_USER` is the
web server's, and fields of the request reach a CGI program only as `HTTP_..`.
"""
import os
import signal

from .ends import Client, ServerRefused
from .names import NAME_BYTES, is_user, repository_of
from .packets import FLUSH, packet
from .record import Record
from .settings import Settings
from .shell import FETCH, PUSH, end, follow_push, refused_bytes_of, sessions_of, take_room
from .streams import Refused, limit_waiting, reader

SERVICES = FETCH, PUSH
QUESTION = "info/refs"
PUSHED = "application/x-git-receive-pack-result"
MORE_WORDS = b"multi_ack_detailed",  # by which a client without a dialogue learns what is common
DUMB = "this server speaks Git's smart protocol alone: use git 1.6.6 or later"
REASONS = {
    200: "OK", 400: "Bad Request", 401: "Unauthorized", 403: "Forbidden", 404: "Not Found", 405: "Method Not Allowed",
    415: "Unsupported Media Type",
}


class Answer(Refused):
    """Why a request has no answer of Git's."""

    def __init__(self, status, text):
        super().__init__(text)
        self.status = status


class WebClient(Client):
    """The client of one request. The head of the response goes out in front of its first byte."""

    def __init__(self):
        super().__init__()
        self.media = ""  # of the response, once it is one of Git's
        self.prefix = b""  # what stands before a refusal in it
        self.asks_who = False  # whether a refusal is to ask for a name and a password
        self._is_begun = False

    def take_body(self, encoding, length):
        """What comes is the request's body, of so many bytes where that is known."""
        self.source = reader(0, length)
        self._input = self.source.raw
        if encoding:
            import gzip

            self.source = gzip.GzipFile(fileobj=self.source, mode="rb")

    def begin(self, status, media):
        fields = ["Status: %d %s" % (status, REASONS[status]), "Content-Type: " + media, "Cache-Control: no-cache"]
        if status == 401:
            fields.append('WWW-Authenticate: Basic realm="Git"')
        if media == PUSHED:
            fields.append("X-Accel-Buffering: no")  # so that nginx hands on at once how far a push is
        self._is_begun = True
        self._sink.write("".join(field + "\r\n" for field in [*fields, ""]).encode())

    def tell(self, text):
        if self._band is not None:
            super().tell(text)  # else there is nobody to read it

    def refuse(self, refused):
        """In the form of git's responses, or as a text: where the request is none of git's, and where somebody without a name may give one."""
        if isinstance(refused, Answer):
            status = refused.status
        elif self.asks_who and isinstance(refused, ServerRefused) and not self._is_begun:
            status = 401
        elif not self.media:
            status = 400
        else:
            super().refuse(refused)
            return
        self.begin(status, "text/plain; charset=utf-8")
        self._sink.write(("%s\n" % refused).encode(errors="replace"))

    def flush(self):
        if self.media and not self._is_begun:
            self._put(b"")
        super().flush()

    def _put(self, data):
        if not self._is_begun:
            self.begin(200, self.media)
            self._sink.write(self.prefix)
        super()._put(data)


def main(program, words):
    signal.signal(signal.SIGINT, signal.SIG_DFL)
    client, record = WebClient(), Record()
    end(client, record, lambda: run(client, record, program, words, os.environ))


def run(client, record, program, words, environment):
    settings = Settings(program, words)
    limit_waiting(settings.idle)
    service, repository, is_question = read_target(environment)
    user = environment.get("REMOTE_USER", "") or settings.anonymous
    record.begin(settings.log, user, environment.get("REMOTE_ADDR", ""), service, repository)
    client.asks_who = not environment.get("REMOTE_USER", "")
    if not user:
        raise Answer(401, "who are you?")
    if not is_user(user):
        raise Answer(403, "%s is no user's name" % ascii(user))
    command = "%s '%s'" % (service, repository)
    sessions = sessions_of(settings, user, command)
    client.reads_packets = True
    if not is_question:
        read_fields_of_body(client, environment, service)
    take_room(settings, user)
    client.media = "application/x-%s-%s" % (service, "advertisement" if is_question else "result")
    if is_question:
        client.prefix = packet(b"# service=%s\n" % service.encode()) + FLUSH
        return advertise(client, sessions, settings, service, repository)
    if service == FETCH:
        from .fetch import fetch_once

        return fetch_once(client, sessions)
    from .push import receive

    return receive(client, sessions, repository, settings.slice, refused_bytes_of(settings, user), follow_push(client, settings, record))


def read_target(environment):
    """The service, the repository, and whether its advertisement is asked for."""
    path = environment.get("PATH_INFO", "")
    query, method = environment.get("QUERY_STRING", ""), environment.get("REQUEST_METHOD", "")
    end = next((end for end in (QUESTION, *SERVICES) if path.endswith("/" + end)), "")
    name = path.removesuffix("/" + end).removeprefix("/")
    repository = repository_of("x '%s'" % name) if end and NAME_BYTES.issuperset(name) else ""
    if not repository:
        raise Answer(404, "no such path")
    if end != QUESTION:
        if method != "POST":
            raise Answer(405, "a POST is wanted")
        return end, repository, False
    if method != "GET":
        raise Answer(405, "a GET is wanted")
    for service in SERVICES:
        if query == "service=" + service:
            return service, repository, True
    raise Answer(403, DUMB)


def read_fields_of_body(client, environment, service):
    if environment.get("CONTENT_TYPE", "") != "application/x-%s-request" % service:
        raise Answer(415, "another type of content is wanted")
    encoding, length = environment.get("HTTP_CONTENT_ENCODING", ""), environment.get("CONTENT_LENGTH", "")
    if encoding not in ("", "identity", "gzip", "x-gzip"):
        raise Answer(415, "content may be gzip, and nothing else")
    if length and not (length.isascii() and length.isdigit()):
        raise Answer(400, "no length")
    client.take_body(encoding.endswith("gzip"), int(length) if length else None)


def advertise(client, sessions, settings, service, repository):
    if service == FETCH:
        from .fetch import WORDS, advertise as advertise_fetch

        advertise_fetch(client, sessions, settings.heads, repository, [*WORDS, *MORE_WORDS])
    else:
        from .push import advertise as advertise_push

        advertise_push(client, sessions)
    return 0
