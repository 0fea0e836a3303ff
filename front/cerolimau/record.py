"""A line for each session, and for each ref that a push asks for: who did what, from where."""
import os
import time

IDENT = "cerolimau"
PLAIN = frozenset("ABCDEFGHIJKLMNOPQRSTUVWXYZabcdefghijklmnopqrstuvwxyz0123456789./_:+@^{}~-")
FIELD = r'(\w+)=(?:"((?:[^"\\]|\\.)*)"|(\S*))'


class Record:
    """What is written of a session. `log` is empty (nothing is written), `syslog`, or the path of a file to which lines are added."""

    def __init__(self):
        self.log = ""
        self.result = "done"
        self.user = self.address = self.command = self.repository = ""
        self._begun = time.monotonic()

    def begin(self, log, user, address, command, repository):
        self.log, self.user, self.address, self.command, self.repository = log, user, address, command, repository

    def write_refs(self, rows, outcomes):
        """The refs of a push, done or not."""
        lines = [self._line("ref", ref=ref, old=old, new=new, outcome=outcome) for (old, new, ref), outcome in zip(rows, outcomes)]
        self._write(lines)

    def write(self, taken, given):
        """The session, at its end: so many bytes came from the client and went to it."""
        milliseconds = int(1000 * (time.monotonic() - self._begun))
        self._write([self._line("session", command=self.command, result=self.result, taken=taken, given=given, ms=milliseconds)])

    def _line(self, kind, **fields):
        begin = {"time": time.strftime("%Y-%m-%dT%H:%M:%SZ", time.gmtime()), "user": self.user, "from": self.address}
        return "%s %s" % (kind, " ".join("%s=%s" % row for row in _shown({**begin, "repository": self.repository, **fields})))

    def _write(self, lines):
        if not self.log:
            return
        try:
            if self.log == "syslog":
                import syslog

                syslog.openlog(IDENT, syslog.LOG_PID, syslog.LOG_AUTHPRIV)
                for line in lines:
                    syslog.syslog(syslog.LOG_INFO, line)
                return
            with open(self.log, "a", encoding="ascii", opener=_private) as file:
                file.writelines(["%s[%d]: %s\n" % (IDENT, os.getpid(), line) for line in lines])
        except OSError:
            pass  # a log that can't be written stops nobody


def _shown(fields):
    """Fields of which nothing in a value can end the value or the line: ASCII, with other bytes escaped as Python has them."""
    for name, value in fields.items():
        text = value.decode("utf-8", "backslashreplace") if isinstance(value, bytes) else str(value)
        if not text or not PLAIN.issuperset(text):
            text = '"%s"' % text.encode("unicode_escape").decode().replace('"', '\\"')
        yield name, text


def read_fields(line):
    """The fields of a line, whatever stands before them."""
    import re  # who writes lines needs none of it

    return {name: (quoted.replace('\\"', '"') if quoted else plain) for name, quoted, plain in re.findall(FIELD, line)}


def _private(path, flags):
    return os.open(path, flags, 0o640)
