"""Who did what, and what follows a push."""
import hashlib
import hmac
import http.server
import json
import os
import shutil
import subprocess
import threading

from cerolimau.record import Record, read_fields

from .world import FRONT, expect, run

HOOK = """#!/bin/sh
{ echo "$GL_USER $GL_REPO $GL_ADDRESS"; cat; } >> %s
"""


def lines_of_the_log(here):
    """Each session has a line, and each ref that a push asks for, with who, from where, what and how it ended."""
    log = here.folder() / "log"
    made = here.repository()
    options = "--log", str(log)
    here.git("ann", "push", "here:t/log", "master", "master:b", cwd=made, options=options, SSH_CONNECTION="192.0.2.7 50000 192.0.2.1 22")
    here.git("cal", "push", "here:site", "master:personal/ann/x", cwd=made, options=options, status=1)
    here.git("bob", "ls-remote", "here:secrets", options=options, status=128)
    here.git("bob", "clone", "here:t/log", cwd=here.folder(), options=options)
    here.ask("bob", "info", options=options)
    rows = [(line.split("]: ")[1].split()[0], read_fields(line)) for line in log.read_text().splitlines()]
    refs = [row for kind, row in rows if kind == "ref"]
    sessions = [row for kind, row in rows if kind == "session"]
    tip = here.head(made)
    shown = [tuple(row[name] for name in ("user", "from", "repository", "ref", "old", "new", "outcome")) for row in refs]
    assert shown[:2] == [("ann", "192.0.2.7", "t/log", "refs/heads/" + name, "0" * 40, tip, "ok") for name in ("master", "b")], shown
    expect(refs[2]["outcome"], "W refs/heads/personal/ann/x site cal DENIED by refs/heads/personal/ (gitolite.conf line 18)")
    shown = [(row["user"], row["command"], row["repository"], row["result"]) for row in sessions]
    assert shown == [
        ("ann", "git-receive-pack", "t/log", "done"), ("cal", "git-receive-pack", "site", "refused"),
        ("bob", "git-upload-pack", "secrets", "refused: R any secrets bob DENIED by refs/.* (gitolite.conf line 22)"),
        ("bob", "git-upload-pack", "t/log", "done"), ("bob", "info", "", "done"),
    ], shown
    assert all(int(row["taken"]) >= 0 and int(row["given"]) > 0 and int(row["ms"]) >= 0 for row in sessions[:4:3])
    who = str(FRONT / "who-pushed"), "--log", str(log)
    assert run([*who, "t/log", "b"]).split()[1:] == ["ann", "192.0.2.7", "refs/heads/b", "0" * 40, tip]
    assert len(run([*who, "t/log"]).splitlines()) == 2 and len(run([*who, "t/log", tip[:8]]).splitlines()) == 2
    assert run([*who, "site"]) == "" and run([*who, "t/log", "other"]) == ""
    expect(run([*who, "site", "--all"]), "DENIED by refs/heads/personal/")


def odd_texts_in_the_log(here):
    """No text of a client ends a value or a line of the log."""
    log = here.folder() / "log"
    record = Record()
    odd = b'refs/heads/a"b\\c\xff\nuser=admin outcome=ok'
    record.begin(str(log), "ann", "::1", "git-receive-pack", "t/x")
    record.write_refs([(b"0" * 40, b"1" * 40, odd)], ["not \"so\"\n".encode()])
    line, = log.read_text().splitlines()
    fields = read_fields(line)
    assert fields["user"] == "ann" and fields["outcome"] == 'not "so"\\n', fields
    assert '"b' in fields["ref"] and "user=admin" in fields["ref"]


def hooks_follow_a_push(here):
    """What a push did goes to the executables of a folder, with git's lines; what was refused doesn't, and no client waits."""
    where = here.folder()
    (where / "queue").mkdir()
    (where / "hooks").mkdir()
    hook = where / "hooks/10-note"
    hook.write_text(HOOK % (where / "noted"))
    hook.chmod(0o755)
    (where / "hooks/README").write_text("not executable\n")
    slow = where / "hooks/20-fails"
    slow.write_text("#!/bin/sh\necho a word; exit 3\n")
    slow.chmod(0o755)
    made = here.repository()
    options = "--after-push", str(where / "queue")
    here.git("ann", "push", "here:t/hooks", "master", "master:b", cwd=made, options=options, SSH_CONNECTION="192.0.2.7 5 192.0.2.1 22")
    here.git("cal", "push", "here:site", "master:personal/ann/x", cwd=made, options=options, status=1)
    here.git("ann", "push", "here:t/hooks", ":b", cwd=made, options=options)
    assert len(list((where / "queue").iterdir())) == 2
    said = run([str(FRONT / "after-push"), str(where / "queue"), str(where / "hooks"), "--once"])
    tip, zero = here.head(made), "0" * 40
    first = "ann t/hooks 192.0.2.7\n%s %s refs/heads/master\n%s %s refs/heads/b\n" % (zero, tip, zero, tip)
    second = "ann t/hooks \n%s %s refs/heads/b\n" % (tip, zero)
    assert (where / "noted").read_text() == first + second, (where / "noted").read_text()
    expect(said, "20-fails behind a push of ann to t/hooks: a word", "20-fails behind a push of ann to t/hooks ended with 3")
    assert not list((where / "queue").iterdir())


def mirror_and_webhook(here):
    """The two hooks that are there: a bare copy of what is pushed, and a POST of JSON with its signature."""
    where = here.folder()
    (where / "queue").mkdir()
    shutil.copytree(FRONT / "after-push.d", where / "hooks")
    told = []

    class Handler(http.server.BaseHTTPRequestHandler):
        def do_POST(self):
            told.append((self.headers["X-Signature-256"], self.rfile.read(int(self.headers["Content-Length"]))))
            self.send_response(204)
            self.end_headers()

        def log_message(self, *_):
            pass

    server = http.server.HTTPServer(("127.0.0.1", 0), Handler)
    threading.Thread(target=server.serve_forever, daemon=True).start()
    (where / "webhooks").write_text("t/mirrored http://127.0.0.1:%d/a secret  # a comment\nother http://127.0.0.1:1/\n" % server.server_port)
    made = here.repository()
    here.git("ann", "tag", "-m", "a tag", "v1", cwd=made)
    options = "--after-push", str(where / "queue")
    here.git("ann", "push", "here:t/mirrored", "master:main", "v1", cwd=made, options=options)
    environment = {**here.environment, "GIT_SSH_COMMAND": " ".join(here.front("bob")), "MIRRORS": str(where / "copies"), "MIRROR_URL": "here:",
                   "WEBHOOKS": str(where / "webhooks")}
    follow = [str(FRONT / "after-push"), str(where / "queue"), str(where / "hooks"), "--once"]
    said = subprocess.run(follow, env=environment, stderr=subprocess.PIPE, text=True, timeout=60).stderr
    assert said == "", said
    copy = where / "copies/t/mirrored.git"
    refs = here.git("ann", "for-each-ref", "--format=%(objectname) %(refname)", cwd=copy)
    assert here.head(copy, "HEAD") == here.head(made) and "refs/tags/v1" in refs and "refs/heads/main" in refs
    here.git("ann", "push", "here:t/mirrored", ":refs/tags/v1", cwd=made, options=options)
    subprocess.run(follow, env=environment, check=True, timeout=60)
    assert "v1" not in here.git("ann", "for-each-ref", cwd=copy)
    server.shutdown()
    signature, body = told[0]
    assert signature == "sha256=" + hmac.new(b"secret", body, hashlib.sha256).hexdigest()
    shown = json.loads(body)
    assert (shown["user"], shown["repository"], len(shown["changes"]), len(told)) == ("ann", "t/mirrored", 2, 2), shown
    refused = subprocess.run([where / "hooks/mirror", "../x"], env=environment, stderr=subprocess.PIPE)
    assert refused.returncode == 1 and not os.path.exists(where / "x.git")


TESTS = lines_of_the_log, odd_texts_in_the_log, hooks_follow_a_push, mirror_and_webhook
