"""The forced command: it reads what is asked for, and serves it by sessions at the server."""
import os
import signal

from .ends import Client, ServerRefused, Sessions
from .names import is_user, repository_of
from .record import Record
from .settings import OPTIONS, Settings
from .slots import RefusedBytes, take_slot, take_worker
from .streams import Cut, Refused, Spool, limit_waiting
from .talk import BadCommand, talk

USAGE = "usage: cerolimau-ssh [OPTION VALUE] .. USER [HOST COMMAND]; the options are --conf, " + ", ".join(OPTIONS)
COMMANDS = "there are git's clone, fetch and push, info, perms and help"
MAX_COMMAND = 1000
PUSH, FETCH = "git-receive-pack", "git-upload-pack"


def read_words(settings):
    """The user, and the text of what is asked for."""
    rest = settings.rest
    if len(rest) not in (1, 3) or not is_user(rest[0]):
        raise Refused(USAGE)
    return rest[0], rest[2] if len(rest) == 3 else os.environ.get("SSH_ORIGINAL_COMMAND", "")


def read_command(text):
    """What is asked for, as the server reads it behind the user's name."""
    words = text.split(" ")
    if words[0] == "git" and len(words) > 1:
        words[:2] = ["git-" + words[1]]
    if len(text) > MAX_COMMAND or not text.isprintable() or not text.isascii():
        raise Refused("no such command; " + COMMANDS)
    if words == [""]:
        return "info"
    if words[0] not in (PUSH, FETCH, "info", "perms", "help", "-h", "--help"):
        raise Refused("no such command: %s; %s" % (words[0], COMMANDS))
    if words[0] in (PUSH, FETCH) and not repository_of(" ".join(words)):
        raise BadCommand(words[0])
    return " ".join(words)


def serve(client, settings, record, command):
    sessions = sessions_of(settings, record.user, command)
    if command.startswith(FETCH):
        from .fetch import fetch

        return fetch(client, sessions, settings.heads, record.repository)
    if command.startswith(PUSH):
        from .push import push

        return push(client, sessions, record.repository, settings.slice, refused_bytes_of(settings, record.user), follow_push(client, settings, record))
    return talk(client, sessions, record.user, command.split(" "))


def sessions_of(settings, user, command):
    return Sessions(settings.address, user, command, settings.patience, lambda kind: take_worker(settings.spool, kind, settings.workers[kind]))


def refused_bytes_of(settings, user):
    return RefusedBytes(settings.spool, user, settings.refused_bytes)


def follow_push(client, settings, record):
    """What is called with the rows and outcomes of a push: they are written down, what follows is put into its queue, and where the admin's
    repository changed, the keys are written anew and the conf is looked at."""

    def follow(rows, outcomes):
        record.write_refs(rows, outcomes)
        done = [row for row, outcome in zip(rows, outcomes) if outcome == b"ok"]
        if done and settings.after_push:
            from .after_push import enqueue

            try:
                enqueue(settings.after_push, record.user, record.repository, record.address, done)
            except OSError as fault:
                client.tell("the push is done, and what follows a push doesn't: %s" % fault)
        if record.repository == "gitolite-admin" and b"refs/heads/master" in [ref for _, _, ref in done]:
            follow_conf(client, settings, record.user)

    return follow


def follow_conf(client, settings, user):
    """Writes the lines of all keys anew, and tells what a conf does that its admin may not want."""
    if not settings.keys and not settings.rules:
        return
    from .admin_files import fetch_files, keys_of, warnings_of
    from .keys import KeyFile

    try:
        files = fetch_files(sessions_of(settings, user, FETCH + " 'gitolite-admin'"))
        if settings.rules:
            for warning in warnings_of(settings.rules, files, user):
                client.tell(warning)
        keys = keys_of(files)
        if settings.keys and keys is not None:
            with KeyFile(settings.keys) as key_file:
                for fault in key_file.put(keys, settings.words):
                    client.tell(fault)
    except ServerRefused as refused:
        client.tell("from now on %s may not read gitolite-admin (%s), so the keys of keydir weren't taken over" % (user, refused))
    except (Refused, OSError, ValueError) as fault:
        client.tell("the keys of keydir weren't taken over: %s" % fault)


def main(program, words):
    signal.signal(signal.SIGINT, signal.SIG_DFL)  # an interrupt ends it without words
    client, record = Client(), Record()
    end(client, record, lambda: run(client, record, program, words))


def end(client, record, run):
    """Runs a session, tells how it ended, and exits."""
    try:
        status = run()
        record.result = record.result if status == 0 else "refused"
    except Cut:
        status, record.result = 1, "cut"  # the client is gone
    except Refused as refused:
        client.refuse(refused)
        status, record.result = 1, "refused: %s" % refused
    except Exception as fault:
        text = "the front end failed: %s: %s" % (type(fault).__name__, fault)
        client.refuse(Refused(text))
        status, record.result = 1, text
    client.flush()
    record.write(*client.passed())
    os._exit(status)  # the thread of a fetch may still read


def run(client, record, program, words):
    settings = Settings(program, words)
    user, text = read_words(settings)
    command = read_command(text)
    is_git = command.startswith("git-")
    address = os.environ.get("SSH_CONNECTION", "").partition(" ")[0]
    record.begin(settings.log, user, address, command.partition(" ")[0], repository_of(command) if is_git else "")
    if is_git and os.isatty(1):
        raise Refused("%s is for git: a person sees nothing in it" % command.partition(" ")[0])
    limit_waiting(settings.idle)
    client.reads_packets = is_git
    take_room(settings, user)
    return serve(client, settings, record, command)


def take_room(settings, user):
    """A place among the user's sessions, and room for what is on its way."""
    slot = take_slot(settings.spool, user, settings.sessions, settings.spool_bytes, settings.patience)
    Spool.folder, Spool.reserve = settings.spool, slot.reserve
