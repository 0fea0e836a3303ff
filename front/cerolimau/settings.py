"""What the command line and the file /etc/cerolimau.conf set."""
import os

from .names import is_user
from .streams import Refused

CONF = "/etc/cerolimau.conf"
OPTIONS = {
    "--server": "127.0.0.1:9418", "--keys": "", "--heads": "", "--idle": "600", "--patience": "30", "--sessions": "4",
    "--spool": "/var/tmp/cerolimau-%d" % os.geteuid(), "--spool-bytes": "8589934592", "--slice": "100000", "--workers": "8", "--refused-bytes": "2147483648",
    "--log": "", "--after-push": "", "--rules": "", "--anonymous": "",
}
NUMBERS = "--idle", "--patience", "--sessions", "--spool-bytes", "--slice", "--workers", "--refused-bytes"


class Settings:
    """What is set for a session: by a word, else by the file, else as it is here. `words` are those that other users' lines have too."""

    def __init__(self, program, words):
        given, at = {}, 0
        while at + 1 < len(words) and words[at] in {"--conf": "", **OPTIONS}:
            given[words[at]] = words[at + 1]
            at += 2
        self.rest = words[at:]
        self.words = [program, *words[:at]]
        values = {**OPTIONS, **read_conf(given.pop("--conf", CONF)), **given}
        if not all(values[option].isdigit() for option in NUMBERS) or values["--anonymous"] and not is_user(values["--anonymous"]):
            raise Refused("the setup has a value that isn't one: see the options of cerolimau-ssh and " + CONF)
        self.address = values["--server"]
        self.keys = values["--keys"]
        self.heads = values["--heads"]
        self.spool = values["--spool"]
        self.log = values["--log"]
        self.after_push = values["--after-push"]
        self.rules = values["--rules"]
        self.anonymous = values["--anonymous"]
        numbers = (int(values[option]) for option in NUMBERS)
        self.idle, self.patience, self.sessions, self.spool_bytes, self.slice, workers, self.refused_bytes = numbers
        self.workers = {"fetch": max(1, workers // 2), "push": max(1, workers // 4)}  # how many may be busy with packs


def read_conf(path):
    """The options that a file sets: `SPOOL_BYTES=..` is `--spool-bytes`. Its other names are for the units."""
    options = {"--" + name.lower().replace("_", "-"): value for name, value in read_names(path).items()}
    return {option: value for option, value in options.items() if option in OPTIONS}


def read_names(path):
    """The values of a file of lines `NAME=VALUE`, of which other programs read some. A value may stand in quotes, `#` begins a comment, and a file that
    isn't there sets nothing."""
    if not path:
        return {}
    try:
        with open(path, encoding="utf-8") as file:
            lines = file.read().splitlines()
    except FileNotFoundError:
        return {}
    rows = [line.strip().partition("=") for line in lines if not line.lstrip().startswith("#")]
    return {name: value[1:-1] if value[:1] == value[-1:] == '"' and len(value) > 1 else value for name, _, value in rows if name.isidentifier()}
