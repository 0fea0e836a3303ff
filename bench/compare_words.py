#!/usr/bin/env python3
"""Compares which words the program takes as a command with a reader of the grammar that is written here: compare_words.py PROGRAM [LISTS [SEED]]

Each of LISTS random lists (2,000, drawn from SEED, 1) is a command that is spelled right, mostly with one to three slips: words that are left out, doubled,
swapped or changed, numbers that are out of their limits or have a sign or zeros, flags of another command, `--flag=value`, empty words, bytes that are no text,
`--help`, `-h` and `--`. A list that is no command has to end with the usage and status 1, and one that is a command with any other status. A command that is
taken does nothing here: its input is empty, its folder is a new one, and the ports of `serve` and `http` are held, so that no client comes. It ends with 1 where a list is
taken otherwise.
"""
import os, random, re, socket, subprocess, sys, tempfile

PORTS = 9418, 8418
USAGE = b"usage: gitolite_shell script --admin NAME | serve --admin NAME --workers K --sessions N | http --admin NAME --workers K --sessions N | check | load N START | keep --admin NAME | access\n"

# the commands: their options, and the limits of their numbers
OPTIONS = {b"script": [b"--admin"], b"keep": [b"--admin"], b"serve": [b"--admin", b"--workers", b"--sessions"], b"http": [b"--admin", b"--workers", b"--sessions"]}
LIMITS = {b"--workers": (1, 8), b"--sessions": (1, 1_000_000)}
LOAD_LIMITS = [(1, 5_000), (0, 4_294_967_295)]


# ---- the grammar


def is_number(word, limits):
    return bool(re.fullmatch(rb"0|[1-9][0-9]*", word)) and limits[0] <= int(word) <= limits[1]


def is_user(word):
    return bool(re.fullmatch(rb"[A-Za-z0-9][A-Za-z0-9._@+-]{0,63}", word)) and word not in (b"CREATOR", b"READERS", b"WRITERS")


def are_options(words, wanted):
    """Whether the words are these options in any order, each once."""
    left, at = list(wanted), 0
    while at < len(words):
        flag, equals, value = words[at].partition(b"=")
        if not equals:
            at += 1
            if at == len(words):
                return False
            value = words[at]
        at += 1
        if flag not in left or not (is_number(value, LIMITS[flag]) if flag in LIMITS else is_user(value)):
            return False
        left.remove(flag)
    return not left


def is_command(words):
    if not words:
        return False
    verb, rest = words[0], words[1:]
    if verb in OPTIONS:
        return are_options(rest, OPTIONS[verb])
    if verb == b"load":
        return len(rest) == 2 and all(map(is_number, rest, LOAD_LIMITS))
    return verb in (b"check", b"access") and not rest


# ---- lists of words

USERS = [b"ann", b"a", b"Ann-1", b"a-._@+9", b"0", b"x" * 64, b"CREATORS"]
NO_USERS = [b"", b".ann", b"-ann", b"x" * 65, b"CREATOR", b"READERS", b"ann bob", b"ann/bob", b"\xc3\xa4nn", b"ann\n", b"@all", b"--admin", b"="]
OTHERS = [b"--help", b"-h", b"--version", b"-V", b"help", b"--", b"-", b"", b"-a", b"--admin", b"--admin=", b"--adm", b"--admins=ann", b"-admin", b"--workers", b"--workers=1", b"--sessions=1", b"--=1",
          b"ann", b"1", b"=", b"\xff", b"check", b"script", b"http", b"https", b"Check", b" check", b"--admin=ann", b"\xc3\xa9", b"--sessions", b"--start=1", b"--count=1", b"-1"]


def draw_number(draws, limits):
    if draws.random() < 0.75:
        return b"%d" % draws.choice([limits[0], draws.randint(limits[0], min(limits[1], limits[0] + 3)), min(limits[1], 1_000)])
    low, high = limits
    return draws.choice([b"%d" % high, b"%d" % (high + 1), b"%d" % max(low - 1, 0), b"0%d" % high, b"00", b"+1", b"-1", b"-0", b"", b"1 ", b" 1", b"1.0", b"1e1", b"0x1", b"one", b"1_0", b"%d" % (2 ** 64 + 1), b"%d" % 2 ** 63, b"\xd9\xa1"])


def draw_option(draws, flag):
    if flag in LIMITS:
        value = draw_number(draws, LIMITS[flag])
    else:
        value = draws.choice(USERS if draws.random() < 0.85 else NO_USERS)
    return [flag + b"=" + value] if draws.random() < 0.5 else [flag, value]


def draw_words(draws):
    verb = draws.choice([b"script", b"keep", b"serve", b"serve", b"http", b"http", b"load", b"load", b"check", b"access"])
    if verb in OPTIONS:
        flags = list(OPTIONS[verb])
        draws.shuffle(flags)
        if draws.random() < 0.1:
            flags[draws.randrange(len(flags))] = draws.choice([b"--admin", b"--workers", b"--sessions"])
        words = [verb] + sum((draw_option(draws, flag) for flag in flags), [])
    elif verb == b"load":
        words = [verb] + [draw_number(draws, limits) for limits in LOAD_LIMITS]
    else:
        words = [verb]
    for _ in range(draws.choice([0, 0, 0, 1, 1, 2, 3])):
        words = with_slip(draws, words)
    return words


def with_slip(draws, words):
    """The words with one left out, doubled, moved, changed, or one more."""
    words, kind, at = list(words), draws.randrange(6), draws.randrange(len(words) + 1)
    if kind == 0 or not words:
        words.insert(at, draws.choice(OTHERS))
    elif kind == 1:
        del words[at % len(words)]
    elif kind == 2:
        words.insert(at, draws.choice(words))
    elif kind == 3:
        words.insert(at, words.pop(draws.randrange(len(words))))
    elif kind == 4:
        words[at % len(words)] = draws.choice(OTHERS)
    else:
        word = words[at % len(words)]
        words[at % len(words)] = draws.choice([word[:-1], word + b"x", word.upper(), b"-" + word, word.replace(b"=", b":"), word.replace(b"=", b"=="), word.lstrip(b"-")])
    return words


# ---- what the program does


def is_taken(program, words, folder):
    """Whether the words are taken as a command, or None where the answer is neither. What still runs after a while was taken."""
    try:
        ran = subprocess.run([program, *words], cwd=folder, stdin=subprocess.DEVNULL, stdout=subprocess.PIPE, stderr=subprocess.PIPE, timeout=5)
    except subprocess.TimeoutExpired:
        return True
    if ran.returncode == 1:
        return False if ran.stdout == USAGE and not ran.stderr else None
    return True if 0 <= ran.returncode <= 10 and USAGE not in ran.stdout else None


def hold(port):
    """A socket that keeps a port from the program."""
    held = socket.socket()
    held.setsockopt(socket.SOL_SOCKET, socket.SO_REUSEADDR, 1)
    try:
        held.bind(("127.0.0.1", port))
        held.listen()
    except OSError:
        pass  # somebody else holds it, which serves as well
    return held


def main(program, lists="2000", seed="1"):
    draws, program, differ, taken = random.Random(int(seed)), os.path.abspath(program), 0, 0
    held = [hold(port) for port in PORTS]
    for _ in range(int(lists)):
        words = draw_words(draws)
        with tempfile.TemporaryDirectory(prefix="compare-words-") as folder:
            ours = is_taken(program, words, folder)
        theirs = is_command(words)
        taken += theirs
        if ours != theirs:
            differ += 1
            print("taken: %s, here: %s: %r" % (ours, theirs, words))
    for socket_held in held:
        socket_held.close()
    print("%s lists, %d of them commands, %d differ" % (lists, taken, differ))
    return 1 if differ else 0


if __name__ == "__main__":
    sys.exit(main(*sys.argv[1:]))
