#!/usr/bin/env python3
"""stops.py PROGRAM [TIMES]: kills PROGRAM at a random moment of `keep`, so many times (1,000); `.ci/run` does so ten times.

Each run goes on from the journal that the one before it left, and pushes one ref after the other until it is killed (SIGKILL). Its first session asks
for the refs: those whose pushes were answered in the runs before have to be there with their values, at most one more of each run, whose
answer didn't come, and no other. It prints how many refs were pushed and how long opening took at the end; its status is 1 where one is
missing or wrong.
"""
import os
import random
import subprocess
import sys
import tempfile
import threading
import time

from push_costs import EMPTY, EMPTY_ID, commit, object_id, packet, push

PER_RUN = 200  # pushes that are sent, of which most runs don't come to the last
ADVERTISE = packet(b"carol git-upload-pack 'testing'") + b"0000"


def framed(data):
    return b"session %d\n" % len(data) + data + b"\n"


def pushed(number):
    made = commit(b"%d\n" % number, EMPTY_ID)
    return "refs/heads/r%d" % number, object_id(made), push([("refs/heads/r%d" % number, object_id(made))], [made, EMPTY])


def replies(output):
    """The replies that were printed whole."""
    while len(head := output.readline().split()) == 4:
        reply = output.read(int(head[3]) + 1)
        if len(reply) <= int(head[3]):
            return
        yield reply[:-1]


def refs_of(advertised):
    refs, at = {}, 0
    while at + 4 <= len(advertised):
        size = int(advertised[at:at + 4], 16)
        line, at = advertised[at + 4:at + size], at + max(size, 4)
        if b"refs/heads/r" in line:
            value, name = line.rstrip(b"\n").split(b"\0")[0].split(b" ")[:2]
            refs[name.decode()] = bytes.fromhex(value.decode())
    return refs


def feed(child, data):
    try:
        child.stdin.write(data)
        child.stdin.close()
    except OSError:
        pass


def run(program, room, numbers, stop_after):
    """The refs that the run found, the numbers whose pushes it answered, and the seconds up to its first reply."""
    child = subprocess.Popen([program, "keep", "--admin", "admin"], cwd=room, stdin=subprocess.PIPE, stdout=subprocess.PIPE)
    began = time.perf_counter()
    sent = framed(ADVERTISE) + b"".join(framed(pushed(number)[2]) for number in numbers)
    writer = threading.Thread(target=feed, args=(child, sent))
    writer.start()
    said = replies(child.stdout)
    found = refs_of(next(said))
    took = time.perf_counter() - began
    if stop_after is not None:
        threading.Timer(stop_after, child.kill).start()
    answered = [number for number, reply in zip(numbers, said) if b"ok refs/heads/r%d\n" % number in reply]
    writer.join()
    child.wait()
    return found, answered, took


def main(program, times):
    with tempfile.TemporaryDirectory() as room:
        kept, unanswered, first = {}, {}, 1
        for turn in range(times + 1):
            last = turn == times
            numbers = [] if last else range(first, first + PER_RUN)
            found, answered, took = run(program, room, numbers, None if last else random.uniform(0, 0.05))
            lost = {name: value for name, value in kept.items() if found.get(name) != value}
            more = {name: value for name, value in found.items() if name not in kept}
            if lost or len(more) > 1 or any(unanswered.get(name) != value for name, value in more.items()):
                print("run %d: lost %s, more %s" % (turn, sorted(lost), sorted(more)))
                return 1
            kept.update(more)
            kept.update((name, value) for name, value, _ in map(pushed, answered))
            unanswered = {name: value for name, value, _ in map(pushed, numbers) if name not in kept}
            first += PER_RUN
        size = os.path.getsize(os.path.join(room, "gitolite.journal"))
        print("%d stops, %d refs, a journal of %d bytes, opened in %.3f s: nothing lost, nothing more" % (times, len(kept), size, took))
    return 0


if __name__ == "__main__":
    sys.exit(main(os.path.realpath(sys.argv[1]), int(sys.argv[2]) if sys.argv[2:] else 1000))
