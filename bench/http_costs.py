#!/usr/bin/env python3
"""http_costs.py PROGRAM [SECONDS]: what requests of smart HTTP cost, beside sessions: the commands `http` and `serve` in one run.

One client makes small pushes, each a GET and a POST or a session, from connect to close; a client fetches a repository of 105 MB; and eight
processes ask for refs and push small commits for SECONDS (5). It wants the ports 8418 and 9418 of 127.0.0.1 for itself.
"""
import hashlib
import multiprocessing
import socket
import statistics
import subprocess
import sys
import time

from push_costs import ZERO, packet, raw_pack

PORTS = {"http": 8418, "serve": 9418}
CLIENTS = 8
BODY = b"tree 4b825dc642cb6eb9a060e54bf8d69288fbee4904\nauthor A <a@example.com> 1700000000 +0000\ncommitter A <a@example.com> 1700000000 +0000\n\nsmall\n"
COMMIT = hashlib.sha1(b"commit %d\0" % len(BODY) + BODY).hexdigest()
PACK = raw_pack([("commit", BODY), ("tree", b"")])
BLOBS = [bytes([number]) * 15_000_000 for number in range(7)]


def converse(command, sent):
    """All that comes back, and the seconds from connect to close."""
    began = time.perf_counter()
    with socket.create_connection(("127.0.0.1", PORTS[command]), 60) as link:
        link.sendall(sent)
        reply = []
        while got := link.recv(1 << 20):
            reply.append(got)
    return b"".join(reply), time.perf_counter() - began


def get(service):
    return b"GET /testing/info/refs?service=%s HTTP/1.1\r\nHost: a\r\nX-Git-User: carol\r\n\r\n" % service


def post(service, body):
    head = b"POST /testing/%s HTTP/1.1\r\nHost: a\r\nX-Git-User: carol\r\nContent-Type: application/x-%s-request\r\nContent-Length: %d\r\n\r\n"
    return head % (service, service, len(body)) + body


def push_body(ref, commit=COMMIT, pack=PACK):
    return packet(f"{ZERO} {commit} {ref}\0report-status".encode()) + b"0000" + pack


def small_push(command, ref):
    """The seconds of each connection of a small push."""
    body = push_body(ref)
    if command == "serve":
        steps = [packet(b"carol git-receive-pack 'testing'") + body]
    else:
        steps = [get(b"git-receive-pack"), post(b"git-receive-pack", body)]
    took = []
    for sent in steps:
        reply, seconds = converse(command, sent)
        took.append(seconds)
    assert reply.endswith(f"ok {ref}\n0000".encode()), reply
    return took


def delete_refs(command, count):
    """Deletes the refs of the small pushes."""
    body = b"".join(packet(f"{COMMIT} {ZERO} refs/heads/s{number}{chr(0) * (not number)}{'report-status' * (not number)}".encode()) for number in range(count)) + b"0000"
    converse(command, post(b"git-receive-pack", body) if command == "http" else packet(b"carol git-receive-pack 'testing'") + body)


def be_client(command, client, seconds, counts):
    """Asks for the refs, makes one, asks again, deletes it, and so on; counts its connections."""
    count, ends, ref = 0, time.monotonic() + seconds, f"refs/heads/c{client}"
    delete = packet(f"{COMMIT} {ZERO} {ref}\0report-status".encode()) + b"0000"
    while time.monotonic() < ends:
        if count % 2:
            body = push_body(ref) if count % 4 == 1 else delete
            sent = post(b"git-receive-pack", body) if command == "http" else packet(b"carol git-receive-pack 'testing'") + body
            due = f"ok {ref}\n0000".encode()
        else:
            sent = get(b"git-upload-pack") if command == "http" else packet(b"carol git-upload-pack 'testing'") + b"0000"
            due = b"0000"
        reply, _ = converse(command, sent)
        assert reply.endswith(due), reply
        count += 1
    counts.put(count)


def rate(command, seconds):
    counts = multiprocessing.Queue()
    clients = [multiprocessing.Process(target=be_client, args=(command, number, seconds, counts)) for number in range(CLIENTS)]
    for client in clients:
        client.start()
    total = sum(counts.get() for _ in clients)
    for client in clients:
        client.join()
    return total / seconds


def large_clone(command):
    """Pushes 105 MB, and the seconds in which they are fetched."""
    names = [hashlib.sha1(b"blob %d\0" % len(blob) + blob).digest() for blob in BLOBS]
    tree = b"".join(b"100644 f%d\0" % number + name for number, name in enumerate(names))
    tree_name = hashlib.sha1(b"tree %d\0" % len(tree) + tree).hexdigest().encode()
    commit = BODY.replace(b"4b825dc642cb6eb9a060e54bf8d69288fbee4904", tree_name)
    name = hashlib.sha1(b"commit %d\0" % len(commit) + commit).hexdigest()
    body = push_body("refs/heads/large", name, raw_pack([("commit", commit), ("tree", tree), *(("blob", blob) for blob in BLOBS)]))
    sent = post(b"git-receive-pack", body) if command == "http" else packet(b"carol git-receive-pack 'testing'") + body
    reply, pushed = converse(command, sent)
    assert reply.endswith(b"ok refs/heads/large\n0000"), reply[-200:]
    wants = packet(f"want {name}\n".encode()) + b"0000" + packet(b"done\n")
    sent = post(b"git-upload-pack", wants) if command == "http" else packet(b"carol git-upload-pack 'testing'") + wants
    took = []
    for _ in range(5):
        reply, seconds = converse(command, sent)
        assert len(reply) > 105_000_000, len(reply)
        took.append(seconds)
    return pushed, min(took)


def main(program, seconds="5"):
    for command, port in PORTS.items():
        server = subprocess.Popen([program, command, "--admin", "admin", "--workers", str(CLIENTS), "--sessions", "1000000"], stdout=subprocess.DEVNULL)
        try:
            while True:
                try:
                    converse(command, b"")
                    break
                except OSError:
                    time.sleep(0.05)
            took = [small_push(command, f"refs/heads/s{number}") for number in range(300)]
            delete_refs(command, 300)
            last = statistics.median(one[-1] for one in took) * 1000
            whole = statistics.median(sum(one) for one in took) * 1000
            print(f"{command}: a small push {last:.2f} ms, with its refs {whole:.2f} ms")
            print(f"{command}: {rate(command, float(seconds)):.0f} connections a second of eight clients")
            pushed, fetched = large_clone(command)
            print(f"{command}: 105 MB are pushed in {pushed:.2f} s and fetched in {fetched:.2f} s", flush=True)
        finally:
            server.kill()
            server.wait()


if __name__ == "__main__":
    main(*sys.argv[1:])
