#!/usr/bin/env python3
"""Many sessions with one `abft serve`: tests/sessions.py ABFT SESSIONS AT_ONCE. Each asks each replica for its height, submits, and sees
that heights don't go back. It prints what came, and how long it took."""
import concurrent.futures
import socket
import struct
import subprocess
import sys
import time


def ask(stream, body):
    """The status of the reply to a request, and what follows it."""
    stream.sendall(struct.pack(">H", len(body)) + body)
    reply = stream.recv(*struct.unpack(">H", stream.recv(2, socket.MSG_WAITALL)), socket.MSG_WAITALL)
    return reply[0], reply[1:]


def session(port, number):
    """How many requests were answered."""
    seen = requests = 0
    with socket.create_connection(("127.0.0.1", port)) as stream:
        for replica in range(4):
            assert ask(stream, bytes([5, replica])) == (0, b"")
            status, content = ask(stream, b"\x03")
            assert status in (0, 2), status
            if status == 0:
                height = struct.unpack(">I", content)[0]
                assert height >= seen
                seen = height
            status, receipt = ask(stream, b"\x01" + f"k{number}={replica}".encode())
            assert status in (0, 20), status  # accepted, or the pool is full
            assert status == 20 or (receipt[0], len(receipt)) == (replica, 5), receipt
            requests += 3
    return requests


def main(abft, sessions, at_once):
    serve = subprocess.Popen([abft, "serve", "--rounds", "40", "--base-ms", "50", "--sessions", str(sessions)],
                             stdout=subprocess.PIPE, text=True)
    port = int(serve.stdout.readline().split()[1])
    began = time.monotonic()
    with concurrent.futures.ThreadPoolExecutor(at_once) as pool:
        requests = sum(pool.map(lambda number: session(port, number), range(sessions)))
    took = time.monotonic() - began
    commits = [line for line in serve.stdout.read().split("\n") if line.startswith("commits ")]
    print(f"{sessions} sessions, {at_once} at once: {requests} requests in {took:.1f} s; " + " ".join(commits))
    return serve.wait() == 0 and all(int(line.split()[2]) >= 1 for line in commits)


if __name__ == "__main__":
    sys.exit(0 if main(sys.argv[1], int(sys.argv[2]), int(sys.argv[3])) else 1)
