#!/usr/bin/env python3
"""How many blocks the keys of live clusters come to: tests/key_ends.py ABFT TREE [WORDS..] prints the rows of OPERATING's table for keys of
this height, one for each size of a cluster. It runs `abft serve WORDS..` until all replicas are mute. A row has the blocks that every
replica had run when the first became mute, and in which round that was, and the least and the most that a replica has at the end."""
import re
import socket
import subprocess
import sys

sys.dont_write_bytecode = True  # no file beside sessions.py

from sessions import ask

SIZES = [(4, 1), (7, 2), (10, 3), (13, 4)]


def height(port, replica):
    """The number of blocks that a replica has committed, asked for in a session of its own."""
    with socket.create_connection(("127.0.0.1", port)) as stream:
        assert ask(stream, bytes([5, replica])) == (0, b"")
        status, content = ask(stream, b"\x03")
        assert status == 0, status
        return int.from_bytes(content, "big")


def row(abft, n, t, tree, words):
    """The row of a cluster of this size."""
    serve = subprocess.Popen([abft, "serve", "--n", str(n), "--t", str(t), "--tree", tree, "--rounds", "4000000000", "--sessions", "1000",
                              "--stop-at-eof", *words],
                             stdin=subprocess.PIPE, stdout=subprocess.PIPE, stderr=subprocess.PIPE, text=True)
    port = int(serve.stdout.readline().split()[1])
    first, mute = None, 0
    for line in serve.stderr:
        told = re.match(r"replica (\d+) is mute from round (\d+) on", line)
        if not told:
            continue
        if first is None:
            first = min(height(port, replica) for replica in range(n)), int(told[2])
        mute += 1
        if mute == n:
            serve.stdin.close()
    commits = [int(line.split()[2]) for line in serve.stdout if line.startswith("commits ")]
    assert mute == n and serve.wait() == 0
    return f"{n} | {t} | {first[0]} in round {first[1]}, and {min(commits)} to {max(commits)} at the end"


if __name__ == "__main__":
    for n, t in SIZES:
        print(row(sys.argv[1], n, t, sys.argv[2], sys.argv[3:]), flush=True)
