#!/usr/bin/env python3
"""A client of `abft serve`: gives the transaction KEY=VALUE to every replica, prints the receipt of each that takes it, and waits a
minute until replica 0 has that value.

    examples/client.py PORT KEY VALUE

docs/FORMATS.md, "Client sessions", has the bytes. It waits by `03`, which costs the replica nothing; `01` and `02` are entries
of its history."""
import socket
import struct
import sys
import time

REFUSALS = {4: "its clients have used up its history", 17: "the transaction is empty", 18: "the transaction has more than 64 bytes",
            19: "it waits there already", 20: "its pool is full", 21: "the application refuses it", 22: "it has no memory"}


def read(stream, count):
    data = b""
    while len(data) < count:
        piece = stream.recv(count - len(data))
        data += piece or sys.exit("the server ended the connection")
    return data


def ask(stream, body):
    """The status of the reply to a request, and what follows it."""
    stream.sendall(struct.pack(">H", len(body)) + body)
    reply = read(stream, *struct.unpack(">H", read(stream, 2)))
    return reply[0], reply[1:]


def spell(transaction):
    """A transaction as scenario texts spell it."""
    return "".join(chr(byte) if 0x21 <= byte <= 0x7e and byte not in b",[]\\" else f"\\{byte:02x}" for byte in transaction)


def submit(stream, transaction):
    """Gives a transaction to every replica, and reports why one doesn't take it. Returns the receipts, each a replica and an index, and
    the number of replicas that have the transaction."""
    replica = taken = 0
    receipts = []
    while ask(stream, bytes([5, replica]))[0] == 0:  # the session speaks to this replica now
        status, content = ask(stream, b"\x01" + transaction)
        taken += status in (0, 19)
        if status == 0:
            receipts.append(struct.unpack(">BI", content))
        else:
            print(f"replica {replica} doesn't take it: {REFUSALS.get(status, status)}", file=sys.stderr)
        replica += 1
    ask(stream, b"\x05\x00")
    return receipts, taken


def wait_for(stream, key, value):
    """The height at which replica 0 has the value, or None after a minute."""
    height = None
    for _ in range(1200):
        status, content = ask(stream, b"\x03")
        if status == 0 and content != height:  # there is a new block
            height = content
            status, found = ask(stream, b"\x02" + height + key)
            if status == 0 and found[4:] == b"\x01" + value:
                return struct.unpack(">I", found[:4])[0]
        time.sleep(0.05)
    return None


def main():
    if len(sys.argv) != 4 or "=" in sys.argv[2]:
        sys.exit("usage: client.py PORT KEY VALUE, where KEY has no '='")
    key, value = sys.argv[2].encode(), sys.argv[3].encode()
    transaction = key + b"=" + value
    with socket.create_connection(("127.0.0.1", int(sys.argv[1]))) as stream:
        receipts, taken = submit(stream, transaction)
        for replica, index in receipts:
            print(f"{replica}:{index}:{spell(transaction)}", flush=True)
        if taken == 0:
            sys.exit("no replica takes the transaction")
        height = wait_for(stream, key, value)
    if height is None:
        sys.exit("after a minute replica 0 has another value, or none")
    print(f"height {height}: {sys.argv[3]}")


main()
