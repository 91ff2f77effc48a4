#!/usr/bin/env python3
"""Sessions with a running `abft serve`, byte by byte: tests/live_session.py PORT. Five connections: one that is gone at once, one that
sends nothing, one that sends no requests and is gone amid one, one that submits twice to replica 3, and one that waits for height 3 with
the transaction a=1. It prints what came: of receipts what comes before the index and the order of the indices, of the last the height at
its least."""
import socket
import sys
import time


def exact(stream, count):
    data = b""
    while len(data) < count:
        piece = stream.recv(count - len(data))
        data += piece or sys.exit("the server ended the connection")
    return data


def ask(stream, request):
    """The reply to the bytes of a request."""
    stream.sendall(bytes.fromhex(request))
    length = exact(stream, 2)
    return (length + exact(stream, int.from_bytes(length, "big"))).hex()


def connect():
    return socket.create_connection(("127.0.0.1", int(sys.argv[1])))


def wait_for(stream, request, is_there):
    """The first reply for which this holds, within two minutes."""
    for _ in range(2400):
        reply = ask(stream, request)
        if is_there(reply):
            return reply
        time.sleep(0.05)
    sys.exit(f"{request} is answered {reply}")


connect().close()
silent = connect()
with connect() as rude:
    print("no request:", ask(rude, "000109"), ask(rude, "0000"), ask(rude, "00020504"))
    rude.sendall(b"\x00\x40\x02")
with connect() as stream:
    ask(stream, "00020503")
    first, second = ask(stream, "0004" + "01623d31"), ask(stream, "0004" + "01633d31")
    # Entry 0 submits the first transaction of the cluster.
    order = "in order" if 0 < int(first[8:], 16) < int(second[8:], 16) else "out of order"
    print("receipts:", first[:8], second[:8], order)
with connect() as stream:
    print("early:", ask(stream, "00020502"), ask(stream, "00060200000003" + "61"))
    ask(stream, "00020500")
    first = wait_for(stream, "000103", lambda reply: reply[4:6] == "00" and int(reply[6:], 16) >= 3)
    ask(stream, "00020502")
    reply = wait_for(stream, "00060200000003" + "61", lambda reply: reply != "000102")
    assert int(reply[6:14], 16) >= int(first[6:], 16), (first, reply)
    print("later:", reply[:6], "at least 3", reply[14:])
silent.close()
