#!/usr/bin/env python3
"""Clients that do their worst: tests/hostile_clients.py ABFT [NAME..]. Each scenario starts a server of its own, and prints a line: its name,
and what came. Three are run at once; without names those that the gate runs. In each a client that behaves is answered meanwhile, and the
cluster commits."""
import concurrent.futures
import random
import resource
import socket
import struct
import sys
import time

sys.dont_write_bytecode = True
from live_limits import HEIGHT, QUERY, Server  # noqa: E402

ENDLESS = ["--rounds", "4000000000", "--base-ms", "100", "--sessions", "1000", "--stop-at-eof"]


def request(body):
    return struct.pack(">H", len(body)) + body


def reset(stream):
    """Ends a connection by a reset."""
    stream.setsockopt(socket.SOL_SOCKET, socket.SO_LINGER, struct.pack("ii", 1, 0))
    stream.close()


def commits(session):
    """Whether the session's replica comes to a height within a minute."""
    end = time.monotonic() + 60
    while time.monotonic() < end:
        if int(session.ask(HEIGHT)[2:] or "0", 16) >= 1:
            return "commits"
        time.sleep(0.05)
    return "doesn't commit"


def stop(server, told):
    """What came, once the rounds and the sessions were told to end."""
    server.process.stdin.close()
    end, *heights = server.ends(60)
    return f"{told}; {end}" + ("" if heights and all(heights[0]) else f", committed {heights}")


def beside(harm):
    """What a scenario tells that harms a server, and then what a client is answered that behaves."""
    server = Server(*ENDLESS)
    good = server.connect()
    good.ask(HEIGHT)
    told, kept = harm(server)
    answer = commits(good)
    answer += ", next answered" if len(server.connect().ask(HEIGHT)) == 10 else ", next not answered"
    return stop(server, f"{told}; {answer}")


def pipelined(server):
    """Ten thousand requests at once, each second one of which is none: the replies come in order."""
    session = server.connect()
    replies = session.ask_all([HEIGHT if place % 2 == 0 else b"\x09" for place in range(10_000)])
    in_order = all((reply == "01") == (place % 2 == 1) for place, reply in enumerate(replies))
    return f"{len(replies)} replies, {'in order' if in_order else 'out of order'}", session


def closes(server):
    """Fifty clients close in mid request, at each byte of one in turn, and fifty reset there."""
    whole = request(b"\x01" + b"x=1")
    for place in range(50):
        for end in (socket.socket.close, reset):
            session = server.connect()
            session.stream.sendall(whole[:place % len(whole)])
            end(session.stream)
    return "100 are gone", None


def resets(server):
    """Twenty clients ask 5,000 times and reset in mid reply."""
    for _ in range(20):
        session = server.connect()
        session.stream.sendall(request(HEIGHT) * 5_000)
        session.exact(3)
        reset(session.stream)
    return "20 are gone", None


def one_by_one(server, seconds=0.1):
    """A client sends byte by byte, with a pause after each, and is answered."""
    session = server.connect()
    for byte in request(QUERY):
        session.stream.sendall(bytes([byte]))
        time.sleep(seconds)
    reply = session.exact(struct.unpack(">H", session.exact(2))[0]).hex()
    return f"status {reply[:2]}", session


def never_reads(server):
    """A client asks until nothing more of it is taken, and reads nothing."""
    session = server.connect()
    session.stream.settimeout(2)
    try:
        for _ in range(5_000):
            session.stream.sendall(request(HEIGHT) * 1_000)
        told = "all is taken"
    except TimeoutError:
        told = "no more is taken"
    return told, session


def half_closes(server):
    """A client that ends its requests is answered to the last of them, and then the connection ends."""
    session = server.connect()
    session.stream.sendall(request(HEIGHT) * 1_000)
    session.stream.shutdown(socket.SHUT_WR)
    count = 0
    while session.stream.recv(2, socket.MSG_WAITALL) == b"\x00\x05":
        count += len(session.exact(5)) == 5
    return f"{count} answered", session


def garbage(server):
    """A client sends a million bytes of nothing in particular, and reads what is answered."""
    session, numbers, sent = server.connect(), random.Random(1), 0
    while sent < 1_000_000:
        # A request whose first byte is none of a request's.
        body = bytes([numbers.randint(6, 255)]) + numbers.randbytes(numbers.randint(0, 3000))
        if session.ask(body) != "01":
            return "something else than 01 is answered", session
        sent += len(body)
    return "01 is answered", session


def longest(server):
    """The longest request is a transaction that is too long."""
    session = server.connect()
    return f"status {session.ask(b'1' * 65535)[:2]} and {session.ask(bytes([1]) + b'x' * 65534)[:2]}", session


def sleepers():
    """A thousand connections, of which 990 sleep: ten are answered, and meanwhile the process takes less than half a processor."""
    most = resource.getrlimit(resource.RLIMIT_NOFILE)[1]
    resource.setrlimit(resource.RLIMIT_NOFILE, (min(most, 4096), most))
    server = Server(*ENDLESS, files=min(most, 2048))
    sessions = [server.connect() for _ in range(1000)]
    answered = sum(len(session.ask(HEIGHT)) == 10 for session in sessions[::100])
    told = commits(sessions[0])
    before = server.processor_time()
    time.sleep(2)
    used, memory = server.processor_time() - before, server.peak_memory()
    told += ("" if memory < 500 else f", {memory} MB") + ("" if used < 100 else f", {used / 2} % of a processor")
    return stop(server, f"{answered} answered, {told}")


def all_ask():
    """A thousand connections that all ask and submit."""
    most = resource.getrlimit(resource.RLIMIT_NOFILE)[1]
    resource.setrlimit(resource.RLIMIT_NOFILE, (min(most, 4096), most))
    server = Server(*ENDLESS, files=min(most, 2048))
    sessions = [server.connect() for _ in range(1000)]
    for number, session in enumerate(sessions):
        session.stream.sendall(request(b"\x05" + bytes([number % 4])) + request(b"\x01" + b"k%d=1" % number) + request(HEIGHT))
    answered = 0
    for session in sessions:
        statuses = [session.exact(struct.unpack(">H", session.exact(2))[0])[0] for _ in range(3)]
        answered += statuses == [0, 0, 0]
    return stop(server, f"{answered} answered, {commits(sessions[0])}")


SCENARIOS = {
    "pipelined": lambda: beside(pipelined),
    "closes": lambda: beside(closes),
    "resets": lambda: beside(resets),
    "one by one": lambda: beside(one_by_one),
    "never reads": lambda: beside(never_reads),
    "half closes": lambda: beside(half_closes),
    "garbage": lambda: beside(garbage),
    "longest": lambda: beside(longest),
    "sleepers": sleepers,
    "all ask": all_ask,
    "one a second": lambda: beside(lambda server: one_by_one(server, 1)),
}
LONG = ["one a second"]


def main(names):
    names = names or [name for name in SCENARIOS if name not in LONG]
    with concurrent.futures.ThreadPoolExecutor(3) as pool:
        for name, told in zip(names, pool.map(lambda name: SCENARIOS[name](), names)):
            print(f"{name}: {told}", flush=True)


if __name__ == "__main__":
    main(sys.argv[2:])
