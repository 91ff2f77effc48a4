#!/usr/bin/env python3
"""HTTP of `abft serve` under load: tests/http_load.py ABFT [REQUESTS [PROCESSES]]. Random requests, each answer of which is compared with what
tests/http_rules.py says; a thousand connections of bad clients beside a good one; and whether rounds are on time meanwhile. A line a part
with its figures, then `N passed, M failed`."""
import base64
import collections
import hashlib
import json
import multiprocessing
import random
import re
import socket
import struct
import subprocess
import sys
import time
import urllib.error

sys.path.insert(0, __file__.rpartition("/")[0] or ".")
from http_rules import REPLICAS, Refused, asked

ABFT = sys.argv[1]
REQUESTS = int(sys.argv[2]) if len(sys.argv) > 2 else 100_000
PROCESSES = int(sys.argv[3]) if len(sys.argv) > 3 else 4
CROWD = 1000
REPLY = re.compile(rb"HTTP/1\.1 (\d{3}) [A-Z][A-Za-z ]+\r\nContent-Type: ([^\r\n]+)\r\nContent-Length: (\d+)\r\n(?:Allow: GET\r\n)?"
                   rb"Connection: close\r\n\r\n")
POOL_TEXTS = {"tx already exists in cache", "mempool is full"}
IN_VAIN = {"timed out waiting for tx to be included in a block", "the cluster was asked to stop"}


class Server:
    """A running server. It ends when it is closed."""

    def __init__(self, *options):
        self.process = subprocess.Popen([ABFT, "serve", "--http", "0", "--tree", "10", "--stop-at-eof", "--quiet", "--sessions", "1000", *options],
                                        stdin=subprocess.PIPE, stdout=subprocess.PIPE, text=True)
        lines = [self.process.stdout.readline().split() for _ in range(2)]
        self.session_port, self.port = int(lines[0][1]), int(lines[1][1])
        self.result("/health")

    def result(self, path):
        return json.loads(exchange(self.port, f"GET {path} HTTP/1.1\r\n\r\n".encode())[2])["result"]

    def chain(self, least=0):
        """The transactions of each block, from height 1 on, once there are so many."""
        height, end = -1, time.monotonic() + 60
        while height < least and time.monotonic() < end:
            height = int(self.result("/status")["sync_info"]["latest_block_height"])
        return [tuple(self.result(f"/block?height={h}")["block"]["data"]["txs"]) for h in range(1, height + 1)]

    def round(self):
        return self.result("/status?replica=0")["abft"]["round"]

    def close(self):
        self.process.stdin.close()
        self.process.stdout.read()
        return self.process.wait(timeout=60)


def exchange(port, data, is_cut=False):
    """The status, the type and the body of the reply; `None` if nothing came."""
    with socket.create_connection(("127.0.0.1", port), timeout=120) as stream:
        reply = b""
        try:
            stream.sendall(data)
            if is_cut:
                stream.shutdown(socket.SHUT_WR)
        except ConnectionError:
            pass  # a reply may come before all was sent
        while piece := stream.recv(65536):
            reply += piece
    if not reply:
        return None
    match = REPLY.match(reply)
    assert match, f"no reply: {reply[:200]!r}"
    body = reply[match.end():]
    assert len(body) == int(match[3]), f"the body has {len(body)} bytes: {reply[:200]!r}"
    return int(match[1]), match[2].decode(), body


# ---- the requests

KEYS = [b"k%d" % n for n in range(40)]


def bytes_value(pick, value):
    """A value of a parameter in one of its forms."""
    if pick.random() < 0.3 and not re.search(rb'["\\]', value):
        return "%22" + "".join(f"%{b:02x}" for b in value) + "%22"
    return ("0x" if pick.random() < 0.5 else "0X") + (value.hex().upper() if pick.random() < 0.5 else value.hex())


def valid(pick):
    """A request that has an answer: all kinds but a wait for a block."""
    kind = pick.choices(["/", "/health", "/status", "/abci_info", "/block", "/num_unconfirmed_txs", "/metrics", "/abci_query",
                         "/broadcast_tx_sync"], [4, 10, 20, 10, 20, 10, 10, 14, 8])[0]
    parameters = []
    if kind == "/abci_query":
        parameters.append("data=" + bytes_value(pick, pick.choice(KEYS)))
    if kind == "/broadcast_tx_sync":
        parameters.append("tx=" + bytes_value(pick, pick.choice(KEYS) + b"=%d" % pick.getrandbits(48)))
    if kind == "/block" and pick.random() < 0.8 or kind == "/abci_query" and pick.random() < 0.2:
        parameters.append(f"height={pick.choice([0, 1, 2, 3, 5, 8, 13, 30, 4096, 2**32 - 1])}")
    if pick.random() < 0.6:
        parameters.append(f"replica={pick.randrange(REPLICAS)}")
    if pick.random() < 0.1:
        parameters.append("other=%zz")
    pick.shuffle(parameters)
    fields = "".join(f"X-{n}: {'y' * pick.randrange(40)}\r\n" for n in range(pick.choice([0, 1, 1, 3, 60])))
    return (f"GET {kind}{'?' if parameters else ''}{'&'.join(parameters)} HTTP/1.{pick.randrange(2)}\r\nHost: localhost\r\n{fields}\r\n").encode()


def mutated(pick):
    """A valid request that was changed a little."""
    data = bytearray(valid(pick))
    for _ in range(pick.choice([1, 1, 1, 2, 5])):
        first = pick.randrange(len(data) + 1) if pick.random() < 0.5 else pick.randrange(min(len(data), 40) + 1)
        last = min(len(data), first + pick.randrange(1, 8))
        how = pick.randrange(6)
        if how == 0:
            data[first:first + 1] = bytes([pick.randrange(256)])
        elif how == 1:
            del data[first:last]
        elif how == 2:
            data[first:first] = pick.choice([b"\r\n", b"\n", b"\r", b" ", b"%00", b"%", b"?", b"&", b"\xc3\xa9", b"\xff", b"replica=9", b"\""])
        elif how == 3:
            data[first:first] = data[first:last] * pick.choice([1, 1, 50, 2000])
        elif how == 4:
            del data[first:]
        else:
            data[0:3] = pick.choice([b"POST", b"HEAD", b"get", b"PUT", b"OPTIONS"])
    return bytes(data)


def noise(pick):
    """Random bytes, of which some look like the first of a request."""
    return pick.choice([b"", b"", b"GET ", b"GET / HTTP/1.1\r\n"]) + pick.randbytes(pick.choice([1, 5, 60, 600, 9000]))


# ---- the answers

class Watch:
    """What a client saw, by which it judges what it sees next."""

    def __init__(self):
        self.heights = collections.Counter()
        self.blocks, self.queries, self.statuses = {}, [], collections.Counter()

    def known(self, replica):
        """The least height that a request may now show: the replica's, and that of all replicas if it names none, since the one with the
        most blocks answers."""
        return max(self.heights.values(), default=0) if replica is None else self.heights[replica]

    def height(self, replica, height):
        height, known = int(height), self.known(replica)
        assert height >= known, f"the height of replica {replica} fell from {known} to {height}"
        self.heights[replica] = height

    def block(self, result):
        height, txs = int(result["block"]["header"]["height"]), tuple(result["block"]["data"]["txs"])
        assert self.blocks.setdefault(height, txs) == txs, f"block {height} was {self.blocks[height]} and is {txs}"

    def metrics(self, text, replica):
        found = dict(re.findall(r'^abft_height\{replica="(\d+)"\} (\d+)$', text, re.M))
        assert set(map(int, found)) == (set(range(REPLICAS)) if replica is None else {replica}), found
        for of, height in found.items():
            self.height(int(of), height)

    def result(self, path, replica, given, result):
        """The result of a call is of what was asked."""
        if path == "/health":
            assert result == {}, result
        elif path == "/status":
            shown = result["abft"]["replica"]
            assert shown == replica or replica is None and shown in range(REPLICAS), result
            assert result["node_info"]["moniker"] == f"replica {shown}", result
            self.height(replica, result["sync_info"]["latest_block_height"])
            self.height(shown, result["sync_info"]["latest_block_height"])
        elif path == "/abci_info":
            assert len(base64.b64decode(result["response"]["last_block_app_hash"])) == 32, result
            self.height(replica, result["response"]["last_block_height"])
        elif path == "/block":
            self.block(result)
            assert given["height"] in (None, int(result["block"]["header"]["height"])), result
        elif path == "/num_unconfirmed_txs":
            count = int(result["n_txs"])
            assert 0 <= count <= 1024 and count <= int(result["total_bytes"]) <= 64 * count, result
        elif path == "/abci_query":
            response = result["response"]
            assert base64.b64decode(response["key"]) == given["data"], response
            self.height(replica, response["height"])
            self.queries.append((given["data"], int(response["height"]), response["value"]))
        else:
            assert result["code"] == 0 and result["hash"] == hashlib.sha256(given["tx"]).hexdigest().upper(), result
            assert result["abft"]["replica"] == (replica or 0), result

    def fault(self, path, replica, given, status, text):
        """Why a request has no answer that asks something."""
        if path == "/block":
            wanted, known = given["height"], self.known(replica)
            assert (status, text) == (500, "the replica has not committed this height"), (status, text)
            assert wanted is None and known == 0 or wanted is not None and not 0 < wanted <= known, f"no block {wanted} below {known}"
        elif path == "/abci_query":
            assert (status, text) == (400, "the application answers as of its last block alone") and given["height"], (status, text)
        else:
            assert path == "/broadcast_tx_sync" and status == 500 and text in POOL_TEXTS, (path, status, text)

    def reply(self, data, reply):
        """Judges the reply to a request."""
        if reply is None:
            assert not data, "no reply"
            return
        status, kind, body = reply
        self.statuses[status] += 1
        try:
            path, replica, given = asked(data)
        except Refused as refused:
            error = envelope(kind, body)["error"]
            assert status in (refused.status if isinstance(refused.status, tuple) else (refused.status,)), (status, refused.status, error)
            assert error["data"] in refused.texts, (error, refused.texts)
            return
        if status == 200 and path == "/":
            assert kind == "text/html; charset=utf-8" and body.startswith(b"<!DOCTYPE html>"), (kind, body)
        elif status == 200 and path == "/metrics":
            self.metrics(body.decode("ascii"), replica)
        elif status == 200:
            self.result(path, replica, given, envelope(kind, body)["result"])
        else:
            self.fault(path, replica, given, status, envelope(kind, body)["error"]["data"])


def envelope(kind, body):
    body = json.loads(body)
    assert kind == "application/json" and body["jsonrpc"] == "2.0" and body["id"] == -1 and len(body) == 3, (kind, body)
    return body


def client(work):
    """One client: its seed decides its requests. Returns what it saw, and what was wrong."""
    port, seed, count = work
    pick, watch, wrong = random.Random(seed), Watch(), []
    for _ in range(count):
        data = pick.choices([valid, mutated, noise], [6, 3, 1])[0](pick)
        try:
            watch.reply(data, exchange(port, data, is_cut=True))
        except Exception as fault:
            wrong.append(f"{data[:300]!r}: {type(fault).__name__}: {fault}")
    return watch, wrong


def committer(port, until):
    """One transaction after another, each until a block has it. Other clients fill the pools, so one may wait in vain. Returns how many
    blocks had theirs, and what was wrong."""
    committed, count, wrong = 0, 0, []
    while time.monotonic() < until.value:
        count += 1
        tx = f"commit={count}"
        try:
            status, _, body = exchange(port, f'GET /broadcast_tx_commit?tx="{tx}" HTTP/1.1\r\n\r\n'.encode())
            done = json.loads(body)
            if status != 200:
                assert done["error"]["data"] in POOL_TEXTS | IN_VAIN, done
                time.sleep(0.5)
                continue
            height = int(done["result"]["height"])
            block = json.loads(exchange(port, f"GET /block?height={height} HTTP/1.1\r\n\r\n".encode())[2])["result"]["block"]
            assert base64.b64encode(tx.encode()).decode() in block["data"]["txs"], (tx, block)
            committed += 1
        except Exception as fault:
            wrong.append(f"{tx}: {type(fault).__name__}: {fault}")
    return committed, wrong


def commits_in_a_process(port, until, results):
    results.put(committer(port, until))


def values_after(chain):
    """What the key-value store has after each height."""
    values, after = {}, [{}]
    for txs in chain:
        for tx in map(base64.b64decode, txs):
            key, sign, value = tx.partition(b"=")
            values[key] = value if sign else tx
        after.append(dict(values))
    return after


def random_requests():
    server = Server("--rounds", "4000000000", "--base-ms", "50", "--client-entries", "65536")
    begun, before = time.monotonic(), len(server.chain())
    until, results = multiprocessing.Value("d", begun + 36000), multiprocessing.Queue()
    commits = multiprocessing.Process(target=commits_in_a_process, args=(server.port, until, results))
    commits.start()
    share = REQUESTS // (2 * PROCESSES)
    with multiprocessing.Pool(PROCESSES) as pool:
        seen = pool.map(client, [(server.port, 7000 + n, share) for n in range(2 * PROCESSES)], 1)
    lasted = time.monotonic() - begun
    until.value = 0
    chain, status = server.chain(max(max(watch.heights.values()) for watch, _ in seen)), server.close()
    committed, wrong = results.get()
    commits.join()
    after = values_after(chain)
    statuses = collections.Counter()
    for watch, found in seen:
        wrong += found
        statuses += watch.statuses
        wrong += [f"block {h} is {chain[h - 1]}, and was {txs}" for h, txs in watch.blocks.items() if chain[h - 1:h] != [txs]]
        for key, height, value in watch.queries:
            wanted = after[height].get(key)
            if (value and base64.b64decode(value)) != wanted:
                wrong.append(f"the query {key} at {height} found {value}, and {wanted} was committed")
    queries = sum(len(watch.queries) for watch, _ in seen)
    for text in wrong[:20]:
        print("wrong:", text)
    print(f"{sum(statuses.values())} random requests in {lasted:.0f} s, {committed} commits, {queries} queries: {len(wrong)} wrong; statuses",
          *(f"{code}: {count}" for code, count in sorted(statuses.items())), f"; blocks from {before} to {len(chain)}, server's status {status}")
    return not wrong and committed > 0 and queries > 0 and len(chain) > before and status == 0


def bad_clients(port, count):
    """That many connections that stay open: most send nothing, some a byte now and then, some ask and never read. Others are reset."""
    streams = []
    for number in range(count):
        if number % 5 == 0:
            with socket.create_connection(("127.0.0.1", port), timeout=60) as stream:
                stream.sendall(b"GET /status HTTP/1.1\r\n\r\n")
                stream.setsockopt(socket.SOL_SOCKET, socket.SO_LINGER, struct.pack("ii", 1, 0))
        stream = socket.create_connection(("127.0.0.1", port), timeout=60)
        if number % 5 == 0:
            stream.sendall(b"GET /he")
        elif number % 5 == 1:
            stream.sendall(b"GET / HTTP/1.1\r\n\r\n")
        streams.append(stream)
    return streams


def height_in(session):
    """What a session of the binary protocol is told for `03`, the committed height."""
    session.sendall(bytes.fromhex("000103"))
    reply = session.recv(100)
    assert reply[:3] == bytes.fromhex("000500") and len(reply) == 7, reply
    return int.from_bytes(reply[3:], "big")


def crowd():
    server = Server("--rounds", "4000000000", "--base-ms", "50")
    begun, before = time.monotonic(), server.round()
    streams = bad_clients(server.port, CROWD)
    opened, times, session_times = time.monotonic() - begun, [], []
    session = socket.create_connection(("127.0.0.1", server.session_port), timeout=60)
    while time.monotonic() < begun + 12:
        start = time.monotonic()
        height_in(session)
        middle = time.monotonic()
        server.result("/status")
        session_times.append(middle - start)
        times.append(time.monotonic() - middle)
        for stream in streams[::10]:
            try:
                stream.sendall(b"x")
            except OSError:
                pass
        time.sleep(0.2)
    ended = 0
    for stream in streams:
        try:
            while stream.recv(65536):
                pass
            ended += 1
        except ConnectionError:
            ended += 1
        except TimeoutError:
            pass
        stream.close()
    session.close()
    whole, rounds, status = time.monotonic() - begun, server.round() - before, server.close()
    print(f"{CROWD} bad connections, open after {opened:.1f} s: a good client's {len(times)} requests took at most {max(times):.1f} s, the last"
          f" {times[-1] * 1000:.0f} ms, and those of a session at most {max(session_times) * 1000:.0f} ms; {ended} were ended within {whole:.0f} s; {rounds} rounds meanwhile, server's status {status}")
    return max(times) < 15 and times[-1] < 1 and max(session_times) < 2 and ended == CROWD and rounds > 20 and status == 0


def ask_on(port, seed):
    client((port, seed, 10**9))


def time_of_rounds(first, last, is_loaded):
    """How long the rounds between these lasted, and how long they should have: a millisecond more each."""
    server = Server("--rounds", "4000000000", "--base-ms", "50", "--client-entries", "65536")
    load = [multiprocessing.Process(target=ask_on, args=(server.port, 9000 + n), daemon=True) for n in range(PROCESSES if is_loaded else 0)]
    for process in load:
        process.start()
    streams = bad_clients(server.port, 200) if is_loaded else []
    times = []
    for wanted in (first, last):
        while server.round() < wanted:
            time.sleep(0.01)
        times.append((server.round(), time.monotonic()))
    for process in load:
        process.kill()
    for stream in streams:
        stream.close()
    server.close()
    (begin, start), (end, stop) = times
    return stop - start, sum(50 + number for number in range(begin, end)) / 1000


def rounds_on_time():
    alone, wanted = time_of_rounds(10, 90, False)
    loaded, wanted_loaded = time_of_rounds(10, 90, True)
    late = (loaded / wanted_loaded) / (alone / wanted)
    print(f"80 rounds, which should last {wanted:.2f} s, took {alone:.2f} s without load; under load {wanted_loaded:.2f} s became {loaded:.2f} s:"
          f" {100 * (late - 1):+.1f} %")
    return late < 1.25


def main():
    passed = failed = 0
    for part in (random_requests, crowd, rounds_on_time):
        try:
            well = part()
        except (AssertionError, OSError, subprocess.TimeoutExpired) as fault:
            print(f"{part.__name__}: {type(fault).__name__}: {fault}")
            well = False
        if well:
            passed += 1
        else:
            failed += 1
            print("failed:", part.__name__)
    print(f"{passed} passed, {failed} failed")
    sys.exit(0 if failed == 0 else 1)


if __name__ == "__main__":
    main()
