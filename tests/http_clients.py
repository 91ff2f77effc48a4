#!/usr/bin/env python3
"""What tests/http.sh asks of a running server: tests/http_clients.py PORT WHAT [ARGUMENTS].

    fields PATH NAME..     the fields of these names in the JSON of a reply, which has status 200
    error PATH             the status, and the error of the JSON of a reply
    metrics [PATH]         whether the reply is text of Prometheus' format 0.0.4, and of which replicas each metric is
    counts TEXT HISTORIES  whether the counts of frames in the text of a reply are those of the histories that the server wrote at its end
    submits HISTORIES TX   to which replicas a transaction was submitted, by the histories that the server wrote at its end
    settle                 waits until replica 0 has run what the replica with the most blocks has
    own COUNT              how many commits, one after another, are seen by the query that follows each at once; and whether replica 0 had
                           not yet run the block after some
    again COUNT            whether the same bytes, sent again and again as soon as a pool takes them, are each time in a later block
    bytes HEX              the first line of the reply to these bytes, after which the client closes its side
    crowd COUNT            how many clients that send nothing are open while another is answered
    cut                    how long a client is read that sends a head byte by byte, and never its end
    steady SECONDS         how many requests are answered, one after the other, by one client after another
"""
import base64
import collections
import json
import re
import socket
import sys
import time
import urllib.error
import urllib.request

sys.dont_write_bytecode = True
from hostile import CAUSES  # noqa: E402
from records import read_histories  # noqa: E402

PORT = int(sys.argv[1])
# The type and the labels of each metric.
METRICS = {
    "abft_rounds": ("gauge", ["replica"]),
    "abft_height": ("gauge", ["replica"]),
    "abft_signatures_left": ("gauge", ["replica"]),
    "abft_pool_transactions": ("gauge", ["replica"]),
    "abft_history_entries": ("gauge", ["replica"]),
    "abft_frames_lost_total": ("counter", ["replica"]),
    "abft_frames_accepted_total": ("counter", ["replica"]),
    "abft_frames_ignored_total": ("counter", ["replica", "cause"]),
}


def connect():
    return socket.create_connection(("127.0.0.1", PORT), timeout=20)


def get(path):
    """The status, the type and the body of a reply."""
    try:
        with urllib.request.urlopen(f"http://127.0.0.1:{PORT}{path}", timeout=20) as reply:
            return reply.status, reply.headers["Content-Type"], reply.read()
    except urllib.error.HTTPError as error:
        return error.code, error.headers["Content-Type"], error.read()


def rest_of(stream):
    """What comes until the server closes the connection."""
    data = b""
    while piece := stream.recv(65536):
        data += piece
    return data


def ask(data):
    """The reply to these bytes, after which the client closes its side."""
    with connect() as stream:
        stream.sendall(data)
        stream.shutdown(socket.SHUT_WR)
        return rest_of(stream)


def result_of(path):
    """The result in the JSON of a reply, which has status 200."""
    status, kind, body = get(path)
    assert (status, kind) == (200, "application/json"), (status, kind, body)
    return json.loads(body)["result"]


def fields(path, *names):
    result, found = result_of(path), []
    for name in names:
        value = result
        for part in name.split("."):
            value = value[int(part)] if isinstance(value, list) else value[part]
        found.append(str(value))
    print(" ".join(found))


def error(path):
    status, kind, body = get(path)
    assert kind == "application/json", kind
    told = json.loads(body)["error"]
    print(status, told["code"], told["data"])


def read_metrics(text):
    """The numbers of each metric by the values of its labels. Each metric has one HELP, one TYPE and then its samples, all of the same
    labels, and no two of the same values; there is no other line."""
    assert text.endswith("\n")
    found, state = {}, None
    for line in text.splitlines():
        if match := re.fullmatch(r"# HELP ([a-zA-Z_:][a-zA-Z0-9_:]*) (\S.*)", line):
            name = match[1]
            assert name not in found, line
            found[name] = {}
            state = "help"
        elif match := re.fullmatch(r"# TYPE (\S+) (\S+)", line):
            assert (state, match[1], match[2]) == ("help", name, METRICS[name][0]), line
            state = "type"
        else:
            match = re.fullmatch(r'([a-zA-Z_:][a-zA-Z0-9_:]*)\{((?:[a-z]+="[A-Za-z0-9]+",?)+)\} ([0-9]+)', line)
            assert match and state != "help" and match[1] == name, line
            labels = [label.split("=") for label in match[2].split(",")]
            assert [label for label, _ in labels] == METRICS[name][1], line
            values = tuple(value.strip('"') for _, value in labels)
            assert values not in found[name], line
            found[name][values] = int(match[3])
            state = "sample"
    assert list(found) == list(METRICS), list(found)
    return found


def metrics(path="/metrics"):
    status, kind, body = get(path)
    assert (status, kind) == (200, "text/plain; version=0.0.4; charset=utf-8"), (status, kind)
    found = read_metrics(body.decode("ascii"))
    replicas = [values[0] for values in found["abft_rounds"]]
    for name, samples in found.items():
        causes = [[cause] for cause in CAUSES.values()] if "cause" in METRICS[name][1] else [[]]
        assert list(samples) == [(replica, *cause) for replica in replicas for cause in causes], name
    print("replicas:", *replicas)


def counts(text, histories):
    """Each replica's counts are those of the first entries of its history, as many as it then had."""
    with open(text, encoding="ascii") as file:
        found = read_metrics(file.read())
    with open(histories, "rb") as file:
        written = read_histories(file.read())
    answers = collections.Counter()
    for (replica,), length in found["abft_history_entries"].items():
        entries = written[int(replica)][:length]
        assert len(entries) == length, replica
        whys = collections.Counter(entry.why for entry in entries if entry.kind == "deliver")
        assert found["abft_frames_accepted_total"][replica,] == whys[0], (replica, whys)
        for why, cause in CAUSES.items():
            assert found["abft_frames_ignored_total"][replica, cause] == whys[why], (replica, cause, whys)
        answers += whys
    print("frames accepted and ignored:", "some" if answers[0] > 0 and len(answers) > 1 else answers)


def submits(histories, tx):
    with open(histories, "rb") as file:
        written = read_histories(file.read())
    print("replicas:", *(replica for replica, entries in sorted(written.items())
                         if any(entry.kind == "submit" and entry.given == tx.encode() for entry in entries)))


def height_of(path):
    return int(result_of(path)["sync_info"]["latest_block_height"])


def settle(replica=0):
    wanted, end = height_of("/status"), time.monotonic() + 60
    while height_of(f"/status?replica={replica}") < wanted:
        assert time.monotonic() < end, f"replica {replica} doesn't run block {wanted}"
        time.sleep(0.02)


def own(count):
    seen = behind = 0
    for number in range(int(count)):
        height = int(result_of(f'/broadcast_tx_commit?tx="own={number}"')["height"])
        found = result_of('/abci_query?data="own"')["response"]
        seen += found["value"] is not None and base64.b64decode(found["value"]) == str(number).encode() and int(found["height"]) >= height
        behind += height_of("/status?replica=0") < height
    print(f"{seen} seen;", "replica 0 was behind after some" if behind else "replica 0 was never behind")


def again(count):
    """The same bytes, one commit after the other, at the replica that the server chooses. A pool that still has the former copy refuses the next
    one, which is then sent once more. In the end no pool has a copy that no block will have."""
    heights = []
    for _ in range(int(count)):
        reply = {}
        while "result" not in reply:
            time.sleep(0.05)
            _, _, body = get('/broadcast_tx_commit?tx="same=1"')
            reply = json.loads(body)
        heights.append(int(reply["result"]["height"]))
    for number in range(4):
        settle(number)
    left = [result_of(f"/num_unconfirmed_txs?replica={number}")["n_txs"] for number in range(4)]
    print("each in a later block" if heights == sorted(set(heights)) and left == ["0"] * 4 else (heights, left))


def crowd(count):
    """That many clients send nothing, or part of a head, while another is answered."""
    silent = [connect() for _ in range(int(count))]
    for stream in silent[::2]:
        stream.sendall(b"GET /hea")
    begun = time.monotonic()
    status, _, _ = get("/health")
    took = time.monotonic() - begun
    print(status, "at once" if took < 1 else f"after {took:.1f} s")
    replies = [rest_of(stream) for stream in silent]
    whole = time.monotonic() - begun
    print("silent:", {reply.split(b"\r\n")[0].decode() for reply in replies[1::2]} or "{}")
    print("cut:", *{reply.split(b"\r\n")[0].decode() for reply in replies[::2]})
    print("closed", "in time" if 1.5 < whole < 6 else f"after {whole:.1f} s")


def cut():
    """A head that never ends, a byte each 50 milliseconds."""
    begun = time.monotonic()
    with connect() as stream:
        try:
            for byte in b"GET /health HTTP/1.1\r\nX: " + b"a" * 1000:
                stream.sendall(bytes([byte]))
                time.sleep(0.05)
        except OSError:
            pass
    took = time.monotonic() - begun
    print("ended in time" if 1.5 < took < 20 else f"ended after {took:.1f} s")


def steady(seconds):
    """One request after the other, each by a client of its own."""
    end, count = time.monotonic() + float(seconds), 0
    while time.monotonic() < end:
        status, _, _ = get("/status")
        assert status == 200
        count += 1
    print("many" if count > 100 else count)


def value(path):
    """The key and the value of a query, decoded, and whether there is one."""
    _, _, body = get(path)
    response = json.loads(body)["result"]["response"]
    found = response["value"]
    print(response["log"], base64.b64decode(response["key"]), found and base64.b64decode(found))


def main(what, *arguments):
    if what == "bytes":
        print(ask(bytes.fromhex(arguments[0])).split(b"\r\n")[0].decode())
    else:
        globals()[what](*arguments)


main(*sys.argv[2:])
