#!/usr/bin/env python3
"""Runs of the built program whose k-th read or write fails, and whose reads and writes are short: tests/failing_streams.py ABFT [STEP]. Each
STEP-th read and write is tried, without STEP each. A run with a failed read or write ends with status 3, names the stream, and has written a
prefix of what it writes otherwise. With short reads and writes it answers as otherwise. A server loses at most the session whose call
failed, and its client gets a prefix of the replies. Prints for each command how many runs ended in which way; the status is 1 if one ended
otherwise."""
import collections
import socket
import subprocess
import sys

sys.dont_write_bytecode = True
from refused_calls import Refusing  # noqa: E402
from refused_inputs import SCENARIO, frames, histories  # noqa: E402

ABFT = sys.argv[1]
STEP = int(sys.argv[2]) if len(sys.argv) > 2 else 1


def streams(refusing, words, data):
    """How runs of a command end in which a read or a write fails."""
    whole, (_, reads, writes) = refusing.run(words, data)
    ends = collections.Counter()
    for name, limit, count in [("standard input", "READ_FAILS_AT", reads), ("standard output", "WRITE_FAILS_AT", writes)]:
        for call in range(1, count + 1, STEP):
            done, _ = refusing.run(words, data, **{limit: call})
            text = f"error: {name}: Input/output error (os error 5)\n".encode()
            if (done.returncode, done.stdout, done.stderr) == (3, whole.stdout[:len(done.stdout)], text):
                ends[f"{name} failed"] += 1
            elif (done.returncode, done.stdout) == (whole.returncode, whole.stdout):
                ends["as otherwise"] += 1
            else:
                ends[f"WRONG: {limit} {call}: status {done.returncode}, {done.stderr}, {done.stdout[-200:]}"] += 1
    for most in (1, 2, 7, 100) if len(data) + len(whole.stdout) < 100_000 else (7, 100):
        done, _ = refusing.run(words, data, AT_MOST=most)
        is_same = (done.returncode, done.stdout, done.stderr) == (whole.returncode, whole.stdout, whole.stderr)
        ends["short and as otherwise" if is_same else f"WRONG: AT_MOST {most}: status {done.returncode}, {done.stderr}"] += 1
    return f"{reads} reads, {writes} writes", ends


# Three requests: for the height, one that is none, and another replica; and what they are answered in a cluster of no rounds.
REQUESTS, REPLIES = bytes.fromhex("000103" + "000109" + "00020501"), bytes.fromhex("00050000000000" + "000101" + "000100")


def session(port):
    """What a client is answered until the session ends."""
    answered = b""
    with socket.create_connection(("127.0.0.1", port), timeout=20) as stream:
        try:
            stream.sendall(REQUESTS)
            stream.shutdown(socket.SHUT_WR)
            while piece := stream.recv(1000):
                answered += piece
        except ConnectionError:
            pass
    return answered


def serve(refusing, **limits):
    """How a server of two sessions ends."""
    with open(refusing.counts, "w+b") as file:
        file.truncate(4096)
    process = subprocess.Popen([ABFT, "serve", "--quiet", "--rounds", "0", "--sessions", "2"], stdin=subprocess.DEVNULL, stdout=subprocess.PIPE,
                               stderr=subprocess.PIPE, env=refusing.environment(refusing.counts, **limits))
    line = process.stdout.readline()
    answers = [session(int(line.split()[1])) for _ in range(2)] if line else [REPLIES, REPLIES]
    written, errors = process.communicate(timeout=30)
    ends = {(0, b""): "status 0", (3, b"error: standard output: Input/output error (os error 5)\n"): "standard output failed"}
    end = ends.get((process.returncode, errors.split(b"forge\n")[-1]), f"WRONG: {limits}: status {process.returncode}, {errors}")
    cut = [answer for answer in answers if answer != REPLIES]
    if len(cut) > 1 or not all(REPLIES.startswith(answer) for answer in cut):
        return f"WRONG: {limits}: {answers}"
    return f"{2 - len(cut)} sessions whole, {end}" if line else end


def sessions(refusing):
    """How servers end in which a call fails, or all are short."""
    ends = collections.Counter([serve(refusing)])
    for limit, most in [("READ_FAILS_AT", 6), ("WRITE_FAILS_AT", 10)]:
        for call in range(1, most + 1, STEP):
            ends[serve(refusing, **{limit: call})] += 1
    ends[f"short: {serve(refusing, AT_MOST=1)}"] += 1
    return ends


def main():
    refusing = Refusing()
    told, sent, failed = histories(refusing, ABFT), frames(refusing, ABFT), 0
    for words, data in [(["simulate"], SCENARIO), (["simulate", "--histories"], SCENARIO), (["audit"], told), (["audit"], told[:-1]),
                        (["draw"], told), (["draw"], told[:-1]), (["deliver"], sent), (["deliver"], sent[:-1]),
                        (["sign", "report"], b""), (["--help"], b"")]:
        calls, ends = streams(refusing, [ABFT, *words], data)
        failed += sum(count for end, count in ends.items() if end.startswith("WRONG"))
        print(f"{' '.join(words)}, {len(data)} bytes: {calls}: " + "; ".join(f"{end}: {count}" for end, count in sorted(ends.items())), flush=True)
    ends = sessions(refusing)
    failed += sum(count for end, count in ends.items() if "WRONG" in end)
    print("serve: " + "; ".join(f"{end}: {count}" for end, count in sorted(ends.items())))
    return failed


if __name__ == "__main__":
    sys.exit(1 if main() else 0)
