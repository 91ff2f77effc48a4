#!/usr/bin/env python3
"""A replica that sleeps until its inbox is full: tests/sleeping_replica.py ABFT. In a live cluster of four the thread of one replica sleeps
for 25 seconds, and then continues. Frames that find its inbox full are lost, and counted in its metric. The histories are still those of one
ledger, for `conclusions.py` and for the audit at the end of the cluster, and the other replicas commit meanwhile. Prints what the replica
got and what was lost; the status is 1 if something isn't so."""
import collections
import os
import re
import socket
import subprocess
import sys
import time
import urllib.request

sys.dont_write_bytecode = True
from conclusions import follow  # noqa: E402
from hostile import ledger_lines  # noqa: E402
from records import read_histories  # noqa: E402
from refused_calls import Refusing  # noqa: E402

ABFT = sys.argv[1]
ROUNDS = 240
WORDS = ["serve", "--http", "0", "--sessions", "1", "--tree", "10", "--rounds", str(ROUNDS), "--base-ms", "10", "--quiet", "--histories"]
# Of all threads those of the replicas come to so many allocations: the first of them is then some phases far.
SLEEP = {"SLEEPS_AT": 3000, "SLEEPS_FOR": 25}
INBOX = 1024


def metrics(port):
    """The numbers of all replicas by the names of their metrics; none while a replica sleeps that has to answer."""
    try:
        with urllib.request.urlopen(f"http://127.0.0.1:{port}/metrics", timeout=20) as reply:
            text = reply.read().decode()
    except OSError:
        return {}
    found = collections.defaultdict(dict)
    for name, replica, value in re.findall(r'^(\w+)\{replica="(\d+)"\} (\d+)$', text, re.M):
        found[name][int(replica)] = int(value)
    return found


def run(refusing, file):
    """How many frames each full inbox lost, and what the cluster printed after its ports, with its status."""
    with open(refusing.counts, "wb") as counts:
        counts.truncate(4096)
    with subprocess.Popen([ABFT, *WORDS, file], stdin=subprocess.DEVNULL, stdout=subprocess.PIPE,
                          env=refusing.environment(refusing.counts, **SLEEP)) as server:
        port, http = (int(server.stdout.readline().split()[1]) for _ in range(2))
        # HTTP lasts as long as this session.
        with socket.create_connection(("127.0.0.1", port)):
            last = time.monotonic() + 100
            while time.monotonic() < last:
                time.sleep(1)
                found = metrics(http)
                if found and set(found["abft_rounds"].values()) == {ROUNDS}:
                    break
        printed = server.stdout.read().decode()
    return found["abft_frames_lost_total"], printed, server.returncode


def frames_sent_to(histories, replica):
    """How often the others send each frame to a replica."""
    return collections.Counter(frame for other, entries in histories.items() if other != replica
                               for entry in entries if entry.kind == "end" and entry.why == 0
                               for to, frame in entry.reply.frames if to in (255, replica))


def main():
    refusing = Refusing()
    file = os.path.join(refusing.room.name, "histories")
    counted, printed, status = run(refusing, file)
    with open(file, "rb") as data:
        histories = read_histories(data.read())
    _, ledger = follow(histories, 4, 1, 1)
    commits = {replica: sum(entry.kind == "execute" and entry.why == 0 for entry in entries) for replica, entries in histories.items()}
    least, most = {}, {}
    for replica, entries in histories.items():
        sent, delivered = frames_sent_to(histories, replica), {entry.given for entry in entries if entry.kind == "deliver"}
        # Of a frame that was delivered, perhaps more than once since early frames are tried again, one copy at least wasn't lost.
        least[replica] = sum(count for frame, count in sent.items() if frame not in delivered)
        most[replica] = sum(sent.values()) - len(sent.keys() & delivered)
        print(f"replica {replica}: {sum(sent.values())} frames sent to it, {least[replica]} never delivered, {counted[replica]} lost at its inbox, "
              f"{commits[replica]} blocks")
    slept = max(least, key=least.get)
    told = "".join(f"commits {replica} {count}\n" for replica, count in commits.items()) + ledger_lines(ledger)
    is_so = status == 0 and printed == told
    # What was neither delivered nor lost was in the inbox, or waited, at the end.
    is_so = is_so and all(least[replica] - INBOX // 4 < counted[replica] <= most[replica] for replica in histories)
    is_so = is_so and counted[slept] > 0 and all(counted[replica] == 0 for replica in histories if replica != slept)
    is_so = is_so and all(count > commits[slept] for replica, count in commits.items() if replica != slept)
    print(f"replica {slept} slept: " + (f"one ledger of {len(ledger)} blocks" if is_so else f"WRONG: {status}, {printed}"))
    return is_so


if __name__ == "__main__":
    sys.exit(0 if main() else 1)
