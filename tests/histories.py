#!/usr/bin/env python3
"""The histories of the examples as bytes: tests/histories.py ABFT. Each is read by what docs/FORMATS.md says of histories, to its last
byte. Prints the digest of each, and of some what all report in the second phase; then which events, with which replies by number, stand
in any of them: all but those that no scenario comes to, a query of a height that isn't answered and the end of a round behind the
last."""
import collections
import glob
import hashlib
import os
import subprocess
import sys

sys.dont_write_bytecode = True
from records import Report, read_frame, read_histories  # noqa: E402

EVENTS = {"submit": "submit", "propose": "propose", "deliver": "deliver", "end": "round end", "execute": "execute", "query": "query",
          "retire": "retire"}


def told_batch(batch):
    return "[" + " ".join(transaction.decode("latin-1") for transaction in batch) + "]"


def told_batches(batches):
    return " ".join(map(told_batch, batches)) or "none"


def told_report(report):
    return (f"replica {report.signer}: {'ALL, ' if report.all else ''}initial {told_batch(report.initial)}, "
            f"proper {told_batches(report.proper)}, locked {told_batches(report.locked)}")


def told_reply(entry):
    """The number of a reply, and of an event that happened what its reply contains."""
    if entry.why == 0 and entry.kind == "end":
        return f"0 {'mute ' if entry.reply.mute else ''}{'frames' if entry.reply.frames else 'no frame'}"
    if entry.why == 0 and entry.kind == "query":
        return "0 absent" if entry.reply.value is None else "0 present"
    return str(entry.why)


def reports_of(entry):
    """The reports that a round end sends."""
    if entry.kind == "end" and entry.why == 0:
        for _, frame in entry.reply.frames:
            statement = read_frame(frame).statement
            if isinstance(statement, Report):
                yield statement


def texts():
    """The name and the text of each scenario: the examples, and one in which a pool is filled."""
    for path in sorted(glob.glob(os.path.join(os.path.dirname(__file__), "..", "examples", "*.txt"))):
        with open(path, "rb") as text:
            yield os.path.basename(path)[:-4], text.read()
    yield "a full pool", b"config 4 1 1\n" + b"".join(b"submit 0 k%d=1\n" % number for number in range(1025))


def main(abft):
    seen = collections.defaultdict(set)
    for name, text in texts():
        data = subprocess.run([abft, "simulate", "--histories"], input=text, stdout=subprocess.PIPE, check=True).stdout
        reports = collections.defaultdict(list)
        for entry in (entry for entries in read_histories(data).values() for entry in entries):
            seen[EVENTS[entry.kind]].add(told_reply(entry))
            for report in reports_of(entry):
                reports[report.phase].append(told_report(report))
        print(name, hashlib.sha256(data).hexdigest())
        if name in ("four-proposals", "two-proposals"):
            print("\n".join(reports[2]))
    for event in EVENTS.values():
        print(f"{event}: {', '.join(sorted(seen[event], key=lambda told: (int(told.split()[0]) if told[0].isdigit() else 0, told)))}")


main(sys.argv[1])
