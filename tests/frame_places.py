#!/usr/bin/env python3
"""Each prefix of a lock's frame, and a report's frame with each byte changed: tests/frame_places.py ABFT. The frames are those that replicas
of the plain run send, taken from its histories; `examples/signing.py`, which shares no code with the program, must spell and sign the same
bytes. Each case is one `inject` line, and its answer must be the one of docs/PROTOCOL.md. Prints the number of cases of each row, and of a row
that fails its first wrong case; the status is then 1."""
import os
import subprocess
import sys

sys.dont_write_bytecode = True
sys.path.insert(0, os.path.join(os.path.dirname(os.path.abspath(__file__)), "..", "examples"))
from records import read_histories  # noqa: E402
from signing import frame, key_of, lock, report, signed  # noqa: E402

ABFT = sys.argv[1]
VALUE = [b"a=1"]
OPEN = ["config 4 1 1", *(f"submit {r} a=1" for r in range(4)), *(f"propose {r} 1" for r in range(4))]
# Reports are read after the first round end, locks after the second.
AT_REPORTS, AT_LOCKS = [*OPEN, "silent"], [*OPEN, "round", "silent"]
MALFORMED = "ignored 1 Malformed"

# The frame of the first report by its fields: the first place after the field, and the answer if one of its bytes is changed by exclusive or
# with 1. The signer becomes replica 1, whose own report replica 1 has read.
REPORT_FIELDS = [(4, "the length", MALFORMED), (5, "the kind", MALFORMED), (8, "the height", "ignored 3 NoRow"),
                 (9, "the height, which becomes 0", MALFORMED), (12, "the phase", "ignored 5 WrongPhase"),
                 (13, "the phase, which becomes 0", MALFORMED), (14, "the signer", "ignored 7 Repeated"),
                 (15, "the flag ALL", "ignored 8 BadSignature"), (17, "the lengths in the initial value", MALFORMED),
                 (20, "the initial value", "ignored 8 BadSignature"), (23, "the lengths in the proper values", MALFORMED),
                 (26, "the proper value", "ignored 8 BadSignature"), (27, "the number of locks", MALFORMED),
                 (29, "the length of the signature", MALFORMED), (2377, "the signature", "ignored 8 BadSignature")]


def simulate(lines, *words):
    text = "".join(line + "\n" for line in lines).encode()
    return subprocess.run([ABFT, "simulate", *words], input=text, stdout=subprocess.PIPE, check=True).stdout


def last_frame(setup, replica):
    """The frame that the replica sends with its last round end."""
    ends = [entry.reply for entry in read_histories(simulate(setup, "--histories"))[replica] if entry.kind == "end"]
    return ends[-1].frames[-1][1]


def first_wrong(setup, to, cases):
    """The first case whose answer is another than wanted: what it is, and its answer. A case is what it is, its bytes, and the answer."""
    lines = [f"inject {to} {data.hex()}".rstrip() for _, data, _ in cases]
    printed = simulate(setup + lines).decode().splitlines()[-len(lines):]
    for (what, _, wanted), line in zip(cases, printed, strict=True):
        if line != f"deliver {to} {wanted}":
            return f"{what}: {line}, and not {wanted}"
    return None


def prefixes(data):
    """Each prefix, the frame with a byte after it, and the frame itself, which is accepted."""
    yield from ((f"the first {count} bytes", data[:count], MALFORMED) for count in range(len(data)))
    yield "the frame and a byte 00", data + b"\0", MALFORMED
    yield "the frame", data, "accepted"


def changed(data):
    """The frame with one byte changed, for each place, and the frame itself, which is accepted."""
    place = 0
    for end, field, wanted in REPORT_FIELDS:
        for at in range(place, end):
            yield f"place {at} changed, in {field}", data[:at] + bytes([data[at] ^ 1]) + data[at + 1:], wanted
        place = end
    yield "the frame", data, "accepted"


def row(name, data, digits, setup, to, cases):
    """Prints the row, and returns whether it fails."""
    cases = list(cases)
    wrong = f"the histories have other bytes than {digits[:60]}.." if data.hex() != digits else first_wrong(setup, to, cases)
    print(f"{name}: {len(cases)} cases" + (f": WRONG: {wrong}" if wrong else ""), flush=True)
    return wrong is not None


def main():
    sent_report, sent_lock = last_frame(AT_REPORTS, 0), last_frame(AT_LOCKS, 1)
    proof = [signed(report(1, 1, replica, VALUE), key_of(replica), 0) for replica in range(3)]
    failed = row(f"{len(sent_lock)} bytes of a lock, each prefix", sent_lock, frame(signed(lock(1, 1, 1, VALUE, proof), key_of(1), 1)),
                 AT_LOCKS, 0, prefixes(sent_lock))
    failed |= row(f"{len(sent_report)} bytes of a report, each place changed", sent_report, frame(proof[0]), AT_REPORTS, 1, changed(sent_report))
    return failed


if __name__ == "__main__":
    sys.exit(1 if main() else 0)
