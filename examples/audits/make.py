#!/usr/bin/env python3
"""Makes the files of histories in this folder: examples/audits/make.py ABFT. It plays two runs of four replicas under one seed, so that
all four keys sign in both, and puts histories of them together, or damages them. docs/FORMATS.md has the bytes of a history."""
import os
import struct
import subprocess
import sys

sys.dont_write_bytecode = True
from histories import histories, spell  # noqa: E402

HERE = os.path.dirname(os.path.abspath(__file__))
START = "config 4 1 1\nkeys 8 5\n" + "".join(f"submit {r} TX\n" for r in range(4)) + "".join(f"propose {r} 1\n" for r in range(4))
# Replica 1 commits in the first phase, which it owns; or replica 2 in the second, since nothing arrives in the first.
FIRST_PHASE = START + "round\n" * 3 + "end 1\nexecute 1\n"
SECOND_PHASE = START + "silent\n" * 4 + "round\n" * 3 + "end 2\nexecute 2\n"


def run_of(abft, text, transaction):
    done = subprocess.run([abft, "simulate", "--histories"], input=text.replace("TX", transaction).encode(), stdout=subprocess.PIPE, check=True)
    return histories(done.stdout)


def with_entry(entries, index, entry):
    return entries[:index] + [entry] + entries[index + 1:]


def frame_of(event):
    """The statement of a delivered frame, and its signature."""
    length = struct.unpack(">I", event[1:5])[0]
    assert event[0] == 3 and len(event) == 5 + length
    signature = 1292
    return event[:-signature], event[-signature:]


def with_signature_of(event, other):
    return frame_of(event)[0] + frame_of(other)[1]


def write(name, *parts):
    with open(os.path.join(HERE, name + ".histories"), "wb") as file:
        file.write(b"".join(parts))


def main(abft):
    one, other = run_of(abft, FIRST_PHASE, "a=1"), run_of(abft, SECOND_PHASE, "b=1")
    assert one.keys() == other.keys() == {0, 1, 2, 3}
    rest = [spell(r, one[r]) for r in (1, 2, 3)]
    first, second = [i for i, (event, _) in enumerate(one[0]) if event[0] == 3][:2]
    end = [event[0] for event, _ in one[0]].index(4)
    event, reply = one[0][first]
    write("one-ledger", *(spell(r, one[r]) for r in (3, 0, 2, 1)))
    # Replica 1 committed [a=1], and replica 2, with the others, [b=1]: all four keys signed in both runs.
    write("fork", spell(1, one[1]), *(spell(r, other[r]) for r in (0, 2, 3)))
    # Of replica 0's history a frame that it accepted is ignored, the first round end is gone, an entry is there twice, or a frame has
    # another's signature.
    write("reply-changed", spell(0, with_entry(one[0], first, (event, b"\x03\x07"))), *rest)
    write("entry-dropped", spell(0, one[0][:end] + one[0][end + 1:]), *rest)
    write("entry-repeated", spell(0, one[0][:first + 1] + one[0][first:]), *rest)
    write("signature-of-another", spell(0, with_entry(one[0], first, (with_signature_of(event, one[0][second][0]), reply))), *rest)


main(sys.argv[1])
