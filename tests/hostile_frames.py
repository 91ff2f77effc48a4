#!/usr/bin/env python3
"""Frames that were cut or changed at each place, and a history that is filled: tests/hostile_frames.py ABFT [STEP [VERSION]]. Of the cut and the
changed frames each STEP-th is tried, the first and the last always; without STEP each. Each row prints what came; docs/SCENARIOS.md has the lines of a
scenario, and docs/FORMATS.md the bytes of a frame."""
import collections
import os
import subprocess
import sys

sys.dont_write_bytecode = True
sys.path.insert(0, os.path.join(os.path.dirname(os.path.abspath(__file__)), "..", "examples"))
from signing import ack, frame, key_of, lock, report, signed  # noqa: E402

ABFT = sys.argv[1]
STEP = int(sys.argv[2]) if len(sys.argv) > 2 else 1
VALUE = [b"a=1"]
VERSION = int(sys.argv[3]) if len(sys.argv) > 3 else 1
FRAMES = ["frames 2"] * (VERSION - 1)
START = ["config 4 1 1", *FRAMES, *(f"submit {r} a=1" for r in range(4)), *(f"propose {r} 1" for r in range(4))]
REPORT = frame(signed(report(1, 1, 0, VALUE, version=VERSION), key_of(0), 0))
PROOF = [signed(report(1, 1, r, VALUE, version=VERSION), key_of(r), 0) for r in range(3)]
LOCK = frame(signed(lock(1, 1, 1, VALUE, PROOF, version=VERSION), key_of(1), 1))
ACK = frame(signed(ack(1, 1, 2, VALUE, version=VERSION), key_of(2), 1))


def simulate(lines):
    done = subprocess.run([ABFT, "simulate"], input="".join(line + "\n" for line in lines).encode(), stdout=subprocess.PIPE, check=True)
    return done.stdout.decode().splitlines()


def answers(setup, injections):
    """What is answered to frames that are injected after these lines, and how often."""
    return collections.Counter(simulate(setup + injections)[-len(injections):])


def places(count):
    return sorted({*range(0, count, STEP), count - 1})


def changed(digits, place):
    data = bytearray.fromhex(digits)
    data[place] ^= 1
    return data.hex()


def told(name, found):
    print(f"{name}: " + "; ".join(f"{line}: {count}" for line, count in sorted(found.items())), flush=True)


def cut(name, setup, to, digits):
    """Each prefix of a frame, and the frame with a byte behind it."""
    count = len(digits) // 2
    told(f"{count} bytes of {name}, each prefix", answers(setup, [f"inject {to} {digits[:2 * n]}".rstrip() for n in places(count)]))
    told(f"{name} and a byte", answers(setup, [f"inject {to} {digits}00"]))


def change(name, setup, to, digits):
    """A frame with one byte changed, at each place: none is accepted; then the frame itself is."""
    count = len(digits) // 2
    found = answers(setup, [f"inject {to} {changed(digits, place)}" for place in places(count)])
    told(f"{count} bytes of {name}, each changed", found)
    told(f"{name} itself", answers(setup, [f"inject {to} {digits}"]))


def change_in_proof():
    """A lock of a liar with one byte of its proof's first report changed, at each place, and signed so."""
    setup = ["config 4 1 1", *FRAMES, "liar 1", *(f"submit {r} a=1" for r in (0, 2, 3)), *(f"propose {r} 1" for r in (0, 2, 3)), "round", "silent"]
    first, *others = [signed(report(1, 1, r, VALUE, version=VERSION), key_of(r), 0) for r in (0, 2, 3)]

    def of_proof(proof):
        return frame(signed(lock(1, 1, 1, VALUE, proof, version=VERSION), key_of(1), 0))

    locks = [of_proof([bytes.fromhex(changed(first.hex(), place)), *others]) for place in places(len(first))]
    told(f"{len(first)} bytes of a report in a proof, each changed", answers(setup, [f"inject 0 {digits}" for digits in locks]))
    told("a lock with this proof itself", answers(setup, [f"inject 0 {of_proof([first, *others])}"]))


def flood(count):
    """After each of the sixteen rounds so many bytes of nobody, repeated reports and repeated locks come to replica 3: every other line is as
    without them."""
    lines = START + ["round"] * 16 + [f"execute {r}" for r in range(4)]
    frames = [f"inject 3 {digits}".rstrip() for digits in ("", "00", REPORT, LOCK, changed(LOCK, 500), LOCK + "00")]
    flooded = [line for one in lines for line in [one, *(frames * (count // len(frames)) if one == "round" else [])]]
    found = simulate(flooded)
    others = [line for line in found if not line.startswith("deliver 3 ")]
    told(f"{len(flooded) - len(lines)} frames to one replica, the other lines {'as without' if others == simulate(lines) else 'changed'}",
         collections.Counter(line for line in found if line.startswith("deliver 3 ")))


def full_history():
    """Seven replicas send on their locks until no history takes an entry more: each step is refused as 4 from then on."""
    lines = ["config 7 2 1", *(f"propose {r} {h}" for h in range(1, 5) for r in range(7)), *["round"] * 9600, "submit 0 a=1", "pass 1 0 0",
             "inject 0", "execute 0", "end 0", "query 0 a", "retire 0 2"]
    told("after the last entry of a history", collections.Counter(simulate(lines)[-7:]))


OPEN = START + ["silent"]
AT_LOCKS = START + ["round", "silent"]
AT_ACKS = START + ["round", "round", "silent"]
cut("a report", OPEN, 1, REPORT)
cut("a lock", AT_LOCKS, 0, LOCK)
cut("an acknowledgement", AT_ACKS, 1, ACK)
change("a report", OPEN, 1, REPORT)
change("a lock", AT_LOCKS, 0, LOCK)
change("an acknowledgement", AT_ACKS, 1, ACK)
change_in_proof()
flood(600 // STEP + 6)
if STEP == 1:
    full_history()
