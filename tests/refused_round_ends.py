#!/usr/bin/env python3
"""Round ends without memory: tests/refused_round_ends.py ABFT [JOBS]. A replica that is refused memory as it ends its first round has used its
first leaf, or none; one that uses a leaf at each of 32 refused ends is mute at the next. Prints how often which leaf signed."""
import collections
import concurrent.futures
import os
import sys
import threading

sys.dont_write_bytecode = True
from records import read_frame, read_histories  # noqa: E402
from refused_calls import Refusing  # noqa: E402

ABFT = sys.argv[1]
JOBS = int(sys.argv[2]) if len(sys.argv) > 2 else os.cpu_count()
LEAVES = 32


def first_end(refusing, *refused):
    """Replica 0 opens a height, and is to end its round 33 times. The reply to the first end that happened, how many didn't, and how many
    allocations there were."""
    text = "config 4 1 1\npropose 0 1\n" + "end 0\n" * (LEAVES + 1)
    counts = os.path.join(refusing.room.name, str(threading.get_ident()))
    done, (allocations, _, _) = refusing.run([ABFT, "simulate", "--histories"], text.encode(), counts, REFUSED=",".join(map(str, refused)))
    ends = [entry.reply for entry in read_histories(done.stdout)[0] if entry.kind == "end"] if done.returncode == 0 else []
    return ends[0] if ends else None, LEAVES + 1 - len(ends), allocations


def leaf_after(refusing, *refused):
    """The leaf that signs the first report, if these allocations each made an end fail."""
    end, missing, _ = first_end(refusing, *refused)
    if end is None or missing != len(refused) or not end.frames:
        return None
    return int.from_bytes(read_frame(end.frames[0][1]).signature[:4], "big")


def next_refused(refusing, refused, gap):
    """The refused allocations and one more, with which the replica uses a leaf more; first tried as far on as the last one was."""
    for more in [gap, *range(1, 100)]:
        tried = [*refused, refused[-1] + more]
        if leaf_after(refusing, *tried) == len(tried):
            return tried
    raise AssertionError(f"no leaf more is used after {refused}")


def main():
    refusing = Refusing()
    allocations = first_end(refusing)[2]
    places = range(1, allocations + 1)
    with concurrent.futures.ThreadPoolExecutor(JOBS) as pool:
        leaves = dict(zip(places, pool.map(lambda at: leaf_after(refusing, at), places)))
    refused, gap = [next(at for at, leaf in leaves.items() if leaf == 1)], 1
    counts = collections.Counter(leaf for at, leaf in leaves.items() if leaf is not None and at < refused[0] + 10)
    print("one refused end: " + "; ".join(f"leaf {leaf} signs: {count}" for leaf, count in sorted(counts.items())))
    while len(refused) < LEAVES - 1:
        refused = next_refused(refusing, refused, gap)
        gap = refused[-1] - refused[-2]
    end, missing, _ = first_end(refusing, *refused, refused[-1] + gap)
    print(f"{missing} refused ends, and one with memory: sent {len(end.frames)}{' mute' if end.mute else ''}")
    return set(leaves.values()) <= {None, 0, 1} and missing == LEAVES and end.mute and not end.frames


if __name__ == "__main__":
    sys.exit(0 if main() else 1)
