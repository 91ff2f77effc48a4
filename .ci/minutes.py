#!/usr/bin/env python3
"""Runs a command, and prints what the proofs under it cost: processor minutes for each crate, for its own proof, for that
of its tests, and for its must-fail edits.

    .ci/minutes.py [--table FILE] COMMAND..

It looks at the processes of the prover twice a second, and takes from each how much processor time it had when it was
last seen. The table goes to standard output, and with --table into FILE too, as a page. The status is that of the
command."""
import os
import resource
import subprocess
import sys
import threading
import time

PARTS = ("proof", "tests", "edits")
# Crates that hardly change: what their proofs take shows how fast the machine is.
YARDSTICK = ("lm_ots", "statements", "tally", "abci_executor")
PAGE = """# What the gate costs

One run of the gate, as `.ci/run` wrote it down: every crate proved from nothing, the tests proved and run, each must-fail
edit tried. The budget is 240 processor minutes on a quiet machine.

"""
TICKS = os.sysconf("SC_CLK_TCK")


def stat_of(process):
    """The parent of a process and its processor seconds, those of its ended children among them."""
    with open(f"/proc/{process}/stat", encoding="utf-8", errors="replace") as it:
        fields = it.read().rpartition(")")[2].split()
    return int(fields[1]), sum(int(x) for x in fields[11:15]) / TICKS


def part_of(process):
    """The crate that a process of the prover is at, and for which part, or None where it is none of the prover."""
    with open(f"/proc/{process}/cmdline", "rb") as it:
        words = it.read().decode(errors="replace").split("\0")
    if os.path.basename(words[0]) != "rattle" or "--crate-name" not in words:
        return None
    crate = words[words.index("--crate-name") + 1]
    if os.path.basename(os.readlink(f"/proc/{process}/cwd")).startswith("rt-edit-"):
        return crate, "edits"
    return crate, "tests" if "--test" in words else "proof"


def stolen():
    """Processor seconds that this machine's host gave to others while something here was ready to run, since the machine began."""
    with open("/proc/stat", encoding="utf-8") as it:
        return int(it.readline().split()[8]) / TICKS


def rss_of(process):
    with open(f"/proc/{process}/statm", encoding="utf-8") as it:
        return int(it.read().split()[1]) * resource.getpagesize()


class Sampler:
    """What was seen of the prover's processes below one process."""

    def __init__(self, root):
        self.root, self.seen, self.memory, self.is_over = root, {}, 0, False

    def look(self):
        parents, seconds = {}, {}
        for name in os.listdir("/proc"):
            if name.isdigit():
                try:
                    parents[int(name)], seconds[int(name)] = stat_of(name)
                except (OSError, ValueError, IndexError):
                    pass
        held, provers = 0, {}
        for process in parents:
            above = process
            while above in parents and above != self.root:
                above = parents[above]
            if above != self.root:
                continue
            try:
                part = part_of(process)
                if part:
                    provers[process] = part
                    held += rss_of(process)
            except (OSError, ValueError, IndexError):
                pass
        for process, part in provers.items():
            # (what a copy takes that the prover made of itself is its parent's, once it ends)
            if parents[process] not in provers:
                self.seen[process, part] = seconds[process]
        self.memory = max(self.memory, held)

    def run(self):
        while not self.is_over:
            self.look()
            time.sleep(0.5)

    def minutes(self):
        """Processor minutes by crate and part."""
        found = {}
        for (_, (crate, part)), seconds in self.seen.items():
            row = found.setdefault(crate, dict.fromkeys(PARTS, 0.0))
            row[part] += seconds / 60
        return found


def table_of(rows):
    """The table in Markdown: the dearest crate first."""
    lines = ["| Crate | proof | tests | edits | together |", "|---|---|---|---|---|"]
    rows = sorted(rows.items(), key=lambda row: -sum(row[1].values()))
    total = {part: sum(row[part] for _, row in rows) for part in PARTS}
    for name, row in [*((f"`{name}`", row) for name, row in rows), ("all", total)]:
        cells = [f"{row[part]:.1f}" if row[part] else "" for part in PARTS]
        lines.append(f"| {name} | {' | '.join(cells)} | {sum(row.values()):.1f} |")
    return "\n".join(lines)


def speed_of(rows):
    """What the proofs of the crates of the yardstick took, or nothing where one of them wasn't proved."""
    if not all(rows.get(name, {}).get("proof") for name in YARDSTICK):
        return ""
    *others, last = (f"`{name}`" for name in YARDSTICK)
    seconds = 60 * sum(rows[name]["proof"] for name in YARDSTICK)
    return (
        f"How fast the machine was: the proofs of {', '.join(others)} and {last} together took {seconds:.0f} processor "
        f"seconds.\n\n"
    )


def main(words):
    to = None
    if words[:1] == ["--table"]:
        to, words = words[1], words[2:]
    began, taken = time.monotonic(), stolen()
    running = subprocess.Popen(words)
    sampler = Sampler(running.pid)
    looking = threading.Thread(target=sampler.run, daemon=True)
    looking.start()
    status = running.wait()
    sampler.is_over = True
    looking.join()
    used = resource.getrusage(resource.RUSAGE_CHILDREN)
    wall, processor = (time.monotonic() - began) / 60, (used.ru_utime + used.ru_stime) / 60
    processors, rows = len(os.sched_getaffinity(0)), sampler.minutes()
    said = (
        f"{wall:.0f} minutes of wall-clock time on {processors} processors, {processor:.0f} processor minutes, and "
        f"{(stolen() - taken) / 60:.0f} more that the machine's host gave to others; at most {sampler.memory / 2**30:.1f} GiB "
        f"in the prover\n\n"
        f"{speed_of(rows)}"
        f"Processor minutes by crate:\n\n{table_of(rows)}"
    )
    print(f"\n{said}", flush=True)
    if to:
        with open(to, "w", encoding="utf-8") as file:
            file.write(f"{PAGE}{said}\n")
    return status


if __name__ == "__main__":
    sys.exit(main(sys.argv[1:]))
