#!/usr/bin/env python3
"""Runs of the built program with memory refused: tests/refused_memory.py ABFT [STEP] [JOBS]. In each run one allocation is refused, or that
one and all later ones; each STEP-th allocation is tried, without STEP each, and of a live cluster's fifty times fewer.

A run answers as with memory; or with status 3, that it is out of memory or makes no thread, and a prefix of what it prints with memory. A
scenario may go on after a step that is refused as 5: then its histories are still those of one ledger, for `conclusions.py` and for
`abft audit`. A live cluster ends with status 0 or 3, and the histories that it writes are those of one ledger, also if a line can't be
printed. Prints for each command how many runs ended in which way; the status is 1 if one ended otherwise."""
import collections
import concurrent.futures
import os
import subprocess
import sys

sys.dont_write_bytecode = True
from conclusions import Untrue, follow  # noqa: E402
from records import read_histories  # noqa: E402
from refused_calls import Refusing  # noqa: E402
from refused_inputs import SCENARIO, frames, histories  # noqa: E402

ABFT = sys.argv[1]
STEP = int(sys.argv[2]) if len(sys.argv) > 2 else 1
JOBS = int(sys.argv[3]) if len(sys.argv) > 3 else 2
# What a run tells that has no memory. The C library makes threads, and says of none why.
FAULTS = [b"error: out of memory", b"error: a thread could not be made"]


def last_line(text):
    return text.rstrip(b"\n").rsplit(b"\n", 1)[-1]


class Command:
    """A command of the program with its input, and what it answers with memory."""

    def __init__(self, refusing, name, words, data, prints_steps=False, writes_histories=False):
        self.refusing, self.name, self.words, self.data = refusing, name, [ABFT, *words], data
        self.prints_steps, self.writes_histories, self.step = prints_steps, writes_histories, STEP
        self.whole, (self.allocations, _, _) = refusing.run(self.words, data)

    def outcome(self, limit, at):
        """How a run ends in which an allocation is refused, or that one and all later ones."""
        counts = os.path.join(self.refusing.room.name, f"{self.name.replace(' ', '-')}-{limit}-{at}")
        done, _ = self.refusing.run(self.words, self.data, counts, **{limit: at})
        os.remove(counts)
        if (done.returncode, done.stdout) == (self.whole.returncode, self.whole.stdout):
            return "as with memory"
        fault = last_line(done.stderr)
        if done.returncode == 3 and fault in FAULTS and self.is_prefix(done.stdout):
            return fault.decode()
        if done.returncode == 0 and self.has_refused_step(done.stdout):
            return "a step was refused"
        return f"WRONG: {limit} {at}: status {done.returncode}, {done.stderr}, {done.stdout[-200:]}"

    def is_prefix(self, printed):
        """Whether it is a prefix of what is printed with memory, or of that up to a step that was refused."""
        return self.whole.stdout.startswith(printed) or self.has_refused_step(printed)

    def has_refused_step(self, printed):
        """Whether the first line that is another than with memory is that of a step without memory, or of histories that each is lawful."""
        if self.prints_steps:
            pairs = zip(printed.split(b"\n"), self.whole.stdout.split(b"\n"))
            return next((line for line, other in pairs if line != other), b"") == b"refused 5"
        if self.writes_histories:
            _, ledger = follow(read_histories(printed), 4, 1, 1)
            audited = subprocess.run([ABFT, "audit"], input=printed, stdout=subprocess.PIPE).stdout
            return audited.startswith(b"ledger %d\n" % len(ledger))
        return False


class LiveCluster(Command):
    """A cluster that runs by the clock for a second, and writes its histories."""

    def __init__(self, refusing):
        super().__init__(refusing, "live cluster", ["cluster", "--quiet", "--rounds", "16", "--base-ms", "50"], b"")
        self.step = 50 * STEP

    def lines_of(self, file):
        """What the run prints before the blocks, by the histories in its file."""
        with open(file, "rb") as data:
            replicas, ledger = follow(read_histories(data.read()), 4, 1, 1)
        heights = [len(replica.commits) for replica in replicas.values()]
        return b"".join(b"commits %d %d\n" % pair for pair in enumerate(heights)) + b"ledger %d\n" % len(ledger)

    def outcome(self, limit, at):
        file = os.path.join(self.refusing.room.name, f"live-{limit}-{at}")
        done, _ = self.refusing.run([*self.words, "--histories", file], b"", file + ".counts", **{limit: at})
        fault = last_line(done.stderr)
        if done.returncode == 0 and done.stdout.startswith(self.lines_of(file)):
            return "one ledger"
        if done.returncode == 3 and fault == b"error: can't write the file %s: out of memory" % file.encode():
            return "out of memory for the file"
        if done.returncode == 3 and fault in FAULTS:
            # Once there is a line, the histories are saved whatever becomes of the others, unless they get no memory either.
            if not done.stdout or (limit == "REFUSED_FROM" and os.path.getsize(file) == 0):
                return fault.decode()
            if self.lines_of(file).startswith(done.stdout):
                return f"{fault.decode()}, with histories"
        return f"WRONG: {limit} {at}: status {done.returncode}, {done.stderr}, {done.stdout[-200:]}"


def try_one(command, limit, at):
    try:
        return command.outcome(limit, at)
    except (Untrue, AssertionError, ValueError, KeyError, IndexError) as fault:
        return f"WRONG: {limit} {at}: {type(fault).__name__}: {fault}"


def main():
    refusing = Refusing()
    commands = [Command(refusing, "simulate", ["simulate"], SCENARIO, prints_steps=True),
                Command(refusing, "simulate --histories", ["simulate", "--histories"], SCENARIO, writes_histories=True),
                Command(refusing, "audit", ["audit", "--receipt", "0:0:a=0"], histories(refusing, ABFT)),
                Command(refusing, "draw", ["draw"], histories(refusing, ABFT)),
                Command(refusing, "deliver", ["deliver"], frames(refusing, ABFT)),
                Command(refusing, "sign", ["sign", "report"], b""),
                Command(refusing, "cluster", ["cluster", "--rounds", "0"], b""),
                LiveCluster(refusing)]
    failed = 0
    with concurrent.futures.ThreadPoolExecutor(JOBS) as pool:
        for command in commands:
            tries = [("REFUSED", at) for at in range(1, command.allocations + 1, command.step)]
            tries += [("REFUSED_FROM", at) for at in range(1, command.allocations + 1, 4 * command.step)]
            ends = collections.Counter(pool.map(lambda one: try_one(command, *one), tries))
            failed += sum(count for end, count in ends.items() if end.startswith("WRONG"))
            told = "; ".join(f"{end}: {count}" for end, count in sorted(ends.items()))
            print(f"{command.name}: {command.allocations} allocations, {len(tries)} runs: {told}", flush=True)
    return failed


if __name__ == "__main__":
    sys.exit(1 if main() else 0)
