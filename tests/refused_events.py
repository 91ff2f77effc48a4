#!/usr/bin/env python3
"""Each event of a replica with each of its allocations refused in turn: tests/refused_events.py ABFT [JOBS [short]].

A scenario is a setup, the line of an event, and a rest in which all heights are decided. It is played with one allocation of the line
refused, and with the line a second time. Of each allocation whose refusal the line prints as `refused 5`:

- The histories of all replicas after the refused line have the bytes that they have before it.
- The second line and the rest print what they print without a refusal.
- The histories at the end are those without a refusal. A round end that was refused may have used leaves, at most one for each statement
  that it signs. So of that replica's signatures those made later may have a leaf later by so many, or contain such a signature; all else is
  compared byte by byte.
- `conclusions.py` follows these histories, and `abft audit` answers their ledger.

With `short` there is no rest: what is compared is what the second line prints, and the histories after it.

Prints for each event how many allocations its line has, how many of them refuse the step, and after how many a leaf or more was used. A
refused allocation of the verifier's cache leaves the answer as with memory. One of what isn't the step's own, as the text of the line, ends
the program with status 3, and these are counted apart. The status is 1 if something came otherwise."""
import collections
import concurrent.futures
import os
import subprocess
import sys
import threading

sys.dont_write_bytecode = True
from conclusions import Untrue, follow, require  # noqa: E402
from hostile import ledger_lines  # noqa: E402
from records import Lock, read_frame, read_histories  # noqa: E402
from refused_calls import Refusing  # noqa: E402

ABFT = sys.argv[1]
JOBS = int(sys.argv[2]) if len(sys.argv) > 2 else os.cpu_count()
IS_SHORT = sys.argv[3:] == ["short"]
REPLICAS = range(4)

# As examples/plain-run.txt, but with as much as a block and a row of heights have: sixteen transactions, four open heights.
CLUSTER = ["config 4 1 1", *(f"submit {r} k{n}={n}" for r in REPLICAS for n in range(16))]
OPEN = [*CLUSTER, *(f"propose {r} {h}" for h in range(1, 5) for r in REPLICAS)]
# A replica sends four frames at a time, one a height: its reports; its locks as the owner, or its acknowledgements; the locks that it
# holds. So frame 4 of replica 1, which owns phase 1, is its lock at height 1, and frame 4 of another is its acknowledgement there.
REPORTED = [*OPEN, "silent", *(f"pass {r} {index} 1" for r in (0, 2, 3) for index in range(4))]
DECIDED = [*OPEN, *["round"] * 4]
RUN = [*DECIDED, *["execute 1"] * 4]
# Eight rounds have at least one whole phase, whose owner decides each height that is open.
REST = [*["round"] * 8, *(f"execute {r}" for r in REPLICAS for _ in range(4))]


class Case:
    """An event at a replica: a line of a scenario, the lines before it, and how many statements the event signs."""

    def __init__(self, name, setup, line, replica, signs=0):
        self.name, self.line, self.replica, self.signs = name, line, replica, signs
        # The last line of the setup prints `refused 2`: with what a refused step of a round before it prints, that isn't the next line.
        self.setup = [*setup, "info 9"]
        # A replica that ended its round alone is one ahead: the others catch up.
        self.rest = [] if IS_SHORT else [f"end {r}" for r in REPLICAS if r != replica and line.startswith("end")] + REST
        self.once = [*self.setup, line, *self.rest]
        self.twice = [*self.setup, line, line, *self.rest]


CASES = [
    Case("propose the fourth height", OPEN[:-4] + [f"propose {r} 4" for r in (1, 2, 3)], "propose 0 4", 0),
    # The tables of a pool grow with its nineteenth transaction.
    Case("submit", [*OPEN, "submit 0 l=1", "submit 0 m=1"], "submit 0 n=1", 0),
    Case("query", RUN, "query 1 k1", 1),
    Case("execute", DECIDED, "execute 1", 1),
    Case("deliver a report", [*OPEN, "silent"], "pass 0 0 1", 1),
    Case("deliver a lock, place 2", [*REPORTED, "silent"], "pass 1 4 0", 0),
    Case("deliver an acknowledgement", [*OPEN, "round", "round", "silent"], "pass 0 4 1", 1),
    Case("deliver a lock, place 4", [*OPEN, "round", "round", "round", "silent"], "pass 2 8 0", 0),
    Case("round end to place 1", DECIDED, "end 0", 0, 4),
    Case("round end to place 2", [*OPEN, "round"], "end 1", 1, 4),
    Case("round end to place 3", [*OPEN, "round", "round"], "end 0", 0, 4),
    Case("round end to place 4", [*OPEN, "round", "round", "round"], "end 1", 1),
    Case("retire four heights", RUN, "retire 1 5", 1),
]


def leaf(signed):
    return int.from_bytes(signed.signature[:4], "big")


def leaves_later(found, wanted, case):
    """By how many leaves a statement of the case's replica is signed later than it is without a refusal, and the reports of that replica in
    its proof. All else has to be as without a refusal."""
    later = leaf(found) - leaf(wanted)
    statement, other = found.statement, wanted.statement
    if isinstance(statement, Lock) and isinstance(other, Lock):
        require(len(statement.proof) == len(other.proof), "has another proof")
        for report, wanted_report in zip(statement.proof, other.proof):
            yield from leaves_later(report, wanted_report, case)
        statement, other = statement._replace(proof=()), other._replace(proof=())
    require(statement == other, "says", statement, "and not", other)
    require(found.statement != wanted.statement or later or found.signature == wanted.signature, "is signed otherwise")
    require(later == 0 or statement.signer == case.replica, "replica", statement.signer, "uses another leaf")
    yield later


def leaves_used(found, wanted, case):
    """How many leaves the refusal used, by histories at the end, which else have to be those without a refusal."""
    laters = set()
    require(list(found) == list(wanted), "the histories are of", list(found))
    for replica, entries in found.items():
        require(len(entries) == len(wanted[replica]), "replica", replica, "has", len(entries), "entries")
        for entry, other in zip(entries, wanted[replica]):
            if entry == other:
                continue
            require((entry.kind, entry.why) == (other.kind, other.why), "answers", entry.kind, entry.why, "and not", other.why)
            for frame, wanted_frame in frames_of(entry, other):
                laters.update(leaves_later(read_frame(frame), read_frame(wanted_frame), case))
    laters.discard(0)
    require(len(laters) <= 1 and all(0 < later <= case.signs for later in laters), "leaves are later by", laters)
    return max(laters, default=0)


def frames_of(entry, other):
    """The frames of two entries that differ in frames alone."""
    if entry.kind == "deliver":
        return [(entry.given, other.given)]
    require(entry.kind == "end" and entry.why == 0, "another", entry.kind)
    sent, wanted = entry.reply, other.reply
    require((sent.mute, [to for to, _ in sent.frames]) == (wanted.mute, [to for to, _ in wanted.frames]), "sends otherwise")
    return [(frame, wanted_frame) for (_, frame), (_, wanted_frame) in zip(sent.frames, wanted.frames)]


def of_nobody(line):
    """A line that is read with as many allocations, and is refused, since its replica doesn't exist."""
    word, *others = line.split(" ")
    return " ".join([word, "9", *others[1:]]) if others else "info 9"


class Trial:
    """A case in runs with and without refused allocations. All texts have as many lines and bytes, so each is read with the same
    allocations."""

    def __init__(self, refusing, case):
        self.refusing, self.case = refusing, case
        self.size = sum(len(line) + 1 for line in case.twice) + 8 * len(case.twice)
        self.for_word = self.run(["simulate", "--histories"], ["bad"])[1] - self.run(["simulate"], ["bad"])[1]
        before, whole = self.lines(case.setup), self.lines(case.once)
        self.begins, self.ends = len(before), len(self.lines([*case.setup, case.line]))
        self.told = before + b"refused 5\n" + whole[len(before):]
        self.whole, self.before, self.at_end = whole, self.histories(case.setup), self.histories(case.once)
        self.repeated, self.at_repeated_end = self.lines(case.twice), self.histories(case.twice)
        self.check_ledger(self.at_end)

    def run(self, words, lines, **limits):
        """A run on the lines, then on lines of nobody in place of the others, and a comment that fills the text."""
        lines = [*lines, *map(of_nobody, self.case.twice[len(lines):])]
        text = "".join(line + "\n" for line in lines)
        text += "#" * (self.size - len(text)) + "\n"
        counts = os.path.join(self.refusing.room.name, str(threading.get_ident()))
        done, (allocations, _, _) = self.refusing.run([ABFT, *words], text.encode(), counts, **limits)
        return done, allocations

    def lines(self, lines, **limits):
        done, _ = self.run(["simulate"], lines, **limits)
        printed = done.stdout.splitlines(keepends=True)
        return b"".join(printed[:len(printed) - len(self.case.twice) + len(lines)])

    def histories(self, lines, refused=None):
        """The histories at the end. One word more on the command line takes some allocations more."""
        limits = {} if refused is None else {"REFUSED": refused + self.for_word}
        done, _ = self.run(["simulate", "--histories"], lines, **limits)
        require(done.returncode == 0, "writes no histories:", done.stderr)
        return done.stdout

    def first_allocation(self, printed):
        """The first allocation after so many bytes are printed: the least one from which on all can be refused without harm to them."""
        lines = [*self.case.setup, self.case.line]
        least, most = 1, self.run(["simulate"], lines)[1] + 1
        while least < most:
            middle = (least + most) // 2
            done, _ = self.run(["simulate"], lines, REFUSED_FROM=middle)
            is_later = done.stdout.startswith(self.whole[:printed])
            least, most = (least, middle) if is_later else (middle + 1, most)
        return least

    def outcome(self, at):
        """What comes of the line if this allocation is refused."""
        done, _ = self.run(["simulate"], self.case.twice, REFUSED=at)
        if done.returncode == 3 and done.stderr == b"error: out of memory\n" and done.stdout == self.whole[:self.begins]:
            return "not the step's"
        require(done.returncode == 0, "status", done.returncode, done.stderr)
        if done.stdout == self.repeated:
            require(self.histories(self.case.twice, at) == self.at_repeated_end, "changes a history")
            return "as with memory"
        require(done.stdout == self.told, "prints", done.stdout[self.begins:self.begins + 200])
        require(IS_SHORT or self.histories([*self.case.setup, self.case.line], at) == self.before, "changes a history")
        data = self.histories(self.case.twice, at)
        if data == self.at_end:
            return "refused"
        used = leaves_used(read_histories(data), read_histories(self.at_end), self.case)
        self.check_ledger(data)
        return f"refused, {used} leaves used"

    def check_ledger(self, data):
        """The histories are those of a ledger, after the rest of four blocks, for `conclusions.py` and for `abft audit`."""
        _, ledger = follow(read_histories(data), len(REPLICAS), 1, 1)
        audited = subprocess.run([ABFT, "audit"], input=data, stdout=subprocess.PIPE).stdout
        require((IS_SHORT or len(ledger) == 4) and audited.decode() == ledger_lines(ledger), "the audit answers", audited[:200])


def try_one(trial, at):
    try:
        return trial.outcome(at)
    except (Untrue, AssertionError, ValueError, KeyError, IndexError) as fault:
        return f"WRONG: {trial.case.name}, allocation {at}: {type(fault).__name__}: {fault}"


def main():
    refusing, failed = Refusing(), 0
    with concurrent.futures.ThreadPoolExecutor(JOBS) as pool:
        for case, trial in zip(CASES, pool.map(lambda case: Trial(refusing, case), CASES)):
            first, last = pool.map(trial.first_allocation, [trial.begins, trial.ends])
            ends = collections.Counter(pool.map(lambda at: try_one(trial, at), range(first, last)))
            failed += sum(count for end, count in ends.items() if end.startswith("WRONG"))
            told = "; ".join(f"{end}: {count}" for end, count in sorted(ends.items()))
            print(f"{case.name}: {last - first} allocations: {told}", flush=True)
    return failed


if __name__ == "__main__":
    sys.exit(1 if main() else 0)
