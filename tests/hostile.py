#!/usr/bin/env python3
"""Plays hostile scenarios, and checks of each what must be true of the histories: tests/hostile.py ABFT FIRST COUNT [JOBS], the seeds from
FIRST on. `conclusions.py` follows the histories of the correct replicas, and `abft audit` must answer the same ledger. Prints what the
runs had in them; of one that fails the line that plays it again. `hostile.py ABFT show SEED` prints a scenario."""
import collections
import concurrent.futures
import os
import subprocess
import sys

sys.dont_write_bytecode = True
sys.path.insert(0, os.path.join(os.path.dirname(os.path.abspath(__file__)), "..", "examples"))
from conclusions import Untrue, follow, require  # noqa: E402
from records import read_histories, spell_batch  # noqa: E402
from scenario_making import make  # noqa: E402

CAUSES = {1: "Malformed", 2: "Signer", 3: "NoRow", 4: "WrongRound", 5: "WrongPhase", 6: "NotOwner", 7: "Repeated", 8: "BadSignature",
          9: "BadProof", 10: "TableFull", 11: "NotMine"}


def run(*words, data):
    done = subprocess.run(words, input=data, stdout=subprocess.PIPE, stderr=subprocess.PIPE)
    require(not done.stderr, "standard error has", done.stderr)
    require(done.returncode == 0, words[1:], "ends with status", done.returncode, "and prints", done.stdout[:200])
    return done.stdout


def ledger_lines(ledger):
    return f"ledger {len(ledger)}\n" + "".join(f"{height} {spell_batch(batch)}\n" for height, batch in enumerate(ledger, 1))


def play(abft, seed):
    """What a scenario had in it. Raises Untrue if something doesn't hold."""
    scenario = make(seed, abft)
    cluster, text = scenario.cluster, scenario.text().encode()
    data = run(abft, "simulate", "--histories", data=text)
    histories = read_histories(data)
    require(list(histories) == cluster.correct, "the histories are of", list(histories))
    replicas, ledger = follow(histories, cluster.replicas, cluster.faults, cluster.kind, cluster.frames)
    options = {"--n": cluster.replicas, "--t": cluster.faults, "--kind": cluster.kind, "--frames": cluster.frames}
    told = run(abft, "audit", *(f"{name}={value}" for name, value in options.items()), data=data)
    require(told.decode() == ledger_lines(ledger), "the audit answers", told[:200])
    if seed % 5 == 0:
        check_printed(run(abft, "simulate", data=text).decode().splitlines(), ledger)
    return counts(scenario, replicas, ledger)


def check_printed(lines, ledger):
    """The blocks that are printed are those of the ledger."""
    for line in lines:
        words = line.split(" ")
        if words[0] == "execute" and len(words) > 3:
            require(words[3] == spell_batch(ledger[int(words[2]) - 1]), "another block is printed:", line)


def counts(scenario, replicas, ledger):
    found = collections.Counter({"runs": 1, "lines": len(scenario.lines), "blocks": len(ledger)})
    found["heights decided"] = len({height for replica in replicas.values() for height in replica.decided})
    found["runs that decide"] = min(found["heights decided"], 1)
    found["runs with a block"] = min(found["blocks"], 1)
    found["runs with frames of version 2"] = scenario.cluster.frames - 1
    found["blocks of more than 16 transactions"] = sum(len(batch) > 16 for batch in ledger)
    for replica in replicas.values():
        found["frames sent"] += len(replica.sent)
        found["frames accepted"] += len(replica.accepted)
        found["replicas that are mute"] += replica.is_mute
        found["heights given up"] += replica.floor - 1
        for cause, count in replica.ignored.items():
            found[f"ignored {cause:2} {CAUSES[cause]}"] += count
    for line in scenario.lines:
        word = line.split()[0]
        if word.startswith("lie-") or word == "inject":
            found[f"lines {word}"] += 1
    return found


def try_seed(abft, seed):
    try:
        return seed, play(abft, seed), None
    except (Untrue, AssertionError, ValueError, KeyError, IndexError) as fault:
        return seed, None, f"{type(fault).__name__}: {fault}"


def main(abft, first, count, jobs="2"):
    seeds = range(int(first), int(first) + int(count))
    total, failed = collections.Counter(), 0
    with concurrent.futures.ProcessPoolExecutor(int(jobs)) as pool:
        for seed, found, fault in pool.map(try_seed, [abft] * len(seeds), seeds):
            if fault is None:
                total += found
            else:
                failed += 1
                print(f"failed: {fault}\n    {sys.argv[0]} {abft} {seed} 1", flush=True)
    for name in sorted(total):
        print(f"{total[name]:10} {name}")
    return failed + sum(not is_there for is_there in shows_something(total))


def shows_something(total):
    """A hundred runs that decide nothing, or in which a frame is never ignored for some cause, would show little."""
    if total["runs"] >= 100:
        yield 2 * total["runs that decide"] > total["runs"]
        yield all(total[f"ignored {cause:2} {name}"] for cause, name in CAUSES.items())


if __name__ == "__main__":
    if sys.argv[2] == "show":
        print(make(int(sys.argv[3]), sys.argv[1]).text(), end="")
    else:
        sys.exit(1 if main(*sys.argv[1:]) else 0)
