#!/usr/bin/env python3
"""Proves and builds libraries of crates.txt, each after those below it, and several at a time.

usage: tests/prove.py NAME..: proves what these crates depend on, but not the crates themselves
       tests/prove.py --also NAME..: proves these crates, too

Every run of rt locks the folder of each crate below its own, so two runs in one tree wait for each other. So each crate is proved in a
copy of the sources that it needs, beside the others; the libraries below it are linked, and what the proof leaves goes back into the
crate's own out/. At most as many crates are proved at once as there are processors. What all wait for is the longest chain of crates that
isn't proved yet: its lowest crate is checked by as many jobs as there are processors, each other one by its share of them. Prints a line
for each crate, and at the end what all of them took.
"""
import os
import resource
import shutil
import signal
import subprocess
import sys
import tempfile
import time

PARTS = ("src", "specs", "proofs")


def lines_of_crates():
    """The lines of crates.txt, by the crate that each is about."""
    with open("crates.txt", encoding="utf-8") as lines:
        texts = [line.split("#")[0].strip() for line in lines]
    return {line.split()[0].rstrip(":"): line for line in texts if line}


def dependencies():
    """The crates of crates.txt, each with the crates of this repository that it names."""
    rows = {name: line.partition(":")[2].split() for name, line in lines_of_crates().items()}
    return {name: [it for it in row if it in rows] for name, row in rows.items()}


def all_below(rows, name, found=None):
    """The crates that this one depends on, directly or not."""
    found = set() if found is None else found
    for it in rows[name]:
        if it not in found:
            found.add(it)
            all_below(rows, it, found)
    return found


def lines_in(name):
    """The number of lines of a crate, by which its proof is estimated."""
    count = 0
    for part in PARTS:
        for where, _, files in os.walk(f"crates/{name}/{part}"):
            for it in files:
                with open(os.path.join(where, it), "rb") as file:
                    count += file.read().count(b"\n")
    return count


def longest_chains(rows, names):
    """For each crate the lines of the longest chain of crates from it upwards."""
    lines = {name: lines_in(name) for name in names}
    above = {name: [it for it in names if name in rows[it]] for name in names}
    chains = {}

    def chain(name):
        if name not in chains:
            chains[name] = lines[name] + max(map(chain, above[name]), default=0)
        return chains[name]

    return {name: chain(name) for name in names}


class Proof:
    """The proof of one crate in a copy of what it needs."""

    def __init__(self, rows, name, jobs, scratch):
        self.name, self.began = name, time.time()
        self.root = os.path.join(scratch, name)
        os.makedirs(self.root)
        needed = all_below(rows, name) | {name}
        with open(f"{self.root}/crates.txt", "w", encoding="utf-8") as file:
            file.writelines(f"{line}\n" for it, line in lines_of_crates().items() if it in needed)
        for it in needed:
            for part in PARTS:
                if os.path.isdir(f"crates/{it}/{part}"):
                    shutil.copytree(f"crates/{it}/{part}", f"{self.root}/crates/{it}/{part}")
            if it != name:
                shutil.copytree(f"crates/{it}/out/rlib", f"{self.root}/crates/{it}/out/rlib", copy_function=os.link)
        self.folder = f"{self.root}/crates/{name}"
        # What an earlier check kept shortens this one.
        if os.path.isdir(f"crates/{name}/out"):
            shutil.move(f"crates/{name}/out", f"{self.folder}/out")
        os.makedirs(f"{self.folder}/out", exist_ok=True)
        self.said = open(f"{self.folder}/out/said", "wb")
        self.run = subprocess.Popen(["rt", "lib", "--jobs", str(jobs)], cwd=self.folder, stdout=self.said, stderr=subprocess.STDOUT, start_new_session=True)

    def end(self):
        """Puts back what the proof left, and says whether the crate is proved."""
        self.said.close()
        if os.path.isdir(f"{self.folder}/out"):
            shutil.move(f"{self.folder}/out", f"crates/{self.name}/out")
        shutil.rmtree(self.root, ignore_errors=True)
        if self.run.returncode:
            with open(f"crates/{self.name}/out/said", encoding="utf-8", errors="replace") as said:
                print("".join(said.readlines()[-20:]), end="")
            print(f"{self.name}: not proved", flush=True)
        else:
            print(f"{self.name}: proved in {time.time() - self.began:.0f} s", flush=True)
        return self.run.returncode == 0


def prove_all(rows, names, scratch):
    """Proves the crates. Returns whether all are proved; after a failure it starts no more."""
    processors = os.cpu_count() or 1
    chains = longest_chains(rows, names)
    waiting, proved, running, failed = set(names), set(), [], False
    try:
        while (waiting and not failed) or running:
            ready = sorted((it for it in waiting if not failed and set(rows[it]) & set(names) <= proved), key=lambda it: -chains[it])
            # What all wait for is the longest chain: its crate gets all processors, and each other one its share of them.
            longest = max((chains[it] for it in [*waiting, *(it.name for it in running)]), default=0)
            share = -(-processors // max(1, len(running) + len(ready)))
            for name in ready[: processors - len(running)]:
                waiting.remove(name)
                running.append(Proof(rows, name, processors if chains[name] == longest else share, scratch))
            time.sleep(0.2)
            for it in [it for it in running if it.run.poll() is not None]:
                running.remove(it)
                if it.end():
                    proved.add(it.name)
                else:
                    failed = True
    finally:
        for it in running:
            # rt and the checkers that it started
            os.killpg(it.run.pid, signal.SIGKILL)
            it.run.wait()
            it.end()
    return not failed


def main(words):
    rows = dependencies()
    also = words[:1] == ["--also"]
    wanted = words[1:] if also else words
    unknown = [it for it in wanted if it not in rows]
    if not wanted or unknown:
        sys.exit(__doc__ if not wanted else f"no such crate: {unknown[0]}")
    names = set().union(*(all_below(rows, it) for it in wanted)) | (set(wanted) if also else set())
    # Whoever ends this ends what it started, too, and keeps what was proved.
    signal.signal(signal.SIGTERM, lambda *_: sys.exit(1))
    began = time.time()
    # Beside the crates, so that a library can be linked and the result moved.
    with tempfile.TemporaryDirectory(prefix=".prove-", dir=".") as scratch:
        is_proved = prove_all(rows, names, os.path.abspath(scratch))
    used = resource.getrusage(resource.RUSAGE_CHILDREN)
    print(f"{len(names)} crates took {(time.time() - began) / 60:.1f} min, and {(used.ru_utime + used.ru_stime) / 60:.1f} min of processor time", flush=True)
    return 0 if is_proved else 1


if __name__ == "__main__":
    os.chdir(os.path.join(os.path.dirname(os.path.abspath(__file__)), ".."))
    sys.exit(main(sys.argv[1:]))
