#!/usr/bin/env python3
"""Which functions a running check spends its time on: run it beside `rt check`, `rt test` or `rt ci`.

    .ci/dearest.py [COUNT]

The prover writes a file for each part of a function that it is done with, one after another, into a folder that goes when it ends.
The time from one file to the next is counted for the function of the later one. For each check that runs, the crate, the
seconds so far, and the COUNT dearest functions, 20 if left out."""
import collections
import glob
import os
import re
import sys
import tempfile

FOLDERS = "rattle-logic-built-locked-*"
NAME = re.compile(r"Rattle-(\w+)-(?:proofs|specs)\.(?:contracts\.)?(.+)\.oantt")
# What the prover calls the parts of a function.
PARTS = {"Code", "Goals", "Instances", "Key", "Kinds", "Layout", "Lts", "Met", "Mir", "Named", "Proof", "Reads", "Statement", "Symbol", "Tie"}


def files_of(folder):
    """The files of a folder as (time, crate, function), the earliest first."""
    found = []
    for name in os.listdir(folder):
        is_part = NAME.fullmatch(name)
        if is_part:
            crate, path = is_part.groups()
            words = [word.removesuffix("+run") for word in path.split(".") if word not in PARTS]
            found.append((os.stat(f"{folder}/{name}").st_mtime, crate, ".".join(words[:3])))
    return sorted(found)


def tell(folder, count):
    files = files_of(folder)
    if not files:
        return
    seconds = collections.Counter()
    for (before, _, _), (time, _, function) in zip(files, files[1:]):
        seconds[function] += time - before
    crate = collections.Counter(crate for _, crate, _ in files).most_common(1)[0][0]
    print(f"{crate}: {files[-1][0] - files[0][0]:.0f} s")
    for function, spent in seconds.most_common(count):
        print(f"{spent:8.1f} {function}")


def main(words):
    count = int(words[0]) if words else 20
    for folder in glob.glob(f"{tempfile.gettempdir()}/{FOLDERS}"):
        try:
            tell(folder, count)
        except FileNotFoundError:
            # (the check ended meanwhile)
            continue


if __name__ == "__main__":
    main(sys.argv[1:])
