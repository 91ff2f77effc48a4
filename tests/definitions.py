#!/usr/bin/env python3
"""How much a reader of the headline's definitions has to read: the files of crates/ledger_model/specs that define the
five below, with all files there that these import, one from another, and their lines; and the lines of what abft's
applications mean. What the crate declares (its plain types) and what other crates define isn't counted. Each printed
line is a count, in the words of README.md and docs/PROMISES.md, where tests/documents.sh looks for it."""
import os
import re
import sys

SPECS = "crates/ledger_model/specs"
FIVE = {"Lawful": ["Lawful"], "Worlds": ["Runs", "NoForgery", "IsLedger", "Refines"]}
MEANING = "Kinds"
HERE = os.path.dirname(os.path.dirname(os.path.abspath(__file__)))


def text_of(name):
    with open(f"{HERE}/{SPECS}/{name}.antt", encoding="utf-8") as it:
        return it.read()


def imports_of(name):
    """The files of the folder that this one imports: `use Rattle.ledger_model.specs.NAME.{..}`, also `pub use`."""
    return re.findall(r"^ *(?:pub )?use Rattle\.ledger_model\.specs\.([A-Z]\w*)\b", text_of(name), re.M)


def all_of(names):
    """These files, and what they import, one from another."""
    found, waiting = set(), list(names)
    while waiting:
        name = waiting.pop()
        if name not in found:
            found.add(name)
            waiting += imports_of(name)
    return found


def lines_of(names):
    return sum(text_of(name).count("\n") for name in names)


def main():
    for file, names in FIVE.items():
        for name in names:
            if not re.search(rf"^(?:\w+ )?pub (?:record )?{name}\b", text_of(file), re.M):
                sys.exit(f"{SPECS}/{file}.antt doesn't define {name}")
    files = all_of(FIVE)
    print(f"{len(files)} files of `{SPECS}`, {lines_of(files):,} lines")
    print(f"{lines_of([MEANING])} lines (`{SPECS}/{MEANING}.antt`)")


if __name__ == "__main__":
    main()
