#!/usr/bin/env python3
"""Prints histories out of a file of histories: tests/pick.py FILE WORD.., each word the number of a replica, or R:COUNT for its first
entries alone, or R!INDEX for a history in which the frame of that entry is ignored as repeated."""
import os
import sys

sys.dont_write_bytecode = True
sys.path.insert(0, os.path.join(os.path.dirname(os.path.abspath(__file__)), "..", "examples", "audits"))
from histories import histories, spell  # noqa: E402


def main(file, words):
    with open(file, "rb") as data:
        found = histories(data.read())
    for word in words:
        replica = int(word[0])
        entries = found[replica]
        if word[1:2] == ":":
            entries = entries[:int(word[2:])]
        elif word[1:2] == "!":
            index = int(word[2:])
            assert entries[index][1] == b"\x03\x00", "the entry accepts no frame"
            entries = entries[:index] + [(entries[index][0], b"\x03\x07")] + entries[index + 1:]
        sys.stdout.buffer.write(spell(replica, entries))


main(sys.argv[1], sys.argv[2:])
