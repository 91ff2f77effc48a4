#!/usr/bin/env python3
"""Looks for lines of documents with more than 120 columns. Not counted are the rows of tables and the lines of code blocks, which Markdown
can't break, and the characters of URLs. Prints a line for each document: `ok` and its name, or `bad`, its name and the numbers of its lines
that are too long.

usage: columns.py DOCUMENT.."""
import re
import sys

MOST = 120
URL = re.compile(r"https?://[^\s)>]+")
# the row below the header of a table
DELIMITERS = re.compile(r"\s*\|?[\s:-]*---[\s:|-]*")


def prose_of(lines):
    """The numbers, from 1 on, and the texts of the lines that are neither in a table nor in a code block."""
    is_fenced = is_code = is_table = False
    before = ""
    for number, line in enumerate(lines, 1):
        if line.lstrip().startswith("```"):
            is_fenced = not is_fenced
        elif not is_fenced:
            is_blank = not line.strip()
            below = lines[number] if number < len(lines) else ""
            if is_blank:
                is_table = False
            elif "|" in line and "|" in below and DELIMITERS.fullmatch(below):
                is_table = True
            # An indented block is code if it begins after an empty line.
            is_indented = line.startswith("    ")
            is_code = is_indented and (is_code or not before.strip()) or is_blank and is_code
            if not (is_blank or is_table or is_code):
                yield number, line
        before = line


def too_long(document):
    """The numbers of the lines that are too long."""
    with open(document, encoding="utf-8") as it:
        lines = it.read().splitlines()
    return [number for number, line in prose_of(lines) if len(URL.sub("", line)) > MOST]


if __name__ == "__main__":
    for document in sys.argv[1:]:
        numbers = too_long(document)
        print("bad" if numbers else "ok", document, *numbers)
