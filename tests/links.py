#!/usr/bin/env python3
"""Follows the links of documents: [text](file#heading) and [text](#heading), files by the folder of the document, headings by the names that
GitHub gives them. Links to other hosts are left alone. Prints a line for each link, `ok` or `bad`, and the link.

usage: links.py DOCUMENT.."""
import os
import re
import sys


def text_of(document):
    with open(document, encoding="utf-8") as it:
        return it.read()


def names_of(document):
    """The names of a document's headings: lower case, without marks, with hyphens for spaces."""
    headings = re.findall(r"^#+ +(.+?) *$", text_of(document), re.M)
    return {re.sub(r"[^\w\- ]", "", heading.replace("`", "").lower()).replace(" ", "-") for heading in headings}


def is_there(document, target):
    path, _, name = target.partition("#")
    path = os.path.normpath(os.path.join(os.path.dirname(document), path)) if path else document
    return os.path.exists(path) and (not name or (os.path.isfile(path) and name in names_of(path)))


for document in sys.argv[1:]:
    for target in re.findall(r"\]\(([^)\s]+)\)", text_of(document)):
        if not re.match(r"[a-z]+:", target):
            print("ok" if is_there(document, target) else "bad", document, target)
