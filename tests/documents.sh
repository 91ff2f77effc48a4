#!/usr/bin/env bash
# What the documents name is there: each `NAME` (`FILE:LINE`) is in that line, each file named below crates/, docs/ or tests/ exists, and
# so does what each link leads to. The headline's definitions have as many files and lines as the documents say. The last line is
# `N passed, M failed`.
set -u
cd "$(dirname "$0")/.." || exit 1
passed=0
failed=0

count() {
    if [ "$1" = yes ]; then
        passed=$((passed + 1))
    else
        failed=$((failed + 1))
        printf 'failed: %s\n' "$2"
    fi
}

while read -r name file line; do
    if sed -n "${line}p" "$file" 2>/dev/null | grep -qw -- "$name"; then
        count yes
    else
        count no "$name is not in line $line of $file"
    fi
done < <(grep -ohE '`[A-Za-z_]+` \(`[^`]*:[0-9]+`' *.md docs/*.md | sed -E 's/`([A-Za-z_]+)` \(`([^`]*):([0-9]+)`/\1 \2 \3/')

while read -r file; do
    if [ -e "$file" ]; then
        count yes
    else
        count no "there is no $file"
    fi
done < <(grep -ohE '`(crates|docs|tests)/[A-Za-z0-9_/.-]*[A-Za-z0-9_]' *.md docs/*.md | tr -d '`' | grep -v -e '/out/' -e NAME | sort -u)

links=$(tests/links.py *.md docs/*.md) || count no "tests/links.py followed nothing"
while read -r found link; do
    case $found in
        ok) count yes ;;
        *) count no "a link leads nowhere: $link" ;;
    esac
done <<<"$links"

# No line has more than 120 columns, except in tables and code.
columns=$(tests/columns.py README.md CONTRIBUTING.md CHANGELOG.md docs/*.md) || count no "tests/columns.py counted nothing"
while read -r found document lines; do
    case $found in
        ok) count yes ;;
        *) count no "lines of $document have more than 120 columns: $lines" ;;
    esac
done <<<"$columns"

# How much the headline's definitions are, in the words of both documents that say so.
counts=$(tests/definitions.py) || count no "tests/definitions.py counted nothing"
while read -r counted; do
    for document in README.md docs/PROMISES.md; do
        if tr -s ' \n' ' ' <"$document" | grep -qF -- "$counted"; then
            count yes
        else
            count no "$document doesn't say: $counted"
        fi
    done
done <<<"$counts"

printf '%d passed, %d failed\n' "$passed" "$failed"
[ "$failed" = 0 ]
