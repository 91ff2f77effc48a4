#!/usr/bin/env bash
# Draws the stored scenarios again and compares the pictures with those in docs/pictures, checks that each is XML in which every element
# has a title, and draws parts of runs. The last line is `N passed, M failed`. `tests/pictures.sh --write` writes the pictures.
set -u
cd "$(dirname "$0")/.." || exit 1
. tests/harness.sh
build abft --version
abft=$built

# is_picture FILE: the file is XML without scripts, and each group has one title, but for the legend's
is_picture() {
    python3 - "$1" <<'PYTHON'
import sys
import xml.etree.ElementTree as tree

SVG = "{http://www.w3.org/2000/svg}"
root = tree.parse(sys.argv[1]).getroot()
assert root.tag == SVG + "svg"
assert not list(root.iter(SVG + "script"))
groups = [group for group in root.findall(SVG + "g") if "transform" not in group.attrib]
assert groups
for group in groups:
    assert len(group.findall(SVG + "title")) == 1 and group.find(SVG + "title").text
    assert group.find(SVG + "path") is not None or group is groups[0]
PYTHON
}

# picture NAME: the scenario's picture is the stored one
picture() {
    local stored=docs/pictures/$1.svg made=$room/$1.svg
    "$abft" simulate --histories <"examples/$1.txt" >"$room/$1.histories"
    "$abft" draw <"$room/$1.histories" >"$made"
    if [ "${write:-}" = yes ]; then
        cp "$made" "$stored"
    fi
    if cmp -s "$made" "$stored" && is_picture "$made"; then
        passed=$((passed + 1))
    else
        failed=$((failed + 1))
        echo "failed: $stored is not the picture of examples/$1.txt"
    fi
}

# counts NAME WANTED PATTERN WORDS..: how many lines of the picture that the words draw of plain-run have the pattern
counts() {
    local name=$1 wanted=$2 pattern=$3 got
    shift 3
    got=$("$abft" draw "$@" <"$room/plain-run.histories" | grep -c -- "$pattern")
    if [ "$got" = "$wanted" ]; then
        passed=$((passed + 1))
    else
        failed=$((failed + 1))
        echo "failed: $name: $got lines, not $wanted"
    fi
}

[ "${1:-}" != --write ] || write=yes
for scenario in plain-run two-locks two-proposals four-proposals retired-height lying-owner; do
    picture "$scenario"
done
counts 'each replica decides once' 4 '<title>height 1 decided: \[a=1\] '
counts 'each replica runs the block' 4 '<title>height 1 run '
counts 'a part has its rounds' 4 '<title>round ' --first 5 --last 8
counts 'a part has its decision' 1 '<title>height 1 decided: ' --first 5 --last 8
counts 'another height is empty' 0 '; accepted' --height 2
counts 'rounds past the last are empty' 0 '<title>round ' --first 20 --last 30
runs 'frames of version 2 have the same picture, which says so' 0 '' \
    "awk '{ print } /^config / { print \"frames 2\" }' examples/plain-run.txt | '$abft' simulate --histories | '$abft' draw --frames 2 |
    cmp - <(sed 's#<g><title>rounds [^<]*#&, frames of version 2#' docs/pictures/plain-run.svg)"
# Under another seed the first statement that a replica sends isn't signed: an audit and a picture name the same entry.
seed=00000000000000000000000000000000000000000000000000000000000000ff
"$abft" audit --seed "$seed" <"$room/plain-run.histories" 2>"$room/wanted-err" >/dev/null
printf 0 >"$room/wanted-out"
check 'a history that is no replay is drawn as far as it is one' 1 \
    "'$abft' draw --seed $seed <'$room/plain-run.histories' | grep -c '<title>height 1 decided: ' | tr -d '\n'"
runs 'an empty input has rows' 0 4 "'$abft' draw </dev/null | grep -c 'no history was handed in' | tr -d '\n'"
runs 'what is no histories is told' 1 $'bad history\n' "printf x | '$abft' draw"
finish
