#!/usr/bin/env bash
# Audits of histories by the built program `abft`: those of the plain run, in any order, cut and changed, and the stored files. The last
# line is `N passed, M failed`.
set -u
cd "$(dirname "$0")/.." || exit 1
. tests/harness.sh
build abft --help
abft=$built
"$abft" simulate --histories <examples/plain-run.txt >"$room/plain" || exit 1

# finds NAME OUTPUT COMMAND..: a ledger, or the receipt's line besides, with status 0 and nothing on standard error
finds() {
    runs "$1" 0 "$2" "${@:3}"
}

# blames NAME OUTPUT SENTENCE COMMAND..: a fault with status 1, and this sentence on standard error
blames() {
    printf '%s\n' "$2" >"$room/wanted-out"
    printf '%s\n' "$3" >"$room/wanted-err"
    check "$1" 1 "${@:4}"
}

# picked WORD..: the command that prints such histories of the plain run
picked() {
    printf "tests/pick.py '%s/plain' %s" "$room" "$*"
}

ledger=$'ledger 1\n1 [a=1]\n'
outside() {
    echo "replica $1 signed outside its history, or its history was cut, or taken before replica $2's."
}
broken() {
    echo "Entry $2 of replica $1's history has another reply than the protocol allows after the entries before it, or sends something that isn't signed with the replica's key: the options are not those of its cluster, the history was changed, or replica $1 breaks the rules."
}
needed='An audit needs the histories of at least 3 different replicas with numbers below 4'

# The plain run.
finds 'any order' "$ledger" "$(picked 3 0 2 1) | '$abft' audit"
finds 'a quorum' "$ledger" "$(picked 0 1 3) | '$abft' audit"
finds 'cut before anything was accepted' $'ledger 0\n' "$(picked 0:2 1:2 2:2 3:2) | '$abft' audit"
finds 'with no entry' $'ledger 0\n' "$(picked 0:0 1:0 2:0) | '$abft' audit"
blames 'a history that was cut' 'fault 3 Unsent 0 15 2' \
    "Entry 15 of replica 0's history accepts the report of height 1 and phase 2 that replica 2 signed, and replica 2's history doesn't send it: $(outside 2 0)" \
    "$(picked 3 0 2:8 1) | '$abft' audit"
blames 'a frame that was accepted is told as repeated' 'fault 2 NotReplay 0 3' "$(broken 0 3)" "$(picked '0!3' 1 2 3) | '$abft' audit"
blames 'too few' 'fault 1 Count' "$needed: 2 were given." "$(picked 0 1) | '$abft' audit"
blames 'none' 'fault 1 Count' "$needed: 0 were given." "'$abft' audit </dev/null"
blames 'one twice' 'fault 1 Count' "$needed: of the 4 that were given two are replica 1's." "$(picked 0 1 2 1) | '$abft' audit"
blames 'a smaller cluster than theirs' 'fault 1 Count' 'An audit needs the histories of at least 9 different replicas with numbers below 13: 4 were given.' \
    "'$abft' audit --n 13 --t 4 <'$room/plain'"
blames 'another application' 'fault 2 NotReplay 0 0' "$(broken 0 0)" "'$abft' audit --kind 3 <'$room/plain'"
blames 'another seed' 'fault 2 NotReplay 0 2' "$(broken 0 2)" "'$abft' audit --seed $(printf '1%.0s' {1..64}) <'$room/plain'"

# Frames of version 2.
awk '{ print } /^config / { print "frames 2" }' examples/plain-run.txt | "$abft" simulate --histories >"$room/second" || exit 1
finds 'frames of version 2' "$ledger" "'$abft' audit --frames 2 <'$room/second'"
runs 'frames of version 2 to an audit of version 1' 1 $'bad history\n' "'$abft' audit <'$room/second'"
blames 'frames of version 1 to an audit of version 2' 'fault 2 NotReplay 0 2' "$(broken 0 2)" "'$abft' audit --frames 2 <'$room/plain'"

tests/pick.py "$room/plain" 0 >"$room/mixed"
tests/pick.py "$room/second" 1 2 3 >>"$room/mixed"
runs 'frames of both versions to an audit of version 1' 1 $'bad history\n' "'$abft' audit <'$room/mixed'"
blames 'frames of both versions to an audit of version 2' 'fault 2 NotReplay 0 2' "$(broken 0 2)" "'$abft' audit --frames 2 <'$room/mixed'"

# Receipts.
finds 'a receipt' "${ledger}receipt ok"$'\n' "'$abft' audit --receipt 0:0:a=1 <'$room/plain'"
for wrong in 0:1:a=1 0:0:a=2 1:1:a=1 4:0:a=1 255:0:a=1 0:4294967295:a=1; do
    runs "the receipt $wrong" 1 "${ledger}receipt wrong"$'\n' "'$abft' audit --receipt $wrong <'$room/plain'"
done
runs 'a receipt of a replica whose history is not there' 1 "${ledger}receipt wrong"$'\n' "$(picked 0 1 3) | '$abft' audit --receipt 2:0:a=1"
blames 'a receipt beside a fault' 'fault 1 Count' "$needed: 2 were given." "$(picked 0 1) | '$abft' audit --receipt 0:0:a=1"

# Bytes that are no histories.
runs 'a byte less' 1 $'bad history\n' "head -c -1 '$room/plain' | '$abft' audit --receipt 0:0:a=1"
runs 'a byte more' 1 $'bad history\n' "(cat '$room/plain'; printf '\\000') | '$abft' audit"
runs 'a scenario' 1 $'bad history\n' "'$abft' audit <examples/plain-run.txt"

# The stored files: examples/audits/make.py made them.
stored() {
    echo "'$abft' audit --w 8 <examples/audits/$1.histories"
}
finds 'one ledger' "$ledger" "$(stored one-ledger)"
blames 'a fork' 'fault 3 Unsent 0 7 1' \
    "Entry 7 of replica 0's history accepts the report of height 1 and phase 2 that replica 1 signed, and replica 1's history doesn't send it: $(outside 1 0)" \
    "$(stored fork)"
blames 'a reply that was changed' 'fault 2 NotReplay 0 3' "$(broken 0 3)" "$(stored reply-changed)"
blames 'an entry that was dropped' 'fault 2 NotReplay 0 2' "$(broken 0 2)" "$(stored entry-dropped)"
blames 'an entry that is there twice' 'fault 2 NotReplay 0 4' "$(broken 0 4)" "$(stored entry-repeated)"
blames 'a signature of another statement' 'fault 2 NotReplay 0 3' "$(broken 0 3)" "$(stored signature-of-another)"

# Live clusters: what they print is an audit of the histories that they write.
"$abft" cluster --quiet --rounds 16 --base-ms 100 --histories "$room/live" >"$room/told"
runs 'the histories of a live cluster' 0 '' "'$abft' audit <'$room/live' | cmp - <(grep -v ^commits '$room/told')"
"$abft" cluster --quiet --frames 2 --rounds 16 --base-ms 100 --histories "$room/live" >"$room/told"
runs 'those of one with frames of version 2' 0 '' "'$abft' audit --frames 2 <'$room/live' | cmp - <(grep -v ^commits '$room/told')"
runs 'it has a ledger' 0 '' "grep -q '^ledger [1-9]' '$room/told'"
faults 'a file that can not be made' 3 $'error: can\'t write the file /: Is a directory (os error 21)\n' \
    "'$abft' cluster --quiet --rounds 0 --histories / >/dev/null"
runs 'no line is there then' 3 '' "'$abft' cluster --quiet --rounds 0 --histories / 2>/dev/null"
faults 'a file that takes nothing' 3 $'error: can\'t write the file /dev/full: No space left on device (os error 28)\n' \
    "'$abft' cluster --quiet --rounds 0 --histories /dev/full >/dev/null"
runs 'the lines are there all the same' 3 $'commits 0 0\ncommits 1 0\ncommits 2 0\ncommits 3 0\nledger 0\n' \
    "'$abft' cluster --quiet --rounds 0 --histories /dev/full 2>/dev/null"

# Streams that fail.
faults 'an input that is a folder' 3 $'error: standard input: Is a directory (os error 21)\n' "'$abft' audit <."
faults 'an output to a full disk' 3 $'error: standard output: No space left on device (os error 28)\n' "'$abft' audit <'$room/plain' >/dev/full"
runs 'an error stream that takes nothing' 1 $'fault 1 Count\n' "'$abft' audit </dev/null 2>/dev/full"

finish
