#!/usr/bin/env bash
# Types a document's commands, word for word: tests/typed.sh DOCUMENT. Each line that begins with `    $ ` is typed into one shell, in a
# folder that has `docs`, `examples`, `tests` and the built program, and what the shell prints is compared with the lines that the
# document shows below it. As a reader does, the script types a line once all that the document shows before it is there, at most two
# minutes later. A line with a prompt that wasn't typed is a failure. The last line is `N passed, M failed`.
#
# What is the same in every run is compared to the letter. What depends on the moment at which a client asks is compared in shape: the
# index of an entry, the heights and the number of blocks may be any number, the statement that an audit finds unsent may be another one,
# and the blocks are compared by their transactions, each once, in the order in which they come first. A document may break a long line:
# the parts after the first have two spaces more.
set -u
cd "$(dirname "$0")/.." || exit 1
. tests/harness.sh
document=$1
build abft --help
seconds=120

mkdir -p "$room/clone/crates/abft/out"
ln -s "$(realpath "$built")" "$room/clone/crates/abft/out/abft"
ln -s "$PWD/docs" "$PWD/examples" "$PWD/tests" "$room/clone/"

# shape: standard input, with a letter for each number that depends on the moment, and one line for all blocks
shape() {
    awk '/^[0-9]+ \[.*\]$/ {
            transactions = substr($0, index($0, "[") + 1); sub(/\]$/, "", transactions)
            count = split(transactions, each, ",")
            for (i = 1; i <= count; i++) if (!(each[i] in seen)) { seen[each[i]] = 1; ran = ran " " each[i] }
            blocks = 1
            next
        }
        blocks { print "blocks:" ran; blocks = 0 }
        { print }
        END { if (blocks) print "blocks:" ran }' |
        sed -E 's/^([0-9]+):[0-9]+:/\1:I:/; s/^height [0-9]+:/height H:/; s/^(commits [0-9]+) [0-9]+$/\1 C/; s/^ledger [0-9]+$/ledger C/
            s/^"height":"[0-9]+"/"height":"H"/; s/"index":[0-9]+/"index":I/; s/^(fault [23] [A-Za-z]+ [0-9]+) [0-9]+/\1 I/
            s/^Entry [0-9]+ of/Entry I of/; s/^(Entry I of replica [0-9]+.s history accepts) [^0-9]* of height [0-9]+ and phase [0-9]+ that/\1 S that/'
}

# shown K: what the document shows below its K-th line with a prompt, with its broken lines whole
shown() {
    awk '/^  [^ ]/ && NR > 1 { printf " %s", substr($0, 3); next }
        NR > 1 { print "" }
        { printf "%s", $0 }
        END { if (NR) print "" }' "$room/shown.$1"
}

# fits K: what the shell printed from the K-th line to the next one has the shape of what the document shows there
fits() {
    awk -v line="line $1" '$0 == line { on = 1; next } on && /^line [0-9]+$/ { exit } on { print }' "$room/said" | shape >"$room/got"
    cmp -s "$room/got" <(shown "$1" | shape)
}

# The lines to type, and what the document shows below each.
: >"$room/lines"
awk -v room="$room" '/^    \$ / { n++; print substr($0, 7) >(room "/lines"); shows = room "/shown." n; printf "" >shows; next }
    !/^    / { shows = "" }
    shows != "" { print substr($0, 5) >shows }' "$document"
mapfile -t lines <"$room/lines"

# The document names ports. If one is taken, as by another run of this script, that server has to end first.
for port in $(sed -nE 's/^    \$ //p' "$document" | grep -oE -- '--(port|http) [0-9]+' | cut -d ' ' -f 2); do
    for _ in {1..300}; do
        python3 -c 'import socket, sys; socket.create_server(("127.0.0.1", int(sys.argv[1]))).close()' "$port" 2>/dev/null && break
        sleep 1
    done
done

# The shell has a group of its own, so that nothing which it started outlives the script.
mkfifo "$room/typed"
(cd "$room/clone" && exec setsid bash <"$room/typed" >"$room/said" 2>&1) &
shell=$!
exec 8>"$room/typed"
trap 'exec 8>&-; kill -- "-$shell" 2>/dev/null; wait "$shell" 2>/dev/null; rm -rf "$room"' EXIT

typed=0
for line in "${lines[@]}"; do
    typed=$((typed + 1))
    printf 'echo line %d\n%s\n' "$typed" "$line" >&8
    until=$((SECONDS + seconds))
    until fits "$typed" || [ "$SECONDS" -ge "$until" ]; do
        sleep 0.1
    done
    if fits "$typed"; then
        passed=$((passed + 1))
    else
        failed=$((failed + 1))
        printf 'failed: %s\nprinted:\n%s\nwhere %s shows:\n%s\n' "$line" "$(head -c 1000 "$room/got")" "$document" "$(shown "$typed" | shape)"
        break
    fi
done

# The audits of the saved histories find as many blocks as the cluster's own.
if [ "$(grep -E '^ledger [0-9]+$' "$room/said" | sort -u | wc -l)" = 1 ]; then
    passed=$((passed + 1))
else
    failed=$((failed + 1))
    printf 'failed: not one ledger:\n%s\n' "$(grep -E '^ledger ' "$room/said")"
fi

# Each line of the document that shows a prompt was typed, and none printed anything after its time.
prompts=$(grep -cE '^[[:space:]]*(\$|%|>) ' "$document")
if [ "$typed" -gt 0 ] && [ "$typed" = "$prompts" ]; then
    passed=$((passed + 1))
else
    failed=$((failed + 1))
    printf 'failed: of %d lines with a prompt in %s %d were typed\n' "$prompts" "$document" "$typed"
fi
exec 8>&-
[ "$failed" = 0 ] || kill -- "-$shell" 2>/dev/null
wait "$shell" 2>/dev/null
if [ "$failed" = 0 ]; then
    late=0
    for k in $(seq "$typed"); do
        fits "$k" || late=$k
    done
    if [ "$late" = 0 ]; then
        passed=$((passed + 1))
    else
        failed=$((failed + 1))
        printf 'failed: line %d with a prompt printed more than %s shows\n' "$late" "$document"
    fi
fi
finish
