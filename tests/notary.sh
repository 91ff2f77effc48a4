#!/usr/bin/env bash
# The program `notary`, an application of one's own: its scenario, the words that it has and refuses, and a live cluster with a client,
# whose ledger is audited. The last line is `N passed, M failed`.
set -u
cd "$(dirname "$0")/.." || exit 1
. tests/harness.sh
build notary --help
notary=$built

# state DIGEST..: the SHA-256 of a register's state, by another implementation
state() {
    python3 -c 'import hashlib, sys
digests = [bytes.fromhex(digest) for digest in sys.argv[1:]]
print(hashlib.sha256(b"\x80" + len(digests).to_bytes(8, "big") + b"".join(digests)).hexdigest())' "$@"
}

# Two blocks have one document, and the second registers it no more.
first=$(printf the-digest-of-the-first-document | od -An -v -tx1 | tr -d ' \n')
cp examples/notary/one-document-twice.out "$room/wanted-out" || exit 1
: >"$room/wanted-err"
check 'one document twice' 0 "'$notary' simulate <examples/notary/one-document-twice.txt"
runs 'its state' 0 "info 1 2 $(state "$first")"$'\n' "tail -n 1 examples/notary/one-document-twice.out"
runs 'its pictures and its audit' 0 $'ledger 2\n<svg\n' \
    "'$notary' simulate --histories <examples/notary/one-document-twice.txt >$room/histories
    '$notary' audit <$room/histories | grep ledger; '$notary' draw <$room/histories | grep -o '^<svg'"

# Its words: its own name, its own transaction by default, and no choice of an application.
runs 'a version' 0 $'notary 0.1.0\n' "'$notary' --version"
runs 'its name in a usage line' 0 $'Usage: notary deliver [OPTIONS]\n' "'$notary' deliver --help | grep Usage"
runs 'no application to choose' 1 '0' "'$notary' serve --help | grep -c -e --kind | tr -d '\\n'"
runs 'a report of its transaction is accepted' 0 $'accepted\n' "'$notary' sign report | '$notary' deliver"
faults 'its name after a file that is named' 2 $'error: the scenario comes on standard input: notary simulate <text\n' "'$notary' simulate text"
faults 'a transaction that it refuses' 2 $'error: --tx \'a=1\' is refused by the application\'s check: code 1\n' "'$notary' cluster --tx a=1"
for kind in 1 2 3 4; do
    runs "the kind $kind" 1 $'line 1 bad\n' "printf 'config 4 1 $kind\\n' | '$notary' simulate"
done

# A live cluster: a document is registered, has a number, and isn't registered again; the audit finds it in the ledger.
mkfifo "$room/input"
"$notary" serve --port 0 --http 0 --tree 10 --base-ms 50 --rounds 100000 --sessions 10 --stop-at-eof --quiet --histories "$room/run" \
    <"$room/input" >"$room/served" 2>"$room/faults" &
server=$!
exec 9>"$room/input"
for _ in {1..600}; do
    [ "$(wc -l <"$room/served")" -ge 2 ] && break
    sleep 0.1
done
ask="python3 tests/http_clients.py $(sed -n 's/^http //p' "$room/served")"
document=$(printf 'a contract' | sha256sum | cut -d ' ' -f 1)
runs 'the application of a live cluster' 0 $'own\n' "$ask fields /abci_info response.data"
runs 'a document is registered' 0 $'0 0\n' "$ask fields '/broadcast_tx_commit?tx=0x$document' check_tx.code deliver_tx.code"
runs 'its number' 0 $'AAAAAQ==\n' "$ask fields '/abci_query?data=0x$document' response.value"
runs 'it is not registered again' 0 $'2 0\n' "$ask settle; $ask fields '/broadcast_tx_commit?tx=0x$document' check_tx.code height"
runs 'what is no digest' 0 $'1\n' "$ask fields '/broadcast_tx_sync?tx=\"a=1\"' code"
runs 'the hash of its state' 0 "$(state "$first" "$document")"$'\n' \
    "$ask fields /abci_info response.last_block_app_hash | base64 -d | od -An -v -tx1 | tr -d ' \\n'; echo"
exec 9>&-
wait "$server"
runs 'the server ends well' 0 $'0\n' "echo $?"
runs 'its ledger is audited again' 0 '1' "'$notary' audit --tree 10 <$room/run | grep -c '^[0-9]* \\[.*\\\\' | tr -d '\\n'"
finish
