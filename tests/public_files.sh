#!/usr/bin/env bash
# The public file of a cluster, by the built program `abft`: `keys` prints it, and an auditor who has nothing else of the cluster reads its
# histories by it. The last line is `N passed, M failed`.
set -u
cd "$(dirname "$0")/.." || exit 1
. tests/harness.sh
build abft --help
abft=$built
example=$PWD/examples/plain-run.txt

# says NAME COMMAND..: the command ends with status 0
says() {
    local name=$1
    shift
    runs "$name" 0 '' "$*"
}

# refuses NAME STATUS ERROR COMMAND..: this one line on standard error, and nothing else
refuses() {
    faults "$1" "$2" "$3"$'\n' "${@:4}"
}

# Whoever runs the cluster draws its seed, prints its public file, and runs it.
mkdir "$room/operator" "$room/auditor"
(cd "$room/operator" && "$abft" keys --seed random --write-seed seed >cluster.toml &&
    "$abft" simulate --histories --seed-file seed <"$example" >histories) || exit 1
says 'the seed is its 64 digits and a line feed' "grep -Eqx '[0-9a-f]{64}' '$room/operator/seed' && [ \$(wc -c <'$room/operator/seed') = 65 ]"
runs 'only its owner may read the seed' 0 $'600\n' "stat -c %a '$room/operator/seed'"
says 'the public file is that of the seed' "'$abft' keys --seed-file '$room/operator/seed' | cmp - '$room/operator/cluster.toml'"
says 'it has nothing of the seed' "! grep -qi -f <(cut -c 1-16 '$room/operator/seed') '$room/operator/cluster.toml'"
refuses 'a seed that is there is not overwritten' 3 "error: can't create the file $room/operator/seed: File exists (os error 17)" \
    "'$abft' keys --seed random --write-seed '$room/operator/seed'"
says 'and is left as it was' "'$abft' keys --seed-file '$room/operator/seed' | cmp - '$room/operator/cluster.toml'"
says 'two seeds that are drawn differ' "'$abft' keys --seed random --write-seed '$room/second' | cmp -s - '$room/operator/cluster.toml'; [ \$? = 1 ]"
refuses 'a file in a folder that is not there' 3 "error: can't create the file $room/none/seed: No such file or directory (os error 2)" \
    "'$abft' keys --seed random --write-seed '$room/none/seed'"
says 'a full disk leaves no seed' "! '$abft' keys --seed random --write-seed /dev/full >'$room/full' 2>&1 && [ -c /dev/full ] && ! grep -q keys '$room/full'"

# The auditor gets the public file and the histories. No secret is in this shell: the operator's folder is gone.
cp "$room/operator/cluster.toml" "$room/operator/histories" "$room/auditor/"
"$abft" draw --seed-file "$room/operator/seed" <"$room/operator/histories" >"$room/picture"
rm -r "$room/operator"
as_auditor="cd '$room/auditor' && env -i '$abft'"
runs 'an audit by the public file alone' 0 $'ledger 1\n1 [a=1]\nreceipt ok\n' "$as_auditor audit --cluster cluster.toml --receipt 0:0:a=1 <histories"
says 'a picture by the public file alone' "$as_auditor draw --cluster cluster.toml <histories | cmp - '$room/picture'"
says 'an audit of the default seed is wrong' "$as_auditor audit <histories >/dev/null 2>&1; [ \$? = 1 ]"

# The file says all of the cluster.
awk '{ print } /^config / { print "keys 8 5"; print "frames 2" }' examples/plain-run.txt | "$abft" simulate --histories >"$room/other-histories" || exit 1
"$abft" keys --frames 2 --w 8 --kind kvstore >"$room/other.toml" || exit 1
runs 'an audit of frames of version 2 and other sizes' 0 $'ledger 1\n1 [a=1]\n' "'$abft' audit --cluster '$room/other.toml' <'$room/other-histories'"
says 'a file in another spelling' \
    "sed -e 's/^bits = 8/\"bits\" = 0x8 # bits of a digit/' -e 's/^    .*/\\U&/' '$room/other.toml' >'$room/spelled.toml' && '$abft' audit --cluster '$room/spelled.toml' <'$room/other-histories' | grep -q '^ledger 1'"
says 'thirteen replicas' "[ \$('$abft' keys --n 13 --t 4 --kind purse | grep -c '^    \"00000005') = 13 ]"

# What is no public file.
refuses 'no file' 3 "error: can't read the file $room/none: No such file or directory (os error 2)" "'$abft' audit --cluster '$room/none' </dev/null"
for bad in 'no = TOML at all:line 1 is no TOML' 'replicas = 4:faults is missing' "colour = 'blue':'colour' is no name of a cluster's file"; do
    printf '%s\n' "${bad%%:*}" >"$room/bad.toml"
    refuses "a file: ${bad%%:*}" 2 "error: the file $room/bad.toml is no public file of a cluster: ${bad#*:}" "'$abft' audit --cluster '$room/bad.toml' </dev/null"
done
sed 's/kvstore/own/' "$room/auditor/cluster.toml" >"$room/own.toml"
refuses 'the file of another program' 2 \
    "error: --cluster is the public file of a cluster that runs an application of this program, not '$room/own.toml'" "'$abft' draw --cluster '$room/own.toml' </dev/null"
printf 'bits = 4 # \377\n' >"$room/bytes.toml"
refuses 'bytes that are no text' 2 "error: the file $room/bytes.toml is no public file of a cluster: it is not UTF-8" "'$abft' audit --cluster '$room/bytes.toml' </dev/null"
{ cat "$room/auditor/cluster.toml"; head -c 65536 /dev/zero | tr '\0' '#'; } >"$room/long.toml"
refuses 'a file that is too long' 2 "error: the file $room/long.toml is no public file of a cluster: it has more than 65536 bytes" "'$abft' audit --cluster '$room/long.toml' </dev/null"

# Words that contradict each other.
refuses 'a size beside the file' 2 'error: --tree is not taken beside --cluster, whose file stands for it' "'$abft' audit --tree 5 --cluster '$room/own.toml' </dev/null"
refuses 'a seed beside the file' 2 'error: --seed-file is not taken beside --cluster, whose file stands for it' "'$abft' draw --seed-file x --cluster '$room/other.toml' </dev/null"
lost='error: --seed random and --write-seed go together: the new seed is kept in that file, or nowhere'
refuses 'a random seed that no file keeps' 2 "$lost" "'$abft' keys --seed random"
refuses 'a file for a seed that is not new' 2 "$lost" "'$abft' keys --write-seed '$room/third'"
says 'and is not made' "[ ! -e '$room/third' ]"

finish
