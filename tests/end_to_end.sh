#!/usr/bin/env bash
# The built program `abft` in real pipes. The last line is `N passed, M failed`.
set -u
cd "$(dirname "$0")/.." || exit 1
. tests/harness.sh
build abft --help
abft=$built

# signs NAME DIGEST OPTIONS..: the frame has this SHA-256, which another implementation of the formats gave
signs() {
    runs "$1" 0 "$2  -"$'\n' "'$abft' sign ${*:3} | sha256sum"
}

# refuses ERROR WORDS..: a fault of usage, told by this line
refuses() {
    faults "$1" 2 "$1"$'\n' "'$abft' ${*:2} </dev/null"
}

report="'$abft' sign report"
ack="'$abft' sign ack"
deliver="'$abft' deliver"
ones=$(printf '1%.0s' {1..64})
# Account 0 of a purse pays 5 to account 1.
payment='\00\01\00\00\00\05\00\00\00\00'

# What is signed.
signs 'the frame of a report' fef5daf079e8b79d180887781eafc7d7cf0f08b4e121cde58481074a6409a561 report
signs 'the frame of an acknowledgement' 7d79f5305780476abd4108db26bbaa087caea9822025c1a686228f4885fc6364 ack
signs 'a frame under a wide key' a04eda7e31c29f1f518583b0b724a00ab835f49d22c12e515e9e93130b076e18 \
    report --replica 2 --value b=7 --height 4096 --phase 1000000000 --w 8 --seed "$ones"
signs 'a frame in a larger cluster' b113df2cf81f4f1f9e2c836ac0c4d2dc5c8a13c24d658203c5c5b57e4aee84d6 \
    ack --replica 6 --n 7 --t 2 --value "'k=\\00v'" --height 9 --phase 3
signs 'a frame under a tall tree' e166d5da347005c0059f3877ff185008b2c48903f4028d030cd853e270966c7a ack --tree 10
# The seed of a file: 64 digits, with or without a line feed, or 32 bytes.
umask 077
printf '%s\n' "$ones" >"$room/key-line"
printf '%s' "$ones" >"$room/key-digits"
printf '\x11%.0s' {1..32} >"$room/key-bytes"
printf '%s\r\n' "$ones" >"$room/key-bad"
umask 022
cp "$room/key-line" "$room/key-shared"
chmod 640 "$room/key-shared"
for key in line digits bytes; do
    signs "a frame under the seed of a file: $key" a04eda7e31c29f1f518583b0b724a00ab835f49d22c12e515e9e93130b076e18 \
        report --replica 2 --value b=7 --height 4096 --phase 1000000000 --w 8 --seed-file "'$room/key-$key'"
done
faults 'a seed that others may read or change' 0 "warning: the mode of the file $room/key-shared lets other users read or change the seed"$'\n' \
    "'$abft' deliver --seed-file '$room/key-shared' </dev/null"
faults 'a seed file that is absent' 3 "error: can't read the file $room/none: No such file or directory (os error 2)"$'\n' \
    "'$abft' sign report --seed-file '$room/none'"
faults 'a seed file that is a folder' 3 "error: can't read the file $room: Is a directory (os error 21)"$'\n' \
    "'$abft' serve --seed-file '$room' --histories '$room/unmade'"
runs 'no histories of such a run' 1 '' "test -e '$room/unmade'"
runs 'the report is spelled exactly' 0 '00000945010000000100000001000001''03613d31010103613d3100092c' \
    "$report | head -c 29 | od -An -v -tx1 | tr -d ' \\n'"
runs 'its length' 0 $'2377\n' "$report | wc -c"
runs 'the length in the tallest tree' 0 $'2537\n' "$report --tree 10 | wc -c"

# What is delivered.
runs 'a report is accepted' 0 $'accepted\n' "$report | $deliver"
runs 'and then repeated' 0 $'accepted\nignored 7 Repeated\n' "($report; $report) | $deliver"
runs 'byte by byte' 0 $'accepted\n' "$report | dd bs=1 status=none | $deliver"
# Each line is there while the input is still open: the next frame is written only once the line of the one before was read.
at_once() {
    coproc replica { eval "$deliver"; }
    local line
    for _ in 1 2 3; do
        eval "$report" >&"${replica[1]}"
        read -r -t 60 -u "${replica[0]}" line || return
        echo "$line"
    done
}
runs 'a line for each frame at once' 0 $'accepted\nignored 7 Repeated\nignored 7 Repeated\n' \
    "report=${report@Q}; deliver=${deliver@Q}; $(declare -f at_once); at_once"
runs 'a wide key' 0 $'accepted\n' "$report --w 8 | $deliver --w 8"
runs 'a tall tree' 0 $'accepted\n' "$report --tree 10 | $deliver --tree 10"
runs 'a wide key and a tall tree' 0 $'accepted\n' "$report --w 8 --tree 10 | $deliver --w 8 --tree 10"
runs 'a larger cluster' 0 $'accepted\n' "$report --n 5 --replica 4 | $deliver --n 5"
runs 'a report of version 2' 0 $'accepted\n' "$report --frames 2 | $deliver --frames 2"
runs 'then that of version 2 is repeated' 0 $'accepted\nignored 7 Repeated\n' "($report; $report --frames 2) | $deliver --frames 2"
runs 'in the other order' 0 $'accepted\nignored 7 Repeated\n' "($report --frames 2; $report) | $deliver --frames 2"
runs 'a report of version 1 to frames of version 2' 0 $'accepted\n' "$report | $deliver --frames 2"
runs 'version 2 is malformed to version 1' 1 $'fault 2 Malformed\n' "$report --frames 2 | $deliver"
runs 'an acknowledgement of version 2' 0 $'ignored 4 WrongRound\n' "$ack --frames 2 | $deliver --frames 2"
runs 'the first bytes of version 2' 0 '00000945''11 0000093d''13 ' \
    "for what in report ack; do '$abft' sign \$what --frames 2 | head -c 5 | od -An -v -tx1 | tr -d ' \\n'; echo -n ' '; done"
runs 'a signature of version 1 under version 2' 0 $'ignored 8 BadSignature\n' \
    "$report | (head -c 4; head -c 1 >/dev/null; printf '\\021'; cat) | $deliver --frames 2"
runs 'version 1 by default' 0 '' "cmp <($report) <($report --frames 1)"
runs 'a statement of version 1 that is too long for it' 1 $'fault 2 Malformed\n' \
    "(printf '\\000\\002\\111\\361\\001'; head -c 150000 /dev/zero) | $deliver --frames 2"
runs 'too long for version 2' 1 $'fault 1 TooLong\n' "printf '\\000\\011\\047\\301' | $deliver --frames 2"
runs 'as long as version 2 may be' 1 $'cut\n' "printf '\\000\\011\\047\\300' | $deliver --frames 2"
runs 'another seed, in digits of either case' 0 $'accepted\n' "$report --seed ${ones%??}Ff | $deliver --seed ${ones%??}fF"
runs 'an acknowledgement is early' 0 $'ignored 4 WrongRound\n' "$ack | $deliver"
runs 'no round is open' 0 $'ignored 4 WrongRound\n' "$report | $deliver --rounds 0"
runs 'another height is open' 0 $'ignored 3 NoRow\n' "$report | $deliver --height 2"
runs 'the own report' 0 $'ignored 7 Repeated\n' "$report --replica 1 | $deliver"
runs 'another phase' 0 $'ignored 5 WrongPhase\n' "$report --phase 2 | $deliver"
runs 'the next phase' 0 $'accepted\n' "$report --phase 2 | $deliver --rounds 5"
runs 'a signer beyond the cluster' 0 $'ignored 2 Signer\n' "$report --n 5 --replica 4 | $deliver"
runs 'a transaction of a purse' 0 $'accepted\n' "$report --kind 3 --value '$payment' | $deliver --kind 3 --value '$payment'"
runs 'a signature of another seed' 0 $'ignored 8 BadSignature\n' "$report --seed $ones | $deliver"
runs 'a signature with a byte changed' 0 $'ignored 8 BadSignature\n' "($report | head -c 2376; printf X) | $deliver"
runs 'a wide key to narrow ones' 0 $'ignored 8 BadSignature\n' "$report --w 8 | $deliver"
runs 'a tall tree to short ones' 0 $'ignored 8 BadSignature\n' "$report --tree 10 | $deliver"
runs 'no input' 0 '' "$deliver </dev/null"
runs 'a frame without its last byte' 1 $'cut\n' "$report | head -c 2376 | $deliver"
runs 'too long' 1 $'fault 1 TooLong\n' "printf '\\000\\002\\111\\361' | $deliver"
runs 'malformed' 1 $'fault 2 Malformed\n' "printf '\\000\\000\\000\\001x' | $deliver"
runs 'an empty frame' 1 $'fault 2 Malformed\n' "printf '\\000\\000\\000\\000' | $deliver"
runs 'too long after a report' 1 $'accepted\nfault 1 TooLong\n' "($report; printf '\\000\\002\\111\\361') | $deliver"

# A history has 65,536 entries: a submission, a proposal, a round end and 65,533 frames.
"$abft" sign ack --w 8 >"$room/acks"
for _ in {1..8}; do
    cat "$room/acks" "$room/acks" >"$room/twice"
    mv "$room/twice" "$room/acks"
done
yes 'ignored 4 WrongRound' | head -n 65533 >"$room/wanted-out"
printf 'error: the history is full\n' >"$room/wanted-err"
check 'a full history' 3 "(for _ in {1..256}; do cat '$room/acks'; done) 2>/dev/null | $deliver"

# What the words say.
refuses "error: what to sign is 'report' or 'ack', not 'vote'" sign vote
refuses "error: --n is a number from 4 to 13, not 'abc'" sign report --n abc
refuses "error: --n is a number from 4 to 13, not '3'" deliver --n 3
refuses "error: --n is a number from 4 to 13, not '14'" sign report --n 14 --t 4
refuses "error: --n 6 is too few for --t 2: n is at least 3t + 1" deliver --n 6 --t 2
refuses "error: --t is a number from 1 to 4, not '0'" sign report --t 0
refuses "error: --t is a number from 1 to 4, not '+1'" sign report --t +1
refuses "error: --kind is 1, 2, 3, kvstore, counter or purse, not '4'" sign report --kind 4
refuses "error: --kind is 1, 2, 3, kvstore, counter or purse, not 'own'" sign report --kind own
refuses "error: --w is 4 or 8, not '5'" sign report --w 5
refuses "error: --w is 4 or 8, not '16'" sign report --w 16
refuses "error: --tree is 5 or 10, not '6'" deliver --tree 6
refuses "error: --http is a number from 0 to 65535, not '65536'" serve --http 65536
refuses "error: --frames is a number from 1 to 2, not '3'" deliver --frames 3
refuses "error: --seed is 64 hexadecimal digits, not '00'" sign report --seed 00
refuses "error: --replica is a number from 0 to 3, not '4'" sign report --replica 4
refuses "error: --replica is a number from 0 to 6, not '7'" deliver --n 7 --replica 7
refuses "error: --height is a number from 1 to 4096, not '4097'" sign report --height 4097
refuses "error: --height is a number from 1 to 4096, not ''" sign report --height "''"
refuses "error: --phase is a number from 1 to 1000000000, not '0'" sign report --phase 0
refuses "error: --phase is a number from 1 to 1000000000, not '4294967296'" sign report --phase 4294967296
refuses "error: --height is a number from 1 to 4, not '5'" deliver --height 5
refuses "error: --rounds is a number from 0 to 4000000000, not '4000000001'" deliver --rounds 4000000001
refuses 'error: --value has a space: write it \20' sign report --value "'a b'"
refuses "error: --value has ',': write it \\2c" deliver --value a,b
refuses "error: --value has '[': write it \\5b" sign report --value "'a['"
refuses 'error: --value has the byte c3: write it \c3' sign report --value $'h\xc3\xa9'
refuses 'error: --value has \61: write it a' sign report --value "'\\61'"
refuses "error: --value has '\\' without two lower-case hexadecimal digits behind it" sign report --value "'\\5C'"
refuses "error: --value has '\\' without two lower-case hexadecimal digits behind it" sign report --value "'a\\5'"
refuses "error: --value has '\\' without two lower-case hexadecimal digits behind it" sign report --value "'\\zz'"
refuses "error: --value is a transaction of 1 to 64 bytes, not ''" sign report --value "''"
refuses "error: --value is a transaction of 1 to 64 bytes, not '${ones}1'" sign report --value "${ones}1"
refuses "error: --value 'a=1' is refused by the application's check: code 1" deliver --kind 3
refuses "error: --tx 'a=1' is refused by the application's check: code 1" cluster --kind 3
refuses "error: --tx 'a=1' is refused by the application's check: code 1" serve --kind 3
refuses "error: --tx 'a=1234567' is refused by the application's check: code 1" cluster --kind 2 --tx a=1234567
refuses "error: --value '${payment/01/00}' is refused by the application's check: code 4" deliver --kind 3 --value "'${payment/01/00}'"
runs 'a cluster with a random seed' 0 $'commits 0 0\ncommits 1 0\ncommits 2 0\ncommits 3 0\nledger 0\n' "'$abft' cluster --quiet --seed random --rounds 0"
runs 'a purse by its name' 0 $'accepted\n' "$report --kind purse --value '$payment' | $deliver --kind 3 --value '$payment'"
runs 'a pool that a purse checks' 0 $'commits 0 0\ncommits 1 0\ncommits 2 0\ncommits 3 0\nledger 0\n' "'$abft' cluster --quiet --kind 3 --tx '$payment' --rounds 0"
refuses 'error: a word of the command line is not UTF-8' sign report --value $'\xff'
refuses 'error: a word of the command line is not UTF-8' $'\xff'
refuses "error: 'abft' requires a subcommand but one was not provided
  [subcommands: sign, deliver, simulate, cluster, serve, audit, draw, keys, help]

Usage: abft <COMMAND>

For more information, try '--help'."
refuses "error: unrecognized subcommand 'vote'

Usage: abft <COMMAND>

For more information, try '--help'." vote
refuses "error: the following required arguments were not provided:
  <what>

Usage: abft sign <what>

For more information, try '--help'." sign
refuses "error: unexpected argument '--speed' found

  tip: a similar argument exists: '--seed'

Usage: abft sign --seed <seed> <what>

For more information, try '--help'." sign report --speed 1
refuses "error: a value is required for '--value <value>' but none was supplied

For more information, try '--help'." deliver --value
refuses "error: --seed is 64 hexadecimal digits, not '00'" simulate --seed 00
refuses "error: --seed is 64 hexadecimal digits, not '${ones}1'" simulate --histories --seed "${ones}1"
refuses "error: --seed is 64 hexadecimal digits, not 'random'" audit --seed random
refuses "error: --seed is 64 hexadecimal digits or random, not '00'" serve --seed 00
refuses "error: --rounds is a number from 0 to 4000000000, not 'x'" serve --seed random --rounds x
refuses "error: --rounds is a number from 0 to 4000000000, not 'x'" serve --seed-file missing --rounds x
refuses "error: --tx 'a=1' is refused by the application's check: code 1" cluster --seed random --kind purse
refuses "error: the seed comes from --seed or from --seed-file, not from both" sign report --seed-file "'$room/none'" --seed "$ones"
refuses "error: --seed-file is a file of 64 hexadecimal digits, or of 32 bytes, not '-'" sign report --seed-file -
refuses "error: --seed-file is a file of 64 hexadecimal digits, or of 32 bytes, not '$room/key-bad'" sign report --seed-file "'$room/key-bad'"
refuses "error: --n is a number from 4 to 13, not '3'" sign report --seed-file "'$room/none'" --n 3
refuses "error: unexpected argument '--n' found

Usage: abft simulate [OPTIONS] <SCENARIO

For more information, try '--help'." simulate --n 4
refuses "error: unexpected argument 'scenario' found

Usage: abft simulate [OPTIONS] <SCENARIO

For more information, try '--help'." simulate --histories scenario
refuses 'error: the scenario comes on standard input: abft simulate <plain-run.txt' simulate plain-run.txt
refuses 'error: the scenario comes on standard input: abft simulate <plain-run.txt' simulate plain-run.txt --histories
refuses 'error: the frames come on standard input: abft deliver <frames.bin' deliver frames.bin --n 4
refuses 'error: the histories come on standard input: abft audit <histories' audit histories
refuses 'error: the histories come on standard input: abft draw <histories' draw histories
refuses "error: --receipt is R:I:TX, such as 0:0:a=1, with a transaction of 1 to 64 bytes, not '256:0:a'" audit --receipt 256:0:a
refuses "error: --receipt is R:I:TX, such as 0:0:a=1, with a transaction of 1 to 64 bytes, not '00:0:a'" audit --receipt 00:0:a
refuses "error: --receipt is R:I:TX, such as 0:0:a=1, with a transaction of 1 to 64 bytes, not '0:4294967296:a'" audit --receipt 0:4294967296:a
refuses "error: --receipt is R:I:TX, such as 0:0:a=1, with a transaction of 1 to 64 bytes, not '0:0:'" audit --receipt 0:0:
refuses "error: --height is a number from 0 to 4096, not '4097'" draw --height 4097
refuses "error: --last is a number from 0 to 4000000000, not 'x'" draw --last x
refuses "error: a value is required for '--histories <histories>' but none was supplied

For more information, try '--help'." cluster --histories
refuses "error: unexpected value 'true' for '--histories' found; no more were expected

Usage: abft simulate [OPTIONS] <SCENARIO

For more information, try '--help'." simulate --histories=true
refuses "error: the argument '--histories' cannot be used multiple times

Usage: abft simulate [OPTIONS] <SCENARIO

For more information, try '--help'." simulate --histories --histories
refuses "error: a value is required for '--seed <seed>' but none was supplied

For more information, try '--help'." simulate --seed
refuses "error: the argument '--n <n>' cannot be used multiple times

Usage: abft deliver [OPTIONS] <FRAMES

For more information, try '--help'." deliver --n 4 --n 4
refuses "error: --rounds is a number from 0 to 4000000000, not '4000000001'" cluster --rounds 4000000001
refuses "error: --base-ms is a number from 1 to 60000, not '0'" serve --base-ms 0
refuses "error: --base-ms is a number from 1 to 60000, not '60001'" cluster --base-ms 60001
refuses "error: --port is a number from 0 to 65535, not '65536'" serve --port 65536
refuses "error: --sessions is a number from 1 to 1000, not '0'" serve --sessions 0
refuses "error: --sessions is a number from 1 to 1000, not '1001'" serve --sessions 1001
refuses "error: --client-entries is a number from 0 to 65536, not '65537'" serve --client-entries 65537
refuses "error: --client-entries is a number from 0 to 65536, not '-1'" serve --client-entries=-1
refuses 'error: --tx has a space: write it \20' cluster --tx "'a b'"
refuses "error: --tx is a transaction of 1 to 64 bytes, not ''" serve --tx "''"
refuses "error: unexpected argument '--port' found

Usage: abft cluster [OPTIONS]

For more information, try '--help'." cluster --port 1
refuses "error: --log is off, error, warn, info, debug or trace, not 'loud'" cluster --log loud
refuses "error: --log is off, error, warn, info, debug or trace, not ''" serve --quiet --log=
refuses "error: unexpected value '1' for '--quiet' found; no more were expected

Usage: abft cluster --quiet

For more information, try '--help'." cluster --quiet=1
refuses "error: unexpected value '1' for '--stop-at-eof' found; no more were expected

Usage: abft serve --stop-at-eof

For more information, try '--help'." serve --stop-at-eof=1
refuses "error: unexpected argument '--client-entries' found

Usage: abft cluster [OPTIONS]

For more information, try '--help'." cluster --client-entries 1

# Streams that fail.
full='error: standard output: No space left on device (os error 28)'$'\n'
closed='error: standard output: Bad file descriptor (os error 9)'$'\n'
no_input='error: standard input: Bad file descriptor (os error 9)'$'\n'
folder='error: standard input: Is a directory (os error 21)'$'\n'
gone='error: standard output: Broken pipe (os error 32)'$'\n'
faults 'a frame to a full disk' 3 "$full" "$report >/dev/full"
faults 'a line to a full disk' 3 "$full" "$report | $deliver >/dev/full"
faults 'help to a full disk' 3 "$full" "'$abft' --help >/dev/full"
faults 'the version to a full disk' 3 "$full" "'$abft' --version >/dev/full"
faults 'a frame to a closed output' 3 "$closed" "$report >&-"
faults 'a line to a closed output' 3 "$closed" "$report | $deliver >&-"
faults 'help to a closed output' 3 "$closed" "'$abft' sign --help >&-"
faults 'a closed input' 3 "$no_input" "$deliver <&-"
faults 'an input that is a folder' 3 "$folder" "$deliver <."
faults 'a reader that is gone' 3 "$gone" "(sleep 0.3; $report) | true"
faults 'a reader of help that is gone' 3 "$gone" "(sleep 0.3; '$abft' --help) | true"
runs 'a fault to a closed error stream' 2 '' "$report --n 3 2>&-"

# Help and the version.
runs 'the version' 0 $'abft 0.1.0\n' "'$abft' --version"
# The options of a cluster, and of its seed: where a cluster runs, --seed may be random.
cat >"$room/common" <<'EOT'
      --n <n>                  How many replicas there are, 4 to 13 [default: 4]
      --t <t>                  How many may lie, 1 to 4, with 3t+1 <= n [default: 1]
      --kind <kind>            The application: 1 or kvstore, keys and values; 2 or counter; 3 or purse [default: 1]
      --w <w>                  Bits of a digit of a signature: 4 or 8 [default: 4]
      --tree <tree>            Height of a signature tree: 5 or 10 [default: 5]
      --frames <frames>        The version of the frames, 1 or 2; with 2 a batch has up to 64 transactions, not 16 [default: 1]
EOT
cat >"$room/seed" <<'EOT'
      --seed <seed>            The seed of all keys, 64 hexadecimal digits; every user of the machine can read it, by ps [default: 0000000000000000000000000000000000000000000000000000000000000000]
      --seed-file <seed-file>  The file of the seed, in place of --seed: 64 hexadecimal digits, or 32 bytes
EOT
cat >"$room/running-seed" <<'EOT'
      --seed <seed>            The seed of all keys, 64 hexadecimal digits, which every user of the machine can read, by ps; or random: a new one, shown nowhere [default: 0000000000000000000000000000000000000000000000000000000000000000]
      --seed-file <seed-file>  The file of the seed, in place of --seed: 64 hexadecimal digits, or 32 bytes
EOT
: >"$room/wanted-err"
cat >"$room/wanted-out" <<'EOT'
A Byzantine fault tolerant replicated ledger

Usage: abft <COMMAND>

Commands:
  sign      Signs a report or an acknowledgement, and writes its frame to standard output
  deliver   Delivers the frames of standard input to a replica, and prints what it answers
  simulate  Plays the scenario of standard input on a whole cluster, and prints what its replicas answer
  cluster   Runs a whole cluster in one process, a thread for each replica, and prints what each committed
  serve     Runs a whole cluster in one process, and listens on 127.0.0.1 for clients of its replicas
  audit     Audits the histories of standard input, and prints their one ledger, or the first fault
  draw      Draws the run of the histories of standard input, as an SVG document
  keys      Prints the public file of a cluster, which an auditor needs in place of its seed
  help      Print this message or the help of the given subcommand(s)

Options:
  -h, --help     Print help
  -V, --version  Print version

Example:
  abft sign report --replica 2 --value b=7 | abft deliver --replica 1
EOT
check 'help' 0 "'$abft' --help"
{
    cat <<'EOT'
Signs a report or an acknowledgement, and writes its frame to standard output

Usage: abft sign [OPTIONS] <what>

Arguments:
  <what>  What to sign: report or ack

Options:
EOT
    cat "$room/common" "$room/seed"
    cat <<'EOT'
      --replica <replica>      Who signs, below n [default: 0]
      --height <height>        The height, 1 to 4096 [default: 1]
      --phase <phase>          The phase, 1 to 1000000000 [default: 1]
      --value <value>          The one transaction of the batch [default: a=1]
  -h, --help                   Print help

Output: one frame, as bytes. A report has the batch of --value as its initial and only proper value,
no flag ALL and no locks; an acknowledgement is on that batch.

Exit status:
  0  the frame was written
  2  a fault of usage
  3  out of memory, a file that can't be read, or a failed write

Every call reuses leaf 0, which makes the key forgeable. Use this seed only for experiments.
EOT
} >"$room/wanted-out"
check 'help of sign' 0 "'$abft' sign --help"
{
    cat <<'EOT'
Delivers the frames of standard input to a replica, and prints what it answers

Usage: abft deliver [OPTIONS] <FRAMES

Options:
EOT
    cat "$room/common" "$room/seed"
    cat <<'EOT'
      --replica <replica>      Which replica, below n [default: 1]
      --value <value>          The transaction that it submits [default: a=1]
      --height <height>        The height that it opens, 1 to 4 [default: 1]
      --rounds <rounds>        How many rounds it ends, 0 to 4000000000 [default: 1]
  -h, --help                   Print help

Lines, one for each frame:
  accepted         the frame was read
  ignored N CAUSE  it was ignored: the cause's number and name, as in 'ignored 7 Repeated'

The last line, if the stream is wrong:
  fault 1 TooLong    a frame longer than 150000 bytes was announced, or than 600000 with --frames 2
  fault 2 Malformed  a frame is not spelled as one, or has version 2 without --frames 2
  cut                the stream ends within a frame

Exit status:
  0  each frame was delivered
  1  'fault' or 'cut' was printed
  2  a fault of usage
  3  out of memory, a full history, or a failed read or write
EOT
} >"$room/wanted-out"
check 'help of deliver' 0 "'$abft' deliver --help"
cat >"$room/wanted-out" <<'EOT'
Plays the scenario of standard input on a whole cluster, and prints what its replicas answer

Usage: abft simulate [OPTIONS] <SCENARIO

Options:
      --seed <seed>            The seed of all keys, 64 hexadecimal digits; every user of the machine can read it, by ps [default: 0000000000000000000000000000000000000000000000000000000000000000]
      --seed-file <seed-file>  The file of the seed, in place of --seed: 64 hexadecimal digits, or 32 bytes
      --histories              Writes the histories of the correct replicas, as bytes, in place of the lines
  -h, --help                   Print help

Input, a scenario: the cluster (n, t and the kind of application), liars if any, and the steps:
  config 4 1 1
  submit 0 a=1
  submit 1 a=1
  submit 2 a=1
  propose 0 1
  propose 1 1
  propose 2 1
  round
  round
  round
  round
  execute 1

Lines, of replica R at height H; docs/SCENARIOS.md has all of them:
  submit R ok                  R's pool took the transaction; or 'submit R refused K'
  propose R H BATCH            R opened H, with this initial value; or 'propose R H refused K'
  end R C sent S               R ended a round, round C is open, and R sent S frames
  decided R H BATCH            R decided when that round ended
  deliver R accepted           R read a frame
  deliver R ignored N CAUSE    R ignored a frame: the cause's number and name
  execute R H BATCH codes C,D  R ran a block, with a code for each transaction; or 'execute R nothing'
  query R H VALUE              what R holds under the key; or 'query R H absent'
  retire R H ok                R retired the heights below H; or 'retire R H refused K'
  info R H HASH                the height and the hash of R's application
  refused K                    the step was refused, for reason K
  lie-lock cannot              too few reports for that lock's proof; or 'lie-stale cannot'
  exhausted                    the liar's key has no leaf left
Of the frames that a 'round' passes, only those that are ignored have a line.
With --histories the histories of the correct replicas are written, as bytes, in place of the lines.
A text with a bad line prints 'line N bad' alone, with the number of the first bad line.

Exit status:
  0  the scenario was played
  1  'line N bad' was printed, and nothing was played
  2  a fault of usage
  3  out of memory, or a failed read or write
EOT
check 'help of simulate' 0 "'$abft' simulate --help"
cat >"$room/running" <<'EOT'
      --tx <tx>                The transaction that each pool is given [default: a=1]
      --rounds <rounds>        How many rounds each replica ends, 0 to 4000000000 [default: 40]
      --base-ms <base-ms>      Round end R comes this many milliseconds, 1 to 60000, and R more after the one before it [default: 200]
      --log <log>              What standard error shows, in letters of any case: off, error, warn, info, debug or trace [default: info]
      --quiet                  The same as --log off
      --stop-at-eof            Stops the cluster, and its listener, when standard input ends
      --no-empty-blocks        Opens a height only if a transaction waits for it, or a frame about it
      --steady                 Lets rounds last as at the start again, each time that all replicas have run another block
EOT
{
    cat <<'EOT'
Runs a whole cluster in one process, a thread for each replica, and prints what each committed

Usage: abft cluster [OPTIONS]

Options:
EOT
    cat "$room/common" "$room/running-seed" "$room/running"
    cat <<'EOT'
      --histories <histories>  The file to which the histories are written at the end
  -h, --help                   Print help

Lines at the end, one for each replica:
  commits R C  replica R committed C blocks

Then the lines of an audit over the histories of all replicas, as 'audit --help' says:
  ledger C     the histories are those of one ledger of C blocks
  H BATCH      its block at height H, one line for each

With --histories FILE the histories are written to FILE, for 'audit <FILE' with the options of the cluster.
Standard error shows progress; --log sets how much.

Exit status:
  0  the rounds are over, or the cluster was asked to stop, and the audit found a ledger
  1  the audit found a fault
  2  a fault of usage
  3  out of memory, a thread that can't be made, a file that can't be read or written, or a failed write
EOT
} >"$room/wanted-out"
check 'help of cluster' 0 "'$abft' cluster --help"
# The longer name of --client-entries moves the text of each option to a line of its own.
{
    cat <<'EOT'
Runs a whole cluster in one process, and listens on 127.0.0.1 for clients of its replicas

Usage: abft serve [OPTIONS]

Options:
EOT
    sed -E 's/^(.{31})/\1\n          /; s/ +\n/\n/' "$room/common" "$room/running-seed" "$room/running"
    cat <<'EOT'
      --histories <histories>
          The file to which the histories are written at the end
      --port <port>
          The port to listen at, 0 to 65535; 0 for one that is free [default: 0]
      --http <http>
          The port for HTTP requests, 0 to 65535; 0 for one that is free; without it there is no HTTP
      --sessions <sessions>
          How many connections are taken before further ones are refused, 1 to 1000 [default: 1]
      --client-entries <client-entries>
          How many entries of each replica's history its clients may use, 0 to 65536 [default: 32768]
  -h, --help
          Print help

The first line, and with --http the second:
  listening PORT  clients can connect to this port
  http PORT       this port answers HTTP requests

At the end, one line for each replica:
  commits R C  replica R committed C blocks

Then the lines of an audit over the histories of all replicas, as 'audit --help' says:
  ledger C     the histories are those of one ledger of C blocks
  H BATCH      its block at height H, one line for each

The server ends when the rounds are over and as many connections as --sessions says have opened and closed,
or, with --stop-at-eof, when standard input ends.
With --histories FILE the histories are written to FILE, for 'audit <FILE' with the options of the cluster.
Standard error shows progress; --log sets how much.
docs/OPERATING.md has the rest.

Exit status:
  0  the rounds are over, or the cluster was asked to stop, and the audit found a ledger
  1  the audit found a fault
  2  a fault of usage
  3  out of memory, a thread that can't be made, a port that can't be listened at, a file that can't be read or
     written, or a failed write
EOT
} >"$room/wanted-out"
check 'help of serve' 0 "'$abft' serve --help"
{
    cat <<'EOT'
Audits the histories of standard input, and prints their one ledger, or the first fault

Usage: abft audit [OPTIONS] <HISTORIES

Options:
EOT
    cat "$room/common" "$room/seed"
    cat <<'EOT'
      --cluster <cluster>      The public file of the cluster, as 'keys' prints it, in place of --n, --t, --kind, --w, --tree, --frames and the seed
      --receipt <receipt>      A receipt to look for, R:I:TX: the replica, the index in its history, and the transaction
  -h, --help                   Print help

Input: the histories of N-t replicas or more, as bytes, one after another. 'simulate --histories' prints such bytes,
and 'cluster --histories FILE' writes them. The options are those of the cluster, or --cluster names its public file.

Lines, if the histories are those of one ledger:
  ledger C  the ledger has C blocks
  H BATCH   its block at height H, one line for each

Otherwise one line:
  fault 1 Count          fewer than N-t histories, two of one replica, or one of a replica that the cluster doesn't have
  fault 2 NotReplay R I  entry I of R's history has a reply that the protocol doesn't allow there, or sends what R didn't sign
  fault 3 Unsent A I S   replica A accepted, as entry I of its history, a statement of S that S's history doesn't send
  bad history            the input is not spelled as histories, or those of version 2 need --frames 2
After a fault, standard error has one more sentence about it.

With --receipt there is one more line after a ledger. A receipt is what a client holds: the replica that took its
transaction, the index of the entry in that replica's history, and the transaction.
  receipt ok     that entry took that transaction
  receipt wrong  it did not, or there is no such entry

Exit status:
  0  the histories are those of one ledger, and the receipt, if there is one, holds
  1  'fault', 'bad history' or 'receipt wrong' was printed
  2  a fault of usage
  3  out of memory, a file that can't be read, or a failed read or write
EOT
} >"$room/wanted-out"
check 'help of audit' 0 "'$abft' audit --help"
{
    cat <<'EOT'
Draws the run of the histories of standard input, as an SVG document

Usage: abft draw [OPTIONS] <HISTORIES >PICTURE.svg

Options:
EOT
    cat "$room/common" "$room/seed"
    cat <<'EOT'
      --cluster <cluster>      The public file of the cluster, as 'keys' prints it, in place of --n, --t, --kind, --w, --tree, --frames and the seed
      --height <height>        The one height to draw, 1 to 4096; 0 for all heights [default: 0]
      --first <first>          The first round to draw, 0 to 4000000000; 0 is the time before round 1 [default: 0]
      --last <last>            The last round to draw, 0 to 4000000000 [default: 64]
  -h, --help                   Print help

Input: the histories of replicas, as bytes, one after another. 'simulate --histories' prints such bytes, and
'cluster --histories FILE' writes them. The options are those of the cluster, or --cluster names its public file:
histories of version 2 need --frames 2, or a file that says so.
A history is drawn up to its first entry that is not lawful after those before it, or sends what is not signed.

Output: an SVG document, or 'bad history' if the input is not spelled as histories. docs/PICTURES.md says how to read it.

Exit status:
  0  the picture was written
  1  'bad history' was printed, or a history has such an entry, which standard error names
  2  a fault of usage
  3  out of memory, a file that can't be read, or a failed read or write
EOT
} >"$room/wanted-out"
check 'help of draw' 0 "'$abft' draw --help"
# The longer name of --write-seed moves the text of each option by two columns.
{
    cat <<'EOT'
Prints the public file of a cluster, which an auditor needs in place of its seed

Usage: abft keys [OPTIONS]

Options:
EOT
    sed -E 's/; or random: a new one, shown nowhere/; or random: a new one, for --write-seed/; s/^(.{31})/\1  /' "$room/common" "$room/running-seed"
    cat <<'EOT'
      --write-seed <write-seed>  The file to create for the seed of --seed random; it must not be there yet
  -h, --help                     Print help

Output: the cluster's public file, TOML, which has no secret: its sizes, and a public key for each replica.
'audit --cluster FILE' and 'draw --cluster FILE' need nothing else of a cluster.

With --seed random --write-seed FILE the keys are new ones. FILE is created, for its owner alone, and gets their seed,
64 hexadecimal digits, before anything is printed. 'serve --seed-file FILE' runs the cluster: give it the same sizes.

Exit status:
  0  the public file was written
  2  a fault of usage
  3  out of memory, a file that can't be read or created, or a failed write
EOT
} >"$room/wanted-out"
check 'help of keys' 0 "'$abft' keys --help"
runs 'the scenario in the help of simulate' 0 'submit 0 ok
submit 1 ok
submit 2 ok
propose 0 1 [a=1]
propose 1 1 [a=1]
propose 2 1 [a=1]
end 0 1 sent 1
end 1 1 sent 1
end 2 1 sent 1
end 3 1 sent 0
deliver 3 ignored 3 NoRow
deliver 3 ignored 3 NoRow
deliver 3 ignored 3 NoRow
end 0 2 sent 0
end 1 2 sent 1
end 2 2 sent 0
end 3 2 sent 0
deliver 3 ignored 3 NoRow
end 0 3 sent 1
end 1 3 sent 0
end 2 3 sent 1
end 3 3 sent 0
end 0 4 sent 1
end 1 4 sent 1
decided 1 1 [a=1]
end 2 4 sent 1
end 3 4 sent 0
deliver 3 ignored 3 NoRow
deliver 3 ignored 3 NoRow
deliver 3 ignored 3 NoRow
execute 1 1 [a=1] codes 0
' "'$abft' simulate --help | sed -n '/^Input/,/^$/s/^  //p' | '$abft' simulate"

# Live clusters, by the machine's clock.
none=$'commits 0 0\ncommits 1 0\ncommits 2 0\ncommits 3 0\nledger 0\n'
runs 'a cluster of no rounds' 0 "$none" "'$abft' cluster --rounds 0 --quiet"
printf '%s' "$none" >"$room/wanted-out"
printf 'the seed is the default one, which everybody knows: anybody can forge\nthe rounds are over\n' >"$room/wanted-err"
check 'what its operator is told' 0 "'$abft' cluster --rounds 0"
check 'what it is told with --log info' 0 "'$abft' cluster --rounds 0 --log=INFO"
check 'and with debug, where there is no round' 0 "'$abft' cluster --rounds 0 --log debug"
printf 'the seed is the default one, which everybody knows: anybody can forge\n' >"$room/wanted-err"
check 'what it is told with --log warn' 0 "'$abft' cluster --rounds 0 --log warn"
printf 'the cluster was asked to stop\n' >"$room/wanted-err"
check 'a cluster whose input ends' 0 "'$abft' cluster --seed $ones --rounds 4000000000 --stop-at-eof </dev/null"
runs 'what it is told with --log off' 0 "$none" "'$abft' cluster --rounds 0 --log off"
runs 'and with --quiet, whatever --log says' 0 "$none" "'$abft' cluster --rounds 0 --quiet --log debug"
printf 'listening P\n%s' "$none" >"$room/wanted-out"
printf 'the seed is the default one, which everybody knows: anybody can forge\n' >"$room/wanted-err"
check 'what a quiet server tells of the default seed' 0 \
    "'$abft' serve --rounds 0 --quiet --stop-at-eof </dev/null | sed 's/^listening .*/listening P/'"
one=$'commits 0 1\ncommits 1 1\ncommits 2 1\ncommits 3 1\nledger 1\n1 [a=1]\n'
runs 'a cluster that creates no empty block' 0 "$one" "'$abft' cluster --rounds 60 --base-ms 40 --no-empty-blocks --quiet"
runs 'a steady cluster' 0 '1 [a=1]' \
    "'$abft' cluster --rounds 40 --base-ms 60 --steady --quiet | grep -o '^1 .*' | tr -d '\n'"
runs 'each round of each replica with --log debug' 0 "$(for r in 0 1 2 3; do
    printf 'replica %d opened round 1: blocks 0\nreplica %d opened round 2: blocks 0\n' "$r" "$r"; done)"$'\n' \
    "'$abft' cluster --rounds 2 --log debug 2>&1 >/dev/null | sed -nE 's/^(replica .*), signatures [0-9]+$/\1/p' | sort"
faults 'an input of a cluster that is a folder' 3 "$folder" "'$abft' cluster --rounds 0 --stop-at-eof </"
faults 'an input of a cluster that is closed' 3 "$no_input" "'$abft' cluster --rounds 0 --stop-at-eof <&-"
faults 'an output of a cluster that is closed' 3 "$closed" "timeout 60 '$abft' cluster --rounds 4000000000 >&-"
faults 'an output of a server that is closed' 3 "$closed" "timeout 60 '$abft' serve --quiet >&-"
faults 'an error stream that is closed' 3 '' "'$abft' serve --quiet --rounds 0 2>&-"
runs 'an error stream to a full disk' 0 "$none" "'$abft' cluster --rounds 0 2>/dev/full"
# The histories are in the file though the lines are lost, and the lines are there though the file is full.
faults 'the lines of a cluster to a reader that is gone' 3 "$gone" \
    "(sleep 0.3; '$abft' cluster --quiet --rounds 0 --histories '$room/saved') | true"
runs 'an audit of its histories' 0 $'ledger 0\n' "'$abft' audit <'$room/saved'"
faults 'the lines of a cluster to a full disk' 3 "$full" "'$abft' cluster --quiet --rounds 0 --histories '$room/saved' >/dev/full"
runs 'an audit of its histories' 0 $'ledger 0\n' "'$abft' audit <'$room/saved'"
faults 'the lines of a server to a reader that leaves with the port' 3 "$gone" \
    "sleep 1 | '$abft' serve --quiet --seed $ones --rounds 0 --stop-at-eof --histories '$room/saved' | (read -r port)"
runs 'an audit of its histories' 0 $'ledger 0\n' "'$abft' audit --seed $ones <'$room/saved'"
faults 'histories to a full disk' 3 $'error: can\'t write the file /dev/full: No space left on device (os error 28)\n' \
    "'$abft' cluster --quiet --rounds 0 --histories /dev/full >'$room/lines'"
runs 'and their lines' 0 "$none" "cat '$room/lines'"
faults 'a path with control characters' 3 $'error: can\'t write the file no\\u{1b}[2J\\u{9b}\\n/file: No such file or directory (os error 2)\n' \
    "'$abft' cluster --quiet --rounds 0 --histories $'no\\e[2J\\xc2\\x9b\\n/file'"
faults 'no memory for threads' 3 $'error: a thread could not be made\n' \
    "ulimit -v 24000; timeout 60 '$abft' cluster --quiet --rounds 4000000000"
# A server that the end of its input stops. It opens heights until its clients are done.
mkfifo "$room/wish"
exec 3< <("$abft" serve --rounds 4000000000 --base-ms 150 --tree 10 --sessions 100 --stop-at-eof <"$room/wish" 2>"$room/told"; echo "status $?")
exec 4>"$room/wish"
read -r -u 3 listening port
runs 'the first line of a server' 0 'listening' "printf %s '$listening'"
runs 'sessions byte by byte' 0 'no request: 000101 000101 000105
receipts: 00060003 00060003 in order
early: 000100 000102
later: 000700 at least 3 0131
' "tests/live_session.py '$port'"
# The indices of receipts and the height depend on when the client came.
told='sed -e "s/:[1-9][0-9]*:/:I:/" -e "s/height [1-9][0-9]*/height N/"'
runs 'a client sees its transaction run' 0 $'0:I:colour=blue\n1:I:colour=blue\n2:I:colour=blue\n3:I:colour=blue\nheight N: blue\n' \
    "examples/client.py '$port' colour blue | $told"
runs 'and another one of the same key, which its receipts spell' 0 \
    $'0:I:colour=\\5cred\n1:I:colour=\\5cred\n2:I:colour=\\5cred\n3:I:colour=\\5cred\nheight N: \\red\n' \
    "examples/client.py '$port' colour '\\red' | $told"
printf 'earlier' >"$room/earlier"
faults 'a port that is taken' 3 "error: can't listen at 127.0.0.1:$port: Address already in use (os error 98)"$'\n' \
    "'$abft' serve --quiet --port '$port' --histories '$room/earlier'"
runs 'an earlier file of histories is as it was' 0 'earlier' "cat '$room/earlier'"
runs 'what live clusters do at their limits' 0 \
    'entries: 11 12 0000 13 000000000000 0000 04 04 11 0000000000 00 0001 13 00 0002, in order; 4 lines, status 0
asked: query 0 2 1 1, submit 1 1 2 1, waiting 1 1 2 1; 4 lines, status 0
left behind: 03 same same 500, 00 more more more, 00 more more more, 00 more more more; 4 lines, status 0
flood: 12: 100000; 00: 32768 04: 67232; bounded; all commit; 4 lines, status 0
one full: 04; 4 lines, status 0
all full: 04 04 04 04; 4 lines, status 0
descriptors: 40 answered; 4 lines, status 0
last session: refused; 4 lines, status 0
stop: idle client ended; 4 lines, status 0
unread: commits; 4 lines, status 0
unread fault: status 3
unread datagrams: status 0
stopped terminal: status 0
terminal kinds: xterm erased, dumb lines, none lines
terminal warnings: mute 0 1 2 3; status 0
background: status 0
ctrl-d: runs; 4 lines, status 0
zeros: rests
' "tests/live_limits.py '$abft'"
exec 4>&-
cat <&3 >"$room/served"
runs 'what each replica committed' 0 $'commits 0\ncommits 1\ncommits 2\ncommits 3\nstatus 0\n' \
    "grep -E '^(commits|status)' '$room/served' | sed -E 's/^(commits [0-3]) [1-9][0-9]*$/\1/'"
runs 'the ledger is the longest of them, block by block' 0 '' \
    "awk '\$1 == \"commits\" { if (\$3 > most) most = \$3 } \$1 == \"ledger\" { if (\$2 != most) print; blocks = most }
        /^[0-9]/ { if (\$1 != ++found) print } END { if (found != blocks) print found, blocks }' '$room/served'"
runs 'a line for the first block' 0 $'block 1: replica R ran it first, in round N\n' \
    "grep '^block 1:' '$room/told' | sed -E 's/replica [0-3]/replica R/; s/round [0-9]+/round N/'"
runs 'a line when it was asked to stop' 0 $'the cluster was asked to stop\n' "tail -n 1 '$room/told'"

finish
