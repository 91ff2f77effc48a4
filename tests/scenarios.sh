#!/usr/bin/env bash
# The example texts, each played by the built program `abft` against its stored output; texts that are bad; and histories as
# bytes. The last line is `N passed, M failed`.
set -u
cd "$(dirname "$0")/.." || exit 1
. tests/harness.sh
build abft --help
abft=$built
setup=$'config 4 1 1\n'

# plays NAME: the example of this name prints what is stored
plays() {
    cp "examples/$1.out" "$room/wanted-out" || exit 1
    : >"$room/wanted-err"
    check "$1" 0 "'$abft' simulate <'examples/$1.txt'"
}

# prints NAME TEXT OUTPUT: the text is played, and this is printed
prints() {
    printf '%s' "$2" >"$room/text"
    runs "$1" 0 "$3" "'$abft' simulate <'$room/text'"
}

# bad NAME LINE TEXT: this line of the text, as `printf %b` writes it, is bad, and nothing is played
bad() {
    printf '%b' "$3" >"$room/text"
    runs "$1" 1 "line $2 bad"$'\n' "'$abft' simulate <'$room/text'"
}

# agrees NAME: in what the example prints, all blocks of one height are one batch with the same codes
agrees() {
    : >"$room/wanted-out"
    : >"$room/wanted-err"
    check "the blocks of $1" 0 "awk '\$1 == \"execute\" && NF > 3 {
        block = \$4 FS \$5 FS \$6; if (\$3 in blocks && blocks[\$3] != block) print; blocks[\$3] = block }' 'examples/$1.out'"
}

for text in examples/*.txt; do
    name=${text##*/}
    plays "${name%.txt}"
    agrees "${name%.txt}"
done

# What is printed, by itself.
prints 'a text with no step' "$setup" ''
prints 'comments and empty lines' $'\n# first\nconfig 4 1 1\n\n#\ninfo 4\n' $'refused 2\n'
prints 'a height is opened or refused by its cause' "$setup"$'submit 0 a=1\npropose 0 4097\npropose 0 5\npropose 0 4\npropose 0 4\n' \
    $'submit 0 ok\npropose 0 4097 refused 3\npropose 0 5 refused 1\npropose 0 4 [a=1]\npropose 0 4 refused 2\n'
prints 'a floor that may not be raised' "${setup}liar 1"$'\nretire 0 0\nretire 0 1\nretire 0 2\nretire 0 4294967295\nretire 1 2\nretire 4 2\n' \
    $'retire 0 0 refused 2\nretire 0 1 refused 2\nretire 0 2 refused 1\nretire 0 4294967295 refused 1\nrefused 3\nrefused 2\n'
prints 'an empty value' "$setup"$'query 0 x\n' $'query 0 0 absent\n'

# With frames of version 2 the same is decided, and a proposal may have more transactions.
for name in plain-run four-proposals two-proposals two-locks; do
    awk '{ print } /^config / { print "frames 2" }' "examples/$name.txt" >"$room/text"
    cp "examples/$name.out" "$room/wanted-out" || exit 1
    : >"$room/wanted-err"
    check "$name with frames 2" 0 "'$abft' simulate <'$room/text'"
done
submits=$(printf 'submit 0 t%02d\n' {1..17})$'\n'
oks=$(printf 'submit 0 ok\n%.0s' {1..17})$'\n'
sixteen=$(printf ',t%02d' {1..16})
prints 'a proposal of 16 of 17 transactions' "$setup${submits}propose 0 1"$'\n' "${oks}propose 0 1 [${sixteen#,}]"$'\n'
prints 'a proposal of 17 transactions with frames 2' "${setup}frames 2"$'\n'"${submits}propose 0 1"$'\n' \
    "${oks}propose 0 1 [${sixteen#,},t17]"$'\n'

# Bad texts, each with the line that is bad.
bad 'nothing' 1 ''
bad 'an empty line' 2 '\n'
bad 'comments alone' 3 '# none\n# at all\n'
bad 'no last line feed' 2 "${setup}submit 0 a=1"
bad 'no line feed' 1 'config 4 1 1'
bad 'a comment with no line feed' 2 "$setup#"
bad 'a line behind comments' 5 '# a cluster\n\nconfig 4 1 1\n# \xff\nexecute 00\n'
bad 'too few replicas' 1 'config 3 1 1\n'
bad 'too few replicas for so many liars' 1 'config 12 4 1\n'
bad 'too many replicas' 1 'config 14 4 1\n'
bad 'more replicas than a byte says' 1 'config 260 1 1\n'
bad 'nobody may lie' 1 'config 4 0 1\n'
bad 'application 0' 1 'config 4 1 0\n'
bad 'an unknown application' 1 'config 4 1 4\n'
bad 'a step before the cluster' 1 'silent\n'
bad 'keys before the cluster' 1 'keys 4 5\nconfig 4 1 1\n'
bad 'a second cluster' 2 "$setup$setup"
bad 'keys of no height' 2 "${setup}keys 4 6\n"
bad 'keys of no width' 2 "${setup}keys 5 5\n"
bad 'keys twice' 3 "${setup}keys 4 5\nkeys 4 5\n"
bad 'keys behind a liar' 3 "${setup}liar 1\nkeys 4 5\n"
bad 'frames before the cluster' 1 'frames 2\nconfig 4 1 1\n'
bad 'frames before keys' 3 "${setup}frames 2\nkeys 4 5\n"
bad 'frames twice' 3 "${setup}frames 2\nframes 2\n"
bad 'frames behind a liar' 3 "${setup}liar 1\nframes 2\n"
bad 'frames behind a step' 3 "${setup}silent\nframes 2\n"
for line in 'frames 1' 'frames 3' 'frames 02' 'frames' 'frames 2 2'; do
    bad "no version: $line" 2 "$setup$line\n"
done
bad 'a second liar' 3 "${setup}liar 1\nliar 2\n"
bad 'a liar where there is one' 3 "${setup}liar 1\nliar 1\n"
bad 'a liar twice' 3 'config 7 2 1\nliar 1\nliar 1\n'
bad 'a liar that is no replica' 2 "${setup}liar 4\n"
bad 'a liar behind a step' 3 "${setup}silent\nliar 1\n"
while IFS= read -r line; do
    bad "no step: $line" 3 "${setup}liar 1\n$line\n"
done <<'EOF'
execute 00
execute +1
execute -1
execute 4294967296
execute
execute 1 2
execute 0 
 execute 0
execute\t0
Execute 0
executes 0
frames 1
query 0 \\61
retire 0
retire 0 1 2
retire 0 01
retire 0 4294967296
query 0 \\5C
query 0 \\5
submit 0  a
submit 0 
submit 0 a b
submit 0 a,b
submit 0 \\FF
submit
submit 0 \xff
inject 1 0A
inject 1 0
inject 1 0g
pass 0 1
silent 0
silent 
lie-ack 2 1 1 [x] all
lie-ack 0 1 1 [] 1
lie-ack 1 0 1 [x] all
lie-ack 1 1 0 [x] all
lie-ack 1 1 1 [,] all
lie-stale 1 1 1 [x] all
lie-stale 1 1 1 0 [x] all
lie-stale 1 1 0 1 [x] all
lie-stale 2 1 1 1 [x] all
lie-lock 1 1 1 1 [x] all
lie-ack 1 1 1 [x all
lie-ack 1 1 1 [x] any
EOF

# Limits, each with what is next above it.
many() {
    head -c "$2" /dev/zero | tr '\0' "$1"
}
prints 'as long a key as may be' "${setup}query 0 $(many k 64)"$'\n' $'query 0 0 absent\n'
bad 'a key that is too long' 2 "${setup}query 0 $(many k 65)\n"
prints 'as long a transaction as may be' "${setup}liar 1"$'\n'"lie-lock 1 1 1 [$(many k 64)] all"$'\n' $'lie-lock cannot\n'
bad 'a transaction that is too long' 3 "${setup}liar 1\nlie-lock 1 1 1 [$(many k 65)] all\n"
prints 'as many transactions as may be' "${setup}liar 1"$'\n'"lie-lock 1 1 1 [a$(printf ',a%.0s' {1..15})] all"$'\n' $'lie-lock cannot\n'
bad 'too many transactions' 3 "${setup}liar 1\nlie-lock 1 1 1 [a$(printf ',a%.0s' {1..16})] all\n"
setup_2="${setup}frames 2"$'\n'
prints 'as many transactions as may be with frames 2' "${setup_2}liar 1"$'\n'"lie-lock 1 1 1 [a$(printf ',a%.0s' {1..63})] all"$'\n' \
    $'lie-lock cannot\n'
bad 'too many transactions with frames 2' 4 "${setup_2}liar 1\nlie-lock 1 1 1 [a$(printf ',a%.0s' {1..64})] all\n"
prints 'as long a line as may be' "$setup$(many '#' 400000)"$'\n' ''
bad 'a line that is too long' 2 "$setup$(many '#' 400001)\n"
prints 'as long a line as may be with frames 2' "$setup_2$(many '#' 1300000)"$'\n' ''
bad 'a line that is too long with frames 2' 3 "$setup_2$(many '#' 1300001)\n"
bad 'a line that is too long before frames 2' 2 "$setup$(many '#' 400001)\nframes 2\n"
(printf '%s' "$setup" && yes 'info 0' | head -n 10000) >"$room/long"
runs 'too many lines' 1 $'line 10001 bad\n' "'$abft' simulate <'$room/long'"
(printf '%s' "$setup" && yes '#' | head -n 9999) >"$room/most"
runs 'as many lines as there may be' 0 '' "'$abft' simulate <'$room/most'"
# A text that is too large is bad as soon as that shows, however long it goes on.
runs 'a line without an end' 1 $'line 1 bad\n' "ulimit -v 100000; head -c 3000000000 /dev/zero | timeout 20 '$abft' simulate"
runs 'lines without an end' 1 $'line 10001 bad\n' "ulimit -v 100000; yes '' | timeout 20 '$abft' simulate"
runs 'steps without an end' 1 $'line 10001 bad\n' "ulimit -v 100000; (printf '%s' '$setup'; yes 'info 0') | timeout 20 '$abft' simulate"
runs 'an earlier bad line' 1 $'line 2 bad\n' "ulimit -v 100000; (printf '%s' '$setup'; echo config; cat /dev/zero) | timeout 20 '$abft' simulate"
runs 'an earlier bad line among many' 1 $'line 2 bad\n' "ulimit -v 100000; (printf '%s' '$setup'; echo config; yes '#') | timeout 20 '$abft' simulate"

# Histories as bytes, of correct replicas alone: who it is, how many entries, the entries.
printf '%sliar 1\nend 3\npropose 0 1\nend 1\n' "$setup" >"$room/text"
runs 'histories' 0 '00000000010200000001020000''02000000000300000001040400000000' \
    "'$abft' simulate --histories <'$room/text' | od -An -v -tx1 | tr -d ' \\n'"
printf 'config 4\n' >"$room/text"
cp tests/histories.out "$room/wanted-out" && : >"$room/wanted-err"
check 'each history of the examples, to its last byte' 0 "tests/histories.py '$abft'"
runs 'histories of a bad text' 1 $'line 1 bad\n' "'$abft' simulate --histories <'$room/text'"
runs 'other keys' 0 $'deliver 0 ignored 8 BadSignature\n' "'$abft' sign ack --replica 1 --seed $(printf '1%.0s' {1..64}) \
    | od -An -v -tx1 | tr -d ' \\n' | (printf '%sliar 1\npropose 0 1\nend 0\nend 0\nend 0\ninject 0 ' '$setup'; cat; echo) \
    | '$abft' simulate | tail -n 1"
finish
