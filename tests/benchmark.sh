#!/usr/bin/env bash
# The built benchmark `lms_speed` in real pipes: its answers, line by line, and its table. The last line is
# `N passed, M failed`.
set -u
cd "$(dirname "$0")/.." || exit 1
. tests/harness.sh
build lms_speed table 0
speed=$built

seed=a1c4696e2608035a886100d05cd99945eb3370731884a8235e2fb3d4d71f2547
id=215f83b7ccb9acbcd08db97b0d04dc2b

# answers NAME WANTED LINE: one line is answered so
answers() {
    runs "$1" 0 "$2"$'\n' "printf '%s\\n' '$3' | '$speed'"
}

# the key of test case 2 of RFC 8554, Appendix F
answers 'the key of the standard' \
    "0000000500000004${id}a1cd035833e0e90059603f26e07ad2aad152338e7a5e5984bcd5f7bb4eba40b7" "public 8 5 $id $seed"

# the digest of the answer is that of an independent program
runs 'a signature' 0 $'ecfd754bbc91d239711a6eeba181c1681807d0136d72b8f7a96c671697a317a3  -\n' \
    "echo 'sign 8 5 $id $seed 3 54686520706f77657273206e6f742064656c656761746564' | '$speed' | tr -d '\\n' | sha256sum"

key=$(echo "public 4 5 $id $seed" | "$speed")
signature=$(echo "sign 4 5 $id $seed 31 6162" | "$speed")
answers 'a signature verifies' true "verify $key 6162 $signature"
answers 'not for another message' false "verify $key 6163 $signature"
answers 'nor under what is no key' false "verify $signature 6162 $signature"
answers 'nor does nothing' false 'verify - - -'

while IFS= read -r line; do
    answers "nothing is asked for by: $line" bad "$line"
done <<EOF

 
public
Public 8 5 $id $seed
public 5 5 $id $seed
public 8 6 $id $seed
public 8 5 $id $seed 
public 8 5  $id $seed
public 8 5 $id 00
public 8 5 00 $seed
sign 8 5 $id $seed 32 -
sign 8 5 $id $seed +1 -
sign 8 5 $id $seed 1 6
sign 8 5 $id $seed 1 
verify 0 - -
verify - -
verify - - gg
rate verify 4 5 0
rate verify 4 5 0.0
rate verify 4 5 0.0001
rate verify 4 5 .5
rate verify 4 5 1.
rate verify 4 5 60.001
rate verify 4 5 61
rate verify 4 5
rate Verify 4 5 1
EOF
runs 'bytes that are no text' 0 $'bad\n' "printf '\\377\\n' | '$speed'"
runs 'each line has its answer' 0 $'bad\nfalse\nbad\nfalse\n' "printf 'bad\\nverify - - -\\n\\nverify - - -' | '$speed'"
runs 'a rate has one digit behind its point' 0 $'1\n' "echo 'rate verify 4 5 0.25' | '$speed' | grep -cE '^[0-9]+\\.[0-9]\$'"
runs 'the table has sixteen lines, and the blocks that an independent program counted' 0 \
    $'35486.0\n1135614.0\n279198.0\n8934398.0\n16\n' \
    "'$speed' table 0 | awk '/key generation/ { print \$6 } END { print NR }'"
usage="usage: lms_speed [table [SECONDS]], SECONDS from 0 to 60
Without a word it answers lines of standard input: 'public W H I SEED', 'sign W H I SEED LEAF MESSAGE',
'verify KEY MESSAGE SIGNATURE' and 'rate verify|sign|keygen W H SECONDS', SECONDS from 0.001 to 60.
"
faults 'another word' 2 "$usage" "'$speed' tables"
faults 'a word too many' 2 "$usage" "'$speed' table 0 0"
faults 'too many seconds' 2 "$usage" "'$speed' table 61"
faults 'standard output that takes nothing' 3 $'error: No space left on device (os error 28)\n' "echo bad | '$speed' >/dev/full"
finish
