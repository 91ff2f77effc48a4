#!/usr/bin/env bash
# What `make prove` runs of the program that it has just built for this machine's processor: keys of both sizes and frames of both versions,
# the plain run, and runs with liars, each against its stored output. The last line is `N passed, M failed`.
set -u
cd "$(dirname "$0")/.." || exit 1
. tests/harness.sh
build abft --help
abft=$built
for name in plain-run wide-and-tall-keys both-versions forged-acknowledgements stale-proof strangers-in-a-proof; do
    cp "examples/$name.out" "$room/wanted-out" || exit 1
    : >"$room/wanted-err"
    check "$name" 0 "'$abft' simulate <'examples/$name.txt'"
done
# the public keys of replicas under the default seed, as another implementation of RFC 8554 computes them
runs 'public keys' 0 $'65e8fa07a7eaf6f672e95aa8da1f3af98ae5d588e86d06975fbb56e1311afb30  -\n' "'$abft' keys | sha256sum"
finish
