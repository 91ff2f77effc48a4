#!/usr/bin/env bash
# The scripts that try what `rt ci` has just built, and the documents, in parallel: one of them mostly waits for the rounds of
# a live cluster. What each printed comes in turn. The status is 1 if one of them failed.
set -u
cd "$(dirname "$0")/.." || exit 1
export ABFT=$PWD/crates/abft/out/abft NOTARY=$PWD/crates/notary/out/notary LMS_SPEED=$PWD/crates/lms_speed/out/lms_speed
room=$(mktemp -d)
trap 'rm -rf "$room"' EXIT
scripts=(avx2 end_to_end scenarios audits public_files pictures hostile http notary readme tutorial benchmark documents dependencies names mutants)
for script in "${scripts[@]}"; do
    "tests/$script.sh" >"$room/$script" 2>&1 && : >"$room/$script.well" &
done
wait
status=0
for script in "${scripts[@]}"; do
    echo "tests/$script.sh"
    cat "$room/$script"
    [ -e "$room/$script.well" ] || status=1
done
exit "$status"
