#!/usr/bin/env bash
# The signatures of a program for processors with AVX2 (x86-64-v3), which sha_lanes is compiled for eight lanes wide: the benchmark is proved
# and built so, in a copy of its sources, and answers as tests/benchmark.sh asks. Where the processor has no AVX2 nothing is tried, and that is
# said. What `rt ci` keeps of the other crates has no code, so that the whole program would have to be proved once more: `make prove` builds it
# for the processor that it runs on, and then runs tests/first_runs.sh. The proofs give way to the live clusters of the scripts beside it.
# The last line is `N passed, M failed`.
set -u
cd "$(dirname "$0")/.." || exit 1
if [ "$(tests/cpu.sh)" != x86-64-v3 ]; then
    echo "skipped: this processor has no AVX2"
    echo "0 passed, 0 failed"
    exit 0
fi
copy=$(mktemp -d)
trap 'rm -rf "$copy"' EXIT
cp crates.txt HANDLES "$copy" && mkdir "$copy/crates" || exit 1
for crate in crates/*/; do
    mkdir "$copy/$crate" && cp -r "$crate"/{src,specs,proofs} "$copy/$crate" 2>/dev/null
done
if ! (cd "$copy/crates/lms_speed" && nice -n 19 rt run --cpu x86-64-v3 </dev/null) >"$copy/said" 2>&1; then
    tail -n 20 "$copy/said"
    echo "0 passed, 1 failed"
    exit 1
fi
LMS_SPEED=$copy/crates/lms_speed/out/lms_speed tests/benchmark.sh
