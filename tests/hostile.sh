#!/usr/bin/env bash
# Hostile use of the built program: scenarios made from seeds, frames that are cut and changed, and events whose allocations are refused.
# Clients that do their worst, whole runs without memory, and reads and writes that fail are in soak.sh, with what takes longer. The last line
# is `N passed, M failed`.
set -u
cd "$(dirname "$0")/.." || exit 1
. tests/harness.sh
build abft --help
abft=$built

# goes NAME COMMAND..: the command ends with status 0, and nothing is written to standard error; what it counts is printed
goes() {
    local name=$1
    shift
    if "$@" >"$room/out" 2>"$room/err" && [ ! -s "$room/err" ]; then
        passed=$((passed + 1))
        echo "$name:"
    else
        failed=$((failed + 1))
        echo "failed: $name:"
        tail -n 20 "$room/err"
    fi
    sed 's/^/    /' "$room/out"
}

goes 'hostile scenarios, seeds 1 to 100' tests/hostile.py "$abft" 1 100 "$(nproc)"

answers='2377 bytes of a report, each prefix: deliver 1 ignored 1 Malformed: 26
a report and a byte: deliver 1 ignored 1 Malformed: 1
9489 bytes of a lock, each prefix: deliver 0 ignored 1 Malformed: 99
a lock and a byte: deliver 0 ignored 1 Malformed: 1
2369 bytes of an acknowledgement, each prefix: deliver 1 ignored 1 Malformed: 26
an acknowledgement and a byte: deliver 1 ignored 1 Malformed: 1
2377 bytes of a report, each changed: deliver 1 ignored 1 Malformed: 1; deliver 1 ignored 8 BadSignature: 25
a report itself: deliver 1 accepted: 1
9489 bytes of a lock, each changed: deliver 0 ignored 1 Malformed: 1; deliver 0 ignored 8 BadSignature: 98
a lock itself: deliver 0 accepted: 1
2369 bytes of an acknowledgement, each changed: deliver 1 ignored 1 Malformed: 1; deliver 1 ignored 8 BadSignature: 25
an acknowledgement itself: deliver 1 accepted: 1
2373 bytes of a report in a proof, each changed: deliver 0 ignored 1 Malformed: 1; deliver 0 ignored 9 BadProof: 25
a lock with this proof itself: deliver 0 accepted: 1
192 frames to one replica, the other lines as without: deliver 3 accepted: 8; deliver 3 ignored 1 Malformed: 96; deliver 3 ignored 4 WrongRound: 56; deliver 3 ignored 5 WrongPhase: 18; deliver 3 ignored 7 Repeated: 6; deliver 3 ignored 8 BadSignature: 8
'
for version in 1 2; do
    runs "frames of version $version that are cut and changed" 0 "$answers" "tests/hostile_frames.py '$abft' 97 $version"
done

cases='9489 bytes of a lock, each prefix: 9491 cases
2377 bytes of a report, each place changed: 2378 cases
'
runs 'a lock that is cut and a report that is changed, at each place' 0 "$cases" "tests/frame_places.py '$abft'"

goes 'round ends without memory' tests/refused_round_ends.py "$abft" "$(nproc)"
goes 'each event without memory' tests/refused_events.py "$abft" "$(nproc)" short
finish
