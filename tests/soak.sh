#!/usr/bin/env bash
# Clusters that run by the machine's clock, a server under many sessions and requests, and hostile use: `make soak`. All parts together take
# two hours and a half, and are no part of the gate, since what a clock brings differs from machine to machine. `tests/soak.sh PART..` runs
# these parts alone. Each part says how long it took; the last line is `N passed, M failed`.
#
# ABFT names the program; its figures go to standard output.
set -u
cd "$(dirname "$0")/.." || exit 1
abft=${ABFT:-$PWD/crates/abft/out/abft}
room=$(mktemp -d)
trap 'rm -rf "$room"' EXIT
passed=0
failed=0

# notes NAME STATUS: counts a run
notes() {
    if [ "$2" = 0 ]; then passed=$((passed + 1)); else failed=$((failed + 1)); echo "failed: $1"; fi
}

# Ten clusters: every replica commits.
clusters() {
    local run lines
    for run in {1..10}; do
        lines=$("$abft" cluster --rounds 40 --base-ms 50 --quiet | tr '\n' ' ')
        echo "cluster $run: $lines"
        [ "$(echo "$lines" | grep -oE 'commits [0-9]+ [1-9]' | wc -l)" = 4 ]
        notes "cluster $run" $?
    done
}

# A thousand sessions one after another, and 64 at once.
sessions() {
    tests/sessions.py "$abft" 1000 1
    notes '1000 sessions one after another' $?
    tests/sessions.py "$abft" 64 64
    notes '64 sessions at once' $?
}

# A hundred thousand requests of HTTP, a thousand connections at once, and the rounds beside them.
http() {
    tests/http_load.py "$abft"
    notes 'requests of HTTP' $?
}

# Ten thousand hostile scenarios.
scenarios() {
    tests/hostile.py "$abft" 1001 10000 "$(nproc)"
    notes '10000 hostile scenarios' $?
}

# Each cut and changed frame, and a full inbox.
frames() {
    tests/hostile_frames.py "$abft" >"$room/frames"
    notes 'each cut and changed frame' $?
    cat "$room/frames"
    grep -E '(each changed|each prefix|a byte):.*accepted' "$room/frames"
    [ $? = 1 ] && grep -q '^9696 frames to one replica, the other lines as without:' "$room/frames" \
        && [ "$(grep -c ' itself: deliver . accepted: 1$' "$room/frames")" = 4 ] \
        && grep -qx 'after the last entry of a history: refused 4: 7' "$room/frames"
    notes 'what is answered to cut and changed frames' $?
}

# Each allocation refused, of each event too.
memory() {
    tests/refused_memory.py "$abft" 1 "$(nproc)"
    notes 'each allocation refused' $?
    tests/refused_round_ends.py "$abft"
    notes 'round ends without memory' $?
    tests/refused_events.py "$abft"
    notes 'each event without memory' $?
}

# A replica that sleeps while the others go on.
sleeper() {
    tests/sleeping_replica.py "$abft"
    notes 'a replica that sleeps' $?
}

# Each read and write that fails, and clients that do their worst: one of them sends a byte a second.
clients() {
    tests/failing_streams.py "$abft"
    notes 'each read and write that fails' $?
    tests/hostile_clients.py "$abft" >"$room/clients"
    notes 'clients that do their worst' $?
    [ "$(tests/hostile_clients.py "$abft" 'one a second')" = 'one a second: status 00; commits, next answered; 4 lines, status 0' ]
    notes 'one byte a second' $?
}

# Histories that clients fill: the process ends on time, each time.
full() {
    local run
    for run in {1..10}; do
        tests/live_limits.py "$abft" 'one full' 'all full' 'full at 1' 'full at 2' 'full at 3' 'full at 4' >"$room/full"
        [ "$(grep -c '4 lines, status 0$' "$room/full")" = 6 ]
        notes "histories that are full, run $run" $?
    done
}

# How many blocks the keys of clusters come to: they run until all replicas are mute.
keys() {
    tests/key_ends.py "$abft" 10 --steady --base-ms 200
    notes 'the keys of clusters' $?
}

# How much of a processor an idle server takes: a figure alone.
idle() {
    local n t size server before after
    for size in '4 1' '13 4'; do
        read -r n t <<<"$size"
        "$abft" serve --n "$n" --t "$t" --rounds 20 --base-ms 1000 --quiet >"$room/idle" &
        server=$!
        sleep 5
        before=$(awk '{ print $14 + $15 }' "/proc/$server/stat")
        sleep 10
        after=$(awk '{ print $14 + $15 }' "/proc/$server/stat")
        echo "an idle server of $n replicas: $((after - before)) hundredths of a second of a processor in 10 seconds"
        kill "$server"
        wait "$server" 2>/dev/null
    done
}

[ $# = 0 ] && set -- clusters sessions http scenarios frames memory sleeper clients full keys idle
for part; do
    began=$SECONDS
    "$part"
    echo "$part: $((SECONDS - began)) s"
done
echo "$passed passed, $failed failed"
[ "$failed" = 0 ]
