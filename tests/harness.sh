# What the scripts of this folder share: they test a built program in real pipes, its status and each byte of its standard
# output and standard error.
room=$(mktemp -d)
trap 'rm -rf "$room"' EXIT
passed=0
failed=0

# build NAME WORDS..: sets `built` to the program NAME, proved and built by running it on the words, which does nothing where
# nothing has changed. Where the variable of that name in capitals names an executable, as the one that `rt ci` has just made,
# it is that one.
build() {
    local name=$1 given=${1^^}
    shift
    built=${!given:-}
    if [ -z "$built" ]; then
        built=$PWD/crates/$name/out/$name
        if ! (cd "crates/$name" && rt run -- "$@") >"$room/build" 2>&1 </dev/null; then
            tail -n 20 "$room/build"
            echo "0 passed, 1 failed"
            exit 1
        fi
    fi
}

# check NAME STATUS COMMAND..: the status, and that what was written is what lies in $room/wanted-out and $room/wanted-err
check() {
    local name=$1 status=$2 got
    shift 2
    bash -o pipefail -c "$*" >"$room/out" 2>"$room/err"
    got=$?
    if [ "$got" = "$status" ] && cmp -s "$room/out" "$room/wanted-out" && cmp -s "$room/err" "$room/wanted-err"; then
        passed=$((passed + 1))
    else
        failed=$((failed + 1))
        printf 'failed: %s: status %s; output and errors:\n%s\n%s\n' "$name" "$got" \
            "$(head -c 300 "$room/out")" "$(head -c 300 "$room/err")"
    fi
}

# runs NAME STATUS OUTPUT COMMAND..: this standard output to the last byte, and nothing on standard error
runs() {
    printf '%s' "$3" >"$room/wanted-out"
    : >"$room/wanted-err"
    check "$1" "$2" "${@:4}"
}

# faults NAME STATUS ERROR COMMAND..: nothing on standard output, and this standard error to the last byte
faults() {
    : >"$room/wanted-out"
    printf '%s' "$3" >"$room/wanted-err"
    check "$1" "$2" "${@:4}"
}

# finish: the counts, as the last line, and the status of the script
finish() {
    printf '%d passed, %d failed\n' "$passed" "$failed"
    [ "$failed" = 0 ]
}
