#!/usr/bin/env bash
# The mutants that the gate leaves out: the edits of crates/*/also-must-fail.
#
#   tests/mutants.sh               looks whether each can still be applied: whether what it replaces stands once in its file
#   tests/mutants.sh try [NAME..]  has the checker try each in a copy of this tree, or those of these crates alone
#
# The last line is `N passed, M failed`.
set -u
cd "$(dirname "$0")/.." || exit 1

# applies EDIT: whether each text that it replaces stands once in its file
applies() {
    local file old
    file=$(dirname "$(dirname "$1")")/$(sed -n 's/^file: //p' "$1")
    [ -f "$file" ] && grep -q '^old: ' "$1" || return 1
    while IFS= read -r old; do
        [ "$(grep -oF -- "$old" "$file" | wc -l)" = 1 ] || return 1
    done < <(sed -n 's/^old: //p' "$1")
}

apply_all() {
    local passed=0 failed=0 edit
    for edit in crates/*/also-must-fail/*.edit; do
        if applies "$edit"; then
            passed=$((passed + 1))
        else
            failed=$((failed + 1))
            printf 'failed: %s cannot be applied\n' "$edit"
        fi
    done
    printf '%d passed, %d failed\n' "$passed" "$failed"
    [ "$failed" = 0 ]
}

# try_all [NAME..]: in the copy these mutants are the only ones
try_all() {
    local room folder names=("$@")
    room=$(mktemp -d)
    # shellcheck disable=SC2064
    trap "rm -rf '$room'" EXIT
    git ls-files -z --cached --others --exclude-standard | sort -zu | tar --null --ignore-failed-read -cT - 2>/dev/null | tar -xC "$room"
    cd "$room" || exit 1
    rm -rf crates/*/must-fail
    for folder in crates/*/also-must-fail; do
        mv "$folder" "${folder%/*}/must-fail"
        folder=${folder%/*}
        [ $# -gt 0 ] || names+=("${folder#crates/}")
    done
    rt must-fail "${names[@]}"
}

case ${1:-} in
'') apply_all ;;
try)
    shift
    try_all "$@"
    ;;
*)
    sed -n '2,7s/^# \{0,1\}//p' "$0" >&2
    exit 2
    ;;
esac
