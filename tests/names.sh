#!/usr/bin/env bash
# One name has one meaning: no name is defined by the specs of two crates, but for those in the list below, each with its reason.
# The last line is `N passed, M failed`.
set -u
cd "$(dirname "$0")/.." || exit 1
passed=0
failed=0

# The names that several crates define.
declare -A shared=(
    ['◌>>=◌']='an operator: "and then", for the readings of one crate, which fail by an option or by a fault of its own'
)

# defined: the names that specs define, each with its crate
defined() {
    local crate
    for crate in crates/*/specs; do
        find "$crate" -name '*.antt' -print0 | xargs -0 -r grep -hoP '^(unfoldable |abbrev |opaque )*pub (record |data )?\K[^\s:({]+' \
            | grep -vx -e mod -e use | sort -u | sed "s#\$# $(basename "$(dirname "$crate")")#"
    done
}

while read -r name crates; do
    case "$crates" in
        *' '*)
            if [ -n "${shared[$name]:-}" ]; then
                unset "shared[$name]"
                passed=$((passed + 1))
            else
                failed=$((failed + 1))
                echo "failed: several crates define $name: $crates"
            fi
            ;;
        *) passed=$((passed + 1)) ;;
    esac
done < <(defined | LC_ALL=C sort | awk '{ if ($1 == name) { crates = crates " " $2 } else { if (name != "") print name, crates; name = $1; crates = $2 } } END { print name, crates }')

for name in "${!shared[@]}"; do
    failed=$((failed + 1))
    echo "failed: only one crate defines $name, which is in the list"
done

printf '%d passed, %d failed\n' "$passed" "$failed"
[ "$failed" = 0 ]
