#!/usr/bin/env bash
# Each line of crates.txt lists what the files of its crate name, and nothing else: `NAME::` in code, `Rattle.NAME.` in definitions and
# proofs. The last line is `N passed, M failed`.
set -u
cd "$(dirname "$0")/.." || exit 1
passed=0
failed=0

# names CRATE: the libraries that its files name, comments aside
names() {
    find "crates/$1" -name out -prune -o -name '*.rt' -print0 | xargs -0 -r sed 's#//.*##' | grep -oE '\b[a-z_0-9]+::' | tr -d :
    find "crates/$1" -name out -prune -o \( -name '*.rt' -o -name '*.antt' \) -print0 | xargs -0 -r cat | grep -oE '\bRattle\.[a-z_0-9]+\.' \
        | cut -d. -f2
}

while IFS=: read -r head listed; do
    crate=${head%% *}
    [ -d "crates/$crate" ] || continue
    unnamed=$(comm -23 <(tr ' ' '\n' <<<"$listed" | grep . | sort -u) <(names "$crate" | sort -u) | tr '\n' ' ')
    if [ -z "$unnamed" ]; then
        passed=$((passed + 1))
    else
        failed=$((failed + 1))
        echo "failed: crates.txt lists for $crate what its files don't name: $unnamed"
    fi
done < <(grep -v '^#' crates.txt)

printf '%d passed, %d failed\n' "$passed" "$failed"
[ "$failed" = 0 ]
