#!/usr/bin/env bash
# README's commands, word for word, as tests/typed.sh types them. README's `make` lines have no prompt, since the gate proves everything
# without them. The last line is `N passed, M failed`.
exec "$(dirname "$0")/typed.sh" README.md
