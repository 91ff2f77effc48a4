#!/usr/bin/env bash
# The tutorial's commands, word for word, as tests/typed.sh types them. The last line is `N passed, M failed`.
exec "$(dirname "$0")/typed.sh" docs/TUTORIAL.md
