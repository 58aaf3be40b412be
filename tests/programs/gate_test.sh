#!/usr/bin/env bash
# Tests that the gate fails where a part of it fails, and that no check in Python can be switched off.
# Prints each failure and, last, 'N passed, M failed'.
set -u
cd "$(dirname "$0")/../.." || exit 1
. .ci/part || exit 1
right=0
wrong=0

# ends NAME COMMAND..: counts a test by the command's exit status.
ends() {
    local name=$1
    shift
    if "$@"; then right=$((right + 1)); else echo "FAILED $name"; wrong=$((wrong + 1)); fi
}

# adds PASSED FAILED SCRIPT: whether the part that runs this script adds so many.
adds() {
    local passed=0 failed=0
    part sh -c "$3" >/dev/null
    [ "$passed" = "$1" ] && [ "$failed" = "$2" ]
}

no_assert() {
    ! grep -nE '^\s*assert\b' tests/*/*.py box/*.py measure/speed
}

ends 'a part that passes' adds 5 0 'echo 5 passed, 0 failed'
ends 'the last of two lines counts' adds 5 0 'echo 2 passed, 1 failed; echo 5 passed, 0 failed'
ends 'nothing passed' adds 0 1 'echo 0 passed, 0 failed'
ends 'nothing passed, two failed' adds 0 2 'echo 0 passed, 2 failed; exit 1'
ends 'some failed' adds 3 2 'echo 3 passed, 2 failed; exit 1'
ends 'some failed, with status 0' adds 3 2 'echo 3 passed, 2 failed'
ends 'another status, with nothing failed' adds 5 1 'echo 5 passed, 0 failed; exit 1'
ends 'killed, with nothing failed' adds 5 1 'echo 5 passed, 0 failed; kill -9 $$'
ends 'no line' adds 0 1 'true'
ends 'no line of its own' adds 0 1 'echo all 5 passed, 0 failed'
ends 'no such command' adds 0 1 'tests/no_such_command'
ends 'words in brackets behind the line' adds 5 0 'echo "5 passed, 0 failed (in all)"'
ends 'a part of the crates alone' adds 0 1 'echo "5 passed, 0 failed (text and the crates below alone: not the gate)"'
ends 'no bad edit' adds 5 0 'echo "rt: ok; handles allowed: none; must-fail edits: 3 refused; done"; echo 5 passed, 0 failed'
ends 'bad edits' adds 5 2 'echo "rt: ok; handles allowed: none; must-fail edits: 3 refused, 2 bad; done"; echo 5 passed, 0 failed'
ends 'bad edits, and others refused by a limit' adds 5 12 \
    'echo "rt: ok; handles allowed: none; must-fail edits: 3 refused, 1 of them only by a limit, 12 bad; done"; echo 5 passed, 0 failed'
ends 'bad edits beside what failed' adds 3 4 \
    'echo "rt: ok; handles allowed: none; must-fail edits: 3 refused, 2 bad; done"; echo 3 passed, 2 failed; exit 1'
ends 'bad edits alone' adds 0 3 'echo "rt: ok; handles allowed: none; must-fail edits: 0 refused, 2 bad; done"; echo 0 passed, 0 failed'
ends 'an assert vanishes with python3 -O' no_assert

echo "$right passed, $wrong failed"
[ "$wrong" -eq 0 ]
