#!/usr/bin/env bash
# Runs each text in crates/dcsctp_socket_script/cases by the program that `rt ci` has proved and built, or by PROGRAM:
# tests of two sockets, whose lines crates/dcsctp_socket_script/src/run.rt explains. Prints each test that fails, with
# the line and what was found there. CASES names another folder of texts.
set -euo pipefail
cd "$(dirname "$0")/.."
program=${PROGRAM:-$PWD/crates/dcsctp_socket_script/out/dcsctp_socket_script}
[ -x "$program" ] || { echo "socket cases: $program isn't built: run rt ci, or name another build by PROGRAM" >&2; exit 2; }
printed=$(mktemp)
trap 'rm -f "$printed"' EXIT
passed=0
failed=0

# wrong TEXT WHY: a text that fails as a whole.
wrong() {
    echo "socket cases: $1 $2"
    failed=$((failed + 1))
}

# A text gets a minute; `timeout` ends with 124 for one that hangs, and with 128 and the signal for a crash.
for text in "${CASES:-crates/dcsctp_socket_script/cases}"/*.text; do
    ended=0
    timeout 60 "$program" < "$text" > "$printed" || ended=$?
    counts='^([0-9]+) passed, ([0-9]+) failed$'
    if [ "$ended" = 124 ]; then
        wrong "$text" "hangs: not done after a minute"
    elif [ "$ended" = 2 ]; then
        wrong "$text" "has no test"
    elif [ "$ended" -gt 1 ] || ! [[ $(tail -n 1 "$printed") =~ $counts ]]; then
        wrong "$text" "ends with status $ended"
    else
        passed=$((passed + BASH_REMATCH[1]))
        failed=$((failed + BASH_REMATCH[2]))
        if [ "$ended" = 1 ]; then
            echo "socket cases: $text"
            sed '$d' "$printed"
        fi
    fi
done
echo "socket cases: $passed passed, $failed failed"
[ "$failed" = 0 ] && [ "$passed" != 0 ]
