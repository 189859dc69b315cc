#!/usr/bin/env bash
# Prints the table of docs/figures.md that compares sockets of the C library without and with the option `follow_rfc`, as
# the program tests/c/rules.c tries each rule with ten seeds. LIBRARY names another archive than the one that make has
# built. With `--check` it fails if that file has another table, and with `--write` it puts the table there.
set -euo pipefail
shopt -s inherit_errexit
cd "$(dirname "$0")/.."
. scripts/table.bash
library=${LIBRARY:-out/libdcsctp.a}
[ -n "${LIBRARY:-}" ] || [ -f "$library" ] || library=out/unproved/libdcsctp-unproved.a
[ -f "$library" ] || { echo "c-rules: there is no $library: make unproved builds it" >&2; exit 2; }
folder=$(mktemp -d)
trap 'rm -rf "$folder"' EXIT
"${CC:-cc}" -std=c11 -O2 -g -Iinclude tests/c/rules.c "$library" -o "$folder/rules"

# grouped: numbers with a comma before each last three digits of their whole part.
grouped() {
    sed -E 's/([0-9])([0-9]{3})([^0-9]|$)/\1,\2\3/g'
}

# shown NAME off|on [NUMBER..]: what ten runs have shown: the sum of what is counted, and the spread of the rest.
shown() {
    local seed runs
    runs=$(for seed in 1 2 3 4 5 6 7 8 9 10; do "$folder/rules" "$1" "$2" "$seed" "${@:3}"; done)
    case $1 in
        reports)
            printf '%s; ' "$(values count <<<"$runs" | sum)"
            values seconds <<<"$runs" | spread %.2f 1
            ;;
        trips | bottleneck)
            printf '%s; ' "$(values seconds <<<"$runs" | spread %.2f 1)"
            values twice <<<"$runs" | spread %g 1
            ;;
        beats) values count <<<"$runs" | spread %g 1 ;;
        aborts | stale | dark) values seconds <<<"$runs" | spread %.2f 1 ;;
        *) values count <<<"$runs" | sum ;;
    esac
}

# row NAME SETTING [NUMBER..]: a line of the table.
row() {
    local off on
    off=$(shown "$1" off "${@:3}" | grouped)
    on=$(shown "$1" on "${@:3}" | grouped)
    printf '| `%s` | %s | %s | %s |\n' "$1" "$2" "$off" "$on"
}

# The table.
table() {
    echo '| Tried | Setting | Off | On |'
    echo '|---|---|---|---|'
    row reports '30-36 min' 30
    row reports "30-36 min, C's limits" 30 3
    row trips '700 ms' 700
    row trips '1,500 ms' 1500
    row trips '1,500 ms after a HEARTBEAT' 1500 60
    row bottleneck '20 ms' 20
    row next '5 %' 50
    row next '20 %' 200
    row abandoned '5 %' 50
    row aborts '50 ms' 50
    row missing '10,000' 10000
    row stale '40 ms' 40
    row cookies '10 s' 10
    row forged '50 ms' 50
    row beats '50 ms' 50
    row dark "70 s, C's limits" 70 3
    row farewells '5 %' 50
}

keep_table c-rules "$(table)" "$@"
