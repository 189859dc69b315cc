#!/usr/bin/env bash
# Prints the table of docs/figures.md that compares sockets without and with the option `follow_rfc`, as the
# program crates/dcsctp_bench tries each rule with ten seeds. BENCH names another build of the program. With `--check`
# it fails if that file has another table, and with `--write` it puts the table there.
set -euo pipefail
shopt -s inherit_errexit
cd "$(dirname "$0")/.."
. scripts/table.bash
program=${BENCH:-$PWD/crates/dcsctp_bench/out/dcsctp_bench}
[ -x "$program" ] || (cd crates/dcsctp_bench && rt run -- handshakes 1) >&2

# runs RULE SETTING LOSS [WORD..]: what ten runs print, each as one line of names and values.
runs() {
    local seed
    for seed in 1 2 3 4 5 6 7 8 9 10; do
        "$program" rules "$1" "$2" "loss=$3" "seed=$seed" "${@:4}" | tr '\n' ' '
        echo
    done
}

# number CONDITION: in how many runs it holds.
number() {
    values complete "$1" | wc -l
}

aborted='it["aborts"] > 0'
stalled='it["aborts"] == 0 && it["complete"] == "false"'
complete='it["complete"] == "true"'
closed='it["closes"] == 2'

# shown RULE RUNS: what these runs have shown.
shown() {
    case $1 in
        readers)
            printf '%s; %s; ' "$(number "$aborted" <<<"$2")" "$(number "$stalled" <<<"$2")"
            values resumed <<<"$2" | spread %.2f 1000
            ;;
        windows)
            printf '%s; ' "$(number "$stalled" <<<"$2")"
            values last "$complete" <<<"$2" | spread %.2f 1000
            ;;
        shutdown)
            printf '%s; ' "$(number "$closed" <<<"$2")"
            values messages <<<"$2" | spread %g 1
            ;;
        bulk) values last <<<"$2" | spread %.2f 1000 ;;
        reconnects) values messages <<<"$2" | spread %g 1 ;;
        closes | keeps) values resets <<<"$2" | sum ;;
        equals)
            printf '%s; ' "$(values messages <<<"$2" | spread %g 1)"
            values others <<<"$2" | spread %g 1
            ;;
    esac
}

# rows RULE SETTING LOSSES [WORD..]: lines of the table, one for losses in a row with which the same is shown.
rows() {
    local loss percent off on same='' losses=''
    for loss in $3; do
        off=$(shown "$1" "$(runs "$1" off "$loss" "${@:4}")")
        on=$(shown "$1" "$(runs "$1" on "$loss" "${@:4}")")
        percent=$(awk -v loss="$loss" 'BEGIN { print loss / 10 }')
        if [ "$same" = "$off | $on" ]; then
            losses+=", $percent"
        else
            [ -z "$same" ] || printf '| `%s`%s | %s %% | %s |\n' "$1" "$2" "$losses" "$same"
            losses=$percent
            same="$off | $on"
        fi
    done
    printf '| `%s`%s | %s %% | %s |\n' "$1" "$2" "$losses" "$same"
}

# The table.
table() {
    echo '| Tried | Loss | Off | On |'
    echo '|---|---|---|---|'
    rows readers ' (131,072)' '0 10 50' window=131072
    rows readers '' '0 10 50'
    rows windows ' (20,000)' '10 50 100' window=20000
    rows shutdown '' '0 10 50'
    rows shutdown ' (5,000)' '0 10 50' window=5000
    rows bulk '' '0 10 100'
    rows reconnects '' 0
    rows closes '' '10 50 200'
    rows keeps '' '10 50 200'
    rows equals '' 10
}

keep_table rules "$(table)" "$@"
