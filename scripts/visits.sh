#!/usr/bin/env bash
# Prints the table of changes in docs/figures.md: for each layer of crates.txt up to delivery, how many crates are
# checked again after a change in one of its crates, the least and the most; and how many visits of crates the sums of
# `rt` take. Before each check `rt` sums the sources of all libraries that the crate depends on, again along every path
# of crates.txt. With `--check` it fails if that file has another table, and with `--write` it puts the table there.
set -euo pipefail
shopt -s inherit_errexit
cd "$(dirname "$0")/.."
. scripts/table.bash

# The table. A crate's line comes after those of its libraries, so one pass counts the visits.
table() {
    echo '| A change in | Crates checked again |'
    echo '|---|---|'
    awk '
        /^# [A-Za-z ]+[:,.] / { layer = $0; sub(/^# /, "", layer); sub(/[:,.] .*/, "", layer) }
        !/^[a-z]/ { next }
        {
            name = $1
            sub(/:$/, "", name)
            names[++count] = name
            layers[count] = layer
            visits[name] = 1
            for (i = 2; i <= NF; i++) {
                if (!($i in visits)) continue
                visits[name] += visits[$i]
                below[name, $i] = 1
                for (j = 1; j < count; j++)
                    if ((($i SUBSEP names[j])) in below) below[name, names[j]] = 1
            }
            sum += visits[name]
        }
        END {
            for (i = 1; i <= count; i++) {
                again = 0
                for (j = i + 1; j <= count; j++) again += (names[j] SUBSEP names[i]) in below
                if (layers[i] != layers[i - 1]) least = most = again
                if (again < least) least = again
                if (again > most) most = again
                if (layers[i] == layers[i + 1]) continue
                printf "| %s | %s |\n", layers[i], least == most ? least : least " to " most
                if (layers[i] == "Delivery") break
            }
            printf "| all, in %d visits by the sums of `rt` | %d |\n", sum, count
        }
    ' crates.txt
}

keep_table visits "$(table)" "$@"
