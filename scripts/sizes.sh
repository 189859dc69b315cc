#!/usr/bin/env bash
# Prints the table of sizes in docs/figures.md: for each layer of crates.txt the lines that are neither blank nor a
# comment (contracts count as code), and the wrong bodies: edits in must-fail/ and attacks/. With `--check` it fails if
# that file has another table, and with `--write` it puts the table there.
set -euo pipefail
shopt -s inherit_errexit
cd "$(dirname "$0")/.."
. scripts/table.bash

# lines ENDING FOLDER: those of its files that are neither blank nor a comment.
lines() {
    [ -d "$2" ] || { echo 0; return; }
    find "$2" -name "*.$1" -exec cat {} + | awk '!/^[ \t]*($|\/\/|--)/ { count++ } END { print count + 0 }'
}

# edits FOLDER: how many wrong bodies it has.
edits() {
    [ -d "$1" ] || { echo 0; return; }
    find "$1" -name '*.edit' | wc -l
}

# row NAME NUMBERS..: a line of the table.
row() {
    printf '| %s |' "$1"
    printf ' %s |' "${@:2}"
    printf '\n'
}

# The table: a row for each layer of crates.txt, as its comments name them.
table() {
    local line layer='' crate folder definitions=0 i
    local -a layers=() sizes all=(0 0 0 0)
    local -A counts=()
    while read -r line; do
        if [[ $line =~ ^'# '([A-Za-z ]+)[:,.] ]]; then
            layer=${BASH_REMATCH[1]}
            continue
        fi
        [[ $line =~ ^([a-z_]+)[\ a-z]*: ]] || continue
        crate=${BASH_REMATCH[1]}
        folder=crates/$crate
        sizes=("$(lines rt "$folder/src")" "$(lines antt "$folder/specs")" "$(lines antt "$folder/proofs")"
            $(($(edits "$folder/must-fail") + $(edits "attacks/$crate"))))
        [ -n "${counts[$layer,0]:-}" ] || layers+=("$layer")
        for i in "${!sizes[@]}"; do counts[$layer,$i]=$((${counts[$layer,$i]:-0} + sizes[i])); done
    done <crates.txt
    echo '| Layer | Code | Definitions | Proofs | Edits |'
    echo '|---|---|---|---|---|'
    for layer in "${layers[@]}"; do
        sizes=()
        for i in "${!all[@]}"; do
            sizes[i]=${counts[$layer,$i]}
            all[i]=$((all[i] + sizes[i]))
        done
        row "$layer" "${sizes[@]}"
    done
    # Attacks on definitions are in folders of attacks/ that are named after no crate.
    for folder in attacks/*/; do
        [ -d "crates/$(basename "$folder")" ] || definitions=$((definitions + $(edits "$folder")))
    done
    all[3]=$((all[3] + definitions))
    row "All, with $definitions on definitions" "${all[@]}"
}

keep_table sizes "$(table)" "$@"
