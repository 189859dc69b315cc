#!/usr/bin/env bash
# Prints what this tree costs in instructions, beside the figures of docs/figures.md ('Two sockets'): of two sockets in
# Rattle, by scripts/measure.sh, and of the C library, by scripts/c-costs.sh. PROGRAM is a build of crates/dcsctp_bench,
# and FOLDER has the library. Without valgrind it names the package.
#
#     scripts/bench.sh PROGRAM FOLDER
set -euo pipefail
shopt -s inherit_errexit
[ $# = 2 ] || { sed -n '6s/^# *//p' "$0" >&2; exit 2; }
program=$(realpath "$1") library=$(realpath "$2")
cd "$(dirname "$0")/.."
command -v valgrind >/dev/null || { echo "skipped: counting instructions: no valgrind (apt install valgrind)"; exit 0; }
folder=$(mktemp -d)
trap 'rm -rf "$folder"' EXIT
BENCH=$program bash scripts/measure.sh speed >"$folder/speed"
bash scripts/c-costs.sh "$library" >"$folder/costs"

echo "Instructions of both ends together, here and in docs/figures.md:"
echo
# The table's rows, each with another column. Rows and figures have the same names, in the same order.
awk -v FS=' *[|] *' '
    FNR == NR { at = match($0, / +[0-9.]+$/); name[FNR] = substr($0, 1, at - 1); here[FNR] = substr($0, at) + 0; next }
    /^## / { inside = $0 == "## Two sockets" }
    !inside || !/^[|]/ { next }
    { column = "---" }
    !/^[|]-/ { column = "Here" }
    !/^[|]-/ && $2 != "What" {
        rows++
        if ($2 != name[rows]) { print "bench: no figure is named: " $2 >"/dev/stderr"; exit bad = 1 }
        column = here[rows]
        while (match(column, /[0-9][0-9][0-9][0-9]($|,)/))
            column = substr(column, 1, RSTART) "," substr(column, RSTART + 1)
    }
    {
        printf "| %s | %s", $2, column
        for (i = 3; i < NF; i++) printf " | %s", $i
        print " |"
    }
    END { if (!bad && !rows) { print "bench: docs/figures.md has no table" >"/dev/stderr"; bad = 1 } exit bad }
' "$folder/speed" docs/figures.md
echo
echo "The C library (docs/guide/c.md):"
echo
printf '| What | Here |\n|---|---|\n'
sed -E 's/^(.*[^ ])  +(.*)$/| \1 | \2 |/' "$folder/costs"
