#!/usr/bin/env bash
# Runs each case in crates/dcsctp_run/cases by the program that `rt ci` has proved and built, or by PROGRAM:
# a script, the status that it must end with, and all that it must print; and so each script in examples/,
# which has its output beside it and ends with 0. Prints each that fails: its place and name, and the first line
# that differs. A file of cases has these lines:
#
#     = NAME          lines that replace `{NAME}`, up to an empty one
#     == NAME         a case; after it its script
#     -- STATUS       after it what the script prints, up to an empty line
#
# `{N zeros}` means the digits of N bytes of zeros. A last line of a script that ends in `\` has no
# newline. Lines that begin with `#` are comments.
#
# With `--write FOLDER` nothing is run: FOLDER gets three files for each case and example, `.name` (status, place
# and name), `.script` and `.wanted`.
set -euo pipefail
if [ "${1:-}" = --write ]; then
    folder=$(cd "$2" && pwd)
    cd "$(dirname "$0")/.."
else
    cd "$(dirname "$0")/.."
    program=${PROGRAM:-$PWD/crates/dcsctp_run/out/dcsctp_run}
    [ -x "$program" ] || { echo "cases: $program isn't built: run rt ci, or name another build by PROGRAM" >&2; exit 2; }
    folder=$(mktemp -d)
    trap 'rm -rf "$folder"' EXIT
fi
count=0
failed=0

# each case as three files: its status, place and name; its script; what it prints
for file in crates/dcsctp_run/cases/*.cases; do
    awk -v at="$folder/$(basename "$file" .cases)" '
        function zeros(bytes,    half) {
            if (bytes < 2) return bytes ? "00" : ""
            half = zeros(int(bytes / 2))
            return half half (bytes % 2 ? "00" : "")
        }
        function say(line, to) {
            while (match(line, /\{[0-9]+ zeros\}/))
                line = substr(line, 1, RSTART - 1) zeros(substr(line, RSTART + 1, RLENGTH - 8) + 0) substr(line, RSTART + RLENGTH)
            if (sub(/\\$/, "", line)) printf "%s", line > to
            else print line > to
        }
        function put(line, to) {
            if (line !~ /^\{[a-z-]+\}$/) { say(line, to); return }
            line = substr(line, 2, length(line) - 2)
            if (!(line in blocks)) wrong("no such block")
            printf "%s", blocks[line] > to
        }
        function path(ending) { return sprintf("%s.%03d.%s", at, count, ending) }
        function wrong(why) { printf "cases: %s:%d: %s: %s\n", FILENAME, FNR, why, $0; part = "wrong"; exit 1 }
        /^#/ { next }
        /^==? / && part == "script" { wrong("the case before it has no line -- STATUS") }
        /^= / { part = "block"; block = substr($0, 3); blocks[block] = ""; next }
        /^== / { part = "script"; count++; name = FILENAME ":" FNR " " substr($0, 4); printf "" > path("script"); printf "" > path("wanted"); next }
        part == "script" && /^-- [0-3]$/ { part = "wanted"; print $2, name > path("name"); next }
        part == "script" { put($0, path("script")); next }
        $0 == "" { part = ""; next }
        part == "block" { blocks[block] = blocks[block] $0 "\n"; next }
        part == "wanted" { put($0, path("wanted")); next }
        { wrong("what is this line for?") }
        END { if (part == "script" || count == 0) wrong("no whole case") }
    ' crates/dcsctp_run/cases/blocks "$file" || { count=$((count + 1)) failed=$((failed + 1)); }
done

for script in examples/*.script; do
    name=$(basename "$script" .script)
    echo "0 $script the example $name" > "$folder/example.$name.name"
    cp "$script" "$folder/example.$name.script"
    cp "$script.stdout" "$folder/example.$name.wanted"
done

if [ "${1:-}" = --write ]; then
    exit "$failed"
fi

# differs WANTED PRINTED: the first line that differs; of a long one the part round the difference.
differs() {
    awk '
        function part(line) { return substr(line, from, 120) (length(line) < from + 120 ? "" : "..") }
        function report(wanted, printed,    at) {
            reported = 1
            while (++at <= length(wanted) && substr(wanted, at, 1) == substr(printed, at, 1));
            from = at > 100 ? at - 40 : 1
            print "    line " row (from == 1 ? "" : ", from column " from) " differs"
            print "        wanted:  " part(wanted)
            print "        printed: " part(printed)
            exit
        }
        FILENAME == ARGV[1] { wanted[++rows] = $0; next }
        { row = FNR }
        row > rows { report("(nothing more)", $0) }
        $0 "" != wanted[row] "" { report(wanted[row], $0) }
        END {
            if (!reported && row++ < rows) report(wanted[row], "(nothing more)")
            if (!reported) print "    the newline at the end differs"
        }
    ' "$1" "$2"
}

# A program gets ten seconds; `timeout` ends with 124 for one that hangs, and with 128 and the signal for a crash.
for name in "$folder"/*.name; do
    case=${name%.name}
    read -r status place said < "$name"
    ended=0
    timeout 10 "$program" < "$case.script" > "$case.printed" || ended=$?
    count=$((count + 1))
    same=yes
    cmp -s "$case.wanted" "$case.printed" || same=no
    if [ "$ended$same" != "${status}yes" ]; then
        failed=$((failed + 1))
        echo "cases: $place: $said"
        if [ "$ended" = 124 ]; then
            echo "    hangs: not done after 10 seconds"
        elif [ "$ended" -gt 128 ]; then
            echo "    crashes: ended by signal $((ended - 128))"
        elif [ "$ended" != "$status" ]; then
            echo "    ends with status $ended in place of $status"
        fi
        [ "$same" = yes ] || differs "$case.wanted" "$case.printed"
    fi
done
echo "cases: $((count - failed)) passed, $failed failed"
[ "$failed" = 0 ]
