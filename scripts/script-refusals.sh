#!/usr/bin/env bash
# Runs scripts by the program once for each allocation that they take, which fails in that run, and once more with
# every one after it failing, too. A run must print what the lines before the one that ran out print, whole, then
# `out of memory`, and to end with status 3. Prints each run that doesn't. PROGRAM names another build of the program.
# With `all` every case is run so, which takes minutes.
#
# Which line an allocation belongs to is counted: the first lines of a script are run by themselves, with enough memory.
set -euo pipefail
shopt -s inherit_errexit
cd "$(dirname "$0")/.."
ulimit -c 0
export program=${PROGRAM:-$PWD/crates/dcsctp_run/out/dcsctp_run} folder
[ -x "$program" ] || { echo "script-refusals: $program isn't built: run rt ci, or name another build by PROGRAM" >&2; exit 2; }
folder=$(mktemp -d)
trap 'rm -rf "$folder"' EXIT
cc -O1 -Wall -shared -fPIC -o "$folder/refuse.so" tests/refuse.c
bash scripts/cases.sh --write "$folder"

# What is run beside the examples: a message, a shutdown, a request that comes twice, handovers with their restores, and
# what is refused.
chosen='messages.cases one message
shutdown.cases a side shuts down
own_resets.cases a request that comes twice is performed once
handovers.cases one side of an open association
handovers.cases messages that wait go along
handovers.cases while the INIT ACK is awaited
reset_calls.cases before an association is begun
reset_calls.cases where the peer resets no streams
refusals.cases the first of several reasons'

# is_chosen PLACE NAME
is_chosen() {
    local file=${1##*/}
    [ "$which" = all ] || [[ $1 == examples/* ]] || grep -qxF -- "${file%:*} $2" <<< "$chosen"
}

# run PRINTED N ON: runs the script that comes in, with the allocation N refused, and all after it if ON is 1. Prints
# the status, and how many there were; -1 if the program didn't say.
run() {
    local status=0
    timeout 10 env REFUSED="$2" REFUSED_ON="$3" LD_PRELOAD="$folder/refuse.so" "$program" > "$1" 2> "$1.said" || status=$?
    awk -v status="$status" 'BEGIN { count = -1 } $1 == "allocations" { count = $2 } END { print status, count }' "$1.said"
}

# wrong PLACE PRINTED WHAT: prints a run that isn't as it must be.
wrong() {
    echo "wrong $1: $3, and it printed:"
    sed 's/^/    /' "$2"
}

# refuse_at CASE PLACE LINE FIRST LAST: each of these allocations, which belong to this line.
refuse_at() {
    local number on status count
    for ((number = $4; number <= $5; number++)); do
        for on in 0 1; do
            read -r status count < <(run "$1.printed" "$number" "$on" < "$1.script")
            [ "$status" = 3 ] && [ "$count" -ge "$number" ] && cmp -s "$1.due" "$1.printed" ||
                wrong "$2" "$1.printed" "line $3, REFUSED=$number REFUSED_ON=$on, status $status"
        done
    done
}

# refuse CASE: each allocation of a script. Prints what is wrong, and how many there were.
refuse() {
    local case=$1 wanted place said lines line status count before=0
    read -r wanted place said < "$case.name"
    lines=$(awk 'END { print NR }' "$case.script")
    : > "$case.whole"
    for ((line = 0; line <= lines; line++)); do
        read -r status count < <(head -n "$line" "$case.script" | run "$case.next" 0 0)
        [[ $status = [02] ]] && [ "$count" -ge "$before" ] ||
            wrong "$place $said" "$case.next" "the first $line lines with enough memory, status $status, $count allocations"
        { cat "$case.whole"; echo "out of memory"; } > "$case.due"
        refuse_at "$case" "$place $said" "$line" "$((before + 1))" "$count"
        before=$count
        mv "$case.next" "$case.whole"
    done
    [ "$status" = "$wanted" ] && cmp -s "$case.wanted" "$case.whole" ||
        wrong "$place $said" "$case.whole" "the whole with enough memory, status $status"
    echo "refused $before"
}
export -f run wrong refuse_at refuse

which=${1:-}
for name in "$folder"/*.name; do
    read -r _ place said < "$name"
    if is_chosen "$place" "$said"; then
        echo "${name%.name}"
    fi
done > "$folder/list"
due=$(($(grep -c '' <<< "$chosen") + $(find examples -name '*.script' | wc -l)))
[ "$which" != all ] || due=$(grep -c '' "$folder/list")
xargs -P "$(nproc)" -I CASE bash -c 'refuse CASE' < "$folder/list" > "$folder/results"
grep -v '^refused ' "$folder/results" || true
awk -v due="$due" '
    $1 == "refused" { scripts++; count += $2 }
    $1 == "wrong" { wrong++ }
    END {
        printf "script-refusals: %d allocations refused alone and with all after them, %d runs wrong\n", count, wrong
        failed = due - scripts + wrong
        printf "script-refusals: %d passed, %d failed\n", (failed ? 0 : due), failed
        exit !(failed == 0 && count > 0)
    }
' "$folder/results"
