#!/usr/bin/env bash
# Restarts the server of examples/c again and again while associations send messages to it, and packets are lost. Each
# process has another number of threads than the one before. With --store each next process has a port of its own, as on
# another machine, and gets the associations from a Redis server, which is started here. No message may be lost, doubled
# or out of order, and no association may end. Prints a line for each process, and the longest pause of an association.
#
#     scripts/check-restart.sh [--store] FOLDER [RESTARTS [ASSOCIATIONS [RATE [BYTES [LOSS]]]]]
#
# By default: 20 restarts, 100 associations, 10 messages of 100 bytes a second of each, and 10 of 1,000 packets are lost.
# EVERY is the time between two restarts, in seconds: 0.5. LAST is the time after the last: 0. DELAY is how long a packet
# takes, in milliseconds. COMMAND is put before the programs, as valgrind is.
set -euo pipefail
way=process
[ "${1:-}" != --store ] || { way=store; shift; }
[ $# -ge 1 ] || { sed -n '7s/^# *//p' "$0" >&2; exit 2; }
programs=$1 restarts=${2:-20} associations=${3:-100} rate=${4:-10} bytes=${5:-100} loss=${6:-10}
read -ra command <<<"${COMMAND:-}"
folder=$(mktemp -d)
touch "$folder/server" "$folder/load" "$folder/redis"
process='' load='' store=''
trap 'kill $process $load $store 2>/dev/null || true; rm -rf "$folder"' EXIT

refuse() {
    echo "check-restart: $1" >&2
    cat "$folder/server" "$folder/load" >&2
    exit 1
}

# await PROCESS COMMAND..: waits until a command says something, while a process runs.
await() {
    local tries=0
    until said=$("${@:2}") && [ -n "$said" ]; do
        [ $((tries += 1)) -lt 2400 ] && kill -0 "$1" || refuse "it takes too long, or has ended: ${*:2}"
        sleep 0.05
    done
}

# process_line NUMBER: the line by which a process of the server says that it serves.
process_line() {
    grep '^process ' "$folder/server" | sed -n "$1p"
}

# begin NUMBER ARGS..: starts a process of the server.
begin() {
    "${command[@]}" "$programs/server" "${@:2}" 0 "$associations" >>"$folder/server" 2>&1 &
    process=$!
    await $process process_line "$1"
}

# by_process NUMBER: the server starts the next process, and hands it the port.
by_process() {
    local cores=$all
    [ $(($1 % 2)) = 1 ] || cores=${all##*[,-]}
    [ -z "$all" ] || taskset -cp "$cores" "$process" >/dev/null
    kill -USR2 "$process"
    await $load process_line "$1"
    said=${said#process }
    process=${said%%:*}
    said="process $said"
}

# by_store NUMBER: we start the next process, with another port.
by_store() {
    local last=$process
    begin "$1" --threads $(($1 % 2 + 1)) --take "$list/$(($1 - 1))" --give "$list/$1"
    kill -USR2 "$last"
    wait "$last" || refuse "a process has failed"
}

# pause LINES: the longest pause that load has printed after so many lines.
pause() {
    sed "1,$1d" "$folder/load" | awk '/ s: / && $(NF - 1) >= most { most = $(NF - 1); found = 1 }
        END { if (found) print "; a pause of " most " ms" }'
}

# ended PROCESS: says so once it has.
ended() {
    kill -0 "$1" 2>/dev/null || echo ended
}

options=() first=()
if [ $way = store ]; then
    command -v redis-server >/dev/null && [[ $(ldd "$programs/server") == *hiredis* ]] ||
        { echo "skipped: restarts by a store: no redis-server or hiredis (apt install redis-server libhiredis-dev)"; exit 0; }
    list=127.0.0.1:$((20000 + RANDOM % 10000))
    first=()
    [[ ${COMMAND:-} != chrt* ]] || first=("${command[@]}")
    "${first[@]}" redis-server --port "${list#*:}" --bind 127.0.0.1 --save '' --dir "$folder" >"$folder/redis" &
    store=$!
    await $store grep 'Ready to accept' "$folder/redis"
    first=(--threads 2 --give "$list/1")
fi
begin 1 "${first[@]}"
echo "1 $said"
all=$(taskset -cp "$process" 2>/dev/null | sed 's/.*: //') || all=
port=$(sed -n 's/^port //p' "$folder/server")
[ $way = process ] || options=(--follow)
[ -z "${DELAY:-}" ] || options+=(--delay "$DELAY")
"${command[@]}" "$programs/load" --stay --pauses "${options[@]}" "$port" "$associations" "$rate" 3600 "$bytes" "$loss" \
    >"$folder/load" &
load=$!
await $load grep pause "$folder/load"
for ((i = 2; i <= restarts + 1; i++)); do
    lines=$(wc -l <"$folder/load")
    by_$way $i
    sleep "${EVERY:-0.5}"
    echo "$i $said$(pause "$lines")"
done
sleep "${LAST:-0}"
kill -TERM $load
await $load grep 'came back' "$folder/load"
kill -TERM "$process"
wait $load || refuse "load has failed"
load=''
await $$ ended "$process"
process=''
grep -v ' s: ' "$folder/load"
grep -vE '^(port|process|ending) |^[0-9]+ associations made, 0 aborted, 0 failed, 0 refused;' "$folder/server" &&
    refuse "a process has failed"
echo "check: the server, by $restarts restarts"
