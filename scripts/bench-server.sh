#!/usr/bin/env bash
# Measures the server of examples/c. On 1, 2 and 4 cores: what idle associations cost, and how many messages of 100 bytes
# it sends back while each of its associations sends the next once the last is back. The clients have the other cores, as
# far as there are any. Then its restarts, by scripts/check-restart.sh. Prints two tables of docs/figures.md; with --write
# it puts them there, and draws their graphs.
#
#     scripts/bench-server.sh FOLDER [--write]
#
# SECONDS_EACH is how long each row sends: 8. RESTARTS is how often it is restarted: 20. COMMAND is put before the programs,
# as `chrt -r 1` is beside other work.
set -euo pipefail
shopt -s inherit_errexit
[ $# -ge 1 ] || { sed -n '7s/^# *//p' "$0" >&2; exit 2; }
programs=$(realpath "$1")
cd "$(dirname "$0")/.."
. scripts/table.bash
seconds=${SECONDS_EACH:-8}
idle=36
cores=$(nproc)
export COMMAND=${COMMAND:-}
read -ra command <<<"$COMMAND"
folder=$(mktemp -d)
server='' clients=()
trap 'kill $server "${clients[@]}" 2>/dev/null || true; rm -rf "$folder"' EXIT
[ "$(ulimit -n)" -ge 12000 ] || ulimit -n "$(ulimit -Hn)"

# await FILE WORDS: waits until a line has them.
await() {
    until grep -q "$2" "$1"; do
        kill -0 $server || { cat "$folder"/* >&2; exit 1; }
        sleep 0.05
    done
}

# begin_server THREADS ASSOCIATIONS: the server on the first cores, which reports each second.
begin_server() {
    rm -f "$folder/server"
    touch "$folder/server"
    taskset -c "0-$(($1 - 1))" "${command[@]}" "$programs/server" --threads "$1" 0 "$2" 1 >>"$folder/server" &
    server=$!
    await "$folder/server" '^process '
    port=$(sed -n 's/^port //p' "$folder/server")
}

# begin_clients THREADS ASSOCIATIONS RATE SECONDS: load on the cores that the server doesn't have, or on all.
begin_clients() {
    local first=$1 count i
    [ "$first" -lt "$cores" ] || first=0
    count=$((cores - first))
    clients=()
    for ((i = 0; i < count; i++)); do
        taskset -c $((first + i)) "${command[@]}" "$programs/load" --turns "$port" $(($2 / count)) "$3" "$4" >"$folder/load.$i" &
        clients+=($!)
    done
}

end_all() {
    local it
    for it in "${clients[@]}"; do wait "$it" || { cat "$folder"/load.* >&2; exit 1; }; done
    kill $server
    wait $server || true # (the last packet of a shutdown may be lost)
    clients=() server=''
}

# reports: the numbers of the server's reports while most of its associations were connected, without the first and last.
reports() {
    awk '/ connected, / { gsub(/[^0-9.]+/, " "); all[NR] = $1; line[NR] = $0; most = $1 > most ? $1 : most }
        END { for (i in all) if (all[i] == most) print i, line[i] }' "$folder/server" | sort -n | cut -d' ' -f2- | sed '1d;$d'
}

# middle COLUMN: the median of a number of the reports.
middle() {
    reports | awk -v column="$1" '{ print $column }' | sort -g |
        awk '{ all[NR] = $1 } END { print all[int((NR + 1) / 2)] + 0 }'
}

# mean COLUMN: the mean.
mean() {
    reports | awk -v column="$1" '{ sum += $column } END { print NR ? sum / NR : 0 }'
}

# row THREADS ASSOCIATIONS: a line of the table. Idle associations send a HEARTBEAT each 30 s.
row() {
    local idle_bytes='' idle_ms=''
    if [ "$1" = 1 ]; then
        begin_server "$1" "$2"
        begin_clients "$1" "$2" 0 $((idle + $2 / 2000))
        end_all
        idle_bytes=$(middle 2)
        idle_ms=$(awk -v own="$(mean 3)" -v kernel="$(mean 4)" 'BEGIN { printf "%.1f", own + kernel }')
    fi
    begin_server "$1" "$2"
    begin_clients "$1" "$2" 1 $((seconds + 4))
    end_all
    awk -v associations="$2" -v threads="$1" -v bytes="$idle_bytes" -v idle="$idle_ms" -v busy="$(middle 2)" \
        -v own="$(middle 3)" -v kernel="$(middle 4)" -v messages="$(middle 5)" 'BEGIN {
        if (!messages) { print "bench-server: too few reports" >"/dev/stderr"; exit 1 }
        printf "| %d | %d | %s | %s | %d | %d | %.1f + %.1f |\n", associations, threads, bytes, idle, busy,
            messages, own * 1000 / messages, kernel * 1000 / messages }'
}

table() {
    local associations threads
    echo "| Associations | Threads | Idle bytes | Idle ms | Used bytes | Messages a second | µs each |"
    echo "|---|---|---|---|---|---|---|"
    for associations in 1000 10000; do
        for threads in 1 2 4; do
            [ "$threads" -gt "$cores" ] || row "$threads" "$associations"
        done
    done
}

# restarts TEXT LOSS ARGS..: a row of restarts. Milliseconds are the most of all.
restarts() {
    EVERY=1.2 LAST=5 bash scripts/check-restart.sh "${@:4}" >"$folder/restarts" || { cat "$folder/restarts" >&2; exit 1; }
    [ "$1" != graph ] || python3 scripts/graphs.py restarts "$folder/restarts"
    awk -v text="$2" -v loss="$3" '
        function most(name, form,   at) {
            if (!match($0, form)) return
            at = substr($0, RSTART, RLENGTH)
            gsub(/[^0-9.]/, "", at)
            if (!(name in all) || at + 0 > all[name]) all[name] = at + 0
        }
        { most("moved", "in [0-9.]+ ms"); most("away", "away for [0-9.]+ ms"); most("pause", "longest pause [0-9]+ ms") }
        END { printf "| %s | %s | %s | %s | %d |\n", text, loss, "moved" in all ? all["moved"] : "",
            "away" in all ? all["away"] : "", all["pause"] }' "$folder/restarts"
}

restart_table() {
    local times=${RESTARTS:-20}
    echo "| Restarts | Loss | Until the next process has all, ms | In neither, ms | Longest pause, ms |"
    echo "|---|---|---|---|---|"
    restarts - "none" "0 %" "$programs" 0 100 10 100 0
    restarts - "none" "1 %" "$programs" 0 100 10 100 10
    restarts - "$times" "0 %" "$programs" "$times" 100 10 100 0
    restarts "$draws" "$times" "1 %" "$programs" "$times" 100 10 100 10
    restarts - "$times; 10 associations, 5 messages of 64 KiB" "1 %" "$programs" "$times" 10 5 65536 10
    restarts - "4 through Redis" "1 %" --store "$programs" 4 100 10 100 10
}

draws=-
[ "${2:-}" != --write ] || draws=graph
table >"$folder/table"
keep_table bench-server "$(cat "$folder/table")" "${@:2}"
[ $draws != graph ] || python3 scripts/graphs.py cores "$folder/table"
restart_table >"$folder/restart-table"
echo
keep_table bench-server "$(cat "$folder/restart-table")" "${@:2}"
