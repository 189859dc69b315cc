#!/usr/bin/env bash
# Counts the instructions and the bytes of heap of two sockets, as the program crates/dcsctp_bench drives
# them. Each figure is the difference of two runs over the difference of their work, so what a run does
# once doesn't count. Needs valgrind. BENCH names another build of the program.
#
#     scripts/measure.sh [speed | memory | strain]
set -euo pipefail
shopt -s inherit_errexit
cd "$(dirname "$0")/.."
program=${BENCH:-$PWD/crates/dcsctp_bench/out/dcsctp_bench}
[ -x "$program" ] || (cd crates/dcsctp_bench && rt run -- handshakes 1) >&2
folder=$(mktemp -d)
trap 'rm -rf "$folder"' EXIT

# under TOOL FLAG ARGS..: runs the program; what it prints comes to said, what valgrind says to log.
under() {
    valgrind "--tool=$1" "--$1-out-file=$folder/out" "$2" "$program" "${@:3}" \
        >"$folder/said" 2>"$folder/log" || { cat "$folder/log" >&2; exit 1; }
}

# instructions ARGS..: how many a run takes.
instructions() {
    under callgrind --collect-atstart=yes "$@"
    awk '/Collected *:/ { print $NF }' "$folder/log"
}

# handling ARGS..: how many handle_input takes in a run.
handling() {
    under callgrind '--toggle-collect=*::handle_input*' "$@"
    awk '/Collected *:/ { print $NF }' "$folder/log"
}

# heap ARGS..: the most bytes that a run holds.
heap() {
    under massif --peak-inaccuracy=0.0 "$@"
    awk -F= '$1 == "mem_heap_B" && most < $2 { most = $2 } END { printf "%d\n", most }' "$folder/out"
}

# packets: those that the last run sent, both ways together.
packets() {
    awk '/^packets-/ { sum += $2 } END { printf "%d\n", sum }' "$folder/said"
}

# each COUNTER M N COMMAND ARGS..: what one costs, by runs of M and of N of them; with counts, a packet.
each() {
    local counter=$1 m=$2 n=$3 a b
    a=$("$counter" "$4" "$m" "${@:5}")
    if [ "${!#}" = counts ]; then m=$(packets); fi
    b=$("$counter" "$4" "$n" "${@:5}")
    if [ "${!#}" = counts ]; then n=$(packets); fi
    awk -v difference="$((b - a))" -v work="$((n - m))" 'BEGIN { printf "%.0f\n", difference / work }'
}

# report TEXT COMMAND..: a figure, and what it is of.
report() {
    figure=$("${@:2}")
    printf '%-52s %12s\n' "$1" "$figure"
}

speed() {
    report "a handshake, sockets made and dropped" each instructions 10 110 handshakes
    report "1 MiB in messages of 1,024 bytes, a message" each instructions 1 1025 messages 1024
    report "10 MiB of these at 1 % loss, a message" each instructions 1 10241 messages 1024 loss=10
    report "the same at 5 % loss" each instructions 1 10241 messages 1024 loss=50
    report "1 MiB in messages of 64 KiB, a packet" each instructions 1 17 messages 65536 counts
    report "1 MiB in messages of 100 bytes, a message" each instructions 1 10487 messages 100
    report "1 MiB of 1,024 bytes, no checksums" each instructions 1 1025 messages 1024 zero-checksum
    report "10 MiB of these at 1 % loss, a message" each instructions 1 10241 messages 1024 zero-checksum loss=10
    report "the same at 5 % loss" each instructions 1 10241 messages 1024 zero-checksum loss=50
    report "100 bytes after 10 messages, a message" each instructions 100 400 messages 100 queued=10
    few=$figure
    report "100 bytes after 10,000, a message" each instructions 100 400 messages 100 queued=10000
    report "their ratio" awk -v few="$few" -v many="$figure" 'BEGIN { printf "%.2f\n", many / few }'
}

memory() {
    report "bytes of a connected pair, with both sockets" each heap 1 21 hold
    report "the same after 1 MiB each way" each heap 1 21 hold used
    report "the same a minute later" each heap 1 21 hold idle
    report "bytes of a socket itself" awk '/^socket-bytes/ { print $2 }' "$folder/said"
}

# strained KIND HELD: what a packet costs that comes to a receiver which holds so many.
strained() {
    local none ten
    none=$(handling strain "$1" "$2" 0)
    ten=$(handling strain "$1" "$2" 10)
    awk -v difference="$((ten - none))" 'BEGIN { printf "%.0f\n", difference / 10 }'
}

# burdened KIND HELD: what one more call or packet costs a sender that has so many streams or messages.
burdened() {
    local none ten
    none=$(instructions strain "$1" "$2" 0)
    ten=$(instructions strain "$1" "$2" 10)
    awk -v difference="$((ten - none))" 'BEGIN { printf "%.0f\n", difference / 10 }'
}

strain() {
    local kind held
    for kind in fragments interleaved gaps links waiting streams reset \
        skips-repeated skips-rising skips-waiting skips-interleaved \
        skips-deferred skips-deferred-interleaved resets; do
        for held in 10 10000; do
            report "$kind: $held held, a packet" strained "$kind" "$held"
        done
    done
    for kind in turns closes priorities sends reset-calls sacks misses abandoned; do
        for held in 10 10000; do
            report "$kind: $held held, a call or packet" burdened "$kind" "$held"
        done
    done
}

case ${1:-all} in
    speed | memory | strain) "$1" ;;
    all) speed; memory; strain ;;
    *) echo "usage: scripts/measure.sh [speed | memory | strain]" >&2; exit 2 ;;
esac
