#!/usr/bin/env bash
# Runs PROGRAM, which is made of examples/c/demo.c, and has tshark read the packets that it leaves in FILE: as many as the
# program says, none malformed, and all with the right checksum. Without tshark it names the package that has it.
#
#     scripts/demo.sh PROGRAM FILE
set -euo pipefail
[ $# = 2 ] || { sed -n '5s/^# *//p' "$0" >&2; exit 2; }
folder=$(mktemp -d)
trap 'rm -rf "$folder"' EXIT
"$1" "$2" | tee "$folder/output"
command -v tshark >/dev/null || {
    echo "demo: open $2 with Wireshark; to have it checked here: apt install tshark"
    exit 0
}
packets=$(sed -n 's/^demo: \([0-9]*\) packets, .*/\1/p' "$folder/output")
# A line a packet: its number, 1 if the checksum is right, and nothing, or that it is malformed.
tshark -r "$2" -o 'sctp.checksum:CRC 32c' -T fields -e frame.number -e sctp.checksum.status -e _ws.malformed \
    >"$folder/read" 2>"$folder/errors" || { cat "$folder/errors" >&2; exit 1; }
awk -F '\t' -v packets="$packets" '
    $2 != 1 { print "demo: tshark: packet " $1 " has a wrong checksum"; bad = 1 }
    $3 != "" { print "demo: tshark: packet " $1 " is malformed"; bad = 1 }
    END { if (NR != packets) { print "demo: tshark: there are " NR " packets"; bad = 1 } exit bad }' "$folder/read" >&2
echo "demo: tshark read $2: $packets packets, none malformed, all checksums right"
