#!/usr/bin/env bash
# Runs the server of examples/c with 100 associations. They send 10 messages each in a second while 50 of 1,000 packets are
# lost, and end. Two send all they can, so that the server must wait for room. 100 more send 10 each, and the server ends
# these by SIGTERM. COMMAND is put before both programs, as valgrind is.
#
#     scripts/try-server.sh FOLDER [COMMAND..]
set -euo pipefail
[ $# -ge 1 ] || { sed -n '6s/^# *//p' "$0" >&2; exit 2; }
programs=$1
shift
folder=$(mktemp -d)
touch "$folder/server" "$folder/load"
trap 'kill "${server:-}" "${load:-}" 2>/dev/null || true; rm -rf "$folder"' EXIT

# await PROCESS FILE WORDS: waits until a line of FILE, which PROCESS writes, has WORDS.
await() {
    until grep -q "$3" "$2"; do
        kill -0 "$1" 2>/dev/null || { echo "try-server: it ended too early" >&2; cat "$folder"/* >&2; exit 1; }
        sleep 0.05
    done
}

"$@" "$programs/server" 0 300 >"$folder/server" &
server=$!
await $server "$folder/server" '^port '
port=$(sed -n 's/^port //p' "$folder/server")
"$@" "$programs/load" "$port" 100 10 1 100 50
"$@" "$programs/load" "$port" 2 1000 1 65536
"$@" "$programs/load" --stay "$port" 100 10 1 >"$folder/load" &
load=$!
await $load "$folder/load" 'came back'
kill -TERM $server
wait $load || { cat "$folder/load"; exit 1; }
cat "$folder/load"
wait $server || { cat "$folder/server"; exit 1; }
grep -x 'ending 100 associations' "$folder/server"
grep -E '^[0-9]+ associations made, 0 aborted, 0 failed, 0 refused; ' "$folder/server"
