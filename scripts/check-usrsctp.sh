#!/usr/bin/env bash
# Builds bindings/usrsctp, and runs programs for usrsctp (tests/usrsctp) over it and over libusrsctp, unedited: calls in one
# process, and two processes with each pair of the libraries. It needs this package, by its name in apt: libusrsctp-dev.
#
#     scripts/check-usrsctp.sh LIBRARY FOLDER      LIBRARY is the archive; FOLDER gets libusrsctp.so.2, libusrsctp.a
#                                                  and the programs
set -euo pipefail
shopt -s inherit_errexit
[ $# = 2 ] || { sed -n '/^# *scripts/s/^# *//p' "$0" >&2; exit 2; }
cd "$(dirname "$0")/.."
. scripts/usrsctp.bash
if ! has_header; then
    echo "skipped: programs for usrsctp: no usrsctp.h (apt install libusrsctp-dev)"
    exit 0
fi
set_up "$1" "$2"
bash scripts/usrsctp.sh "$library" "$folder"
echo "check: libusrsctp.so.2 and libusrsctp.a"

# Each call of libusrsctp is there.
names() { "${NM:-nm}" -D --defined-only "$1" | awk '{ print $3 }' | grep '^usrsctp_' | sort; }
names "$("$cc" -print-file-name=libusrsctp.so)" >"$folder/names"
comm -23 "$folder/names" <(names "$folder/libusrsctp.so.2") | diff /dev/null -
echo "check: each call of libusrsctp is there"

for test in calls peer; do
    "${compile[@]}" "tests/usrsctp/$test.c" -lusrsctp -pthread -o "$folder/$test-usrsctp"
    "${compile[@]}" "tests/usrsctp/$test.c" "$folder/libusrsctp.a" -pthread -o "$folder/$test-dcsctp"
done

# counted NAME COMMAND..: the last line of a test has its counts.
counted() {
    local last
    timeout 120 "${@:2}" >"$folder/log" 2>&1 || { cat "$folder/log"; echo "check-usrsctp: $1 failed"; exit 1; }
    last=$(tail -n 1 "$folder/log")
    echo "check: $1 (${last#*: })"
}
counted "calls over usrsctp" "$folder/calls-usrsctp"
counted "the same over dcsctp" "$folder/calls-dcsctp"
counted "the program for usrsctp, by LD_LIBRARY_PATH" env LD_LIBRARY_PATH="$folder" "$folder/calls-usrsctp"
for one in usrsctp dcsctp; do
    for other in usrsctp dcsctp; do
        [ "$one$other" != usrsctpusrsctp ] || continue
        counted "$one to $other" "$folder/peer-$one" "$folder/peer-$other"
        counted "$one to $other, each 50th packet lost" "$folder/peer-$one" "$folder/peer-$other" 50
    done
done

# Sanitizers see the facade, and the calls of its thread.
sanitized() {
    "${compile[@]}" -O1 "-fsanitize=$2" "tests/usrsctp/$1.c" bindings/usrsctp/*.c "$library" -pthread -o "$folder/$1-$2"
}
if echo 'int main(void) { return 0; }' | "$cc" -fsanitize=address,undefined -x c - -o "$folder/try" 2>/dev/null; then
    sanitized calls address,undefined
    counted "calls, -fsanitize=address,undefined" "$folder/calls-address,undefined"
    sanitized peer thread
    counted "two processes, -fsanitize=thread" "$folder/peer-thread" "$folder/peer-thread" 50
else
    echo "skipped: programs for usrsctp under sanitizers: $cc has none (apt install gcc)"
fi
