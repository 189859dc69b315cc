#!/usr/bin/env bash
# Calls LIBRARY as libFuzzer's inputs say, for so many minutes: half of them sockets (tests/c/fuzz.c), half of them
# data channels (tests/c/fuzz_channels.c). FOLDER keeps the inputs that showed something, for the next run, and those that
# failed. Without clang or its runtime it names the package.
#
#     scripts/fuzz.sh LIBRARY FOLDER [MINUTES]    5 minutes by default
#     scripts/fuzz.sh LIBRARY FOLDER FILE         runs an input of FOLDER again
set -euo pipefail
shopt -s inherit_errexit
[ $# = 2 ] || [ $# = 3 ] || { sed -n '6,7s/^# *//p' "$0" >&2; exit 2; }
library=$(realpath "$1") to=$2 what=${3:-5}
[[ -f $what || $what =~ ^[1-9][0-9]{0,3}$ ]] || { echo "fuzz: $what isn't a file or a number of minutes" >&2; exit 2; }
clang=${CLANG:-clang}
mkdir -p "$to"
command -v "$clang" >/dev/null || { echo "skipped: fuzzing: no clang (apt install clang)"; exit 0; }
sanitize=fuzzer,address,undefined
echo 'int LLVMFuzzerTestOneInput(const unsigned char *a, unsigned long n) { return !a && n; }' |
    "$clang" -fsanitize=$sanitize -x c - -o "$to/try" 2>"$to/log" || {
    version=$("$clang" -dumpversion)
    echo "skipped: fuzzing: clang has no libFuzzer (apt install libclang-rt-${version%%.*}-dev)"
    exit 0
}

# fuzzed NAME: builds a program, and runs it.
fuzzed() {
    local folder=$to/$1 status=0 found
    mkdir -p "$folder/corpus"
    "$clang" -std=c11 -O1 -g -Wall -Wextra -Wshadow -Werror -fsanitize=$sanitize -fno-sanitize-recover=all \
        -DWITH_LIBFUZZER -I"$(dirname "$0")/../include" "$(dirname "$0")/../tests/c/$1.c" "$library" \
        -Wl,--wrap=malloc,--wrap=realloc,--wrap=free -o "$folder/$1"
    # (a call that doesn't return is a finding, too)
    local flags=(-timeout=60 -rss_limit_mb=2048 "-artifact_prefix=$folder/finding-")
    if [ -f "$what" ]; then exec "$folder/$1" "${flags[@]}" "$what"; fi
    echo "$1: $((30 * what)) seconds; its log is $folder/log"
    "$folder/$1" "${flags[@]}" -max_len=2048 -len_control=10 -max_total_time=$((30 * what)) -print_final_stats=1 \
        "$folder/corpus" >"$folder/log" 2>&1 || status=$?
    found=$(sed -n 's/.*Test unit written to //p' "$folder/log" | tail -1)
    if [ -n "$found" ]; then
        grep -E '^[^ ]*fuzz\w*\.c:[0-9]+:|^SUMMARY|ERROR: ' "$folder/log" | head -5 >&2
        echo "$1: $found failed. To run it again: bash $0 $library $to $found" >&2
        exit 1
    fi
    [ $status = 0 ] || { tail -20 "$folder/log" >&2; exit 1; }
    awk -v name="$1" '/^stat::number_of_executed_units/ { print "check: " name ": " $2 " inputs, none failed" }' \
        "$folder/log"
}

if [ -f "$what" ]; then
    fuzzed "$(basename "$(dirname "$what")")"
else
    fuzzed fuzz
    fuzzed fuzz_channels
fi
