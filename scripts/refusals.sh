#!/usr/bin/env bash
# Runs the tests of dcsctp_socket_refusal_tests and dcsctp_world_refusal_tests with too little memory, and fails unless
# each run keeps what sockets and worlds promise for that. Each test is run
#
#     once for each of its allocations, which is refused in that run
#     once for each of its allocations, which is refused with all after it
#     once so that all are refused between its marks, where it does what takes no memory; there may be none
#
# `rt try --test --fail-alloc N` does the first for one N, and builds the tests again each time; here they are built once,
# and the malloc of tests/refuse.c comes before theirs. Needs a C compiler.
#
#     scripts/refusals.sh PROGRAM ..       each PROGRAM is a build of tests; of one that has others too, ONLY says which
#                                          tests are run, as a regular expression
set -euo pipefail
shopt -s inherit_errexit
cd "$(dirname "$0")/.."
ulimit -c 0
unset REFUSED REFUSED_ON MARKED
[ $# -gt 0 ] || { sed -n '/^# *scripts/s/^# *//p' "$0" >&2; exit 2; }
programs=("$@")
folder=$(mktemp -d)
trap 'rm -rf "$folder"' EXIT
cc -O1 -Wall -shared -fPIC -o "$folder/refuse.so" tests/refuse.c

# run TEST: runs a test as REFUSED, REFUSED_ON and MARKED say. What it says, in the end its counts, comes to said.
run() {
    said=$({ LD_PRELOAD=$folder/refuse.so "$program" "$1" 2>&1; } 2>/dev/null)
}

# counted WORD: the last number after this word in what the last run said; -1 if there is none, as in one that aborts.
counted() {
    [[ $'\n'$said =~ .*$'\n'"$1 "([0-9]+) ]] && echo "${BASH_REMATCH[1]}" || echo -1
}

# broken: the last run broke a promise. Prints how it was run, and what the test said.
broken() {
    printf 'refusals: %s, with REFUSED=%s REFUSED_ON=%s MARKED=%s:\n%s\n' "$1" \
        "${REFUSED:-0}" "${REFUSED_ON:-0}" "${MARKED:-0}" "$said"
}

# refuse TEST N ON ..: for each N and ON a run in which allocation N is refused, and with it all after it if ON is 1. The
# test itself says whether the promises were kept.
refuse() {
    local test=$1
    shift
    while [ $# -gt 0 ]; do
        export REFUSED=$1 REFUSED_ON=$2
        { run "$test" && [ "$(counted allocations)" -ge "$REFUSED" ]; } || broken "$test"
        shift 2
    done
}

# mark TEST: the run in which all are refused between the marks. Writes how many times that was to the file spans.
mark() {
    export MARKED=1
    { run "$1" && [ "$(counted inside)" -eq 0 ]; } || broken "$1"
    counted spans >"$folder/spans"
}

export folder
export -f run counted broken refuse

# each TEST: its runs, as many at a time as there are processors. Adds its spans to all_spans.
each() {
    local count spans breaks
    run "$1" || { broken "$1"; return 1; }
    count=$(counted allocations)
    {
        (mark "$1")
        seq "$count" | sed 's/.*/& 0\n& 1/' | xargs -P "$(nproc)" -n 64 bash -c 'refuse "$0" "$@"' "$1" ||
            echo "refusals: $1: not all runs took place"
    } >"$folder/broken"
    cat "$folder/broken"
    spans=$(cat "$folder/spans")
    all_spans=$((all_spans + spans))
    breaks=$(grep -c '^refusals: ' "$folder/broken") || true
    echo "refusals: $1: $count allocations, each refused alone and with all after it; $spans spans in which all are;" \
        "$breaks runs broke a promise"
    [ "$count" -gt 0 ] && [ "$breaks" -eq 0 ]
}

passed=0
failed=0
all_spans=0
for program in "${programs[@]}"; do
    export program
    tests=$("$program" --list | sed -n 's/: test$//p' | grep -E "${ONLY:-}") || true
    [ -n "$tests" ] || { echo "refusals: $program has no test"; exit 1; }
    for test in $tests; do
        if each "$test"; then passed=$((passed + 1)); else failed=$((failed + 1)); fi
    done
done
[ "$all_spans" -gt 0 ] || { echo "refusals: no test has a span"; exit 1; }
echo "refusals: $passed passed, $failed failed"
[ "$failed" = 0 ]
