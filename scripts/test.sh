#!/usr/bin/env bash
# Runs all tests over one build, and prints a line for each kind and the sum. The Makefile calls it.
#
#     scripts/test.sh proved|unproved      what `make prove` has built, or what it builds without proofs
#
# OUT is the folder of the C programs, and TESTS names those of tests/c. What isn't installed is named at the end.
# The logs are in out/test.
set -euo pipefail
shopt -s inherit_errexit
cd "$(dirname "$0")/.."
kind=$1
make=(make -s --no-print-directory "ARCHIVE=$ARCHIVE")
logs=out/test
rm -rf "$logs"
mkdir -p "$logs"
passed=0
failed=0

# add NAME LOG PASSED FAILED BEGUN: counts, and prints the line of a kind; of one that failed also what it said.
add() {
    passed=$((passed + $3)) failed=$((failed + $4))
    printf '%-46s %5d passed, %d failed  %3d s\n' "$1" "$3" "$4" "$((SECONDS - $5))"
    [ "$4" = 0 ] || { tail -n 20 "$2" | sed 's/^/    /'; echo "    (all of it: $2)"; }
}

# counted NAME COMMAND..: its last line is `..: N passed, M failed`.
counted() {
    local log=$logs/${1//[^a-z]/-}.log begun=$SECONDS status=0
    "${@:2}" >"$log" 2>&1 || status=$?
    if [[ $(tail -n 1 "$log") =~ ([0-9]+)\ passed,\ ([0-9]+)\ failed$ ]]; then
        add "$1" "$log" "${BASH_REMATCH[1]}" "$((BASH_REMATCH[2] > 0 || status == 0 ? BASH_REMATCH[2] : 1))" "$begun"
    else
        add "$1" "$log" 0 1 "$begun"
    fi
}

# each NAME: runs tests, each a program and what it takes, a line each. The last line has the counts; no test at all is
# a failure.
each() {
    local it good=0 bad=0
    while read -r it; do
        # shellcheck disable=SC2086
        if timeout 300 $it </dev/null >"$logs/one" 2>&1; then
            good=$((good + 1))
        else
            bad=$((bad + 1))
            echo "failed: $it"
            cat "$logs/one"
        fi
    done
    [ $((good + bad)) -gt 0 ] || { echo "$1: there is no test"; bad=1; }
    echo "$1: $good passed, $bad failed"
}

# rattle_tests PROGRAM..: the tests of programs that rt or scripts/unproved.sh has built.
rattle_tests() {
    local program
    for program in "$@"; do
        "$program" --list | sed -n "s|^\(.*\): test$|$program \1|p"
    done | each "tests in Rattle"
}

# checks TARGET..: targets of the Makefile. Each line `check: ..` is a check that passed.
checks() {
    local it good=0 bad=0
    for it in "$@"; do
        if "${make[@]}" "$it" >"$logs/$it.log" 2>&1; then
            good=$((good + $(grep -c '^check: ' "$logs/$it.log" || true)))
        else
            bad=$((bad + 1))
        fi
        cat "$logs/$it.log"
    done
    echo "checks: $good passed, $bad failed"
}

if [ "$kind" = proved ]; then
    echo "test: what was proved, built from the same sources"
    run=$PWD/crates/dcsctp_run/out/dcsctp_run texts=$PWD/crates/dcsctp_socket_script/out/dcsctp_socket_script
    programs=(crates/*/out/*_tests)
    refused=(crates/dcsctp_{socket,world}_refusal_tests/out/*_tests) only=
else
    run=$PWD/out/unproved/dcsctp_run texts=$PWD/out/unproved/dcsctp_socket_script
    programs=(out/unproved/rattle_tests)
    refused=("${programs[@]}") only=_refusal::
fi
counted "scripts of two sockets (dcsctp_run)" env "PROGRAM=$run" bash scripts/cases.sh
counted "texts of two sockets (dcsctp_socket_script)" env "PROGRAM=$texts" bash scripts/socket-cases.sh
counted "tests in Rattle" rattle_tests "${programs[@]}"
counted "scripts, each allocation refused" env "PROGRAM=$run" bash scripts/script-refusals.sh
counted "sockets and worlds, each allocation refused" env "ONLY=$only" bash scripts/refusals.sh "${refused[@]}"
"${make[@]}" c-programs >"$logs/c-programs.log" 2>&1 || add "C programs" "$logs/c-programs.log" 0 1 "$SECONDS"
counted "tests in C" each "tests in C" < <(printf "$OUT/tests/%s\n" ${TESTS/channel_texts/})
counted "texts of data channels" "$OUT/tests/channel_texts"
counted "header, symbols, C++, cffi" checks check-header check-symbols check-cpp check-cffi
counted "examples" checks check-examples check-rust
counted "installed, packed" checks check-install check-dist
counted "bindings" checks check-bindings check-webrtc
counted "programs for usrsctp" checks check-usrsctp
counted "data channels to other SCTPs" checks check-peers
counted "packages of Debian, Python and Rust" checks deb wheel crate

sed -n 's/^skipped: /skipped: /p' "$logs"/*.log | sort -u
echo "$passed passed, $failed failed"
[ "$failed" = 0 ]
