#!/usr/bin/env bash
# Tries the bindings in a package of `make dist`, which is unpacked elsewhere: their tests, their programs, which must
# print bindings/expected.txt or hello. A tool that isn't installed is named, and left out.
#
#     scripts/bindings.sh PACKAGE NAME        PACKAGE: a .tar.gz; NAME: dcsctp or dcsctp-unproved
set -euo pipefail
shopt -s inherit_errexit
[ $# = 2 ] || { sed -n '5s/^# *//p' "$0" >&2; exit 2; }
name=$2
folder=$(mktemp -d)
trap 'rm -rf "$folder"' EXIT
tar -xzf "$1" -C "$folder" --strip-components=1 --touch
bindings=$folder/bindings
# A user who installs a package has none of these.
unset DCSCTP_LIB_DIR DCSCTP_LIB_NAME DCSCTP_LIBRARY

# has COMMAND LANGUAGE PACKAGE: is it installed? Otherwise it names the package of Debian that has it.
has() {
    command -v "$1" >/dev/null && return
    echo "skipped: the binding for $2: no $1 (apt install $3)"
    return 1
}

# tours COMMAND..: its programs print what those of the others do.
tours() {
    timeout 300 "$@" | diff "$bindings/expected.txt" -
}

# says_hello COMMAND..: that is all that it prints.
says_hello() {
    timeout 300 "$@" | diff <(echo hello) -
}

# under_valgrind COMMAND PROGRAM..: the command on the program under valgrind, where that is installed. Leaks count.
under_valgrind() {
    command -v valgrind >/dev/null || return 0
    "$1" valgrind -q --leak-check=full --errors-for-leak-kinds=definite,possible --error-exitcode=9 "${@:2}"
}

try_rust() {
    cd "$bindings/rust"
    export CARGO_TARGET_DIR=$folder/cargo
    local it
    for it in '' dcsctp/follow_rfc; do
        cargo test --offline --quiet --features "$it" >"$folder/log" 2>&1 || { cat "$folder/log" >&2; return 1; }
    done
    tours cargo run --offline --quiet --example tour
    under_valgrind tours "$CARGO_TARGET_DIR/debug/examples/tour"
    says_hello cargo run --offline --quiet --example hello
}

command -v valgrind >/dev/null || echo "skipped: bindings under valgrind: no valgrind (apt install valgrind)"
if has cargo Rust cargo; then
    (try_rust)
    echo "check: bindings/rust"
fi
if has python3 Python python3; then
    export PYTHONDONTWRITEBYTECODE=1
    (cd "$bindings/python" && timeout 300 python3 -m unittest -q 2>"$folder/log" || { cat "$folder/log" >&2; exit 1; })
    tours python3 "$bindings/python/tour.py"
    says_hello python3 "$bindings/python/hello.py"
    echo "check: bindings/python"
fi

# try_cpp COMPILER..: it compiles without warnings, and without exceptions.
try_cpp() {
    local include=("-I$bindings/cpp" "-I$folder/include") it
    local strict=(-std=c++17 -Wall -Wextra -Wshadow -pedantic -Werror)
    echo '#include "dcsctp.hpp"' |
        "$@" "${strict[@]}" -fno-exceptions -fno-rtti "${include[@]}" -fsyntax-only -x c++ -
    for it in tour test hello; do
        "$@" "${strict[@]}" -O1 -gdwarf-4 "${include[@]}" "$bindings/cpp/$it.cpp" "$folder/lib/lib$name.a" \
            -o "$folder/$it"
    done
    tours "$folder/tour"
    says_hello "$folder/hello"
    timeout 300 "$folder/test"
    under_valgrind tours "$folder/tour"
    under_valgrind env "$folder/test"
}

read -ra compile <<<"${CXX:-c++}"
if has "${compile[0]}" C++ g++; then
    try_cpp "${compile[@]}"
    echo "check: bindings/cpp"
fi

try_go() {
    local tags=() changed
    [[ $name != *-unproved ]] || tags=(-tags unproved)
    cd "$bindings/go"
    export PKG_CONFIG_LIBDIR=$folder/lib/pkgconfig LD_LIBRARY_PATH=$folder/lib GOPROXY=off GOTOOLCHAIN=local GOFLAGS=
    changed=$(gofmt -l .)
    [ -z "$changed" ] || { echo "bindings: gofmt changes $changed" >&2; return 1; }
    timeout 300 go test -count=1 "${tags[@]}" ./... >"$folder/log" 2>&1 || { cat "$folder/log" >&2; return 1; }
    go build "${tags[@]}" -o "$folder/tour-go" ./tour
    tours "$folder/tour-go"
    # (in a module of its own, as of a user)
    mkdir "$folder/hello-go"
    cd "$folder/hello-go"
    cp "$bindings/go/hello/main.go" .
    go mod init hello 2>"$folder/log"
    go mod edit -replace "dcsctp=$bindings/go"
    go get "${tags[@]}" dcsctp 2>"$folder/log" || { cat "$folder/log" >&2; return 1; }
    says_hello go run "${tags[@]}" .
}

if has go Go golang-go && has pkg-config Go pkg-config; then
    (try_go)
    echo "check: bindings/go"
fi
