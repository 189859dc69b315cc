#!/usr/bin/env bash
# Tests bindings/cpp/webrtc: programs of tests/cpp for WebRTC's interface of a socket, with our sockets at both ends,
# with WebRTC's own, and with one of each. It needs WebRTC's headers, and for WebRTC's sockets libtg_owt.a of the same
# package: without them it says so, and that is all.
#
#     scripts/check-webrtc.sh LIBRARY FOLDER      LIBRARY: the archive; FOLDER gets the programs
#
# WEBRTC is the folder of the headers. With SANITIZE, flags of the compiler, the programs run under sanitizers; with
# VALGRIND, a command, under that.
set -euo pipefail
shopt -s inherit_errexit
[ $# = 2 ] || { sed -n '/^# *scripts/s/^# *//p' "$0" >&2; exit 2; }
cd "$(dirname "$0")/.."
library=$1
folder=$2
webrtc=${WEBRTC:-/usr/include/tg_owt}
read -ra compile <<<"${CXX:-c++}"
read -ra sanitize <<<"${SANITIZE:-}"
read -ra under <<<"${VALGRIND:-}"
# What links with libtg_owt.a, for its sockets alone.
theirs=(-ltg_owt -labsl_strings -labsl_throw_delegate -labsl_bad_optional_access -labsl_base -lcrypto)

if ! command -v "${compile[0]}" >/dev/null; then
    echo "skipped: bindings/cpp/webrtc: no ${compile[0]} (apt install g++)"
    exit 0
fi
if ! [ -f "$webrtc/net/dcsctp/public/dcsctp_socket_factory.h" ]; then
    echo "skipped: bindings/cpp/webrtc: no headers of WebRTC (apt install libtgowt-dev)"
    exit 0
fi
flags=(-std=c++17 -Wall -Wextra -Wshadow -pedantic -Werror -O1 -g -DNDEBUG -DWEBRTC_POSIX -DWEBRTC_LINUX
    -isystem "$webrtc" -Iinclude -Ibindings/cpp/webrtc "${sanitize[@]}")
mkdir -p "$folder"

# built SOURCE OBJECT [FLAG..]
built() {
    "${compile[@]}" "${flags[@]}" "${@:3}" -c "$1" -o "$folder/$2"
}

# linked PROGRAM OBJECT.. [-- FLAG..]: of objects in the folder.
linked() {
    local program=$1 objects=()
    shift
    while [ $# -gt 0 ] && [ "$1" != -- ]; do
        objects+=("$folder/$1")
        shift
    done
    "${compile[@]}" "${sanitize[@]}" "${objects[@]}" "${@:2}" -o "$folder/$program"
}

# passes NAME PROGRAM [WORD..]: prints only what failed, since WebRTC's sockets log much. The last line has the counts.
passes() {
    local status=0
    timeout 600 "${under[@]}" "$folder/$2" "${@:3}" >"$folder/log" 2>&1 || status=$?
    if [ "$status" != 0 ]; then
        grep -a '^webrtc' "$folder/log" >&2 || tail -n 20 "$folder/log" >&2
        echo "check-webrtc: failed: $1" >&2
        return 1
    fi
    echo "check: $1: $(tail -n 1 "$folder/log")"
}

# (WebRTC is built without exceptions and RTTI)
for it in rattle_socket dcsctp_socket_factory; do
    built bindings/cpp/webrtc/$it.cc none.o -fno-exceptions -fno-rtti -fno-sanitize=all -fsyntax-only
    built bindings/cpp/webrtc/$it.cc $it.o
done
built tests/cpp/webrtc.cc webrtc.o
built tests/cpp/webrtc_refusals.cc refusals.o
linked ours webrtc.o rattle_socket.o dcsctp_socket_factory.o -- "$library"
linked refusals refusals.o rattle_socket.o -- "$library" -Wl,--wrap=malloc,--wrap=realloc
passes "bindings/cpp/webrtc" ours
passes "bindings/cpp/webrtc, what it refuses" refusals

# WebRTC's sockets of 2023 don't pass all tests where packets are lost: a Shutdown may then lose messages.
if ! "${compile[@]}" -print-file-name=libtg_owt.a | grep -q /; then
    echo "skipped: bindings/cpp/webrtc against WebRTC's sockets: no libtg_owt.a (apt install libtgowt-dev)"
    exit 0
fi
built tests/cpp/webrtc.cc both.o -DBOTH
linked theirs webrtc.o -- "${theirs[@]}"
linked both both.o rattle_socket.o -- "$library" "${theirs[@]}"
passes "WebRTC's sockets by the same tests, without loss" theirs 0
passes "bindings/cpp/webrtc connects to WebRTC's sockets" both 1000 ours-theirs
passes "WebRTC's sockets connect to bindings/cpp/webrtc" both 1000 theirs-ours
