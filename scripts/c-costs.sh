#!/usr/bin/env bash
# Prints what the C library costs: the bytes of the archive, the heap of a socket, and the instructions of a call
# (valgrind; the difference of two runs over the difference of their calls). It ends with a message through the interfaces
# of other libraries: dcsctp in Rust, WebRTC and usrsctp, over this library and, where it is installed, over their own.
# FOLDER is where make has put a library: out (the proved one) or out/unproved (by default). WEBRTC is as in
# scripts/check-webrtc.sh.
#
#     scripts/c-costs.sh [FOLDER]
set -euo pipefail
shopt -s inherit_errexit
cd "$(dirname "$0")/.."
from=${1:-out/unproved}
library=$from/libdcsctp.a
[ -f "$library" ] || library=$from/libdcsctp-unproved.a
[ -f "$library" ] || { echo "c-costs: $from has no library: make unproved builds one" >&2; exit 2; }
folder=$(mktemp -d)
trap 'rm -rf "$folder"' EXIT
"${CC:-cc}" -std=c11 -O2 -g -Iinclude tests/c/costs.c "$library" -Wl,--wrap=malloc,--wrap=realloc,--wrap=free \
    -o "$folder/costs"

# report TEXT FIGURE: a line.
report() {
    printf '%-44s %s\n' "$1" "$2"
}

# instructions PROGRAM [NAME] N: how many a run takes that makes a call N times.
instructions() {
    valgrind --tool=callgrind --callgrind-out-file="$folder/out" "$@" >/dev/null 2>"$folder/log" ||
        { cat "$folder/log" >&2; exit 1; }
    awk '/Collected *:/ { print $NF }' "$folder/log"
}

# counted TEXT PROGRAM [NAME]: a line of what a call takes.
counted() {
    local few many
    few=$(instructions "${@:2}" 100)
    many=$(instructions "${@:2}" 1100)
    report "instructions of $1" "$(((many - few) / 1000))"
}

report "bytes of $(basename "$library")" "$(wc -c <"$library")"
report "code in it, without data" "$(size "$library" | awk 'NR == 2 { print $1 }')"
while IFS=: read -r what heap; do report "heap of $what" "$heap"; done < <("$folder/costs" heap)
command -v valgrind >/dev/null || { echo "c-costs: no valgrind, so no instructions are counted"; exit 0; }
for name in $("$folder/costs" names); do counted "$name" "$folder/costs" "$name"; done

webrtc=${WEBRTC:-/usr/include/tg_owt}
cpp=("${CXX:-c++}" -std=c++17 -O2 -g -DNDEBUG -DWEBRTC_POSIX -DWEBRTC_LINUX -isystem "$webrtc" -Iinclude)
c=("${CC:-cc}" -std=c11 -D_DEFAULT_SOURCE -O2 -g tests/usrsctp/costs.c -pthread)
name=$(basename "$library" .a)
if DCSCTP_LIB_DIR=$(realpath "$from") DCSCTP_LIB_NAME=${name#lib} CARGO_TARGET_DIR=$folder/cargo \
    cargo build --manifest-path bindings/rust/Cargo.toml --offline --quiet --release \
    --features dcsctp/follow_rfc --example costs 2>"$folder/log"; then
    counted "message, Rust" "$folder/cargo/release/examples/costs"
else
    echo "skipped: message, Rust: no cargo for bindings/rust" >&2
fi
if [ -f "$webrtc/net/dcsctp/public/dcsctp_socket_factory.h" ]; then
    "${cpp[@]}" -Ibindings/cpp/webrtc tests/cpp/costs.cc bindings/cpp/webrtc/*.cc "$library" -o "$folder/webrtc"
    counted "message, WebRTC" "$folder/webrtc"
    if "${cpp[@]}" tests/cpp/costs.cc -ltg_owt -labsl_strings -labsl_throw_delegate -labsl_bad_optional_access \
        -labsl_base -lcrypto -o "$folder/webrtc" 2>/dev/null; then
        counted "message, WebRTC's own" "$folder/webrtc"
    fi
else
    echo "skipped: message, WebRTC: no headers of WebRTC (apt install libtgowt-dev)" >&2
fi
if echo '#include <usrsctp.h>' | "${CC:-cc}" -E -x c - >/dev/null 2>&1; then
    bash scripts/usrsctp.sh "$library" "$folder/usrsctp"
    "${c[@]}" "$folder/usrsctp/libusrsctp.a" -o "$folder/usrsctp/costs"
    counted "message, usrsctp" "$folder/usrsctp/costs"
    "${c[@]}" -lusrsctp -o "$folder/usrsctp/costs"
    counted "message, usrsctp's own" "$folder/usrsctp/costs"
else
    echo "skipped: message, usrsctp: no usrsctp.h (apt install libusrsctp-dev)" >&2
fi
