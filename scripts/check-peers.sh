#!/usr/bin/env bash
# Has programs with other SCTPs use data channels with the habits of a browser (tests/peers), once as the packets come
# and once with 5 of 100 lost: open, close, open again, fifty at once from both ends, long messages, lifetimes, streams
# that were agreed on. A peer that isn't installed is named, and left out.
#
#     scripts/check-peers.sh LIBRARY FOLDER      LIBRARY is the shared one, beside its archive; FOLDER gets the programs
set -euo pipefail
shopt -s inherit_errexit
[ $# = 2 ] || { sed -n '/^# *scripts/s/^# *//p' "$0" >&2; exit 2; }
cd "$(dirname "$0")/.."
library=$(realpath "$1")
archive=${library%.so.0}.a
mkdir -p "$2"
folder=$(realpath "$2")
losses=(0 5)
cc=${CC:-cc}

# lossy NAME COMMAND..: the command with each loss. A run takes a minute at most.
lossy() {
    local loss
    for loss in "${losses[@]}"; do
        timeout 170 "${@:2}" "$loss" >"$folder/log" 2>&1 ||
            { cat "$folder/log"; echo "check-peers: $1 failed, $loss of 100 packets lost"; exit 1; }
        sed 's/^/    /' "$folder/log"
        echo "check: data channels to $1, $loss of 100 packets lost"
    done
}

# (Debian's packages are its own Python's, which may not be the first one)
python=python3
"$python" -c 'import aiortc' 2>/dev/null || python=/usr/bin/python3
export DCSCTP_LIBRARY=$library PYTHONPATH=bindings/python:examples/browser PYTHONDONTWRITEBYTECODE=1
if ! "$python" -c 'import aiortc' 2>/dev/null; then
    echo "skipped: data channels to aiortc: no aiortc (apt install python3-aiortc)"
    echo "skipped: data channels to Chromium: no aiortc (apt install python3-aiortc)"
else
    lossy aiortc "$python" tests/peers/with_aiortc.py
    if ! command -v chromium >/dev/null; then
        echo "skipped: data channels to Chromium: no chromium (apt install chromium)"
    else
        lossy Chromium "$python" tests/peers/with_chromium.py "$folder/chromium.png"
        timeout 100 "$python" tests/peers/types_a_text.py "$python" examples/browser/chat.py
        echo "check: a text typed on the page of make chat, in Chromium"
    fi
fi

pion=/usr/share/gocode
if ! command -v go >/dev/null; then
    echo "skipped: data channels to pion: no go (apt install golang-go)"
elif [ ! -d "$pion/src/github.com/pion/datachannel" ]; then
    echo "skipped: data channels to pion: no pion (apt install golang-github-pion-datachannel-dev)"
else
    rm -rf "$folder/go"
    mkdir -p "$folder/go/src"
    cp -r bindings/go "$folder/go/src/dcsctp"
    # (the archive, by a file for pkg-config of this folder)
    name=$(basename "$archive" .a)
    name=${name#lib}
    printf 'Name: %s\nDescription: -\nVersion: 0\nCflags: -I%s/include\nLibs: %s\n' "$name" "$PWD" "$archive" \
        >"$folder/$name.pc"
    tags=()
    [[ $name != *-unproved ]] || tags=(-tags unproved)
    PKG_CONFIG_LIBDIR=$folder GO111MODULE=off GOFLAGS='' GOPATH=$folder/go:$pion CGO_LDFLAGS_ALLOW='.*\.a' \
        go build "${tags[@]}" -o "$folder/with_pion" tests/peers/with_pion/main.go
    lossy pion "$folder/with_pion"
fi

if ! echo '#include <usrsctp.h>' | "$cc" -E -x c - >/dev/null 2>&1; then
    echo "skipped: data channels to usrsctp: no usrsctp.h (apt install libusrsctp-dev)"
else
    "$cc" -std=c11 -D_DEFAULT_SOURCE -Wall -Wextra -Wshadow -pedantic -Werror -O2 -g -Iinclude \
        tests/peers/with_usrsctp.c "$archive" -lusrsctp -pthread -o "$folder/with_usrsctp"
    lossy usrsctp "$folder/with_usrsctp"
fi
