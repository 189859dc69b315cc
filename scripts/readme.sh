#!/usr/bin/env bash
# Runs the lines of README that build, install and use the library, and compares what the program prints with README.
#
#     scripts/readme.sh unproved     from nothing, in a clone of the commit; `make demo` too
#     scripts/readme.sh proved       over what `make prove` has built here: without `unproved`, and `prove` is done
#
# /tmp/dcsctp becomes a folder of its own.
set -euo pipefail
shopt -s inherit_errexit
cd "$(dirname "$0")/.."
kind=${1:-}
case $kind in
    proved | unproved) ;;
    *) sed -n '/^# *scripts/s/^# *//p' "$0" >&2; exit 2 ;;
esac
unset ARCHIVE OUT MAKEFLAGS MAKELEVEL
folder=$(mktemp -d)
trap 'rm -rf "$folder"' EXIT

# block LANGUAGE WORD: the lines of README's block in this language that has the word.
block() {
    awk -v first="\`\`\`$1" -v word="$2" '
        $0 == first { inside = 1; text = ""; next }
        inside && $0 == "```" { inside = 0; if (index(text, word)) printf "%s", text }
        inside { text = text $0 "\n" }
    ' README.md
}

lines=$(block sh 'make unproved install')
printed=$(block text 'B is connected')
demo=$(block text 'demo: ')
[ -n "$lines" ] && [ -n "$printed" ] && [ -n "$demo" ] || { echo "readme: README has other blocks" >&2; exit 1; }
lines=${lines//\/tmp\/dcsctp/$folder/installed}
if [ "$kind" = proved ]; then
    lines=${lines//make unproved install/make install}
    lines=${lines//dcsctp-unproved/dcsctp}
    place=$PWD
else
    git clone -q . "$folder/clone"
    place=$folder/clone
fi
lines=${lines//-o two_sockets/-o $folder/two_sockets}
lines=${lines//.\/two_sockets/$folder/two_sockets}
(cd "$place" && env -u PKG_CONFIG_PATH -u LD_LIBRARY_PATH bash -e -c "$lines") >"$folder/log" 2>&1 ||
    { cat "$folder/log" >&2; echo "readme: README's lines failed ($kind)" >&2; exit 1; }
count=$(wc -l <<<"$printed")
tail -n "$count" "$folder/log" | diff <(echo "$printed") - ||
    { echo "readme: README shows another output ($kind)" >&2; exit 1; }
if [ "$kind" = unproved ]; then
    (cd "$place" && make -s demo) >"$folder/log" 2>&1 || { cat "$folder/log" >&2; exit 1; }
    grep -qxF "$demo" "$folder/log" || { tail -n 3 "$folder/log" >&2; echo "readme: the demo ends otherwise" >&2; exit 1; }
fi
echo "readme: README's lines give what it shows, $kind"
