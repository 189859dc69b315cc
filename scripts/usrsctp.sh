#!/usr/bin/env bash
# Builds bindings/usrsctp with the library in it. It needs usrsctp.h: apt install libusrsctp-dev.
#
#     scripts/usrsctp.sh LIBRARY FOLDER      LIBRARY is the archive; FOLDER gets libusrsctp.so.2 and libusrsctp.a
set -euo pipefail
shopt -s inherit_errexit
[ $# = 2 ] || { sed -n '/^# *scripts/s/^# *//p' "$0" >&2; exit 2; }
cd "$(dirname "$0")/.."
. scripts/usrsctp.bash
set_up "$1" "$2"

# What users link: the same objects, with the library in them.
objects=()
for source in bindings/usrsctp/*.c; do
    object=$folder/$(basename "$source" .c).o
    "${compile[@]}" -fPIC -c "$source" -o "$object"
    objects+=("$object")
done
echo '{ global: usrsctp_*; local: *; };' >"$folder/exports.map"
"$cc" -shared -Wl,-soname,libusrsctp.so.2 -Wl,--version-script="$folder/exports.map" -Wl,-z,defs "${objects[@]}" "$library" \
    -pthread -o "$folder/libusrsctp.so.2"
rm -f "$folder/libusrsctp.a"
"${LD:-ld}" -r -o "$folder/usrsctp.o" "${objects[@]}" "$library"
"${OBJCOPY:-objcopy}" --wildcard --keep-global-symbol='usrsctp_*' "$folder/usrsctp.o"
"${AR:-ar}" rcD "$folder/libusrsctp.a" "$folder/usrsctp.o"
