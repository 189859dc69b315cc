#!/usr/bin/env bash
# Makes packages of Debian from a packed archive, libNAME0 and libNAME-dev, and puts them where the archive is. Then it
# unpacks them into an empty folder, and builds and runs the first example there.
#
#     scripts/deb.sh ARCHIVE        out/dcsctp-VERSION-linux-x86_64-v2.tar.gz, say
#
# DEBFULLNAME and DEBEMAIL name the maintainer, else the author of the last commit is named.
set -euo pipefail
shopt -s inherit_errexit
[ $# = 1 ] || { sed -n '/^# *scripts/s/^# *//p' "$0" >&2; exit 2; }
. "$(dirname "$0")/archive.bash"
read_archive deb "$1"
cd "$(dirname "$0")/.."
include=usr/include
[ "$name" = dcsctp ] || include=usr/include/$name

# has COMMAND PACKAGE: is it installed?
has() {
    command -v "$1" >/dev/null && return
    echo "skipped: packages of Debian: no $1 (apt install $2)"
    exit 0
}
has dpkg-buildpackage dpkg-dev
has dh debhelper
folder=$(mktemp -d)
trap 'rm -rf "$folder"' EXIT

# fill FILE: the file, with the values of this build.
fill() {
    sed -e "s|@NAME@|$name|g" -e "s|@VERSION@|$version|g" -e "s|@HOW@|$how|g" -e "s|@INCLUDE@|$include|g" \
        -e "s|@DIST@|$dist|g" -e "s|@SERIES@|DCSCTP_${version%.*}|g" -e "s|@MAINTAINER@|${maintainer//&/\\&}|g" \
        -e "s|@DATE@|$date|g" "packaging/deb/$1"
}

# make_packages: makes both in $folder.
make_packages() {
    local debian=$folder/build/debian maintainer date it
    maintainer="${DEBFULLNAME:-$(git log -1 --format=%an 2>/dev/null || id -un)} <${DEBEMAIL:-$(
        git log -1 --format=%ae 2>/dev/null || echo "$(id -un)@$(uname -n)")}>"
    date=$(git log -1 --format=%aD 2>/dev/null || date -R -r "$archive")
    mkdir -p "$debian/source"
    # (files of 1970 aren't allowed: they get the date of the commit)
    tar -xzf "$archive" -C "$folder/build" --strip-components=1 --touch
    cp packaging/deb/copyright "$debian/"
    cp packaging/deb/source/format "$debian/source/"
    for it in control changelog rules; do fill $it.in >"$debian/$it"; done
    chmod +x "$debian/rules"
    fill symbols.in >"$debian/lib${name}0.symbols"
    fill library.lintian-overrides.in >"$debian/lib${name}0.lintian-overrides"
    fill dev.lintian-overrides.in >"$debian/lib$name-dev.lintian-overrides"
    # (debian/rules is a Makefile, to which nothing of another make belongs)
    unset MAKEFLAGS MFLAGS MAKELEVEL MAKEOVERRIDES
    (cd "$folder/build" && quiet dpkg-buildpackage -b -us -uc -tc)
}

make_packages
library=lib${name}0_$version-1_amd64.deb dev=lib${name}-dev_$version-1_amd64.deb
if command -v lintian >/dev/null; then
    quiet lintian --fail-on error "$folder"/*.deb
    grep '^W: ' "$folder/log" || true
    echo "check: lintian"
else
    echo "skipped: lintian reads $library and $dev: no lintian (apt install lintian)"
fi

# Where it is installed.
root=$folder/root
mkdir "$root"
dpkg -x "$folder/$library" "$root"
dpkg -x "$folder/$dev" "$root"

# Each file of the other build has its name in its path, and none of the proved one has: both can be installed.
marked=(grep -e -unproved)
[ "$name" = dcsctp ] || marked=(grep -v -e "$name")
if find "$root" -not -type d -printf '%P\n' | "${marked[@]}"; then
    echo "deb: $library and $dev have these files, which those of the other build may have, too" >&2
    exit 1
fi

# The libraries and the headers are those of the archive, and the links of the documents lead to files.
lib=$(dirname "$(find "$root" -name "lib$name.a")")
(cd "$folder/build" && sha256sum "lib/lib$name.a" "lib/lib$name.so.0" include/*.h) | sed \
    -e "s|  lib/|  $lib/|" -e "s|  include/|  $root/$include/|" | sha256sum -c --quiet
quiet bash scripts/links.sh "$root/usr/share/doc/lib$name-dev"
echo "check: $library and $dev"

if command -v pkg-config >/dev/null; then
    export PKG_CONFIG_SYSROOT_DIR=$root PKG_CONFIG_LIBDIR=$lib/pkgconfig
    [ "$(pkg-config --modversion "$name")" = "$version${name#dcsctp}" ]
    read -ra flags < <(pkg-config --cflags --libs "$name")
    read -ra compile <<<"${CC:-cc}"
    "${compile[@]}" "$root/usr/share/doc/lib$name-dev/examples/c/two_sockets.c" "${flags[@]}" -o "$folder/two_sockets"
    readelf -d "$folder/two_sockets" | grep -qF "[lib$name.so.0]"
    LD_LIBRARY_PATH=$lib "$folder/two_sockets" | diff examples/c/two_sockets.stdout -
    echo '#include <dcsctp.h>
        int main(void) { return (dcsctp_version() & DCSCTP_VERSION_UNPROVED) != 0; }' |
        "${compile[@]}" -x c - -x none "${flags[@]}" -o "$folder/is_proved"
    said='proved in Rattle'
    LD_LIBRARY_PATH=$lib "$folder/is_proved" || said='built without proofs'
    [ "$said" = "$how" ] || { echo "deb: the library of $library was $said" >&2; exit 1; }
    echo "check: a program built with $dev"
else
    echo "skipped: a program built with $dev: no pkg-config (apt install pkg-config)"
fi

if command -v cmake >/dev/null; then
    cmake -S tests/c/cmake -B "$folder/cmake" "-DCMAKE_PREFIX_PATH=$root/usr" \
        -DCMAKE_LIBRARY_ARCHITECTURE=x86_64-linux-gnu "-DPACKAGE=$name" "-DWANTED=$version" >/dev/null
    cmake --build "$folder/cmake" >/dev/null
    "$folder/cmake/by_cmake" | diff examples/c/two_sockets.stdout -
    grep -qF "$lib/lib$name.a" "$folder/cmake/CMakeFiles/by_cmake.dir/link.txt"
    echo "check: CMake finds $dev"
else
    echo "skipped: CMake finds $dev: no cmake (apt install cmake)"
fi

cp "$folder/$library" "$folder/$dev" "$(dirname "$archive")/"
echo "Packed $(dirname "$1")/{$library,$dev}, $how"
