#!/usr/bin/env bash
# Links the first example against both libraries where they are installed, and runs it: by the folders' names, by
# pkg-config and by CMake, where these are there.
#
#     scripts/try-installed.sh NAME VERSION PREFIX LIB     NAME: dcsctp or dcsctp-unproved; LIB: a folder of PREFIX
set -euo pipefail
shopt -s inherit_errexit
name=$1 version=$2 prefix=$3 lib=$4
cd "$(dirname "$0")/.."
read -ra compile <<<"${CC:-cc}"
program=examples/c/two_sockets.c
folder=$(mktemp -d)
trap 'rm -rf "$folder"' EXIT

# run PROGRAM: it prints what it must.
run() {
    "$folder/$1" | diff examples/c/two_sockets.stdout -
}

# run_shared PROGRAM: it takes the shared library from the folder, and prints what it must.
run_shared() {
    readelf -d "$folder/$1" | grep -qF "[lib$name.so.0]" || { echo "try-installed: $1 has the archive" >&2; exit 1; }
    LD_LIBRARY_PATH=$prefix/$lib run "$1"
}

# The loop in the header's first comment compiles, and the other header is there.
{
    echo '#include "loop.h"'
    echo '#include <dcsctp_checksum.h>'
    echo 'int main(void) {'
    sed -n '/^ \* *dcsctp_socket s = /,/^ \* *dcsctp_destroy(&s);/s/^ \*//p' "$prefix/include/dcsctp.h"
    echo '}'
} >"$folder/loop.c"
grep -q dcsctp_destroy "$folder/loop.c"
"${compile[@]}" -std=c11 -Wall -Wextra -Werror "-I$prefix/include" -Itests/c -fsyntax-only "$folder/loop.c"

"${compile[@]}" $program "-I$prefix/include" "$prefix/$lib/lib$name.a" -o "$folder/by_archive"
run by_archive
"${compile[@]}" $program "-I$prefix/include" "-L$prefix/$lib" "-l$name" -o "$folder/by_shared"
run_shared by_shared

if command -v pkg-config >/dev/null; then
    export PKG_CONFIG_LIBDIR=$prefix/$lib/pkgconfig
    [ "$(pkg-config --modversion "$name")" = "$version${name#dcsctp}" ]
    read -ra flags < <(pkg-config --cflags "$name")
    read -ra libs < <(pkg-config --libs "$name")
    "${compile[@]}" $program "${flags[@]}" "${libs[@]}" -o "$folder/by_pkg_config"
    run_shared by_pkg_config
    "${compile[@]}" $program "${flags[@]}" "$(pkg-config --variable=archive "$name")" -o "$folder/by_its_archive"
    run by_its_archive
    echo "check: pkg-config"
else
    echo "skipped: $name.pc: no pkg-config (apt install pkg-config)"
fi

# find_dcsctp PREFIX VERSION: what CMake prints that looks for the proved library there.
find_dcsctp() {
    rm -rf "$folder/hint"
    cmake -S tests/c/cmake -B "$folder/hint" "-DCMAKE_PREFIX_PATH=$1" \
        -DCMAKE_LIBRARY_ARCHITECTURE=x86_64-linux-gnu -DPACKAGE=dcsctp "-DWANTED=$2" 2>&1
}

# try_hint: who asks CMake for the proved library, and has the other one alone, reads what to write. Where both are
# installed (the proved one is played by a copy), the proved one is taken.
try_hint() {
    local both=$folder/both wanted
    for wanted in "$version" ""; do
        if find_dcsctp "$prefix" "$wanted" >"$folder/log"; then
            echo "try-installed: CMake takes $name for dcsctp" >&2
            exit 1
        fi
        tr -s ' \n' ' ' <"$folder/log" | grep -qF "find_package($name $version REQUIRED)" ||
            { cat "$folder/log" >&2; exit 1; }
    done
    cp -r "$prefix" "$both"
    cp "$both/$lib/lib$name.a" "$both/$lib/libdcsctp.a"
    cp "$both/$lib/lib$name.so.0" "$both/$lib/libdcsctp.so.0"
    mkdir "$both/$lib/cmake/dcsctp"
    for wanted in Config ConfigVersion; do
        sed -e '/^if(NOT "/,/^endif()/d' -e "s/$name/dcsctp/g" "$both/$lib/cmake/$name/$name$wanted.cmake" \
            >"$both/$lib/cmake/dcsctp/dcsctp$wanted.cmake"
    done
    find_dcsctp "$both" "$version" >"$folder/log" || { cat "$folder/log" >&2; exit 1; }
    cmake --build "$folder/hint" >/dev/null
    run hint/by_cmake
    grep -qF "$lib/libdcsctp.a" "$folder/hint/CMakeFiles/by_cmake.dir/link.txt"
}

if command -v cmake >/dev/null; then
    cmake -S tests/c/cmake -B "$folder/cmake" "-DCMAKE_PREFIX_PATH=$prefix" \
        -DCMAKE_LIBRARY_ARCHITECTURE=x86_64-linux-gnu "-DPACKAGE=$name" "-DWANTED=$version" >/dev/null
    cmake --build "$folder/cmake" >/dev/null
    run cmake/by_cmake
    run_shared cmake/by_cmake_shared
    [ "$name" = dcsctp ] || try_hint
    echo "check: cmake"
else
    echo "skipped: ${name}Config.cmake: no cmake (apt install cmake)"
fi
