#!/usr/bin/env bash
# Packs the crates of Rust's binding from a packed archive, with the static library inside, and puts them where the
# archive is. Then it builds and runs a program for dcsctp 0.1.16 over them: by path, by [patch.crates-io], and from a
# folder of vendored crates. Nothing is fetched, and no variable is set.
#
#     scripts/crate.sh ARCHIVE      out/dcsctp-VERSION-linux-x86_64-v2.tar.gz, say
set -euo pipefail
shopt -s inherit_errexit
[ $# = 1 ] || { sed -n '/^# *scripts/s/^# *//p' "$0" >&2; exit 2; }
. "$(dirname "$0")/archive.bash"
read_archive crate "$1"

command -v cargo >/dev/null || { echo "skipped: crates for Rust: no cargo (apt install cargo)"; exit 0; }
# (before 1.84 it packs no two crates of which one needs the other)
cargo=$(cargo --version | cut -d ' ' -f 2)
[ "$(printf '%s\n' 1.84 "$cargo" | sort -V | head -1)" = 1.84 ] ||
    { echo "skipped: crates for Rust: cargo $cargo is older than 1.84"; exit 0; }
folder=$(mktemp -d)
trap 'rm -rf "$folder"' EXIT
rust=$folder/unpacked/bindings/rust
# A user has none of these, and nothing from crates.io.
unset DCSCTP_LIB_DIR DCSCTP_LIB_NAME PKG_CONFIG_PATH PKG_CONFIG_LIBDIR
export CARGO_HOME=$folder/home CARGO_TARGET_DIR=$folder/target CARGO_NET_OFFLINE=true

# make_crates: packs them in $folder/target/package. Cargo builds each from what it has packed, and warns of nothing but
# the missing repository. What isn't proved has another version.
make_crates() {
    local inside=dcsctp-sys/lib/x86_64-unknown-linux-gnu it
    cd "$rust"
    mkdir -p "$inside"
    cp "$folder/unpacked/lib/lib$name.a" "$inside/"
    cp "$folder/unpacked/VERDICT" dcsctp-sys/
    for it in dcsctp-sys dcsctp-socket port; do cp "$folder/unpacked"/{LICENSE,NOTICE} $it/; done
    [ "$name" = dcsctp ] || sed -i "s/^version = \"$version\"/version = \"$version+unproved\"/" Cargo.toml
    quiet cargo package --workspace
    ! grep '^warning' "$folder/log" | grep -v -e 'manifest has no documentation, homepage or repository$' \
        -e "linking $name, which was built without proofs$"
}

# try HOW DEPENDENCY: builds and runs a program whose manifest has these lines, as upstream behaves and with follow_rfc.
try() {
    local program=$folder/$1 it
    mkdir -p "$program/src"
    cp "$rust/port/examples/every_name.rs" "$program/src/main.rs"
    printf '[package]\nname = "program"\nversion = "0.0.0"\nedition = "2021"\n\n[dependencies]\n%s\n' "$2" \
        >"$program/Cargo.toml"
    cd "$program"
    for it in '' dcsctp/follow_rfc; do
        quiet timeout 300 cargo run --features "$it"
        grep -qx 'each name was used' "$folder/log"
    done
    echo "check: a program for dcsctp 0.1.16, $1"
}

# vendor: the crates as `cargo vendor` lays them out, for the program in $folder/vendored.
vendor() {
    local to=$folder/vendored/vendor it
    mkdir -p "$to" "$folder/vendored/.cargo"
    for it in "$folder/target/package"/*.crate; do
        tar -xzf "$it" -C "$to"
        echo '{"files":{}}' >"$to/$(basename "$it" .crate)/.cargo-checksum.json"
    done
    printf '[source.crates-io]\nreplace-with = "vendored"\n\n[source.vendored]\ndirectory = "vendor"\n' \
        >"$folder/vendored/.cargo/config.toml"
    cmp "$to"/dcsctp-sys-*/lib/x86_64-unknown-linux-gnu/"lib$name.a" "$folder/unpacked/lib/lib$name.a"
}

mkdir "$folder/unpacked"
tar -xzf "$archive" -C "$folder/unpacked" --strip-components=1 --touch
try path "dcsctp = { path = \"$rust/port\" }"
try patched "dcsctp = \"0.1.16\"

[patch.crates-io]
dcsctp = { path = \"$rust/port\" }"
make_crates
vendor
rm -r "$folder/unpacked/lib"
try vendored 'dcsctp = "0.1.16"'
grep -qr "vendored/vendor/dcsctp-sys.*/lib/x86_64-unknown-linux-gnu" "$folder/target/debug/build"/*/output

cd "$folder/target/package"
cp -- *.crate "$(dirname "$archive")/"
printf 'check: %s\n' *.crate
crates=$(printf '%s,' *.crate)
echo "Packed $(dirname "$1")/{${crates%,}}, $how"
