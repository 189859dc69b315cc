#!/usr/bin/env bash
# Makes HTML in out/doc: of dcsctp.h (doxygen), of the Rust and Python bindings (cargo doc, pydoc), and of the sources
# (scripts/reference.py). out/doc/index.html links them. A tool that isn't installed is named, and its pages left out.
#
#     scripts/doc.sh
set -euo pipefail
shopt -s inherit_errexit
cd "$(dirname "$0")/.."
to=$PWD/out/doc
rm -rf "$to"
mkdir -p "$to"
version=$(awk '/define DCSCTP_VERSION_[MP]/ { v = v s $3; s = "." } END { print v }' include/dcsctp.h)
rows=()

# has COMMAND WHAT PACKAGE: is it installed? Otherwise it names the package of Debian that has it.
has() {
    command -v "$1" >/dev/null && return
    echo "skipped: pages of $2: no $1 (apt install $3)"
    return 1
}

# made PAGE TITLE: another row of the index. PAGE is relative to out/doc.
made() {
    [ -f "$to/$1" ] || { echo "doc: there is no $to/$1" >&2; exit 1; }
    rows+=("<li><a href=\"$1\">$2</a></li>")
    echo "doc: $(realpath --relative-to=. "$to/$1")"
}

if has doxygen C doxygen; then
    { cat packaging/Doxyfile && printf 'PROJECT_NUMBER = %s\nOUTPUT_DIRECTORY = "%s"\n' "$version" "$to"; } | doxygen -
    made c/dcsctp_8h.html 'C: dcsctp.h'
fi

if has cargo Rust cargo && has cc Rust gcc; then
    # (nothing is linked, so no library is needed)
    DOCS_RS=1 RUSTDOCFLAGS='-D warnings' cargo doc --offline --no-deps --quiet \
        --manifest-path bindings/rust/Cargo.toml --target-dir out/cargo-doc
    mv out/cargo-doc/doc "$to/rust"
    rm -rf out/cargo-doc
    made rust/dcsctp_socket/index.html 'Rust: the crate dcsctp-socket'
    made rust/dcsctp_sys/index.html 'Rust: the crate dcsctp-sys'
    made rust/dcsctp/index.html 'Rust: the crate dcsctp, by the names of dcsctp 0.1.16'
fi

if has python3 'Python and the sources' python3; then
    # (pydoc imports the module, which loads the library)
    if reason=$(cd bindings/python && PYTHONDONTWRITEBYTECODE=1 python3 -c 'import dcsctp' 2>&1); then
        mkdir "$to/python"
        (cd "$to/python" && PYTHONDONTWRITEBYTECODE=1 PYTHONPATH=$OLDPWD/bindings/python python3 -m pydoc -w dcsctp \
            >/dev/null)
        # (pydoc links the file on this machine)
        sed -i -E 's#<a href="file:[^"]*">[^<]*</a>##' "$to/python/dcsctp.html"
        made python/dcsctp.html 'Python: the module dcsctp'
    else
        echo "skipped: the page of Python: ${reason##*$'\n'}"
    fi
    if [ -f scripts/reference.py ]; then
        # (its pages are there even if it finds a fault of a document, which it prints)
        python3 scripts/reference.py || true
        cp -r out/reference "$to/reference"
        made reference/index.html 'The sources: functions with their contracts, definitions, laws, RFC sections'
    fi
fi

{
    echo '<!DOCTYPE html>'
    echo "<html lang=\"en\"><meta charset=\"utf-8\"><title>dcsctp $version</title>"
    echo "<h1>dcsctp $version</h1>"
    echo '<ul>'
    printf '%s\n' "${rows[@]}"
    echo '</ul>'
} >"$to/index.html"
echo "doc: out/doc/index.html"
