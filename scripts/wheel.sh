#!/usr/bin/env bash
# Makes a wheel of Python's binding from a packed archive, with the shared library inside, and puts it where the archive
# is. Then it installs the wheel into an empty environment, and runs the binding's programs and tests there.
#
#     scripts/wheel.sh ARCHIVE      out/dcsctp-VERSION-linux-x86_64-v2.tar.gz, say
set -euo pipefail
shopt -s inherit_errexit
[ $# = 1 ] || { sed -n '/^# *scripts/s/^# *//p' "$0" >&2; exit 2; }
. "$(dirname "$0")/archive.bash"
read_archive wheel "$1"
cd "$(dirname "$0")/.."
proved=True
[ "$name" = dcsctp ] || version=$version+unproved proved=False

# The first Python that has all that is needed.
for python in python3 /usr/bin/python3 none; do
    ! "$python" -c 'import setuptools, wheel, pip, venv, ensurepip' 2>/dev/null || break
done
if [ "$python" = none ]; then
    echo "skipped: a wheel: no pip, setuptools, wheel and venv" \
        "(apt install python3-pip python3-setuptools python3-wheel python3-venv)"
    exit 0
fi
folder=$(mktemp -d)
trap 'rm -rf "$folder"' EXIT
# A user has none of these.
unset DCSCTP_LIBRARY LD_LIBRARY_PATH PYTHONPATH
export PIP_DISABLE_PIP_VERSION_CHECK=1 PIP_CONFIG_FILE=/dev/null PYTHONDONTWRITEBYTECODE=1

# make_wheel: makes it in $folder/wheel.
make_wheel() {
    local build=$folder/build
    mkdir -p "$folder/unpacked" "$build/dcsctp"
    tar -xzf "$archive" -C "$folder/unpacked" --strip-components=1
    cp "$folder/unpacked"/{LICENSE,NOTICE,VERDICT} packaging/python/pyproject.toml "$build/"
    sed -e "s|@VERSION@|$version|" -e "s|@HOW@|$how|" packaging/python/setup.py.in >"$build/setup.py"
    cp "$folder/unpacked/bindings/python/dcsctp.py" "$build/dcsctp/__init__.py"
    cp "$folder/unpacked/lib/lib$name.so.0" "$build/dcsctp/"
    touch "$build/dcsctp/py.typed"
    # (a zip file has no moment before 1980)
    SOURCE_DATE_EPOCH=315532800 quiet "$python" -m pip wheel --no-index --no-deps --no-build-isolation \
        --wheel-dir "$folder/wheel" "$build"
}

make_wheel
wheel=dcsctp-$version-py3-none-linux_x86_64.whl
quiet "$python" -m venv "$folder/venv"
quiet "$folder/venv/bin/pip" install --no-index "$folder/wheel/$wheel"

# What a user has beside it: the programs and the tests, without dcsctp.py.
use=$folder/use/bindings/python
mkdir -p "$use"
cp -r "$folder/unpacked/include" "$folder/use/"
cp "$folder/unpacked/bindings/python"/{tour,test_dcsctp}.py "$use/"
python=$folder/venv/bin/python

# The library is the one inside, and has the bytes of the archive.
used=$(cd "$use" && "$python" -c 'import dcsctp; print(dcsctp.library())')
[[ $used == "$(realpath "$folder")"/venv/lib*/dcsctp/lib$name.so.0 ]] || { echo "wheel: it takes $used" >&2; exit 1; }
cmp "$used" "$folder/unpacked/lib/lib$name.so.0"
(cd "$use" && "$python" -c "
import dcsctp, importlib.metadata
assert dcsctp.is_proved() is $proved, dcsctp.version()
assert importlib.metadata.version('dcsctp') == '$version'")
timeout 300 "$python" "$use/tour.py" | diff "$folder/unpacked/bindings/expected.txt" -
(cd "$use" && quiet timeout 300 "$python" -m unittest -q)

cp "$folder/wheel/$wheel" "$(dirname "$archive")/"
echo "check: $wheel"
echo "Packed $(dirname "$1")/$wheel, $how"
