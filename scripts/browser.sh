#!/usr/bin/env bash
# Has a page in headless Chromium use data channels to a program over the C library: examples/browser. It needs these
# packages, by their names in apt: chromium, python3-aiortc. Where one isn't installed it says so, and that is all.
#
#     scripts/browser.sh LIBRARY FOLDER [--pcap FILE] [PAGE]      LIBRARY is the shared one; FOLDER gets browser.png;
#                                                                 FILE gets the packets of SCTP; PAGE is served in
#                                                                 place of the example's
set -euo pipefail
[ $# -ge 2 ] && [ $# -le 5 ] || { sed -n '5,7s/^# *//p' "$0" >&2; exit 2; }
cd "$(dirname "$0")/.."
missing=''
command -v chromium >/dev/null || missing+=' chromium'
# (Debian's packages are its own Python's, which may not be the first one)
python=python3
"$python" -c 'import aiortc' 2>/dev/null || python=/usr/bin/python3
"$python" -c 'import aiortc' 2>/dev/null || missing+=' python3-aiortc'
[ -z "$missing" ] || { echo "browser: it isn't run, since this isn't installed:$missing"; exit 0; }
mkdir -p "$2"
export DCSCTP_LIBRARY PYTHONPATH=bindings/python PYTHONDONTWRITEBYTECODE=1
DCSCTP_LIBRARY=$(realpath "$1")
timeout 150 "$python" examples/browser/browser.py "$2/browser.png" "${@:3}"
