#!/usr/bin/env bash
# Has Debian's Janus, unedited, serve a text room by bindings/usrsctp in place of libusrsctp. A client of aiortc talks
# in it by a data channel, and so does a page in headless Chromium. It needs these packages, by their names in apt:
# janus, libusrsctp-dev, curl, python3, and python3-aiortc or chromium.
#
#     scripts/check-janus.sh LIBRARY FOLDER      LIBRARY is the archive; FOLDER gets libusrsctp.so.2, janus.log and
#                                                janus.png, which the page showed
set -euo pipefail
shopt -s inherit_errexit
[ $# = 2 ] || { sed -n '/^# *scripts/s/^# *//p' "$0" >&2; exit 2; }
cd "$(dirname "$0")/.."
. scripts/usrsctp.bash
missing=''
command -v janus >/dev/null || missing+=' janus'
command -v curl >/dev/null || missing+=' curl'
has_header || missing+=' libusrsctp-dev'
command -v python3 >/dev/null || missing+=' python3'
# (Debian's packages are its own Python's, which may not be the first one)
python=python3
"$python" -c 'import aiortc' 2>/dev/null || python=/usr/bin/python3
"$python" -c 'import aiortc' 2>/dev/null || python=''
chromium=$(command -v chromium || true)
[ -n "$python$chromium" ] || missing+=' python3-aiortc chromium'
[ -z "$missing" ] || { echo "skipped: Janus over bindings/usrsctp: not all is installed (apt install$missing)"; exit 0; }
bash scripts/usrsctp.sh "$1" "$2"
folder=$(realpath "$2")
port=$((20000 + RANDOM % 10000))
configs=$folder/janus
rm -rf "$configs"
mkdir -p "$configs"
plugin=$(find /usr/lib -name libjanus_textroom.so -print -quit)
[ -n "$plugin" ] || { echo "check-janus: below /usr/lib there is no libjanus_textroom.so" >&2; exit 1; }
mkdir "$configs/plugins" "$configs/events"
ln -s "$plugin" "$configs/plugins/"
cat >"$configs/janus.jcfg" <<END
general: {
    configs_folder = "$configs"
    plugins_folder = "$configs/plugins"
    debug_level = 4
    admin_secret = "none"
}
nat: {
    ice_enforce_list = "127.0.0.1"
    ice_ignore_list = "vmnet"
    ignore_unreachable_ice_server = true
    ignore_mdns = true
}
transports: { disable = "libjanus_mqtt.so,libjanus_nanomsg.so,libjanus_pfunix.so,libjanus_rabbitmq.so,libjanus_websockets.so" }
events: { broadcast = false }
END
echo "general: { json = \"plain\", base_path = \"/janus\", http = true, port = $port, ip = \"127.0.0.1\", https = false }
admin: { admin_http = false }" >"$configs/janus.transport.http.jcfg"
echo 'room-1234: { description = "a room" }' >"$configs/janus.plugin.textroom.jcfg"
LD_LIBRARY_PATH=$folder janus -F "$configs" --disable-colors >"$folder/janus.log" 2>&1 &
janus=$!
# (timeout ends what a client has started, too)
trap '{ kill $(jobs -pr); kill -KILL "$janus"; wait; } 2>/dev/null || true' EXIT
# refuse WHY: prints what Janus said, and ends.
refuse() {
    cat "$folder/janus.log"
    echo "check-janus: $1" >&2
    exit 1
}
dropped() { grep -c 'Discarding too old outgoing packet' "$folder/janus.log" || true; }
# talk NAME COMMAND..: has a client talk in the room. Janus drops a text that it couldn't hand to SCTP within a second.
# So on a busy machine the client may try again.
talk() {
    local before try
    for try in 1 2 3; do
        before=$(dropped)
        PYTHONDONTWRITEBYTECODE=1 timeout -k 10 150 "${@:2}" &
        if wait $!; then
            echo "check: Janus' text room over bindings/usrsctp: $1"
            return
        fi
        [ "$(dropped)" != "$before" ] || break
        echo "check-janus: $1 failed ($try of 3): Janus dropped texts by itself"
    done
    refuse "$1 failed"
}
answers() { curl -s -o /dev/null "http://127.0.0.1:$port/janus/info" 2>/dev/null; }
for ((i = 0; i < 50; i++)); do
    if answers || ! kill -0 "$janus" 2>/dev/null; then break; fi
    sleep 0.2
done
answers || refuse "Janus didn't start"
grep -q "$folder/libusrsctp.so.2" "/proc/$janus/maps" || refuse "Janus has another libusrsctp.so.2"
if [ -n "$python" ]; then
    talk 'a client of aiortc' "$python" tests/usrsctp/janus.py "$port"
else
    echo "skipped: Janus' text room and a client of aiortc: there is none (apt install python3-aiortc)"
fi
if [ -n "$chromium" ]; then
    talk 'a page in Chromium' python3 examples/browser/chromium.py tests/usrsctp/janus.html "$folder/janus.png" "$port"
else
    echo "skipped: Janus' text room and a page in Chromium: there is none (apt install chromium)"
fi
kill -INT "$janus"
for ((i = 0; i < 50; i++)); do
    kill -0 "$janus" 2>/dev/null || break
    sleep 0.2
done
grep -q 'Bye!' "$folder/janus.log" || refuse "Janus didn't end by itself"
trap - EXIT
