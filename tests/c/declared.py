"""cffi reads what the preprocessor leaves of dcsctp.h (the first argument), and calls the library (the second)."""

import sys

import cffi

ffi = cffi.FFI()
with open(sys.argv[1], encoding="utf-8") as file:
    ffi.cdef(file.read())
library = ffi.dlopen(sys.argv[2])


def equal(name, found, expected):
    if found != expected:
        sys.exit(f"declared: {name}: {found}, not {expected}")


def sized(kind):
    """A struct that begins with its size."""
    made = ffi.new(f"{kind} *")
    made.size = ffi.sizeof(kind)
    return made


options, metrics, socket = sized("dcsctp_options"), sized("dcsctp_metrics"), ffi.new("dcsctp_socket *")
event, how = ffi.new("dcsctp_event *"), ffi.new("dcsctp_send_options *")
packet, length = ffi.new("uint8_t[1500]"), ffi.new("size_t *")
equal("default options", library.dcsctp_get_default_options(options), library.DCSCTP_OK)
equal("mtu", options.mtu, 1191)
equal("follow_rfc", options.follow_rfc, 1)
equal("max_retransmissions", options.max_retransmissions, 60)
equal("version", library.dcsctp_version() & 0x7fffffff, 256)
equal("no socket", library.dcsctp_connect(socket), library.DCSCTP_ERROR_NO_SOCKET)
equal("no seed", library.dcsctp_create(socket, options, bytes(32), 5), library.DCSCTP_ERROR_INVALID_OPTIONS)
equal("create", library.dcsctp_create(socket, options, bytes([1] * 32), 5), library.DCSCTP_OK)
equal("no peer", library.dcsctp_get_metrics(socket, metrics), 0)
equal("send", library.dcsctp_send(socket, 1, 51, b"hello", 5, how), library.DCSCTP_OK)
equal("connect", library.dcsctp_connect(socket), library.DCSCTP_OK)
equal("state", library.dcsctp_state(socket), library.DCSCTP_STATE_CONNECTING)
equal("an event", library.dcsctp_poll_event(socket, event), 1)
equal("its kind", event.kind, library.DCSCTP_EVENT_SEND_PACKET)
equal("its bytes", library.dcsctp_event_bytes(socket, packet, len(packet), length), library.DCSCTP_OK)
equal("an INIT", (length[0], packet[12]), (event.length, 1))
options.size -= 8
equal("another size", library.dcsctp_get_options(socket, options), library.DCSCTP_ERROR_WRONG_SIZE)
library.dcsctp_destroy(socket)
equal("destroyed", library.dcsctp_state(socket), library.DCSCTP_ERROR_NO_SOCKET)
print("declared: cffi reads dcsctp.h")
