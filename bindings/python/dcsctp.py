"""An SCTP association (RFC 9260) for WebRTC data channels, without system calls: the C library of dcsctp, by ctypes.

You hand a socket the packets that arrive, and the time. It hands you the packets to send, the messages that have
arrived, and events:

    with dcsctp.Socket(now=time.monotonic_ns()) as socket:
        socket.connect()
        stop = None
        while stop is None or time.monotonic_ns() < stop:
            for event in socket.events():
                if isinstance(event, dcsctp.SendPacket):
                    udp.send(event.packet)
                elif isinstance(event, dcsctp.Closed):
                    stop = time.monotonic_ns() + 4_000_000_000  # the last packet may be lost
                elif isinstance(event, dcsctp.Aborted):
                    stop = time.monotonic_ns()
            for message in socket.messages():
                use(message.stream_id, message.ppid, message.payload)
            if wait_until_readable(udp, socket.poll_timeout(), stop):
                socket.advance_time(time.monotonic_ns())
                socket.handle_input(udp.recv(65535))        # one packet, then from the top
            else:
                socket.advance_time(time.monotonic_ns())

Each packet, time or command may add events and messages, and move the deadline. Take all messages before you hand in
the next packet: messages that are left when another association begins are lost. After `Closed` continue for 4 s, since
the peer may need the last packet again; dcsctp.h says more.

`Channels` has data channels in place of messages:

    with dcsctp.Channels(now=time.monotonic_ns(), is_dtls_client=True) as channels:
        channels.connect()
        chat = channels.open("chat")
        ..
            for event in channels.events():
                if isinstance(event, dcsctp.SendPacket):
                    udp.send(event.packet)
                elif isinstance(event, dcsctp.ChannelOpened):
                    event.channel.send("hello")                 # text; bytes are sent as such
                elif isinstance(event, dcsctp.ChannelMessage):
                    use(event.channel.label, event.data)        # str or bytes

A moment is a number of nanoseconds by a clock that never goes back, and a time is in nanoseconds, too. A call that
fails raises an `Error`, and unless it says more, nothing has changed. Threads may share a socket: each call has a lock.
Run it over DTLS, or over another layer that delivers only what the peer has sent.

It needs Python 3.8 and the shared library, libdcsctp.so.0 or libdcsctp-unproved.so.0. The environment variable
DCSCTP_LIBRARY may name the file. Otherwise it takes the first of these; in each place the proved library comes first:

1. In the wheel, the folder of this file.
2. `lib` of the package that this file was unpacked with.
3. `out` of the repository that this file is in.
4. Where the loader looks: LD_LIBRARY_PATH, and the folders that ldconfig knows.
5. /usr/local/lib, which ldconfig may not know yet.
6. Where pkg-config finds dcsctp or dcsctp-unproved.

`library()` returns the file that it took, and `is_proved()` whether that library was built with proofs.
"""

from __future__ import annotations

import ctypes
import dataclasses
import enum
import operator
import os
import pathlib
import subprocess
import threading
from typing import ClassVar, Dict, Iterator, List, NoReturn, Optional, Sequence, Type, Union

Bytes = Union[bytes, bytearray, memoryview]

VERSION = 0x00_01_00
VERSION_UNPROVED = 0x8000_0000
NEVER = 2**64 - 1
NO_LIMIT = 2**32 - 1

# ---- Errors ---------------------------------------------------------------------------------------------------------


class Error(Exception):
    """A call failed. `number` is the number of the header, and `text` says what it means."""

    number: int = 0
    text: ClassVar[str] = "unknown"

    def __init__(self, number: Optional[int] = None) -> None:
        if number is not None:
            self.number = number
        super().__init__(self.text)


class OutOfMemory(Error):
    """An allocation of the library failed. The socket has failed now, unless the call says that it may be tried again;
    `has_failed` reports whether."""

    number = -1
    text = "out of memory"


class Failed(Error):
    """An allocation failed in an earlier call. Events can be taken. Then call `destroy`."""

    number = -2
    text = "an allocation failed in an earlier call"


class NoSocket(Error):
    """There is no socket: it was destroyed."""

    number = -3
    text = "there is no socket"


class AlreadyCreated(Error):
    """The socket was created already. No method of `Socket` raises it."""

    number = -4
    text = "there is a socket already"


class InvalidOptions(Error):
    """The options aren't valid, or all bytes of the seed are 0."""

    number = -5
    text = "no socket can be made with these options or this seed"


class BufferTooSmall(Error):
    """The buffer is too small. No method of `Socket` raises it."""

    number = -6
    text = "the buffer is too small"


class NothingToCopy(Error):
    """No snapshot was taken."""

    number = -7
    text = "there is nothing to copy"


class EmptyPayload(Error):
    """The message has no bytes."""

    number = -8
    text = "the message has no bytes"


class MessageTooLarge(Error):
    """The message is longer than `max_message_size`."""

    number = -9
    text = "the message is too large"


class ResourceExhaustion(Error):
    """The send buffer is full, in total or for this stream. Try again after `BufferedAmountLow` or
    `TotalBufferedAmountLow`."""

    number = -10
    text = "the send buffer is full"


class ShuttingDown(Error):
    """The association is being shut down, and accepts no message."""

    number = -11
    text = "the association is being shut down"


class NotConnected(Error):
    """There is no association, or the peer hasn't answered yet."""

    number = -12
    text = "the peer isn't connected"


class NotSupported(Error):
    """The peer doesn't reset streams (RFC 6525)."""

    number = -13
    text = "the peer doesn't reset streams"


class NotReady(Error):
    """The socket can't be handed over now: `handover_readiness` reports why."""

    number = -14
    text = "the socket can't be handed over now"


class InvalidSnapshot(Error):
    """The bytes aren't a snapshot, or were changed since it was taken."""

    number = -15
    text = "the snapshot isn't valid"


class NotClosed(Error):
    """The socket has an association, or is connecting."""

    number = -16
    text = "the socket isn't closed"


class InvalidSendOptions(Error):
    """No method of `Socket` raises it, since `SendOptions` are always valid."""

    number = -17
    text = "the message can't be sent with these options"


class WrongSize(Error):
    """A struct has another size in the library, which was built with another header."""

    number = -18
    text = "the struct has another size in the library"


class OtherOptions(Error):
    """The snapshot is of a socket with other options: `Socket.restore_from_state` lists those that must be the same."""

    number = -19
    text = "the snapshot is of a socket with other options"


class HasChannels(Error):
    """The socket has data channels. No method of `Socket` or `Channels` raises it."""

    number = -20
    text = "the socket has data channels"


class NoChannel(Error):
    """There is no such data channel, it has ended, or it isn't open."""

    number = -21
    text = "there is no such data channel"


class StreamInUse(Error):
    """The stream of a negotiated data channel is in use."""

    number = -22
    text = "the stream is in use"


class Ended(Error):
    """The association of the data channels has ended: make other `Channels`."""

    number = -23
    text = "the association has ended"


_ERRORS: Dict[int, Type[Error]] = {it.number: it for it in Error.__subclasses__()}


def error_of(number: int) -> Error:
    """The error that a result below 0 means."""
    known = _ERRORS.get(number)
    return known() if known else Error(number)


# ---- Events ---------------------------------------------------------------------------------------------------------


class ErrorKind(enum.IntEnum):
    """What an error is about."""

    NO_ERROR = 0
    TOO_MANY_RETRIES = 1
    """Something was sent too often without an answer."""
    NOT_CONNECTED = 2
    """It needs an association, and there is none."""
    PARSE_FAILED = 3
    """It can't be read, or isn't for this association."""
    WRONG_SEQUENCE = 4
    """It can't be handled in this state."""
    PEER_REPORTED = 5
    """The peer reported an error, or aborted."""
    PROTOCOL_VIOLATION = 6
    """The peer, or the caller, broke a rule."""
    RESOURCE_EXHAUSTION = 7
    """A buffer is full."""
    UNSUPPORTED_OPERATION = 8
    """It isn't supported."""


@dataclasses.dataclass(frozen=True)
class Event:
    """What a socket reports. `name` has the words of `dcsctp_event_name`."""

    kind: ClassVar[int] = 0
    name: ClassVar[str] = "none"


@dataclasses.dataclass(frozen=True)
class SendPacket(Event):
    """A packet for the peer, of at most `mtu` bytes."""

    packet: bytes
    kind = 1
    name = "send packet"


@dataclasses.dataclass(frozen=True)
class Connected(Event):
    """An association was made, by either end."""

    kind = 2
    name = "connected"


@dataclasses.dataclass(frozen=True)
class Closed(Event):
    """It has ended: by a shutdown, `Socket.close` or a handover. Continue the loop for 4 s, as the page says."""

    kind = 3
    name = "closed"


@dataclasses.dataclass(frozen=True)
class ConnectionRestarted(Event):
    """The peer restarted: then `Connected` comes."""

    kind = 4
    name = "connection restarted"


@dataclasses.dataclass(frozen=True)
class Aborted(Event):
    """The association was aborted. `error` is an `ErrorKind`, or a number that a later version adds. `text` may be
    empty."""

    error: int
    text: str
    kind = 5
    name = "aborted"


@dataclasses.dataclass(frozen=True)
class ErrorEvent(Event):
    """Something went wrong, and the association continues. Its fields are those of `Aborted`."""

    error: int
    text: str
    kind = 6
    name = "error"


@dataclasses.dataclass(frozen=True)
class BufferedAmountLow(Event):
    """The queued bytes of a stream have fallen to its threshold."""

    stream_id: int
    kind = 7
    name = "buffered amount low"


@dataclasses.dataclass(frozen=True)
class TotalBufferedAmountLow(Event):
    """The queued bytes of all streams have fallen to the threshold."""

    kind = 8
    name = "total buffered amount low"


@dataclasses.dataclass(frozen=True)
class StreamsResetFailed(Event):
    """Streams of this end that weren't reset."""

    streams: List[int]
    kind = 9
    name = "streams reset failed"


@dataclasses.dataclass(frozen=True)
class StreamsResetPerformed(Event):
    """Streams of this end that were reset."""

    streams: List[int]
    kind = 10
    name = "streams reset performed"


@dataclasses.dataclass(frozen=True)
class IncomingStreamReset(Event):
    """Streams of the peer that it has reset; none: all of them."""

    streams: List[int]
    kind = 11
    name = "incoming stream reset"


@dataclasses.dataclass(frozen=True)
class LifecycleFullySent(Event):
    """The whole message of this name was sent."""

    lifecycle_id: int
    kind = 12
    name = "message fully sent"


@dataclasses.dataclass(frozen=True)
class LifecycleMaybeExpired(Event):
    """It was abandoned after that."""

    lifecycle_id: int
    kind = 13
    name = "message maybe expired"


@dataclasses.dataclass(frozen=True)
class LifecycleExpired(Event):
    """It was abandoned before that."""

    lifecycle_id: int
    kind = 14
    name = "message expired"


@dataclasses.dataclass(frozen=True)
class LifecycleDelivered(Event):
    """The peer acknowledged it."""

    lifecycle_id: int
    kind = 15
    name = "message delivered"


@dataclasses.dataclass(frozen=True)
class LifecycleEnd(Event):
    """No event names it again."""

    lifecycle_id: int
    kind = 16
    name = "message ended"


class ChannelEnd(enum.IntEnum):
    """Why a channel is closed."""

    CLOSED_BY_RESETS = 0
    """One end has closed it, or both."""
    REFUSED = 1
    """The same before the peer knew it."""
    CANT_BE_RESET = 2
    """The peer refuses resets: the stream stays in use."""
    LOST = 3
    """The association has ended."""
    NO_STREAM = 4
    """No stream was free."""


class ChannelEvent(Event):
    """What `Channels` report, beside `SendPacket` and `Connected`."""


@dataclasses.dataclass(frozen=True)
class ChannelOpened(ChannelEvent):
    """The peer knows a channel that this end has opened."""

    channel: Channel
    kind = 3
    name = "channel opened"


@dataclasses.dataclass(frozen=True)
class ChannelIncoming(ChannelEvent):
    """The peer has opened a channel."""

    channel: Channel
    kind = 4
    name = "incoming channel"


@dataclasses.dataclass(frozen=True)
class ChannelMessage(ChannelEvent):
    """A message, which may be empty. Text is a `str`, in which U+FFFD replaces what isn't UTF-8."""

    channel: Channel
    data: Union[str, bytes]
    kind = 5
    name = "channel message"


@dataclasses.dataclass(frozen=True)
class ChannelBufferedAmountLow(ChannelEvent):
    """The queued bytes of a channel have fallen to its threshold."""

    channel: Channel
    kind = 6
    name = "channel buffered amount low"


@dataclasses.dataclass(frozen=True)
class ChannelClosed(ChannelEvent):
    """The last event of a channel. `reason` is a `ChannelEnd`, or a number that a later version adds."""

    channel: Channel
    reason: int
    kind = 7
    name = "channel closed"


@dataclasses.dataclass(frozen=True)
class ChannelsEnded(ChannelEvent):
    """The association is over, and so are all its channels. Continue the loop for 4 s, as the page says."""

    kind = 8
    name = "channels ended"


@dataclasses.dataclass(frozen=True)
class UnknownEvent(Event):
    """A kind that a later version of the library may have. Ignore it."""

    number: int
    name = "unknown"


_PLAIN = {it.kind: it for it in (Connected, Closed, ConnectionRestarted, TotalBufferedAmountLow)}
_WITH_TEXT = {it.kind: it for it in (Aborted, ErrorEvent)}
_WITH_STREAMS = {it.kind: it for it in (StreamsResetFailed, StreamsResetPerformed, IncomingStreamReset)}
_WITH_NAME = {
    it.kind: it
    for it in (LifecycleFullySent, LifecycleMaybeExpired, LifecycleExpired, LifecycleDelivered, LifecycleEnd)
}

# ---- Options, messages and metrics ----------------------------------------------------------------------------------


@dataclasses.dataclass
class Options:
    """What can be set. Sizes are in bytes, times in nanoseconds. `dcsctp.h` describes each at `dcsctp_options`, and
    says which values connect."""

    mtu: int = 1191
    max_message_size: int = 262_144
    max_receiver_window_buffer_size: int = 5_242_880
    max_send_buffer_size: int = 2_000_000
    per_stream_send_queue_limit: int = 2_000_000
    total_buffered_amount_low_threshold: int = 1_800_000
    default_stream_buffered_amount_low_threshold: int = 0
    cwnd_mtus_initial: int = 10
    cwnd_mtus_min: int = 4
    rtt_max: int = 60_000_000_000
    rto_initial: int = 500_000_000
    rto_max: int = 60_000_000_000
    rto_min: int = 400_000_000
    t1_init_timeout: int = 1_000_000_000
    t1_cookie_timeout: int = 1_000_000_000
    cookie_lifetime: int = 60_000_000_000
    max_timer_backoff_duration: int = 3_000_000_000
    heartbeat_interval: int = 30_000_000_000
    delayed_ack_max_timeout: int = 200_000_000
    min_rtt_variance: int = 220_000_000
    max_burst: int = 4
    max_retransmissions: int = 60
    max_init_retransmits: int = 60
    zero_checksum_method: int = 0
    enable_partial_reliability: bool = True
    enable_message_interleaving: bool = False
    disable_checksum_verification: bool = False
    enable_handover_with_outstanding_data: bool = False
    local_port: int = 5000
    remote_port: int = 5000
    announced_maximum_incoming_streams: int = 65_535
    announced_maximum_outgoing_streams: int = 65_535
    default_stream_priority: int = 256
    checksum_offload: bool = False
    follow_rfc: bool = True


@dataclasses.dataclass(frozen=True)
class Message:
    """A message that has arrived, or that `Socket.send_many` sends. `ppid` is the payload protocol identifier
    (RFC 8831, section 8)."""

    stream_id: int
    ppid: int
    payload: bytes


@dataclasses.dataclass(frozen=True)
class SendOptions:
    """How a message is sent. By default: in order, until it is acknowledged.

    `lifecycle_id` is its name in `Lifecycle..` events; 0: there are none. `lifetime` is in nanoseconds. A message that
    isn't acknowledged by then is abandoned, or that would be sent again more often than `max_retransmissions`; both
    need partial reliability (RFC 3758) at both ends."""

    lifecycle_id: int = 0
    unordered: bool = False
    lifetime: Optional[int] = None
    max_retransmissions: Optional[int] = None


_SENT_PLAINLY = SendOptions()


@dataclasses.dataclass
class ChannelLimits:
    """What a peer may do. `max_message_size`: a longer message closes its channel. `max_text`: bytes of a label and a
    protocol; more are refused. `max_channels`: with so many streams in use each channel is refused."""

    max_message_size: int = 262_144
    max_text: int = 1024
    max_channels: int = 1024


class ChannelState(enum.IntEnum):
    """The state of a channel."""

    CONNECTING = 0
    """It waits for the association, the role, or room to send."""
    OPEN = 1
    """Messages can be sent."""
    CLOSING = 2
    """One end has closed it."""
    CLOSED = 3
    """There is no such channel, or none any more."""


@dataclasses.dataclass(frozen=True)
class ChannelMetrics:
    """What was counted of a channel."""

    messages_sent: int
    bytes_sent: int
    messages_received: int
    bytes_received: int


class State(enum.IntEnum):
    """The state of a socket."""

    CLOSED = 0
    CONNECTING = 1
    CONNECTED = 2
    SHUTTING_DOWN = 3


class Peer(enum.IntEnum):
    """Which program the peer runs, by its cookie. Later versions may add numbers."""

    UNKNOWN = 0
    DCSCTP_RS = 1
    DCSCTP_CC = 2
    USRSCTP = 3
    OTHER = 4


class Handover(enum.IntFlag):
    """Why a socket can't be handed over. Later versions may add reasons."""

    WRONG_CONNECTION_STATE = 1
    SEND_QUEUE_NOT_EMPTY = 2
    PENDING_STREAM_RESET_REQUEST = 4
    DATA_TRACKER_TSN_BLOCKS_PENDING = 8
    PENDING_STREAM_RESET = 16
    STREAM_RESET_DEFERRED = 64
    STREAM_HAS_UNASSEMBLED_CHUNKS = 128
    RETRANSMISSION_QUEUE_OUTSTANDING_DATA = 512
    RETRANSMISSION_QUEUE_FAST_RECOVERY = 1024
    RETRANSMISSION_QUEUE_NOT_EMPTY = 2048
    CHANNELS_UNSETTLED = 4096
    EVENTS_NOT_TAKEN = 8192


@dataclasses.dataclass(frozen=True)
class Metrics:
    """Counts since the socket was created, and the present state of the association. `dcsctp.h` describes each."""

    rtx_bytes_count: int
    srtt: int
    tx_packets_count: int
    tx_messages_count: int
    rtx_packets_count: int
    cwnd_bytes: int
    unack_data_count: int
    rx_packets_count: int
    rx_messages_count: int
    peer_rwnd_bytes: int
    peer_implementation: int
    uses_message_interleaving: bool
    uses_zero_checksum: bool
    negotiated_maximum_incoming_streams: int
    negotiated_maximum_outgoing_streams: int


@dataclasses.dataclass(frozen=True)
class Counts:
    """Counts since the socket was created: packets handed in, readable or not; packets sent; messages that `send`
    accepted."""

    rx_packets_count: int
    tx_packets_count: int
    tx_messages_count: int


# ---- The header -----------------------------------------------------------------------------------------------------


class _Socket(ctypes.Structure):
    _fields_ = [("at", ctypes.c_void_p), ("mark", ctypes.c_uint32)]


class _Options(ctypes.Structure):
    _fields_ = [
        ("size", ctypes.c_size_t),
        ("mtu", ctypes.c_size_t),
        ("max_message_size", ctypes.c_size_t),
        ("max_receiver_window_buffer_size", ctypes.c_size_t),
        ("max_send_buffer_size", ctypes.c_size_t),
        ("per_stream_send_queue_limit", ctypes.c_size_t),
        ("total_buffered_amount_low_threshold", ctypes.c_size_t),
        ("default_stream_buffered_amount_low_threshold", ctypes.c_size_t),
        ("cwnd_mtus_initial", ctypes.c_size_t),
        ("cwnd_mtus_min", ctypes.c_size_t),
        ("rtt_max", ctypes.c_uint64),
        ("rto_initial", ctypes.c_uint64),
        ("rto_max", ctypes.c_uint64),
        ("rto_min", ctypes.c_uint64),
        ("t1_init_timeout", ctypes.c_uint64),
        ("t1_cookie_timeout", ctypes.c_uint64),
        ("cookie_lifetime", ctypes.c_uint64),
        ("max_timer_backoff_duration", ctypes.c_uint64),
        ("heartbeat_interval", ctypes.c_uint64),
        ("delayed_ack_max_timeout", ctypes.c_uint64),
        ("min_rtt_variance", ctypes.c_uint64),
        ("max_burst", ctypes.c_int32),
        ("max_retransmissions", ctypes.c_uint32),
        ("max_init_retransmits", ctypes.c_uint32),
        ("zero_checksum_method", ctypes.c_uint32),
        ("enable_partial_reliability", ctypes.c_uint32),
        ("enable_message_interleaving", ctypes.c_uint32),
        ("disable_checksum_verification", ctypes.c_uint32),
        ("enable_handover_with_outstanding_data", ctypes.c_uint32),
        ("local_port", ctypes.c_uint16),
        ("remote_port", ctypes.c_uint16),
        ("announced_maximum_incoming_streams", ctypes.c_uint16),
        ("announced_maximum_outgoing_streams", ctypes.c_uint16),
        ("default_stream_priority", ctypes.c_uint16),
        ("checksum_offload", ctypes.c_uint16),
        ("follow_rfc", ctypes.c_uint32),
    ]


class _Event(ctypes.Structure):
    _fields_ = [
        ("lifecycle_id", ctypes.c_uint64),
        ("length", ctypes.c_size_t),
        ("kind", ctypes.c_uint32),
        ("error_kind", ctypes.c_uint32),
        ("stream_id", ctypes.c_uint32),
        ("reserved", ctypes.c_uint32),
    ]


class _Message(ctypes.Structure):
    _fields_ = [
        ("length", ctypes.c_size_t),
        ("ppid", ctypes.c_uint32),
        ("stream_id", ctypes.c_uint16),
        ("reserved", ctypes.c_uint16),
    ]


class _SendOptions(ctypes.Structure):
    _fields_ = [
        ("lifecycle_id", ctypes.c_uint64),
        ("lifetime", ctypes.c_uint64),
        ("flags", ctypes.c_uint32),
        ("max_retransmissions", ctypes.c_uint16),
        ("reserved", ctypes.c_uint16),
    ]


class _OutgoingMessage(ctypes.Structure):
    _fields_ = [
        ("payload", ctypes.c_char_p),
        ("length", ctypes.c_size_t),
        ("ppid", ctypes.c_uint32),
        ("stream_id", ctypes.c_uint16),
        ("reserved", ctypes.c_uint16),
    ]


class _Metrics(ctypes.Structure):
    _fields_ = [
        ("size", ctypes.c_size_t),
        ("rtx_bytes_count", ctypes.c_uint64),
        ("srtt", ctypes.c_uint64),
        ("tx_packets_count", ctypes.c_size_t),
        ("tx_messages_count", ctypes.c_size_t),
        ("rtx_packets_count", ctypes.c_size_t),
        ("cwnd_bytes", ctypes.c_size_t),
        ("unack_data_count", ctypes.c_size_t),
        ("rx_packets_count", ctypes.c_size_t),
        ("rx_messages_count", ctypes.c_size_t),
        ("peer_rwnd_bytes", ctypes.c_uint32),
        ("peer_implementation", ctypes.c_uint32),
        ("uses_message_interleaving", ctypes.c_uint32),
        ("uses_zero_checksum", ctypes.c_uint32),
        ("negotiated_maximum_incoming_streams", ctypes.c_uint16),
        ("negotiated_maximum_outgoing_streams", ctypes.c_uint16),
        ("reserved", ctypes.c_uint32),
    ]


class _Counts(ctypes.Structure):
    _fields_ = [
        ("size", ctypes.c_size_t),
        ("rx_packets_count", ctypes.c_size_t),
        ("tx_packets_count", ctypes.c_size_t),
        ("tx_messages_count", ctypes.c_size_t),
    ]


class _ChannelLimits(ctypes.Structure):
    _fields_ = [
        ("size", ctypes.c_size_t),
        ("max_message_size", ctypes.c_size_t),
        ("max_text", ctypes.c_size_t),
        ("max_channels", ctypes.c_size_t),
    ]


class _ChannelOptions(ctypes.Structure):
    _fields_ = [
        ("size", ctypes.c_size_t),
        ("label", ctypes.c_void_p),  # (it has no zero at its end)
        ("label_length", ctypes.c_size_t),
        ("protocol", ctypes.c_void_p),
        ("protocol_length", ctypes.c_size_t),
        ("limit", ctypes.c_uint32),
        ("priority", ctypes.c_uint16),
        ("reliability", ctypes.c_uint16),
        ("is_unordered", ctypes.c_uint16),
        ("is_negotiated", ctypes.c_uint16),
        ("stream", ctypes.c_uint16),
        ("reserved", ctypes.c_uint16),
    ]


class _ChannelEvent(ctypes.Structure):
    _fields_ = [
        ("channel", ctypes.c_uint64),
        ("length", ctypes.c_size_t),
        ("kind", ctypes.c_uint32),
        ("detail", ctypes.c_uint32),
    ]


class _ChannelMetrics(ctypes.Structure):
    _fields_ = [
        ("size", ctypes.c_size_t),
        ("messages_sent", ctypes.c_uint64),
        ("bytes_sent", ctypes.c_uint64),
        ("messages_received", ctypes.c_uint64),
        ("bytes_received", ctypes.c_uint64),
    ]


_BYTES = ctypes.c_char_p  # const uint8_t *, which points into the bytes of Python
_SIZE = ctypes.c_size_t
_SIZE_TO = ctypes.POINTER(ctypes.c_size_t)
_U16 = ctypes.c_uint16
_U16_TO = ctypes.POINTER(ctypes.c_uint16)
_BUFFER = ctypes.POINTER(ctypes.c_uint8)
_VIEW_TO = ctypes.POINTER(_BUFFER)  # const uint8_t **
_AT = ctypes.POINTER(_Socket)

# What each call takes. All but two return a result.
_CALLS = {
    "dcsctp_version": [],
    "dcsctp_get_default_options": [ctypes.POINTER(_Options)],
    "dcsctp_create": [_AT, ctypes.POINTER(_Options), _BYTES, ctypes.c_uint64],
    "dcsctp_destroy": [_AT],
    "dcsctp_connect": [_AT],
    "dcsctp_shutdown": [_AT],
    "dcsctp_close": [_AT],
    "dcsctp_handle_input": [_AT, _BYTES, _SIZE],
    "dcsctp_advance_time": [_AT, ctypes.c_uint64],
    "dcsctp_poll_timeout": [_AT, ctypes.POINTER(ctypes.c_uint64)],
    "dcsctp_poll_event": [_AT, ctypes.POINTER(_Event)],
    "dcsctp_event_bytes": [_AT, _BUFFER, _SIZE, _SIZE_TO],
    "dcsctp_event_view": [_AT, _VIEW_TO, _SIZE_TO],
    "dcsctp_event_streams": [_AT, _U16_TO, _SIZE, _SIZE_TO],
    "dcsctp_messages_ready_count": [_AT, _SIZE_TO],
    "dcsctp_get_next_message": [_AT, ctypes.POINTER(_Message)],
    "dcsctp_message_bytes": [_AT, _BUFFER, _SIZE, _SIZE_TO],
    "dcsctp_message_view": [_AT, _VIEW_TO, _SIZE_TO],
    "dcsctp_send": [_AT, _U16, ctypes.c_uint32, _BYTES, _SIZE, ctypes.POINTER(_SendOptions)],
    "dcsctp_send_many": [
        _AT,
        ctypes.POINTER(_OutgoingMessage),
        _SIZE,
        ctypes.POINTER(_SendOptions),
        ctypes.POINTER(ctypes.c_int32),
        _SIZE,
    ],
    "dcsctp_reset_streams": [_AT, _U16_TO, _SIZE],
    "dcsctp_buffered_amount": [_AT, _U16, _SIZE_TO],
    "dcsctp_buffered_amount_low_threshold": [_AT, _U16, _SIZE_TO],
    "dcsctp_set_buffered_amount_low_threshold": [_AT, _U16, _SIZE],
    "dcsctp_get_stream_priority": [_AT, _U16, _U16_TO],
    "dcsctp_set_stream_priority": [_AT, _U16, _U16],
    "dcsctp_state": [_AT],
    "dcsctp_has_failed": [_AT],
    "dcsctp_verification_tag": [_AT, ctypes.POINTER(ctypes.c_uint32)],
    "dcsctp_set_max_message_size": [_AT, _SIZE],
    "dcsctp_get_options": [_AT, ctypes.POINTER(_Options)],
    "dcsctp_get_metrics": [_AT, ctypes.POINTER(_Metrics)],
    "dcsctp_get_counts": [_AT, ctypes.POINTER(_Counts)],
    "dcsctp_channel_begin": [_AT, ctypes.POINTER(_ChannelLimits)],
    "dcsctp_channel_set_role": [_AT, ctypes.c_int32],
    "dcsctp_channel_open": [_AT, ctypes.POINTER(_ChannelOptions), ctypes.POINTER(ctypes.c_uint64)],
    "dcsctp_channel_send": [_AT, ctypes.c_uint64, ctypes.c_uint32, _BYTES, _SIZE],
    "dcsctp_channel_close": [_AT, ctypes.c_uint64],
    "dcsctp_channel_poll": [_AT, ctypes.POINTER(_ChannelEvent)],
    "dcsctp_channel_bytes": [_AT, _BUFFER, _SIZE, _SIZE_TO],
    "dcsctp_channel_view": [_AT, _VIEW_TO, _SIZE_TO],
    "dcsctp_channel_get_options": [_AT, ctypes.POINTER(_ChannelOptions)],
    "dcsctp_channel_state": [_AT, ctypes.c_uint64],
    "dcsctp_channel_stream": [_AT, ctypes.c_uint64, _U16_TO],
    "dcsctp_channel_buffered_amount": [_AT, ctypes.c_uint64, _SIZE_TO],
    "dcsctp_channel_set_buffered_amount_low_threshold": [_AT, ctypes.c_uint64, _SIZE],
    "dcsctp_channel_get_metrics": [_AT, ctypes.c_uint64, ctypes.POINTER(_ChannelMetrics)],
    "dcsctp_channel_count": [_AT, _SIZE_TO],
    "dcsctp_get_handover_readiness": [_AT, ctypes.POINTER(ctypes.c_uint32)],
    "dcsctp_get_handover_state_and_close": [_AT],
    "dcsctp_handover_bytes": [_AT, _BUFFER, _SIZE, _SIZE_TO],
    "dcsctp_restore_from_state": [_AT, _BYTES, _SIZE],
}


_NAMES = ("dcsctp", "dcsctp-unproved")


def _files() -> Iterator[str]:
    """Files of the library that may exist, the best first. One without a folder is for the loader to find."""
    here = pathlib.Path(__file__).resolve()
    if here.name == "__init__.py":
        for name in _NAMES:
            yield str(here.parent / f"lib{name}.so.0")
    if here.parts[-3:-1] == ("bindings", "python"):
        top = here.parents[2]
        for folders in (("lib", "lib"), ("out", "out/unproved")):
            for name, folder in zip(_NAMES, folders):
                yield str(top / folder / f"lib{name}.so.0")
    for folder in ("", "/usr/local/lib"):
        for name in _NAMES:
            yield os.path.join(folder, f"lib{name}.so.0")
    for name in _NAMES:
        try:
            asked = subprocess.run(
                ["pkg-config", "--variable=libdir", name], stdout=subprocess.PIPE, stderr=subprocess.DEVNULL, check=True
            )
        except (OSError, subprocess.SubprocessError):
            continue
        yield os.path.join(os.fsdecode(asked.stdout).strip(), f"lib{name}.so.0")


def _open() -> ctypes.CDLL:
    named = os.environ.get("DCSCTP_LIBRARY")
    if named:
        try:
            return ctypes.CDLL(named)
        except OSError as error:
            raise ImportError(f"DCSCTP_LIBRARY: {error}") from error
    tried = []
    for file in _files():
        is_path = os.path.isabs(file)
        try:
            if not is_path or os.path.exists(file):
                return ctypes.CDLL(file)
        except OSError as error:
            if is_path:  # it is there, and can't be loaded
                raise ImportError(str(error)) from error
        tried.append(file)
    raise ImportError(
        "neither libdcsctp.so.0 nor libdcsctp-unproved.so.0 was found: install one by `make install` or `make unproved "
        "install`, or set DCSCTP_LIBRARY to the file. Tried: " + ", ".join(tried)
    )


def _load() -> ctypes.CDLL:
    library = _open()
    for name, parameters in _CALLS.items():
        try:
            call = getattr(library, name)
        except AttributeError as error:
            raise ImportError(f"{library._name} has another version: {error}") from error
        call.argtypes = parameters
        call.restype = ctypes.c_int32
    library.dcsctp_version.restype = ctypes.c_uint32
    library.dcsctp_destroy.restype = None
    if library.dcsctp_version() & ~VERSION_UNPROVED != VERSION:
        raise ImportError(f"{library._name} has another version")
    return library


_library = _load()


def library() -> str:
    """The file of the library, as it was opened. A name without a folder was found by the loader."""
    return _library._name


def version() -> int:
    """The version of the library: `VERSION`, and `VERSION_UNPROVED` added to it if it was built without proofs."""
    return _library.dcsctp_version()


def is_proved() -> bool:
    """Whether the library was built with proofs."""
    return version() & VERSION_UNPROVED == 0


# ---- The socket -----------------------------------------------------------------------------------------------------


def _checked(name: str, value: int, kind: Type[ctypes._SimpleCData]) -> int:
    """The number, if it is one of this type. ctypes would cut it."""
    number = operator.index(value)
    if kind(number).value != number:
        raise ValueError(f"{name}: {number} is out of range")
    return number


def _whole(payload: Bytes) -> bytes:
    return payload if isinstance(payload, bytes) else memoryview(payload).tobytes()


def _filled(kind: Type[ctypes.Structure], values: object) -> ctypes.Structure:
    """A struct whose fields are those of a dataclass, but for `size` and `reserved`."""
    made = kind()
    for name, field in kind._fields_:
        if name == "size":
            made.size = ctypes.sizeof(kind)
        elif name != "reserved":
            setattr(made, name, _checked(name, getattr(values, name), field))
    return made


def _send_options(options: SendOptions) -> _SendOptions:
    lifetime, count = options.lifetime, options.max_retransmissions
    return _SendOptions(
        lifecycle_id=_checked("lifecycle_id", options.lifecycle_id, ctypes.c_uint64),
        lifetime=_checked("lifetime", lifetime or 0, ctypes.c_uint64),
        flags=bool(options.unordered) + 2 * (lifetime is not None) + 4 * (count is not None),
        max_retransmissions=_checked("max_retransmissions", count or 0, ctypes.c_uint16),
    )


def _stream(stream_id: int) -> int:
    return _checked("stream_id", stream_id, ctypes.c_uint16)


class _Association:
    """What `Socket` and `Channels` have in common."""

    def __init__(self, options: Optional[Options] = None, seed: Optional[bytes] = None, now: int = 0) -> None:
        self._socket = _Socket()
        self._lock = threading.RLock()
        self._buffer = (ctypes.c_uint8 * 2048)()
        seed = os.urandom(32) if seed is None else _whole(seed)
        if len(seed) != 32:
            raise ValueError("a seed has 32 bytes")
        filled = _filled(_Options, options or Options())
        self._do(_library.dcsctp_create, filled, seed, _checked("now", now, ctypes.c_uint64))

    def __enter__(self) -> Socket:
        return self

    def __exit__(self, *_: object) -> None:
        self.destroy()

    def __del__(self) -> None:
        if hasattr(self, "_lock"):
            self.destroy()

    def __copy__(self) -> NoReturn:
        raise TypeError("of two copies of a socket only one could be used")

    def __deepcopy__(self, _: object) -> NoReturn:
        self.__copy__()

    def __reduce__(self) -> NoReturn:
        raise TypeError("hand over a socket by get_handover_state_and_close")

    def destroy(self) -> None:
        """Frees the socket, whatever it is doing. The peer isn't informed. Again it does nothing."""
        with self._lock:
            _library.dcsctp_destroy(self._socket)

    def _do(self, call: ctypes._NamedFuncPointer, *arguments: object) -> int:
        with self._lock:
            result = call(self._socket, *arguments)
        if result < 0:
            raise error_of(result)
        return result

    def _number(self, call: ctypes._NamedFuncPointer, written: ctypes._SimpleCData, *arguments: object) -> int:
        self._do(call, *arguments, written)
        return written.value

    def _copied(self, call: ctypes._NamedFuncPointer, length: int) -> bytes:
        if length > len(self._buffer):
            self._buffer = (ctypes.c_uint8 * length)()
        written = ctypes.c_size_t()
        self._do(call, self._buffer, len(self._buffer), written)
        return ctypes.string_at(self._buffer, written.value)

    def _shown(self, call: ctypes._NamedFuncPointer) -> bytes:
        at, length = _BUFFER(), ctypes.c_size_t()
        self._do(call, at, length)
        return ctypes.string_at(at, length.value)

    # Commands

    def connect(self) -> None:
        """Begins an association: `Connected` follows, or the event of its end. If it isn't closed, it does nothing.
        Raises `NoSocket`, `Failed` and `OutOfMemory`."""
        self._do(_library.dcsctp_connect)

    def shutdown(self) -> None:
        """Wait for `Connected` before this call: until the peer has answered the first INIT it sends nothing, and
        what is queued goes out in the next association.

        It ends the association in an orderly way: the event of its end follows. From now on `send` fails. Raises
        `NoSocket`, `Failed` and `OutOfMemory`."""
        self._do(_library.dcsctp_shutdown)

    def close(self) -> None:
        """Ends the association at once, by an ABORT: the last event is that of its end. Data in flight is lost; what
        is queued goes out in the next association. Messages that are ready can still be taken; without `follow_rfc`
        they are lost. Raises `NoSocket`, `Failed` and `OutOfMemory`."""
        self._do(_library.dcsctp_close)

    # Packets and time

    def handle_input(self, packet: Bytes) -> None:
        """Handles a packet from the peer, of any bytes. One that can't be read adds an `ErrorEvent`. Raises `NoSocket`,
        `Failed` and `OutOfMemory`."""
        whole = _whole(packet)
        self._do(_library.dcsctp_handle_input, whole, len(whole))

    def advance_time(self, now: int) -> None:
        """Sets the time, and handles expired timers. A moment before the last one does nothing. Raises `NoSocket`,
        `Failed` and `OutOfMemory`."""
        self._do(_library.dcsctp_advance_time, _checked("now", now, ctypes.c_uint64))

    def poll_timeout(self) -> Optional[int]:
        """The next deadline, by which you must call `advance_time`. `None` if there is none. Raises `NoSocket`."""
        moment = self._number(_library.dcsctp_poll_timeout, ctypes.c_uint64())
        return None if moment == NEVER else moment

    # Queries

    def state(self) -> State:
        """The state. Raises `NoSocket`."""
        return State(self._do(_library.dcsctp_state))

    def has_failed(self) -> bool:
        """Whether an allocation has failed, so that the socket can't be used any more. Raises `NoSocket`."""
        return self._do(_library.dcsctp_has_failed) == 1

    def verification_tag(self) -> int:
        """Our verification tag, which the peer's packets carry; 0 if the socket is closed. Raises `NoSocket`."""
        return self._number(_library.dcsctp_verification_tag, ctypes.c_uint32())

    def set_max_message_size(self, size: int) -> None:
        """Sets `max_message_size`, for messages sent from now on. Raises `NoSocket`."""
        self._do(_library.dcsctp_set_max_message_size, _checked("size", size, ctypes.c_size_t))

    def options(self) -> Options:
        """The options. `max_message_size` is as it was set last. Raises `NoSocket`."""
        read = _Options(size=ctypes.sizeof(_Options))
        self._do(_library.dcsctp_get_options, read)
        return Options(**{it.name: type(it.default)(getattr(read, it.name)) for it in dataclasses.fields(Options)})

    def metrics(self) -> Optional[Metrics]:
        """The metrics. `None` if there is no peer yet. Raises `NoSocket`."""
        read = _Metrics(size=ctypes.sizeof(_Metrics))
        if self._do(_library.dcsctp_get_metrics, read) != 1:
            return None
        values = {it.name: getattr(read, it.name) for it in dataclasses.fields(Metrics)}
        for name in ("uses_message_interleaving", "uses_zero_checksum"):
            values[name] = bool(values[name])
        return Metrics(**values)

    def counts(self) -> Counts:
        """Counts since the socket was created, also after an association has ended. Raises `NoSocket`."""
        read = _Counts(size=ctypes.sizeof(_Counts))
        self._do(_library.dcsctp_get_counts, read)
        return Counts(read.rx_packets_count, read.tx_packets_count, read.tx_messages_count)

    # Handover to another process

    def handover_readiness(self) -> Handover:
        """Why the socket can't be handed over now; 0: it can. Raises `NoSocket`."""
        return Handover(self._number(_library.dcsctp_get_handover_readiness, ctypes.c_uint32()))

    def get_handover_state_and_close(self) -> bytes:
        """Takes a snapshot, from which `restore_from_state` continues in another process, and ends the association
        here. The peer isn't informed, and the last event is `Closed` or `ChannelsEnded`. Take all events and messages
        first. The snapshot has the channels, but for their labels and low thresholds; it is as
        secret as the messages, is used once, and by the same version of the library.

        Raises `NoSocket`, `NotReady`, `Failed` and `OutOfMemory`."""
        with self._lock:
            self._do(_library.dcsctp_get_handover_state_and_close)
            return self.handover_bytes()

    def handover_bytes(self) -> bytes:
        """The last snapshot. Raises `NoSocket`, `NothingToCopy` and `OutOfMemory`."""
        length = ctypes.c_size_t()
        with self._lock:
            try:
                self._do(_library.dcsctp_handover_bytes, self._buffer, 0, length)
            except BufferTooSmall:
                pass
            return self._copied(_library.dcsctp_handover_bytes, length.value)

    def restore_from_state(self, snapshot: Bytes) -> None:
        """Continues from a snapshot that another socket with these options gave: `Connected` follows. The time of this
        socket must be over a minute. Restore only what you trust. `OtherOptions`: they differ in a port, an announced
        number of streams, `enable_partial_reliability`, `enable_message_interleaving` or `zero_checksum_method`.

        Raises `NoSocket`, `NotClosed`, `InvalidSnapshot`, `OtherOptions`, `Failed` and `OutOfMemory`."""
        whole = _whole(snapshot)
        self._do(_library.dcsctp_restore_from_state, whole, len(whole))


class Socket(_Association):
    """A socket. Leaving its `with` destroys it without informing the peer: `shutdown` or `close` does that. It can't be
    copied. A destroyed socket raises `NoSocket`.

    It begins closed, with its clock at `now`. The seed has 32 bytes, is secret and never used twice: without one the
    system's generator makes it. Raises `InvalidOptions`, also if the seed is all zeros, and `OutOfMemory`."""

    # Events and messages

    def poll_event(self) -> Optional[Event]:
        """Takes the oldest event. `None` if there is none. Raises `NoSocket`."""
        event = _Event()
        with self._lock:
            if self._do(_library.dcsctp_poll_event, event) != 1:
                return None
            if event.kind == SendPacket.kind:
                return SendPacket(self._shown(_library.dcsctp_event_view))
            if event.kind in _WITH_TEXT:
                text = self._copied(_library.dcsctp_event_bytes, event.length).decode("utf-8", "replace")
                known = event.error_kind in ErrorKind._value2member_map_
                return _WITH_TEXT[event.kind](ErrorKind(event.error_kind) if known else event.error_kind, text)
            if event.kind in _WITH_STREAMS:
                return _WITH_STREAMS[event.kind](self._event_streams(event.length))
        if event.kind in _PLAIN:
            return _PLAIN[event.kind]()
        if event.kind in _WITH_NAME:
            return _WITH_NAME[event.kind](event.lifecycle_id)
        if event.kind == BufferedAmountLow.kind:
            return BufferedAmountLow(event.stream_id)
        return UnknownEvent(event.kind)

    def _event_streams(self, count: int) -> List[int]:
        streams, written = (ctypes.c_uint16 * max(count, 1))(), ctypes.c_size_t()
        self._do(_library.dcsctp_event_streams, streams, len(streams), written)
        return list(streams[: written.value])

    def events(self) -> Iterator[Event]:
        """Takes all events, one at a time."""
        while (event := self.poll_event()) is not None:
            yield event

    def messages_ready_count(self) -> int:
        """How many messages are ready to be taken. Raises `NoSocket`."""
        return self._number(_library.dcsctp_messages_ready_count, ctypes.c_size_t())

    def get_next_message(self) -> Optional[Message]:
        """Takes the first message that is ready. `None` if there is none. It may be of an association that has ended.
        Messages that are left when the next one begins are lost; without `follow_rfc` when their own ends. Raises
        `NoSocket`."""
        message = _Message()
        with self._lock:
            if self._do(_library.dcsctp_get_next_message, message) != 1:
                return None
            payload = self._shown(_library.dcsctp_message_view)
        return Message(message.stream_id, message.ppid, payload)

    def messages(self) -> Iterator[Message]:
        """Takes all messages, one at a time."""
        while (message := self.get_next_message()) is not None:
            yield message

    def send(self, stream_id: int, ppid: int, payload: Bytes, options: SendOptions = _SENT_PLAINLY) -> None:
        """Sends a message, whose bytes are copied. It is queued behind other messages of its stream, also before an
        association exists. If it fails, an `ErrorEvent` follows, too. After `OutOfMemory` it may be tried again if
        `has_failed` is false.

        Raises `NoSocket`, `EmptyPayload`, `MessageTooLarge`, `ShuttingDown`, `ResourceExhaustion`, `Failed` and
        `OutOfMemory`."""
        whole, how = _whole(payload), _send_options(options)
        under = _checked("ppid", ppid, ctypes.c_uint32)
        self._do(_library.dcsctp_send, _stream(stream_id), under, whole, len(whole), how)

    def send_many(
        self, messages: Sequence[Message], options: SendOptions = _SENT_PLAINLY
    ) -> List[Optional[Error]]:
        """Sends several messages, each as `send` does, with the same options. Packets are made once, after the last.
        Returns for each message `None` or its error. If one fails, later ones are sent all the same.

        Raises `NoSocket`, `Failed` and `OutOfMemory`. After the last it may be tried again if `has_failed` is false;
        else some of the messages may have been sent."""
        count = len(messages)
        outgoing = (_OutgoingMessage * max(count, 1))()
        for at, message in zip(outgoing, messages):
            whole = _whole(message.payload)
            at.payload, at.length = whole, len(whole)
            at.ppid = _checked("ppid", message.ppid, ctypes.c_uint32)
            at.stream_id = _stream(message.stream_id)
        unwritten = 1
        results = (ctypes.c_int32 * max(count, 1))(*[unwritten] * max(count, 1))
        try:
            self._do(_library.dcsctp_send_many, outgoing, count, _send_options(options), results, count)
        except Error:
            # The error of a message is written to its result; other errors write none.
            if count == 0 or results[0] == unwritten:
                raise
        return [error_of(it) if it < 0 else None for it in results[:count]]

    # Streams

    def reset_streams(self, stream_ids: Sequence[int]) -> None:
        """Resets outgoing streams, which closes data channels. First wait until `buffered_amount` of each and
        `unack_data_count` of `metrics` are 0: queued messages are dropped. `StreamsResetPerformed` or
        `StreamsResetFailed` follows; the peer gets `IncomingStreamReset`.

        Raises `NoSocket`, `NotConnected`, `NotSupported`, `Failed` and `OutOfMemory`."""
        ids = [_stream(it) for it in stream_ids]
        self._do(_library.dcsctp_reset_streams, (ctypes.c_uint16 * max(len(ids), 1))(*ids), len(ids))

    def buffered_amount(self, stream_id: int) -> int:
        """How many bytes are queued on a stream. Raises `NoSocket`."""
        return self._number(_library.dcsctp_buffered_amount, ctypes.c_size_t(), _stream(stream_id))

    def buffered_amount_low_threshold(self, stream_id: int) -> int:
        """The low threshold of a stream: `BufferedAmountLow` comes when its queued bytes fall to it.
        Raises `NoSocket`."""
        return self._number(_library.dcsctp_buffered_amount_low_threshold, ctypes.c_size_t(), _stream(stream_id))

    def set_buffered_amount_low_threshold(self, stream_id: int, size: int) -> None:
        """Sets that threshold, also for later associations. Raises `NoSocket`, `Failed` and `OutOfMemory`."""
        size = _checked("size", size, ctypes.c_size_t)
        self._do(_library.dcsctp_set_buffered_amount_low_threshold, _stream(stream_id), size)

    def stream_priority(self, stream_id: int) -> int:
        """The priority of a stream: the one with the greatest is sent first. Raises `NoSocket`."""
        return self._number(_library.dcsctp_get_stream_priority, ctypes.c_uint16(), _stream(stream_id))

    def set_stream_priority(self, stream_id: int, priority: int) -> None:
        """Sets that priority, also for later associations. Raises `NoSocket`, `Failed` and `OutOfMemory`."""
        priority = _checked("priority", priority, ctypes.c_uint16)
        self._do(_library.dcsctp_set_stream_priority, _stream(stream_id), priority)


# ---- Data channels --------------------------------------------------------------------------------------------------

_TEXT, _BINARY = 1, 2
_RETRANSMISSIONS, _LIFETIME = 1, 2
_OF_CHANNELS = {it.kind: it for it in (ChannelOpened, ChannelIncoming, ChannelBufferedAmountLow)}


class Channel:
    """A data channel, which `Channels.open` or a `ChannelIncoming` gave. All events name it by this object.

    What it was opened with are its fields `label`, `protocol`, `ordered`, `max_retransmits`, `max_lifetime`, `priority`
    and `negotiated`. `number` is never given twice by its `Channels`."""

    def __init__(
        self,
        channels: Channels,
        number: int,
        *,
        label: str = "",
        protocol: str = "",
        ordered: bool = True,
        max_retransmits: Optional[int] = None,
        max_lifetime: Optional[int] = None,
        priority: int = 256,
        negotiated: Optional[int] = None,
    ) -> None:
        self._channels = channels
        self._threshold = 0
        self.number = number
        self.label, self.protocol = label, protocol
        self.ordered, self.max_retransmits, self.max_lifetime = ordered, max_retransmits, max_lifetime
        self.priority, self.negotiated = priority, negotiated

    def __repr__(self) -> str:
        return f"<Channel {self.number}: {self.label!r}>"

    def send(self, data: Union[str, Bytes]) -> None:
        """Sends a message, which may be empty: text if it is a `str`. Its bytes are copied. The state must be `OPEN`.

        Raises `NoSocket`, `NoChannel`, `MessageTooLarge`, `ShuttingDown`, `ResourceExhaustion` (try again after
        `ChannelBufferedAmountLow`), `Failed` and `OutOfMemory`."""
        kind = _TEXT if isinstance(data, str) else _BINARY
        whole = data.encode() if isinstance(data, str) else _whole(data)
        self._channels._do(_library.dcsctp_channel_send, self.number, kind, whole, len(whole))

    def close(self) -> None:
        """Closes the channel. What was sent goes out first, and what comes from now on is dropped. `ChannelClosed`
        follows when both ends have reset the stream. Again it does nothing. Raises `NoSocket`, `Failed` and
        `OutOfMemory`."""
        self._channels._do(_library.dcsctp_channel_close, self.number)

    @property
    def state(self) -> ChannelState:
        """The state. Raises `NoSocket`."""
        return ChannelState(self._channels._do(_library.dcsctp_channel_state, self.number))

    @property
    def stream(self) -> Optional[int]:
        """The stream; `None` while the channel is connecting, or when it is closed. Raises `NoSocket`."""
        try:
            return self._channels._number(_library.dcsctp_channel_stream, ctypes.c_uint16(), self.number)
        except NoChannel:
            return None

    @property
    def buffered_amount(self) -> int:
        """How many bytes are queued; 0 without a stream. Raises `NoSocket`."""
        try:
            return self._channels._number(_library.dcsctp_channel_buffered_amount, ctypes.c_size_t(), self.number)
        except NoChannel:
            return 0

    @property
    def buffered_amount_low_threshold(self) -> int:
        """`ChannelBufferedAmountLow` comes when the queued bytes fall from above it to it or below. It can be set once
        there is a stream: else that raises `NoChannel`; also `NoSocket`, `Failed` and `OutOfMemory`."""
        return self._threshold

    @buffered_amount_low_threshold.setter
    def buffered_amount_low_threshold(self, size: int) -> None:
        size = _checked("size", size, ctypes.c_size_t)
        self._channels._do(_library.dcsctp_channel_set_buffered_amount_low_threshold, self.number, size)
        self._threshold = size

    def metrics(self) -> ChannelMetrics:
        """What was counted. Raises `NoSocket`, and `NoChannel` without a stream."""
        read = _ChannelMetrics(size=ctypes.sizeof(_ChannelMetrics))
        self._channels._do(_library.dcsctp_channel_get_metrics, self.number, read)
        return ChannelMetrics(*(getattr(read, it.name) for it in dataclasses.fields(ChannelMetrics)))


class Channels(_Association):
    """Data channels (RFC 8831, RFC 8832), and the socket below them, which serves one association: make others for the
    next one. `Socket` says what the first parameters are, and what a `with` does.

    `is_dtls_client` is the role in DTLS. If it isn't known yet, call `set_role` later. Raises `InvalidOptions`, also if
    the options have `checksum_offload`, and `OutOfMemory`."""

    def __init__(
        self,
        options: Optional[Options] = None,
        seed: Optional[bytes] = None,
        now: int = 0,
        *,
        is_dtls_client: Optional[bool] = None,
        limits: Optional[ChannelLimits] = None,
    ) -> None:
        self._known: Dict[int, Channel] = {}
        super().__init__(options, seed, now)
        self._do(_library.dcsctp_channel_begin, _filled(_ChannelLimits, limits or ChannelLimits()))
        if is_dtls_client is not None:
            self.set_role(is_dtls_client)

    def set_role(self, is_dtls_client: bool) -> None:
        """Sets the role in DTLS: the client gives even streams, the server odd ones. Channels that were opened before
        get theirs now. Set it once, and before `connect` if you can: until then, what the peer opens is refused. Raises
        `NoSocket`, `Failed` and `OutOfMemory`."""
        self._do(_library.dcsctp_channel_set_role, bool(is_dtls_client))

    def open(
        self,
        label: str = "",
        *,
        ordered: bool = True,
        max_retransmits: Optional[int] = None,
        max_lifetime: Optional[int] = None,
        protocol: str = "",
        negotiated: Optional[int] = None,
        priority: int = 256,
    ) -> Channel:
        """Opens a channel. A message that was lost is sent again: until it is acknowledged, or up to
        `max_retransmits` times, or for `max_lifetime` milliseconds. `priority` is 128, 256, 512 or 1,024, and the
        greatest is sent first. `negotiated` is the stream that both ends open it on; then no OPEN is sent.

        Messages can be sent once its state is `OPEN`: at once, unless the association, the role or room to send is
        missing. `ChannelOpened` says that the peer knows it. Raises `ValueError` for both limits; `NoSocket`,
        `MessageTooLarge` (a label or a protocol), `StreamInUse`, `Ended`, `Failed` and `OutOfMemory`. After the last it
        may be tried again if `has_failed` is false."""
        if max_retransmits is not None and max_lifetime is not None:
            raise ValueError("a channel has max_retransmits or max_lifetime, not both")
        kept = label.encode(), protocol.encode()
        how = _ChannelOptions(size=ctypes.sizeof(_ChannelOptions))
        how.label, how.protocol = (ctypes.cast(it, ctypes.c_void_p).value for it in kept)
        how.label_length, how.protocol_length = (len(it) for it in kept)
        if max_retransmits is not None:
            how.reliability, how.limit = _RETRANSMISSIONS, _checked("max_retransmits", max_retransmits, ctypes.c_uint32)
        elif max_lifetime is not None:
            how.reliability, how.limit = _LIFETIME, _checked("max_lifetime", max_lifetime, ctypes.c_uint32)
        how.priority = _checked("priority", priority, ctypes.c_uint16)
        how.is_unordered, how.is_negotiated = not ordered, negotiated is not None
        how.stream = _checked("negotiated", negotiated or 0, ctypes.c_uint16)
        with self._lock:
            number = self._number(_library.dcsctp_channel_open, ctypes.c_uint64(), how)
            channel = self._known[number] = Channel(
                self,
                number,
                label=label,
                protocol=protocol,
                ordered=bool(ordered),
                max_retransmits=max_retransmits,
                max_lifetime=max_lifetime,
                priority=priority,
                negotiated=negotiated,
            )
        return channel

    def channel(self, number: int) -> Channel:
        """The channel with a number, also one that was restored. Of that `label` and the like are unknown."""
        with self._lock:
            return self._known.setdefault(number, Channel(self, number))

    # Events

    def poll_event(self) -> Optional[Event]:
        """Takes the oldest event: a `SendPacket`, `Connected` or a `ChannelEvent`. `None` if there is none. Take all
        before you wait, and before each packet. Raises `NoSocket`, `Failed` and `OutOfMemory`."""
        event = _ChannelEvent()
        with self._lock:
            if self._do(_library.dcsctp_channel_poll, event) != 1:
                return None
            if event.kind == SendPacket.kind:
                return SendPacket(self._shown(_library.dcsctp_channel_view))
            if event.kind == Connected.kind:
                return Connected()
            if event.kind == ChannelsEnded.kind:
                return ChannelsEnded()
            channel = self._channel_of(event)
            if event.kind == ChannelMessage.kind:
                data = self._shown(_library.dcsctp_channel_view)
                return ChannelMessage(channel, data.decode("utf-8", "replace") if event.detail == _TEXT else data)
            if event.kind == ChannelClosed.kind:
                known = event.detail in ChannelEnd._value2member_map_
                return ChannelClosed(channel, ChannelEnd(event.detail) if known else event.detail)
        return _OF_CHANNELS[event.kind](channel) if event.kind in _OF_CHANNELS else UnknownEvent(event.kind)

    def _channel_of(self, event: _ChannelEvent) -> Channel:
        """The channel of an event. A new one is remembered until its last event."""
        if event.kind == ChannelIncoming.kind:
            self._known[event.channel] = self._incoming(event.channel)
        channel = self.channel(event.channel)
        if event.kind == ChannelClosed.kind:
            self._known.pop(event.channel, None)
        return channel

    def _incoming(self, number: int) -> Channel:
        how = _ChannelOptions(size=ctypes.sizeof(_ChannelOptions))
        self._do(_library.dcsctp_channel_get_options, how)
        texts = (how.label, how.label_length), (how.protocol, how.protocol_length)
        label, protocol = (ctypes.string_at(at, length).decode("utf-8", "replace") for at, length in texts)
        return Channel(
            self,
            number,
            label=label,
            protocol=protocol,
            ordered=how.is_unordered == 0,
            max_retransmits=how.limit if how.reliability == _RETRANSMISSIONS else None,
            max_lifetime=how.limit if how.reliability == _LIFETIME else None,
            priority=how.priority,
        )

    def events(self) -> Iterator[Event]:
        """Takes all events, one at a time."""
        while (event := self.poll_event()) is not None:
            yield event

    def streams_in_use(self) -> int:
        """How many streams are in use, those of closing and refused channels, too. Raises `NoSocket`."""
        return self._number(_library.dcsctp_channel_count, ctypes.c_size_t())
