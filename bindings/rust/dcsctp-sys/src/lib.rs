//! `dcsctp.h` in Rust, by its own names. The header describes each call, struct and number, and the rules of their
//! callers. The crate `dcsctp-socket` keeps these rules; it has a safe socket.
//!
//! `tests/header.rs` compares this file with the header.
#![no_std]
#![allow(non_camel_case_types, missing_docs)]

use core::ffi::{c_char, c_void};

pub const DCSCTP_VERSION_MAJOR: u32 = 0;
pub const DCSCTP_VERSION_MINOR: u32 = 1;
pub const DCSCTP_VERSION_PATCH: u32 = 0;
pub const DCSCTP_VERSION: u32 =
    DCSCTP_VERSION_MAJOR * 65536 + DCSCTP_VERSION_MINOR * 256 + DCSCTP_VERSION_PATCH;
pub const DCSCTP_VERSION_UNPROVED: u32 = 0x8000_0000;

// ---- Results ----------------------------------------------------------------------------------

pub const DCSCTP_OK: i32 = 0;
pub const DCSCTP_ERROR_OUT_OF_MEMORY: i32 = -1;
pub const DCSCTP_ERROR_FAILED: i32 = -2;
pub const DCSCTP_ERROR_NO_SOCKET: i32 = -3;
pub const DCSCTP_ERROR_ALREADY_CREATED: i32 = -4;
pub const DCSCTP_ERROR_INVALID_OPTIONS: i32 = -5;
pub const DCSCTP_ERROR_BUFFER_TOO_SMALL: i32 = -6;
pub const DCSCTP_ERROR_NOTHING_TO_COPY: i32 = -7;
pub const DCSCTP_ERROR_EMPTY_PAYLOAD: i32 = -8;
pub const DCSCTP_ERROR_MESSAGE_TOO_LARGE: i32 = -9;
pub const DCSCTP_ERROR_RESOURCE_EXHAUSTION: i32 = -10;
pub const DCSCTP_ERROR_SHUTTING_DOWN: i32 = -11;
pub const DCSCTP_ERROR_NOT_CONNECTED: i32 = -12;
pub const DCSCTP_ERROR_NOT_SUPPORTED: i32 = -13;
pub const DCSCTP_ERROR_NOT_READY: i32 = -14;
pub const DCSCTP_ERROR_INVALID_SNAPSHOT: i32 = -15;
pub const DCSCTP_ERROR_NOT_CLOSED: i32 = -16;
pub const DCSCTP_ERROR_INVALID_SEND_OPTIONS: i32 = -17;
pub const DCSCTP_ERROR_WRONG_SIZE: i32 = -18;
pub const DCSCTP_ERROR_OTHER_OPTIONS: i32 = -19;
pub const DCSCTP_ERROR_HAS_CHANNELS: i32 = -20;
pub const DCSCTP_ERROR_NO_CHANNEL: i32 = -21;
pub const DCSCTP_ERROR_STREAM_IN_USE: i32 = -22;
pub const DCSCTP_ERROR_ENDED: i32 = -23;
pub const DCSCTP_ERROR_NO_SEED: i32 = -1002;

// ---- Sockets and options ----------------------------------------------------------------------

/// It isn't `Copy`: of two copies only one may be used.
#[repr(C)]
#[derive(Debug)]
pub struct dcsctp_socket {
    pub at: *mut c_void,
    pub mark: u32,
}

pub const DCSCTP_SOCKET_INIT: dcsctp_socket = dcsctp_socket { at: core::ptr::null_mut(), mark: 0 };

pub const DCSCTP_NEVER: u64 = u64::MAX;
pub const DCSCTP_NO_LIMIT: u32 = u32::MAX;

#[repr(C)]
#[derive(Clone, Copy, Debug, Default, PartialEq, Eq)]
pub struct dcsctp_options {
    pub size: usize,
    pub mtu: usize,
    pub max_message_size: usize,
    pub max_receiver_window_buffer_size: usize,
    pub max_send_buffer_size: usize,
    pub per_stream_send_queue_limit: usize,
    pub total_buffered_amount_low_threshold: usize,
    pub default_stream_buffered_amount_low_threshold: usize,
    pub cwnd_mtus_initial: usize,
    pub cwnd_mtus_min: usize,
    pub rtt_max: u64,
    pub rto_initial: u64,
    pub rto_max: u64,
    pub rto_min: u64,
    pub t1_init_timeout: u64,
    pub t1_cookie_timeout: u64,
    pub cookie_lifetime: u64,
    pub max_timer_backoff_duration: u64,
    pub heartbeat_interval: u64,
    pub delayed_ack_max_timeout: u64,
    pub min_rtt_variance: u64,
    pub max_burst: i32,
    pub max_retransmissions: u32,
    pub max_init_retransmits: u32,
    pub zero_checksum_method: u32,
    pub enable_partial_reliability: u32,
    pub enable_message_interleaving: u32,
    pub disable_checksum_verification: u32,
    pub enable_handover_with_outstanding_data: u32,
    pub local_port: u16,
    pub remote_port: u16,
    pub announced_maximum_incoming_streams: u16,
    pub announced_maximum_outgoing_streams: u16,
    pub default_stream_priority: u16,
    pub checksum_offload: u16,
    pub follow_rfc: u32,
}

// ---- Events -----------------------------------------------------------------------------------

pub const DCSCTP_EVENT_NONE: u32 = 0;
pub const DCSCTP_EVENT_SEND_PACKET: u32 = 1;
pub const DCSCTP_EVENT_CONNECTED: u32 = 2;
pub const DCSCTP_EVENT_CLOSED: u32 = 3;
pub const DCSCTP_EVENT_CONNECTION_RESTARTED: u32 = 4;
pub const DCSCTP_EVENT_ABORTED: u32 = 5;
pub const DCSCTP_EVENT_ERROR: u32 = 6;
pub const DCSCTP_EVENT_BUFFERED_AMOUNT_LOW: u32 = 7;
pub const DCSCTP_EVENT_TOTAL_BUFFERED_AMOUNT_LOW: u32 = 8;
pub const DCSCTP_EVENT_STREAMS_RESET_FAILED: u32 = 9;
pub const DCSCTP_EVENT_STREAMS_RESET_PERFORMED: u32 = 10;
pub const DCSCTP_EVENT_INCOMING_STREAM_RESET: u32 = 11;
pub const DCSCTP_EVENT_LIFECYCLE_FULLY_SENT: u32 = 12;
pub const DCSCTP_EVENT_LIFECYCLE_MAYBE_EXPIRED: u32 = 13;
pub const DCSCTP_EVENT_LIFECYCLE_EXPIRED: u32 = 14;
pub const DCSCTP_EVENT_LIFECYCLE_DELIVERED: u32 = 15;
pub const DCSCTP_EVENT_LIFECYCLE_END: u32 = 16;

pub const DCSCTP_KIND_NO_ERROR: u32 = 0;
pub const DCSCTP_KIND_TOO_MANY_RETRIES: u32 = 1;
pub const DCSCTP_KIND_NOT_CONNECTED: u32 = 2;
pub const DCSCTP_KIND_PARSE_FAILED: u32 = 3;
pub const DCSCTP_KIND_WRONG_SEQUENCE: u32 = 4;
pub const DCSCTP_KIND_PEER_REPORTED: u32 = 5;
pub const DCSCTP_KIND_PROTOCOL_VIOLATION: u32 = 6;
pub const DCSCTP_KIND_RESOURCE_EXHAUSTION: u32 = 7;
pub const DCSCTP_KIND_UNSUPPORTED_OPERATION: u32 = 8;

#[repr(C)]
#[derive(Clone, Copy, Debug, Default, PartialEq, Eq)]
pub struct dcsctp_event {
    pub lifecycle_id: u64,
    pub length: usize,
    pub kind: u32,
    pub error_kind: u32,
    pub stream_id: u32,
    pub reserved: u32,
}

// ---- Messages ---------------------------------------------------------------------------------

#[repr(C)]
#[derive(Clone, Copy, Debug, Default, PartialEq, Eq)]
pub struct dcsctp_message {
    pub length: usize,
    pub ppid: u32,
    pub stream_id: u16,
    pub reserved: u16,
}

pub const DCSCTP_SEND_UNORDERED: u32 = 1;
pub const DCSCTP_SEND_LIFETIME: u32 = 2;
pub const DCSCTP_SEND_MAX_RETRANSMISSIONS: u32 = 4;

#[repr(C)]
#[derive(Clone, Copy, Debug, Default, PartialEq, Eq)]
pub struct dcsctp_send_options {
    pub lifecycle_id: u64,
    pub lifetime: u64,
    pub flags: u32,
    pub max_retransmissions: u16,
    pub reserved: u16,
}

pub const DCSCTP_SEND_INIT: dcsctp_send_options = dcsctp_send_options {
    lifecycle_id: 0,
    lifetime: 0,
    flags: 0,
    max_retransmissions: 0,
    reserved: 0,
};

#[repr(C)]
#[derive(Clone, Copy, Debug)]
pub struct dcsctp_outgoing_message {
    pub payload: *const u8,
    pub length: usize,
    pub ppid: u32,
    pub stream_id: u16,
    pub reserved: u16,
}

// ---- Queries, data channels and handover ------------------------------------------------------

pub const DCSCTP_STATE_CLOSED: i32 = 0;
pub const DCSCTP_STATE_CONNECTING: i32 = 1;
pub const DCSCTP_STATE_CONNECTED: i32 = 2;
pub const DCSCTP_STATE_SHUTTING_DOWN: i32 = 3;

pub const DCSCTP_PEER_UNKNOWN: u32 = 0;
pub const DCSCTP_PEER_DCSCTP_RS: u32 = 1;
pub const DCSCTP_PEER_DCSCTP_CC: u32 = 2;
pub const DCSCTP_PEER_USRSCTP: u32 = 3;
pub const DCSCTP_PEER_OTHER: u32 = 4;

#[repr(C)]
#[derive(Clone, Copy, Debug, Default, PartialEq, Eq)]
pub struct dcsctp_metrics {
    pub size: usize,
    pub rtx_bytes_count: u64,
    pub srtt: u64,
    pub tx_packets_count: usize,
    pub tx_messages_count: usize,
    pub rtx_packets_count: usize,
    pub cwnd_bytes: usize,
    pub unack_data_count: usize,
    pub rx_packets_count: usize,
    pub rx_messages_count: usize,
    pub peer_rwnd_bytes: u32,
    pub peer_implementation: u32,
    pub uses_message_interleaving: u32,
    pub uses_zero_checksum: u32,
    pub negotiated_maximum_incoming_streams: u16,
    pub negotiated_maximum_outgoing_streams: u16,
    pub reserved: u32,
}

#[repr(C)]
#[derive(Clone, Copy, Debug, Default, PartialEq, Eq)]
pub struct dcsctp_counts {
    pub size: usize,
    pub rx_packets_count: usize,
    pub tx_packets_count: usize,
    pub tx_messages_count: usize,
}

pub const DCSCTP_CHANNEL_RELIABLE: u16 = 0;
pub const DCSCTP_CHANNEL_RETRANSMISSIONS: u16 = 1;
pub const DCSCTP_CHANNEL_LIFETIME: u16 = 2;

pub const DCSCTP_CHANNEL_TEXT: u32 = 1;
pub const DCSCTP_CHANNEL_BINARY: u32 = 2;

pub const DCSCTP_CHANNEL_EVENT_NONE: u32 = 0;
pub const DCSCTP_CHANNEL_EVENT_SEND_PACKET: u32 = 1;
pub const DCSCTP_CHANNEL_EVENT_CONNECTED: u32 = 2;
pub const DCSCTP_CHANNEL_EVENT_OPENED: u32 = 3;
pub const DCSCTP_CHANNEL_EVENT_INCOMING: u32 = 4;
pub const DCSCTP_CHANNEL_EVENT_MESSAGE: u32 = 5;
pub const DCSCTP_CHANNEL_EVENT_BUFFERED_AMOUNT_LOW: u32 = 6;
pub const DCSCTP_CHANNEL_EVENT_CLOSED: u32 = 7;
pub const DCSCTP_CHANNEL_EVENT_ENDED: u32 = 8;

pub const DCSCTP_CHANNEL_CLOSED_BY_RESETS: u32 = 0;
pub const DCSCTP_CHANNEL_REFUSED: u32 = 1;
pub const DCSCTP_CHANNEL_CANT_BE_RESET: u32 = 2;
pub const DCSCTP_CHANNEL_LOST: u32 = 3;
pub const DCSCTP_CHANNEL_NO_STREAM: u32 = 4;

pub const DCSCTP_CHANNEL_CONNECTING: i32 = 0;
pub const DCSCTP_CHANNEL_OPEN: i32 = 1;
pub const DCSCTP_CHANNEL_CLOSING: i32 = 2;
pub const DCSCTP_CHANNEL_CLOSED: i32 = 3;

#[repr(C)]
#[derive(Clone, Copy, Debug, Default, PartialEq, Eq)]
pub struct dcsctp_channel_limits {
    pub size: usize,
    pub max_message_size: usize,
    pub max_text: usize,
    pub max_channels: usize,
}

#[repr(C)]
#[derive(Clone, Copy, Debug)]
pub struct dcsctp_channel_options {
    pub size: usize,
    pub label: *const c_char,
    pub label_length: usize,
    pub protocol: *const c_char,
    pub protocol_length: usize,
    pub limit: u32,
    pub priority: u16,
    pub reliability: u16,
    pub is_unordered: u16,
    pub is_negotiated: u16,
    pub stream: u16,
    pub reserved: u16,
}

pub const DCSCTP_CHANNEL_OPTIONS_INIT: dcsctp_channel_options = dcsctp_channel_options {
    size: size_of::<dcsctp_channel_options>(),
    label: c"".as_ptr(),
    label_length: 0,
    protocol: c"".as_ptr(),
    protocol_length: 0,
    limit: 0,
    priority: 256,
    reliability: DCSCTP_CHANNEL_RELIABLE,
    is_unordered: 0,
    is_negotiated: 0,
    stream: 0,
    reserved: 0,
};

#[repr(C)]
#[derive(Clone, Copy, Debug, Default, PartialEq, Eq)]
pub struct dcsctp_channel_event {
    pub channel: u64,
    pub length: usize,
    pub kind: u32,
    pub detail: u32,
}

#[repr(C)]
#[derive(Clone, Copy, Debug, Default, PartialEq, Eq)]
pub struct dcsctp_channel_metrics {
    pub size: usize,
    pub messages_sent: u64,
    pub bytes_sent: u64,
    pub messages_received: u64,
    pub bytes_received: u64,
}

pub const DCSCTP_HANDOVER_WRONG_CONNECTION_STATE: u32 = 1;
pub const DCSCTP_HANDOVER_SEND_QUEUE_NOT_EMPTY: u32 = 2;
pub const DCSCTP_HANDOVER_PENDING_STREAM_RESET_REQUEST: u32 = 4;
pub const DCSCTP_HANDOVER_DATA_TRACKER_TSN_BLOCKS_PENDING: u32 = 8;
pub const DCSCTP_HANDOVER_PENDING_STREAM_RESET: u32 = 16;
pub const DCSCTP_HANDOVER_STREAM_RESET_DEFERRED: u32 = 64;
pub const DCSCTP_HANDOVER_STREAM_HAS_UNASSEMBLED_CHUNKS: u32 = 128;
pub const DCSCTP_HANDOVER_RETRANSMISSION_QUEUE_OUTSTANDING_DATA: u32 = 512;
pub const DCSCTP_HANDOVER_RETRANSMISSION_QUEUE_FAST_RECOVERY: u32 = 1024;
pub const DCSCTP_HANDOVER_RETRANSMISSION_QUEUE_NOT_EMPTY: u32 = 2048;
pub const DCSCTP_HANDOVER_CHANNELS_UNSETTLED: u32 = 4096;
pub const DCSCTP_HANDOVER_EVENTS_NOT_TAKEN: u32 = 8192;

// ---- Calls ------------------------------------------------------------------------------------

#[rustfmt::skip]
extern "C" {
    pub fn dcsctp_version() -> u32;
    pub fn dcsctp_get_default_options(options: *mut dcsctp_options) -> i32;
    pub fn dcsctp_create(socket: *mut dcsctp_socket, options: *const dcsctp_options, seed: *const u8,
                         now: u64) -> i32;
    pub fn dcsctp_destroy(socket: *mut dcsctp_socket);
    pub fn dcsctp_connect(socket: *mut dcsctp_socket) -> i32;
    pub fn dcsctp_shutdown(socket: *mut dcsctp_socket) -> i32;
    pub fn dcsctp_close(socket: *mut dcsctp_socket) -> i32;
    pub fn dcsctp_handle_input(socket: *mut dcsctp_socket, packet: *const u8, length: usize) -> i32;
    pub fn dcsctp_advance_time(socket: *mut dcsctp_socket, now: u64) -> i32;
    pub fn dcsctp_poll_timeout(socket: *const dcsctp_socket, moment: *mut u64) -> i32;
    pub fn dcsctp_poll_event(socket: *mut dcsctp_socket, event: *mut dcsctp_event) -> i32;
    pub fn dcsctp_event_bytes(socket: *const dcsctp_socket, buffer: *mut u8, capacity: usize,
                              length: *mut usize) -> i32;
    pub fn dcsctp_event_view(socket: *const dcsctp_socket, bytes: *mut *const u8, length: *mut usize)
        -> i32;
    pub fn dcsctp_event_streams(socket: *const dcsctp_socket, buffer: *mut u16, capacity: usize,
                                count: *mut usize) -> i32;
    pub fn dcsctp_messages_ready_count(socket: *const dcsctp_socket, count: *mut usize) -> i32;
    pub fn dcsctp_get_next_message(socket: *mut dcsctp_socket, message: *mut dcsctp_message) -> i32;
    pub fn dcsctp_message_bytes(socket: *const dcsctp_socket, buffer: *mut u8, capacity: usize,
                                length: *mut usize) -> i32;
    pub fn dcsctp_message_view(socket: *const dcsctp_socket, bytes: *mut *const u8,
                               length: *mut usize) -> i32;
    pub fn dcsctp_send(socket: *mut dcsctp_socket, stream_id: u16, ppid: u32, payload: *const u8,
                       length: usize, options: *const dcsctp_send_options) -> i32;
    pub fn dcsctp_send_many(socket: *mut dcsctp_socket, messages: *const dcsctp_outgoing_message,
                            count: usize, options: *const dcsctp_send_options, results: *mut i32,
                            capacity: usize) -> i32;
    pub fn dcsctp_reset_streams(socket: *mut dcsctp_socket, stream_ids: *const u16, count: usize)
        -> i32;
    pub fn dcsctp_buffered_amount(socket: *const dcsctp_socket, stream_id: u16, bytes: *mut usize)
        -> i32;
    pub fn dcsctp_buffered_amount_low_threshold(socket: *const dcsctp_socket, stream_id: u16,
                                                bytes: *mut usize) -> i32;
    pub fn dcsctp_set_buffered_amount_low_threshold(socket: *mut dcsctp_socket, stream_id: u16,
                                                    bytes: usize) -> i32;
    pub fn dcsctp_get_stream_priority(socket: *const dcsctp_socket, stream_id: u16,
                                      priority: *mut u16) -> i32;
    pub fn dcsctp_set_stream_priority(socket: *mut dcsctp_socket, stream_id: u16, priority: u16)
        -> i32;
    pub fn dcsctp_state(socket: *const dcsctp_socket) -> i32;
    pub fn dcsctp_has_failed(socket: *const dcsctp_socket) -> i32;
    pub fn dcsctp_verification_tag(socket: *const dcsctp_socket, tag: *mut u32) -> i32;
    pub fn dcsctp_set_max_message_size(socket: *mut dcsctp_socket, bytes: usize) -> i32;
    pub fn dcsctp_get_options(socket: *const dcsctp_socket, options: *mut dcsctp_options) -> i32;
    pub fn dcsctp_get_metrics(socket: *const dcsctp_socket, metrics: *mut dcsctp_metrics) -> i32;
    pub fn dcsctp_get_counts(socket: *const dcsctp_socket, counts: *mut dcsctp_counts) -> i32;
    pub fn dcsctp_channel_begin(socket: *mut dcsctp_socket, limits: *const dcsctp_channel_limits)
        -> i32;
    pub fn dcsctp_channel_set_role(socket: *mut dcsctp_socket, is_dtls_client: i32) -> i32;
    pub fn dcsctp_channel_open(socket: *mut dcsctp_socket, options: *const dcsctp_channel_options,
                               channel: *mut u64) -> i32;
    pub fn dcsctp_channel_send(socket: *mut dcsctp_socket, channel: u64, kind: u32,
                               bytes: *const u8, length: usize) -> i32;
    pub fn dcsctp_channel_close(socket: *mut dcsctp_socket, channel: u64) -> i32;
    pub fn dcsctp_channel_poll(socket: *mut dcsctp_socket, event: *mut dcsctp_channel_event) -> i32;
    pub fn dcsctp_channel_bytes(socket: *const dcsctp_socket, buffer: *mut u8, capacity: usize,
                                length: *mut usize) -> i32;
    pub fn dcsctp_channel_view(socket: *const dcsctp_socket, bytes: *mut *const u8,
                               length: *mut usize) -> i32;
    pub fn dcsctp_channel_get_options(socket: *const dcsctp_socket,
                                      options: *mut dcsctp_channel_options) -> i32;
    pub fn dcsctp_channel_state(socket: *const dcsctp_socket, channel: u64) -> i32;
    pub fn dcsctp_channel_stream(socket: *const dcsctp_socket, channel: u64, stream: *mut u16)
        -> i32;
    pub fn dcsctp_channel_buffered_amount(socket: *const dcsctp_socket, channel: u64,
                                          bytes: *mut usize) -> i32;
    pub fn dcsctp_channel_set_buffered_amount_low_threshold(socket: *mut dcsctp_socket,
                                                            channel: u64, bytes: usize) -> i32;
    pub fn dcsctp_channel_get_metrics(socket: *const dcsctp_socket, channel: u64,
                                      metrics: *mut dcsctp_channel_metrics) -> i32;
    pub fn dcsctp_channel_count(socket: *const dcsctp_socket, count: *mut usize) -> i32;
    pub fn dcsctp_get_handover_readiness(socket: *const dcsctp_socket, reasons: *mut u32) -> i32;
    pub fn dcsctp_get_handover_state_and_close(socket: *mut dcsctp_socket) -> i32;
    pub fn dcsctp_handover_bytes(socket: *const dcsctp_socket, buffer: *mut u8, capacity: usize,
                                 length: *mut usize) -> i32;
    pub fn dcsctp_restore_from_state(socket: *mut dcsctp_socket, bytes: *const u8, length: usize)
        -> i32;
}
