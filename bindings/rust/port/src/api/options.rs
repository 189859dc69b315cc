//! What can be set.

use std::time::Duration;

/// What stands in for the checksum (RFC 9653), by its number.
#[derive(Clone, Copy, Debug, Eq, PartialEq)]
pub struct ZeroChecksumAlternateErrorDetectionMethod(pub u32);

/// Nothing: each packet has its checksum.
pub const ZERO_CHECKSUM_ALTERNATE_ERROR_DETECTION_METHOD_NONE:
    ZeroChecksumAlternateErrorDetectionMethod = ZeroChecksumAlternateErrorDetectionMethod(0);

/// DTLS below SCTP.
pub const ZERO_CHECKSUM_ALTERNATE_ERROR_DETECTION_METHOD_LOWER_LAYER_DTLS:
    ZeroChecksumAlternateErrorDetectionMethod = ZeroChecksumAlternateErrorDetectionMethod(1);

/// What can be set. Sizes are in bytes.
#[derive(Clone)]
pub struct Options {
    /// Our port: 5,000.
    pub local_port: u16,
    /// The peer's `local_port`: 5,000.
    pub remote_port: u16,
    /// Streams that the peer may use: 65,535.
    pub announced_maximum_incoming_streams: u16,
    /// Streams that we ask for: 65,535.
    pub announced_maximum_outgoing_streams: u16,
    /// The longest packet that is sent, at least 32: 1,191.
    pub mtu: usize,
    /// The longest message to send: 262,144.
    pub max_message_size: usize,
    /// Of each stream: 256.
    pub default_stream_priority: u16,
    /// Received, not taken yet: 5,242,880.
    pub max_receiver_window_buffer_size: usize,
    /// `send` fails at this: 2,000,000.
    pub max_send_buffer_size: usize,
    /// The same for one stream: 2,000,000.
    pub per_stream_send_queue_limit: usize,
    /// Of all streams: 1,800,000.
    pub total_buffered_amount_low_threshold: usize,
    /// Of a stream: 0.
    pub default_stream_buffered_amount_low_threshold: usize,
    /// Longer round trips are ignored: 60 s.
    pub rtt_max: Duration,
    /// The first retransmission timeout: 500 ms.
    pub rto_initial: Duration,
    /// Its maximum: 60 s.
    pub rto_max: Duration,
    /// Its minimum: 400 ms.
    pub rto_min: Duration,
    /// The first wait for an INIT ACK: 1 s.
    pub t1_init_timeout: Duration,
    /// The first wait for a COOKIE ACK: 1 s.
    pub t1_cookie_timeout: Duration,
    /// It has no effect, as upstream: 1 s.
    pub t2_shutdown_timeout: Duration,
    /// The limit of waits but the first; `None`: no limit. `None`.
    pub max_timer_backoff_duration: Option<Duration>,
    /// Between HEARTBEATs; zero: none are sent. 30 s.
    pub heartbeat_interval: Duration,
    /// SACKs wait up to this: 200 ms.
    pub delayed_ack_max_timeout: Duration,
    /// The minimum of 4 * RTTVAR: 220 ms.
    pub min_rtt_variance: Duration,
    /// The first congestion window, in MTUs: 10.
    pub cwnd_mtus_initial: usize,
    /// Its minimum after a loss, in MTUs: 4.
    pub cwnd_mtus_min: usize,
    /// It has no effect: 6.
    pub avoid_fragmentation_cwnd_mtus: usize,
    /// It has no effect: 10.
    pub immediate_sack_under_cwnd_mtus: usize,
    /// Packets sent at once: 4.
    pub max_burst: i32,
    /// Of data; `None`: no limit. 10.
    pub max_retransmissions: Option<u32>,
    /// Of INIT and COOKIE ECHO; `None`: no limit. 8.
    pub max_init_retransmits: Option<u32>,
    /// RFC 3758: on.
    pub enable_partial_reliability: bool,
    /// RFC 8260: off.
    pub enable_message_interleaving: bool,
    /// It has no effect: on.
    pub heartbeat_interval_include_rtt: bool,
    /// RFC 9653: none.
    pub zero_checksum_alternate_error_detection_method: ZeroChecksumAlternateErrorDetectionMethod,
    /// For tests: off.
    pub disable_checksum_verification: bool,
    /// Whether a handover may leave data unfinished: off.
    pub enable_handover_with_outstanding_data: bool,
}

/// The defaults of 0.1.16, which aren't those of `dcsctp.h`.
impl Default for Options {
    fn default() -> Self {
        Options {
            local_port: 5000,
            remote_port: 5000,
            announced_maximum_incoming_streams: 65_535,
            announced_maximum_outgoing_streams: 65_535,
            mtu: 1191,
            max_message_size: 262_144,
            default_stream_priority: 256,
            max_receiver_window_buffer_size: 5_242_880,
            max_send_buffer_size: 2_000_000,
            per_stream_send_queue_limit: 2_000_000,
            total_buffered_amount_low_threshold: 1_800_000,
            default_stream_buffered_amount_low_threshold: 0,
            rtt_max: Duration::from_secs(60),
            rto_initial: Duration::from_millis(500),
            rto_max: Duration::from_secs(60),
            rto_min: Duration::from_millis(400),
            t1_init_timeout: Duration::from_secs(1),
            t1_cookie_timeout: Duration::from_secs(1),
            t2_shutdown_timeout: Duration::from_secs(1),
            max_timer_backoff_duration: None,
            heartbeat_interval: Duration::from_secs(30),
            delayed_ack_max_timeout: Duration::from_millis(200),
            min_rtt_variance: Duration::from_millis(220),
            cwnd_mtus_initial: 10,
            cwnd_mtus_min: 4,
            avoid_fragmentation_cwnd_mtus: 6,
            immediate_sack_under_cwnd_mtus: 10,
            max_burst: 4,
            max_retransmissions: Some(10),
            max_init_retransmits: Some(8),
            enable_partial_reliability: true,
            enable_message_interleaving: false,
            heartbeat_interval_include_rtt: true,
            zero_checksum_alternate_error_detection_method:
                ZERO_CHECKSUM_ALTERNATE_ERROR_DETECTION_METHOD_NONE,
            disable_checksum_verification: false,
            enable_handover_with_outstanding_data: false,
        }
    }
}
