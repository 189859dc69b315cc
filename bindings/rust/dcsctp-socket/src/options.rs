//! What can be set.

use dcsctp_sys as sys;
use std::time::Duration;

/// What can be set. Sizes are in bytes. `dcsctp.h` describes each at `dcsctp_options`, and says which values connect.
///
/// ```
/// let options = dcsctp_socket::Options { mtu: 1200, ..Default::default() };
/// assert!(options.follow_rfc);
/// ```
#[derive(Clone, Debug, PartialEq, Eq)]
pub struct Options {
    /// The longest packet that is sent, 32 to 65,535: 1,191.
    pub mtu: usize,
    /// The longest message to send: 262,144.
    pub max_message_size: usize,
    /// Received, not taken yet: 5,242,880. Make it far more than a peer has in flight.
    pub max_receiver_window_buffer_size: usize,
    /// `send` fails at this: 2,000,000.
    pub max_send_buffer_size: usize,
    /// The same for one stream: 2,000,000.
    pub per_stream_send_queue_limit: usize,
    /// Of all streams: 1,800,000. Keep it below `max_send_buffer_size`.
    pub total_buffered_amount_low_threshold: usize,
    /// Of a stream: 0.
    pub default_stream_buffered_amount_low_threshold: usize,
    /// The first congestion window, in MTUs: 10.
    pub cwnd_mtus_initial: usize,
    /// Its minimum after a loss, in MTUs: 4.
    pub cwnd_mtus_min: usize,
    /// Longer round trips are ignored: 60 s.
    pub rtt_max: Duration,
    /// The first retransmission timeout: 500 ms. Make it longer than any round trip.
    pub rto_initial: Duration,
    /// Its maximum: 60 s.
    pub rto_max: Duration,
    /// Its minimum: 400 ms.
    pub rto_min: Duration,
    /// The first wait for an INIT ACK: 1 s.
    pub t1_init_timeout: Duration,
    /// The first wait for a COOKIE ACK: 1 s.
    pub t1_cookie_timeout: Duration,
    /// Older cookies are rejected: 60 s.
    pub cookie_lifetime: Duration,
    /// The limit of waits but the first; `None`: no limit. 3 s.
    pub max_timer_backoff_duration: Option<Duration>,
    /// Between HEARTBEATs, with 50 to 150 % of `rto_initial` more; zero: none are sent. 30 s.
    pub heartbeat_interval: Duration,
    /// SACKs wait up to this: 200 ms.
    pub delayed_ack_max_timeout: Duration,
    /// The minimum of 4 * RTTVAR: 220 ms.
    pub min_rtt_variance: Duration,
    /// Packets sent at once: 4. Raise it for a peer that acknowledges once a round trip.
    pub max_burst: i32,
    /// Of data; `None`: no limit. 60.
    pub max_retransmissions: Option<u32>,
    /// Of INIT and COOKIE ECHO; `None`: no limit. 60.
    pub max_init_retransmits: Option<u32>,
    /// RFC 9653; 0 none, 1 DTLS: 0.
    pub zero_checksum_method: u32,
    /// RFC 3758: on.
    pub enable_partial_reliability: bool,
    /// RFC 8260: off.
    pub enable_message_interleaving: bool,
    /// For tests: off.
    pub disable_checksum_verification: bool,
    /// Whether a handover may leave data unfinished: off.
    pub enable_handover_with_outstanding_data: bool,
    /// Our port: 5,000.
    pub local_port: u16,
    /// The peer's `local_port`: 5,000.
    pub remote_port: u16,
    /// Streams that the peer may use: 65,535.
    pub announced_maximum_incoming_streams: u16,
    /// Streams that we ask for: 65,535.
    pub announced_maximum_outgoing_streams: u16,
    /// Of each stream: 256.
    pub default_stream_priority: u16,
    /// Whether you make and check the checksums of packets: off. With it each packet that leaves has 0 for its checksum,
    /// and that of a packet that comes in isn't looked at. The checksum is the CRC32c of the packet with 0 in bytes 8 to
    /// 11, where it is then written, lowest byte first.
    pub checksum_offload: bool,
    /// Whether the socket keeps rules of the RFCs that upstream, dcsctp 0.1.16, doesn't: on.
    pub follow_rfc: bool,
}

impl Default for Options {
    fn default() -> Options {
        Options {
            mtu: 1191,
            max_message_size: 262_144,
            max_receiver_window_buffer_size: 5_242_880,
            max_send_buffer_size: 2_000_000,
            per_stream_send_queue_limit: 2_000_000,
            total_buffered_amount_low_threshold: 1_800_000,
            default_stream_buffered_amount_low_threshold: 0,
            cwnd_mtus_initial: 10,
            cwnd_mtus_min: 4,
            rtt_max: Duration::from_secs(60),
            rto_initial: Duration::from_millis(500),
            rto_max: Duration::from_secs(60),
            rto_min: Duration::from_millis(400),
            t1_init_timeout: Duration::from_secs(1),
            t1_cookie_timeout: Duration::from_secs(1),
            cookie_lifetime: Duration::from_secs(60),
            max_timer_backoff_duration: Some(Duration::from_secs(3)),
            heartbeat_interval: Duration::from_secs(30),
            delayed_ack_max_timeout: Duration::from_millis(200),
            min_rtt_variance: Duration::from_millis(220),
            max_burst: 4,
            max_retransmissions: Some(60),
            max_init_retransmits: Some(60),
            zero_checksum_method: 0,
            enable_partial_reliability: true,
            enable_message_interleaving: false,
            disable_checksum_verification: false,
            enable_handover_with_outstanding_data: false,
            local_port: 5000,
            remote_port: 5000,
            announced_maximum_incoming_streams: 65535,
            announced_maximum_outgoing_streams: 65535,
            default_stream_priority: 256,
            checksum_offload: false,
            follow_rfc: true,
        }
    }
}

impl Options {
    /// The options as `dcsctp.h` has them.
    pub(crate) fn to_sys(&self) -> sys::dcsctp_options {
        sys::dcsctp_options {
            size: size_of::<sys::dcsctp_options>(),
            mtu: self.mtu,
            max_message_size: self.max_message_size,
            max_receiver_window_buffer_size: self.max_receiver_window_buffer_size,
            max_send_buffer_size: self.max_send_buffer_size,
            per_stream_send_queue_limit: self.per_stream_send_queue_limit,
            total_buffered_amount_low_threshold: self.total_buffered_amount_low_threshold,
            default_stream_buffered_amount_low_threshold: self
                .default_stream_buffered_amount_low_threshold,
            cwnd_mtus_initial: self.cwnd_mtus_initial,
            cwnd_mtus_min: self.cwnd_mtus_min,
            rtt_max: nanoseconds(self.rtt_max),
            rto_initial: nanoseconds(self.rto_initial),
            rto_max: nanoseconds(self.rto_max),
            rto_min: nanoseconds(self.rto_min),
            t1_init_timeout: nanoseconds(self.t1_init_timeout),
            t1_cookie_timeout: nanoseconds(self.t1_cookie_timeout),
            cookie_lifetime: nanoseconds(self.cookie_lifetime),
            max_timer_backoff_duration: self
                .max_timer_backoff_duration
                .map_or(sys::DCSCTP_NEVER, nanoseconds),
            heartbeat_interval: nanoseconds(self.heartbeat_interval),
            delayed_ack_max_timeout: nanoseconds(self.delayed_ack_max_timeout),
            min_rtt_variance: nanoseconds(self.min_rtt_variance),
            max_burst: self.max_burst,
            max_retransmissions: self.max_retransmissions.unwrap_or(sys::DCSCTP_NO_LIMIT),
            max_init_retransmits: self.max_init_retransmits.unwrap_or(sys::DCSCTP_NO_LIMIT),
            zero_checksum_method: self.zero_checksum_method,
            enable_partial_reliability: self.enable_partial_reliability.into(),
            enable_message_interleaving: self.enable_message_interleaving.into(),
            disable_checksum_verification: self.disable_checksum_verification.into(),
            enable_handover_with_outstanding_data: self
                .enable_handover_with_outstanding_data
                .into(),
            local_port: self.local_port,
            remote_port: self.remote_port,
            announced_maximum_incoming_streams: self.announced_maximum_incoming_streams,
            announced_maximum_outgoing_streams: self.announced_maximum_outgoing_streams,
            default_stream_priority: self.default_stream_priority,
            checksum_offload: self.checksum_offload.into(),
            follow_rfc: self.follow_rfc.into(),
        }
    }

    /// The options that `dcsctp.h` has as these.
    pub(crate) fn from_sys(it: &sys::dcsctp_options) -> Options {
        let limit = |number| (number != sys::DCSCTP_NO_LIMIT).then_some(number);
        Options {
            mtu: it.mtu,
            max_message_size: it.max_message_size,
            max_receiver_window_buffer_size: it.max_receiver_window_buffer_size,
            max_send_buffer_size: it.max_send_buffer_size,
            per_stream_send_queue_limit: it.per_stream_send_queue_limit,
            total_buffered_amount_low_threshold: it.total_buffered_amount_low_threshold,
            default_stream_buffered_amount_low_threshold: it
                .default_stream_buffered_amount_low_threshold,
            cwnd_mtus_initial: it.cwnd_mtus_initial,
            cwnd_mtus_min: it.cwnd_mtus_min,
            rtt_max: Duration::from_nanos(it.rtt_max),
            rto_initial: Duration::from_nanos(it.rto_initial),
            rto_max: Duration::from_nanos(it.rto_max),
            rto_min: Duration::from_nanos(it.rto_min),
            t1_init_timeout: Duration::from_nanos(it.t1_init_timeout),
            t1_cookie_timeout: Duration::from_nanos(it.t1_cookie_timeout),
            cookie_lifetime: Duration::from_nanos(it.cookie_lifetime),
            max_timer_backoff_duration: moment(it.max_timer_backoff_duration),
            heartbeat_interval: Duration::from_nanos(it.heartbeat_interval),
            delayed_ack_max_timeout: Duration::from_nanos(it.delayed_ack_max_timeout),
            min_rtt_variance: Duration::from_nanos(it.min_rtt_variance),
            max_burst: it.max_burst,
            max_retransmissions: limit(it.max_retransmissions),
            max_init_retransmits: limit(it.max_init_retransmits),
            zero_checksum_method: it.zero_checksum_method,
            enable_partial_reliability: it.enable_partial_reliability != 0,
            enable_message_interleaving: it.enable_message_interleaving != 0,
            disable_checksum_verification: it.disable_checksum_verification != 0,
            enable_handover_with_outstanding_data: it.enable_handover_with_outstanding_data != 0,
            local_port: it.local_port,
            remote_port: it.remote_port,
            announced_maximum_incoming_streams: it.announced_maximum_incoming_streams,
            announced_maximum_outgoing_streams: it.announced_maximum_outgoing_streams,
            default_stream_priority: it.default_stream_priority,
            checksum_offload: it.checksum_offload != 0,
            follow_rfc: it.follow_rfc != 0,
        }
    }
}

/// A time as `dcsctp.h` has it. One of 584 years or more counts as never.
pub(crate) fn nanoseconds(time: Duration) -> u64 {
    time.as_nanos().try_into().unwrap_or(sys::DCSCTP_NEVER)
}

/// The time of so many nanoseconds; `None`: never.
pub(crate) fn moment(nanoseconds: u64) -> Option<Duration> {
    (nanoseconds != sys::DCSCTP_NEVER).then(|| Duration::from_nanos(nanoseconds))
}

#[cfg(test)]
mod tests {
    use super::*;

    #[test]
    fn default_options_are_those_of_the_library() {
        let size = size_of::<sys::dcsctp_options>();
        let mut of_library = sys::dcsctp_options { size, ..Default::default() };
        // SAFETY: the pointer comes from a reference.
        assert_eq!(unsafe { sys::dcsctp_get_default_options(&mut of_library) }, 0);
        assert_eq!(Options::default().to_sys(), of_library);
        assert_eq!(Options::from_sys(&of_library), Options::default());
    }

    #[test]
    fn options_come_back_as_they_were_set() {
        // each field has another value than by default
        let options = Options {
            mtu: 1,
            max_message_size: 2,
            max_receiver_window_buffer_size: 3,
            max_send_buffer_size: 4,
            per_stream_send_queue_limit: 5,
            total_buffered_amount_low_threshold: 6,
            default_stream_buffered_amount_low_threshold: 7,
            cwnd_mtus_initial: 8,
            cwnd_mtus_min: 9,
            rtt_max: Duration::from_nanos(10),
            rto_initial: Duration::from_nanos(11),
            rto_max: Duration::from_nanos(12),
            rto_min: Duration::from_nanos(13),
            t1_init_timeout: Duration::from_nanos(14),
            t1_cookie_timeout: Duration::from_nanos(15),
            cookie_lifetime: Duration::from_nanos(16),
            max_timer_backoff_duration: Some(Duration::from_nanos(17)),
            heartbeat_interval: Duration::from_nanos(18),
            delayed_ack_max_timeout: Duration::from_nanos(19),
            min_rtt_variance: Duration::from_nanos(20),
            max_burst: 21,
            max_retransmissions: None,
            max_init_retransmits: Some(23),
            zero_checksum_method: 24,
            enable_partial_reliability: false,
            enable_message_interleaving: true,
            disable_checksum_verification: true,
            enable_handover_with_outstanding_data: true,
            local_port: 25,
            remote_port: 26,
            announced_maximum_incoming_streams: 27,
            announced_maximum_outgoing_streams: 28,
            default_stream_priority: 29,
            checksum_offload: true,
            follow_rfc: false,
        };
        assert_eq!(Options::from_sys(&options.to_sys()), options);
    }

    #[test]
    fn times_that_are_too_long_count_as_never() {
        assert_eq!(nanoseconds(Duration::MAX), sys::DCSCTP_NEVER);
        assert_eq!(moment(sys::DCSCTP_NEVER), None);
        assert_eq!(moment(nanoseconds(Duration::from_secs(1))), Some(Duration::from_secs(1)));
    }
}
