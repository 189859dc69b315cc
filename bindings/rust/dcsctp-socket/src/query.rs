//! What queries return.

use dcsctp_sys as sys;
use std::time::Duration;

/// The state of a socket.
#[non_exhaustive]
#[derive(Clone, Copy, Debug, PartialEq, Eq, Hash)]
pub enum State {
    /// There is no association.
    Closed,
    /// The handshake isn't over.
    Connecting,
    /// There is one.
    Connected,
    /// It is being shut down.
    ShuttingDown,
    /// A state that a later version of the library may add.
    Unknown(i32),
}

impl State {
    pub(crate) fn of(number: i32) -> State {
        match number {
            sys::DCSCTP_STATE_CLOSED => State::Closed,
            sys::DCSCTP_STATE_CONNECTING => State::Connecting,
            sys::DCSCTP_STATE_CONNECTED => State::Connected,
            sys::DCSCTP_STATE_SHUTTING_DOWN => State::ShuttingDown,
            other => State::Unknown(other),
        }
    }
}

/// Which program the peer runs, by its cookie.
#[non_exhaustive]
#[derive(Clone, Copy, Debug, PartialEq, Eq, Hash)]
pub enum Peer {
    /// Its cookie doesn't show it, or it sent no INIT ACK.
    Unknown,
    /// This library, or dcSCTP in Rust.
    DcsctpRs,
    /// dcSCTP in C++.
    DcsctpCc,
    /// usrsctp.
    Usrsctp,
    /// Another one, by its number.
    Other(u32),
}

impl Peer {
    fn of(number: u32) -> Peer {
        match number {
            sys::DCSCTP_PEER_UNKNOWN => Peer::Unknown,
            sys::DCSCTP_PEER_DCSCTP_RS => Peer::DcsctpRs,
            sys::DCSCTP_PEER_DCSCTP_CC => Peer::DcsctpCc,
            sys::DCSCTP_PEER_USRSCTP => Peer::Usrsctp,
            other => Peer::Other(other),
        }
    }
}

/// Counts since the socket was created, and the present state of the association.
#[derive(Clone, Debug, PartialEq, Eq)]
pub struct Metrics {
    /// Bytes of chunks sent again, with headers and padding.
    pub rtx_bytes_count: u64,
    /// The smoothed round trip time.
    pub srtt: Duration,
    /// Packets sent.
    pub tx_packets_count: usize,
    /// Messages that `send` accepted.
    pub tx_messages_count: usize,
    /// Packets with chunks that were sent again.
    pub rtx_packets_count: usize,
    /// The congestion window.
    pub cwnd_bytes: usize,
    /// Chunks in flight, and those of queued messages.
    pub unack_data_count: usize,
    /// Packets handed in, readable or not.
    pub rx_packets_count: usize,
    /// Messages that became ready.
    pub rx_messages_count: usize,
    /// The peer's window, less data in flight.
    pub peer_rwnd_bytes: u32,
    /// Which program the peer runs.
    pub peer_implementation: Peer,
    /// Whether messages are interleaved.
    pub uses_message_interleaving: bool,
    /// Whether the checksum may be left out.
    pub uses_zero_checksum: bool,
    /// The peer uses streams below this.
    pub negotiated_maximum_incoming_streams: u16,
    /// Use streams below this in `send`.
    pub negotiated_maximum_outgoing_streams: u16,
}

impl Metrics {
    pub(crate) fn from_sys(it: &sys::dcsctp_metrics) -> Metrics {
        Metrics {
            rtx_bytes_count: it.rtx_bytes_count,
            srtt: Duration::from_nanos(it.srtt),
            tx_packets_count: it.tx_packets_count,
            tx_messages_count: it.tx_messages_count,
            rtx_packets_count: it.rtx_packets_count,
            cwnd_bytes: it.cwnd_bytes,
            unack_data_count: it.unack_data_count,
            rx_packets_count: it.rx_packets_count,
            rx_messages_count: it.rx_messages_count,
            peer_rwnd_bytes: it.peer_rwnd_bytes,
            peer_implementation: Peer::of(it.peer_implementation),
            uses_message_interleaving: it.uses_message_interleaving != 0,
            uses_zero_checksum: it.uses_zero_checksum != 0,
            negotiated_maximum_incoming_streams: it.negotiated_maximum_incoming_streams,
            negotiated_maximum_outgoing_streams: it.negotiated_maximum_outgoing_streams,
        }
    }
}

/// Counts since the socket was created.
#[derive(Clone, Copy, Debug, Default, PartialEq, Eq)]
pub struct Counts {
    /// Packets handed in, readable or not.
    pub rx_packets_count: usize,
    /// Packets sent.
    pub tx_packets_count: usize,
    /// Messages that `send` accepted.
    pub tx_messages_count: usize,
}

impl Counts {
    pub(crate) fn from_sys(it: &sys::dcsctp_counts) -> Counts {
        Counts {
            rx_packets_count: it.rx_packets_count,
            tx_packets_count: it.tx_packets_count,
            tx_messages_count: it.tx_messages_count,
        }
    }
}

/// Why a socket can't be handed over now: the sum of the constants that hold.
#[derive(Clone, Copy, Debug, Default, PartialEq, Eq, Hash)]
pub struct HandoverReadiness(pub u32);

impl HandoverReadiness {
    /// It is being set up or shut down.
    pub const WRONG_CONNECTION_STATE: u32 = sys::DCSCTP_HANDOVER_WRONG_CONNECTION_STATE;
    /// Messages are queued.
    pub const SEND_QUEUE_NOT_EMPTY: u32 = sys::DCSCTP_HANDOVER_SEND_QUEUE_NOT_EMPTY;
    /// Our request isn't answered.
    pub const PENDING_STREAM_RESET_REQUEST: u32 = sys::DCSCTP_HANDOVER_PENDING_STREAM_RESET_REQUEST;
    /// Received data has a gap.
    pub const DATA_TRACKER_TSN_BLOCKS_PENDING: u32 =
        sys::DCSCTP_HANDOVER_DATA_TRACKER_TSN_BLOCKS_PENDING;
    /// Our stream is to be reset.
    pub const PENDING_STREAM_RESET: u32 = sys::DCSCTP_HANDOVER_PENDING_STREAM_RESET;
    /// A reset by the peer is deferred.
    pub const STREAM_RESET_DEFERRED: u32 = sys::DCSCTP_HANDOVER_STREAM_RESET_DEFERRED;
    /// Messages are incomplete.
    pub const STREAM_HAS_UNASSEMBLED_CHUNKS: u32 =
        sys::DCSCTP_HANDOVER_STREAM_HAS_UNASSEMBLED_CHUNKS;
    /// Data isn't acknowledged.
    pub const RETRANSMISSION_QUEUE_OUTSTANDING_DATA: u32 =
        sys::DCSCTP_HANDOVER_RETRANSMISSION_QUEUE_OUTSTANDING_DATA;
    /// Fast recovery is under way.
    pub const RETRANSMISSION_QUEUE_FAST_RECOVERY: u32 =
        sys::DCSCTP_HANDOVER_RETRANSMISSION_QUEUE_FAST_RECOVERY;
    /// Data must be sent again.
    pub const RETRANSMISSION_QUEUE_NOT_EMPTY: u32 =
        sys::DCSCTP_HANDOVER_RETRANSMISSION_QUEUE_NOT_EMPTY;
    /// A channel waits for its stream, is closing or refused, or owes an ACK.
    pub const CHANNELS_UNSETTLED: u32 = sys::DCSCTP_HANDOVER_CHANNELS_UNSETTLED;
    /// `Channels::poll_event` must be called.
    pub const EVENTS_NOT_TAKEN: u32 = sys::DCSCTP_HANDOVER_EVENTS_NOT_TAKEN;

    /// Whether it can be handed over.
    pub fn is_ready(self) -> bool {
        self.0 == 0
    }
}

/// The version of the library.
#[derive(Clone, Copy, Debug, PartialEq, Eq)]
pub struct Version {
    /// The first number.
    pub major: u8,
    /// The second one.
    pub minor: u8,
    /// The third one.
    pub patch: u8,
    /// Whether the library was built with proofs.
    pub is_proved: bool,
}

impl Version {
    pub(crate) fn of(number: u32) -> Version {
        Version {
            major: (number >> 16) as u8,
            minor: (number >> 8) as u8,
            patch: number as u8,
            is_proved: number & sys::DCSCTP_VERSION_UNPROVED == 0,
        }
    }
}
