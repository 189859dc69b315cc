//! The snapshot of a socket. A program writes its fields to a format of its own, and otherwise leaves them as they are.
#![allow(missing_docs)]

use std::fmt;
use std::ops::{BitAnd, BitOr};

/// The whole snapshot.
#[derive(Default)]
pub struct SocketHandoverState {
    pub socket_state: HandoverSocketState,
    pub my_verification_tag: u32,
    pub my_initial_tsn: u32,
    pub peer_verification_tag: u32,
    pub peer_initial_tsn: u32,
    pub tie_tag: u64,
    pub capabilities: HandoverCapabilities,
    pub tx: HandoverTransmission,
    pub rx: HandoverReceive,
}

/// Whether there was an association.
#[derive(Default)]
pub enum HandoverSocketState {
    #[default]
    Closed,
    Connected,
}

/// What was negotiated.
#[derive(Default)]
pub struct HandoverCapabilities {
    pub partial_reliability: bool,
    pub message_interleaving: bool,
    pub reconfig: bool,
    pub zero_checksum: bool,
    pub negotiated_maximum_incoming_streams: u16,
    pub negotiated_maximum_outgoing_streams: u16,
}

/// The sender.
#[derive(Default)]
pub struct HandoverTransmission {
    pub next_tsn: u32,
    pub next_outgoing_message_id: u64,
    pub next_reset_req_sn: u32,
    pub cwnd: u32,
    pub rwnd: u32,
    pub ssthresh: u32,
    pub partial_bytes_acked: u32,
    pub streams: Vec<HandoverOutgoingStream>,
    pub queued_messages: Vec<HandoverStreamMessage>,
    pub outstanding_data: Vec<HandoverOutstandingData>,
    pub last_cumulative_tsn_ack: u32,
}

/// An outgoing stream.
#[derive(Default)]
pub struct HandoverOutgoingStream {
    pub id: u16,
    pub next_ssn: u16,
    pub next_unordered_mid: u32,
    pub next_ordered_mid: u32,
    pub priority: u16,
}

/// A message that is queued, or the rest of one.
#[derive(Default)]
pub struct HandoverStreamMessage {
    pub stream_id: u16,
    pub ppid: u32,
    pub payload: Vec<u8>,
    pub expires_in_ms: Option<i32>,
    pub max_retransmissions: u16,
    pub unordered: bool,
    pub lifecycle_id: u64,
    pub message_id: u64,
    pub remaining_offset: usize,
    pub mid: Option<u32>,
    pub ssn: Option<u16>,
    pub fsn: u32,
}

/// A chunk that was sent, and isn't acknowledged for good.
#[derive(Default)]
pub struct HandoverOutstandingData {
    pub mid: u32,
    pub stream_id: u16,
    pub ssn: u16,
    pub fsn: u32,
    pub ppid: u32,
    pub payload: Vec<u8>,
    pub expires_in_ms: Option<i32>,
    pub max_retransmissions: u16,
    pub is_beginning: bool,
    pub is_end: bool,
    pub is_unordered: bool,
    pub lifecycle_id: u64,
    pub time_since_sent_ms: i32,
    pub retransmission_count: u16,
    pub acked: bool,
    pub is_abandoned: bool,
    pub is_nacked: bool,
    pub is_to_be_retransmitted: bool,
    pub message_id: u64,
}

/// The receiver.
#[derive(Default)]
pub struct HandoverReceive {
    pub seen_packet: bool,
    pub last_cumulative_acked_tsn: u32,
    pub last_assembled_tsn: u32,
    pub last_completed_deferred_reset_req_sn: u32,
    pub last_completed_reset_req_sn: u32,
    pub ordered_streams: Vec<HandoverOrderedStream>,
    pub unordered_streams: Vec<HandoverUnorderedStream>,
}

/// An incoming stream, and the number of its next ordered message.
#[derive(Default)]
pub struct HandoverOrderedStream {
    pub id: u16,
    pub next_ssn: u32,
}

/// An incoming stream of unordered messages.
#[derive(Default)]
pub struct HandoverUnorderedStream {
    pub id: u16,
}

/// Why no snapshot can be taken now: the sum of the reasons.
#[derive(Clone, Default, PartialEq)]
pub struct HandoverReadiness(pub u32);

/// A constant for each reason, with the text that `Display` prints.
macro_rules! reasons {
    ($($name:ident $bit:literal $text:literal)*) => {
        impl HandoverReadiness {
            $(pub const $name: HandoverReadiness = HandoverReadiness($bit);)*
        }

        const REASONS: &[(u32, &str)] = &[$(($bit, $text)),*];
    };
}

reasons! {
    WRONG_CONNECTION_STATE 1 "wrong_connection_state"
    SEND_QUEUE_NOT_EMPTY 2 "send_queue_not_empty"
    PENDING_STREAM_RESET_REQUEST 4 "pending_stream_reset_request"
    DATA_TRACKER_TSN_BLOCKS_PENDING 8 "data_tracker_tsn_blocks_pending"
    PENDING_STREAM_RESET 16 "pending_stream_reset"
    STREAM_RESET_DEFERRED 64 "stream_reset_deferred"
    STREAM_HAS_UNASSEMBLED_CHUNKS 128 "stream_has_unassembled_chunks"
    RETRANSMISSION_QUEUE_OUTSTANDING_DATA 512 "retransmission_queue_outstanding_data"
    RETRANSMISSION_QUEUE_FAST_RECOVERY 1024 "retransmission_queue_fast_recovery"
    RETRANSMISSION_QUEUE_NOT_EMPTY 2048 "retransmission_queue_not_empty"
}

impl HandoverReadiness {
    pub const READY: HandoverReadiness = HandoverReadiness(0);

    /// Whether a snapshot can be taken.
    pub fn is_ready(&self) -> bool {
        self.0 == 0
    }

    /// Whether this reason is one of those.
    pub fn contains(&self, reason: HandoverReadiness) -> bool {
        self.0 & reason.0 != 0
    }
}

impl fmt::Display for HandoverReadiness {
    fn fmt(&self, f: &mut fmt::Formatter<'_>) -> fmt::Result {
        let texts = REASONS.iter().filter(|it| self.0 & it.0 != 0).map(|it| it.1);
        f.write_str(&texts.collect::<Vec<_>>().join(","))
    }
}

impl fmt::Debug for HandoverReadiness {
    fn fmt(&self, f: &mut fmt::Formatter<'_>) -> fmt::Result {
        write!(f, "{self}")
    }
}

impl BitOr for HandoverReadiness {
    type Output = HandoverReadiness;
    fn bitor(self, other: HandoverReadiness) -> HandoverReadiness {
        HandoverReadiness(self.0 | other.0)
    }
}

impl BitAnd<bool> for HandoverReadiness {
    type Output = HandoverReadiness;
    fn bitand(self, is_kept: bool) -> HandoverReadiness {
        HandoverReadiness(if is_kept { self.0 } else { 0 })
    }
}
