//! What a socket reports.

use dcsctp_sys as sys;

/// What a socket reports.
#[non_exhaustive]
#[derive(Clone, Debug, PartialEq, Eq)]
pub enum Event {
    /// A packet for the peer, of at most `mtu` bytes.
    SendPacket(Vec<u8>),
    /// An association was made, by either end.
    Connected,
    /// It has ended: by a shutdown, `Socket::close` or a handover. Continue the loop for 4 s, as the crate's page says.
    Closed,
    /// The peer restarted: then `Connected` comes.
    ConnectionRestarted,
    /// The association was aborted.
    Aborted {
        /// What it is about.
        kind: ErrorKind,
        /// More of it, which may be empty.
        text: String,
    },
    /// Something went wrong, and the association continues.
    Error {
        /// What it is about.
        kind: ErrorKind,
        /// More of it, which may be empty.
        text: String,
    },
    /// The queued bytes of this stream have fallen to its threshold.
    BufferedAmountLow(u16),
    /// The queued bytes of all streams have fallen to the threshold.
    TotalBufferedAmountLow,
    /// Streams of this end that weren't reset.
    StreamsResetFailed(Vec<u16>),
    /// Streams of this end that were reset.
    StreamsResetPerformed(Vec<u16>),
    /// Streams of the peer that it has reset; none: all of them.
    IncomingStreamReset(Vec<u16>),
    /// The whole message of this `lifecycle_id` was sent.
    LifecycleFullySent(u64),
    /// It was abandoned after that.
    LifecycleMaybeExpired(u64),
    /// It was abandoned before that.
    LifecycleExpired(u64),
    /// The peer acknowledged it.
    LifecycleDelivered(u64),
    /// No event names it again.
    LifecycleEnd(u64),
    /// A kind that a later version of the library may add. Ignore it.
    Unknown(u32),
}

impl Event {
    /// The name of its kind, by the words of `dcsctp_event_name`.
    pub fn name(&self) -> &'static str {
        match self {
            Event::SendPacket(_) => "send packet",
            Event::Connected => "connected",
            Event::Closed => "closed",
            Event::ConnectionRestarted => "connection restarted",
            Event::Aborted { .. } => "aborted",
            Event::Error { .. } => "error",
            Event::BufferedAmountLow(_) => "buffered amount low",
            Event::TotalBufferedAmountLow => "total buffered amount low",
            Event::StreamsResetFailed(_) => "streams reset failed",
            Event::StreamsResetPerformed(_) => "streams reset performed",
            Event::IncomingStreamReset(_) => "incoming stream reset",
            Event::LifecycleFullySent(_) => "message fully sent",
            Event::LifecycleMaybeExpired(_) => "message maybe expired",
            Event::LifecycleExpired(_) => "message expired",
            Event::LifecycleDelivered(_) => "message delivered",
            Event::LifecycleEnd(_) => "message ended",
            Event::Unknown(_) => "unknown",
        }
    }
}

/// What an error is about.
#[non_exhaustive]
#[derive(Clone, Copy, Debug, PartialEq, Eq, Hash)]
pub enum ErrorKind {
    /// There is none. No event has it.
    NoError,
    /// Something was sent too often without an answer.
    TooManyRetries,
    /// It needs an association, and there is none.
    NotConnected,
    /// It can't be read, or isn't for this association.
    ParseFailed,
    /// It can't be handled in this state.
    WrongSequence,
    /// The peer reported an error, or aborted.
    PeerReported,
    /// The peer, or the caller, broke a rule.
    ProtocolViolation,
    /// A buffer is full.
    ResourceExhaustion,
    /// It isn't supported.
    UnsupportedOperation,
    /// A kind that a later version of the library may add.
    Unknown(u32),
}

impl ErrorKind {
    /// Its number in `dcsctp.h`.
    pub fn number(self) -> u32 {
        match self {
            ErrorKind::NoError => sys::DCSCTP_KIND_NO_ERROR,
            ErrorKind::TooManyRetries => sys::DCSCTP_KIND_TOO_MANY_RETRIES,
            ErrorKind::NotConnected => sys::DCSCTP_KIND_NOT_CONNECTED,
            ErrorKind::ParseFailed => sys::DCSCTP_KIND_PARSE_FAILED,
            ErrorKind::WrongSequence => sys::DCSCTP_KIND_WRONG_SEQUENCE,
            ErrorKind::PeerReported => sys::DCSCTP_KIND_PEER_REPORTED,
            ErrorKind::ProtocolViolation => sys::DCSCTP_KIND_PROTOCOL_VIOLATION,
            ErrorKind::ResourceExhaustion => sys::DCSCTP_KIND_RESOURCE_EXHAUSTION,
            ErrorKind::UnsupportedOperation => sys::DCSCTP_KIND_UNSUPPORTED_OPERATION,
            ErrorKind::Unknown(other) => other,
        }
    }

    pub(crate) fn of(number: u32) -> ErrorKind {
        match number {
            sys::DCSCTP_KIND_NO_ERROR => ErrorKind::NoError,
            sys::DCSCTP_KIND_TOO_MANY_RETRIES => ErrorKind::TooManyRetries,
            sys::DCSCTP_KIND_NOT_CONNECTED => ErrorKind::NotConnected,
            sys::DCSCTP_KIND_PARSE_FAILED => ErrorKind::ParseFailed,
            sys::DCSCTP_KIND_WRONG_SEQUENCE => ErrorKind::WrongSequence,
            sys::DCSCTP_KIND_PEER_REPORTED => ErrorKind::PeerReported,
            sys::DCSCTP_KIND_PROTOCOL_VIOLATION => ErrorKind::ProtocolViolation,
            sys::DCSCTP_KIND_RESOURCE_EXHAUSTION => ErrorKind::ResourceExhaustion,
            sys::DCSCTP_KIND_UNSUPPORTED_OPERATION => ErrorKind::UnsupportedOperation,
            other => ErrorKind::Unknown(other),
        }
    }
}
