//! What a socket reports.

use super::{LifecycleId, StreamId};

/// What an error is about.
#[derive(Clone, Copy, Debug, PartialEq)]
pub enum ErrorKind {
    /// Nothing. No event has it.
    NoError,
    /// The peer doesn't answer.
    TooManyRetries,
    /// It needs an association.
    NotConnected,
    /// A packet can't be read.
    ParseFailed,
    /// A chunk doesn't belong here.
    WrongSequence,
    /// The peer says so, by an ABORT or ERROR.
    PeerReported,
    /// The peer breaks the protocol, or a message can't be sent.
    ProtocolViolation,
    /// A buffer is full.
    ResourceExhaustion,
    /// It isn't supported.
    UnsupportedOperation,
}

/// What a socket reports.
#[derive(Debug)]
pub enum SocketEvent {
    /// A packet for the peer, of at most `mtu` bytes.
    SendPacket(Vec<u8>),
    /// An association was made, by either end.
    OnConnected(),
    /// It has ended: by a shutdown, `close` or a handover.
    OnClosed(),
    /// The peer restarted. `OnConnected` comes next.
    OnConnectionRestarted(),
    /// The association was aborted, or the attempt to connect failed.
    OnAborted(ErrorKind, String),
    /// Something went wrong, and the association continues.
    OnError(ErrorKind, String),
    /// The queued bytes of this stream have fallen to its threshold.
    OnBufferedAmountLow(StreamId),
    /// The queued bytes of all streams have fallen to the threshold.
    OnTotalBufferedAmountLow(),
    /// Our streams that weren't reset.
    OnStreamsResetFailed(Vec<StreamId>),
    /// Our streams that were reset.
    OnStreamsResetPerformed(Vec<StreamId>),
    /// The peer's streams that it has reset; none: all of them.
    OnIncomingStreamReset(Vec<StreamId>),
    /// The whole message was sent. `OnLifecycleMessageDelivered` or `OnLifecycleMessageMaybeExpired` follows.
    OnLifecycleMessageFullySent(LifecycleId),
    /// It was abandoned after that.
    OnLifecycleMessageMaybeExpired(LifecycleId),
    /// It was abandoned before that.
    OnLifecycleMessageExpired(LifecycleId),
    /// The peer acknowledged it.
    OnLifecycleMessageDelivered(LifecycleId),
    /// No event names it again.
    OnLifecycleEnd(LifecycleId),
}
