//! Why a call failed.

use super::HandoverReadiness;
use std::error::Error;
use std::fmt;

/// Why a message wasn't taken. An `OnError` follows, too.
#[derive(Debug, PartialEq)]
pub enum SendError {
    /// It has no bytes.
    EmptyPayload,
    /// It is longer than `max_message_size`.
    MessageTooLarge {
        /// How many bytes it has.
        len: usize,
        /// How many it may have.
        limit: usize,
    },
    /// The send buffer is full, in total or for this stream.
    ResourceExhaustion,
    /// The association is being shut down.
    ShuttingDown,
}

/// The messages of `send_many` that weren't taken, each by its index.
#[derive(Debug)]
pub struct BatchSendError(pub Vec<(usize, SendError)>);

/// Why streams can't be reset.
#[derive(Debug, PartialEq)]
pub enum ResetStreamsError {
    /// There is no association, or the peer hasn't answered yet.
    NotConnected,
    /// The peer doesn't reset streams (RFC 6525).
    NotSupported,
}

/// Why no snapshot was taken.
#[derive(Debug, PartialEq)]
pub enum HandoverError {
    /// For these reasons.
    NotReady(HandoverReadiness),
}

/// Why a socket doesn't continue from a snapshot.
#[derive(Debug, PartialEq)]
pub enum RestoreError {
    /// It has an association, or is connecting.
    SocketNotClosed,
}

impl fmt::Display for SendError {
    fn fmt(&self, f: &mut fmt::Formatter<'_>) -> fmt::Result {
        match self {
            SendError::EmptyPayload => f.write_str("message payload cannot be empty"),
            SendError::MessageTooLarge { len, limit } => {
                write!(f, "message size ({len}) exceeds configured max_message_size ({limit})")
            }
            SendError::ResourceExhaustion => f.write_str("send queue is full"),
            SendError::ShuttingDown => f.write_str("socket is shutting down or closed"),
        }
    }
}

impl fmt::Display for BatchSendError {
    fn fmt(&self, f: &mut fmt::Formatter<'_>) -> fmt::Result {
        write!(f, "batch send failed with errors: {:?}", self.0)
    }
}

impl fmt::Display for ResetStreamsError {
    fn fmt(&self, f: &mut fmt::Formatter<'_>) -> fmt::Result {
        f.write_str(match self {
            ResetStreamsError::NotConnected => "socket is not connected",
            ResetStreamsError::NotSupported => "peer does not support stream resetting",
        })
    }
}

impl fmt::Display for HandoverError {
    fn fmt(&self, f: &mut fmt::Formatter<'_>) -> fmt::Result {
        f.write_str("socket is not in a ready state for handover")
    }
}

impl fmt::Display for RestoreError {
    fn fmt(&self, f: &mut fmt::Formatter<'_>) -> fmt::Result {
        f.write_str("cannot restore state: socket is not closed")
    }
}

impl Error for SendError {}
impl Error for BatchSendError {}
impl Error for ResetStreamsError {}
impl Error for HandoverError {}
impl Error for RestoreError {}
