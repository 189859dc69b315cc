//! Why a call failed.

use dcsctp_sys as sys;
use std::fmt;

/// Why a call failed. Unless the call says more, it has changed nothing then.
#[non_exhaustive]
#[derive(Clone, Copy, Debug, PartialEq, Eq, Hash)]
pub enum Error {
    /// An allocation of the library failed in this call. The socket has failed now, unless the call says that it may be
    /// tried again; `Socket::has_failed` reports whether.
    OutOfMemory,
    /// An allocation failed in an earlier call. Events can be taken. Then drop the socket.
    Failed,
    /// There is no socket. No method of `Socket` returns it.
    NoSocket,
    /// The socket was created already. No method of `Socket` returns it.
    AlreadyCreated,
    /// The options aren't valid, or all bytes of the seed are 0.
    InvalidOptions,
    /// The buffer is too small. No method of `Socket` returns it.
    BufferTooSmall,
    /// No snapshot was taken.
    NothingToCopy,
    /// The message has no bytes.
    EmptyPayload,
    /// The message is longer than `max_message_size`.
    MessageTooLarge,
    /// The send buffer is full, in total or for this stream. Try again after `Event::BufferedAmountLow` or
    /// `Event::TotalBufferedAmountLow`.
    ResourceExhaustion,
    /// The association is being shut down, and accepts no message.
    ShuttingDown,
    /// There is no association, or the peer hasn't answered yet.
    NotConnected,
    /// The peer doesn't reset streams (RFC 6525).
    NotSupported,
    /// The socket can't be handed over now: `Socket::handover_readiness` reports why.
    NotReady,
    /// The bytes aren't a snapshot, or were changed since it was taken.
    InvalidSnapshot,
    /// The socket has an association, or is connecting.
    NotClosed,
    /// No method of `Socket` returns it, since `SendOptions` are always valid.
    InvalidSendOptions,
    /// A struct has another size in the library, which was built with another header.
    WrongSize,
    /// The snapshot is of a socket with other options: `Socket::restore_from_state` lists those that must be the same.
    OtherOptions,
    /// The socket has data channels. No method returns it.
    HasChannels,
    /// There is no such data channel, it has ended, or it isn't open.
    NoChannel,
    /// The stream of a negotiated data channel is in use.
    StreamInUse,
    /// The association of the data channels has ended: make other `Channels`.
    Ended,
    /// The library has another version than these crates.
    WrongVersion,
    /// A number that a later version of the library may add.
    Unknown(i32),
}

impl Error {
    /// The error that a result below 0 means.
    pub fn of(number: i32) -> Error {
        match number {
            sys::DCSCTP_ERROR_OUT_OF_MEMORY => Error::OutOfMemory,
            sys::DCSCTP_ERROR_FAILED => Error::Failed,
            sys::DCSCTP_ERROR_NO_SOCKET => Error::NoSocket,
            sys::DCSCTP_ERROR_ALREADY_CREATED => Error::AlreadyCreated,
            sys::DCSCTP_ERROR_INVALID_OPTIONS => Error::InvalidOptions,
            sys::DCSCTP_ERROR_BUFFER_TOO_SMALL => Error::BufferTooSmall,
            sys::DCSCTP_ERROR_NOTHING_TO_COPY => Error::NothingToCopy,
            sys::DCSCTP_ERROR_EMPTY_PAYLOAD => Error::EmptyPayload,
            sys::DCSCTP_ERROR_MESSAGE_TOO_LARGE => Error::MessageTooLarge,
            sys::DCSCTP_ERROR_RESOURCE_EXHAUSTION => Error::ResourceExhaustion,
            sys::DCSCTP_ERROR_SHUTTING_DOWN => Error::ShuttingDown,
            sys::DCSCTP_ERROR_NOT_CONNECTED => Error::NotConnected,
            sys::DCSCTP_ERROR_NOT_SUPPORTED => Error::NotSupported,
            sys::DCSCTP_ERROR_NOT_READY => Error::NotReady,
            sys::DCSCTP_ERROR_INVALID_SNAPSHOT => Error::InvalidSnapshot,
            sys::DCSCTP_ERROR_NOT_CLOSED => Error::NotClosed,
            sys::DCSCTP_ERROR_INVALID_SEND_OPTIONS => Error::InvalidSendOptions,
            sys::DCSCTP_ERROR_WRONG_SIZE => Error::WrongSize,
            sys::DCSCTP_ERROR_OTHER_OPTIONS => Error::OtherOptions,
            sys::DCSCTP_ERROR_HAS_CHANNELS => Error::HasChannels,
            sys::DCSCTP_ERROR_NO_CHANNEL => Error::NoChannel,
            sys::DCSCTP_ERROR_STREAM_IN_USE => Error::StreamInUse,
            sys::DCSCTP_ERROR_ENDED => Error::Ended,
            other => Error::Unknown(other),
        }
    }

    /// What a result of the library says: an error if it is negative.
    pub(crate) fn check(result: i32) -> Result<(), Error> {
        if result < 0 {
            return Err(Error::of(result));
        }
        Ok(())
    }
}

impl fmt::Display for Error {
    fn fmt(&self, f: &mut fmt::Formatter<'_>) -> fmt::Result {
        f.write_str(match self {
            Error::OutOfMemory => "out of memory",
            Error::Failed => "an allocation failed in an earlier call",
            Error::NoSocket => "there is no socket",
            Error::AlreadyCreated => "there is a socket already",
            Error::InvalidOptions => "no socket can be made with these options or this seed",
            Error::BufferTooSmall => "the buffer is too small",
            Error::NothingToCopy => "there is nothing to copy",
            Error::EmptyPayload => "the message has no bytes",
            Error::MessageTooLarge => "the message is too large",
            Error::ResourceExhaustion => "the send buffer is full",
            Error::ShuttingDown => "the association is being shut down",
            Error::NotConnected => "the peer isn't connected",
            Error::NotSupported => "the peer doesn't reset streams",
            Error::NotReady => "the socket can't be handed over now",
            Error::InvalidSnapshot => "the snapshot isn't valid",
            Error::NotClosed => "the socket isn't closed",
            Error::InvalidSendOptions => "the message can't be sent with these options",
            Error::WrongSize => "the struct has another size in the library",
            Error::OtherOptions => "the snapshot is of a socket with other options",
            Error::HasChannels => "the socket has data channels",
            Error::NoChannel => "there is no such data channel",
            Error::StreamInUse => "the stream is in use",
            Error::Ended => "the association has ended",
            Error::WrongVersion => "the library has another version",
            Error::Unknown(_) => "unknown",
        })
    }
}

impl std::error::Error for Error {}
