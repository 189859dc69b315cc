//! A data channel: how it is opened, what is reported of it, and its state.

use crate::Error;
use dcsctp_sys as sys;
use std::time::Duration;

/// A data channel, by a number that its `Channels` never give twice.
#[derive(Clone, Copy, Debug, PartialEq, Eq, PartialOrd, Ord, Hash)]
pub struct Channel(pub(crate) u64);

impl Channel {
    /// Its number, which is never 0.
    pub fn number(self) -> u64 {
        self.0
    }

    /// The channel with a number, as after a handover.
    pub fn with_number(number: u64) -> Channel {
        Channel(number)
    }
}

/// How long a lost message is sent again (RFC 8832, section 5.1).
#[derive(Clone, Copy, Debug, Default, PartialEq, Eq, Hash)]
pub enum Reliability {
    /// Until it is acknowledged.
    #[default]
    Reliable,
    /// Up to so many times.
    Retransmissions(u32),
    /// For this time, in whole milliseconds, and at most 4,294,967,295 of them.
    Lifetime(Duration),
}

/// What a channel is opened with. By default: ordered, reliable, of normal priority, without a label.
///
/// ```
/// use dcsctp_socket::{ChannelOptions, Reliability};
/// let how = ChannelOptions::new("position").unordered().reliability(Reliability::Retransmissions(0));
/// assert_eq!((how.label.as_str(), how.ordered), ("position", false));
/// ```
#[derive(Clone, Debug, PartialEq, Eq)]
pub struct ChannelOptions {
    /// What it is called. In that of a peer U+FFFD replaces what isn't UTF-8.
    pub label: String,
    /// A subprotocol by its registered name, as the label.
    pub protocol: String,
    /// Whether the peer must read messages in order.
    pub ordered: bool,
    /// How long a lost message is sent again.
    pub reliability: Reliability,
    /// 128, 256, 512 or 1,024 (RFC 8831, section 6.4); the greatest is sent first.
    pub priority: u16,
    /// The stream that both ends open it on. Then no OPEN is sent.
    pub negotiated: Option<u16>,
}

impl Default for ChannelOptions {
    fn default() -> ChannelOptions {
        ChannelOptions {
            label: String::new(),
            protocol: String::new(),
            ordered: true,
            reliability: Reliability::Reliable,
            priority: 256,
            negotiated: None,
        }
    }
}

impl ChannelOptions {
    /// The default, with this label.
    pub fn new(label: impl Into<String>) -> ChannelOptions {
        ChannelOptions { label: label.into(), ..Default::default() }
    }

    /// Sets the subprotocol.
    pub fn protocol(self, protocol: impl Into<String>) -> ChannelOptions {
        ChannelOptions { protocol: protocol.into(), ..self }
    }

    /// The peer may read messages out of order.
    pub fn unordered(self) -> ChannelOptions {
        ChannelOptions { ordered: false, ..self }
    }

    /// Sets how long a lost message is sent again.
    pub fn reliability(self, reliability: Reliability) -> ChannelOptions {
        ChannelOptions { reliability, ..self }
    }

    /// Sets the priority.
    pub fn priority(self, priority: u16) -> ChannelOptions {
        ChannelOptions { priority, ..self }
    }

    /// Sets the stream that both ends open it on.
    pub fn negotiated(self, stream: u16) -> ChannelOptions {
        ChannelOptions { negotiated: Some(stream), ..self }
    }

    /// In C, with pointers into the texts.
    pub(crate) fn to_sys(&self) -> sys::dcsctp_channel_options {
        let (reliability, limit) = match self.reliability {
            Reliability::Reliable => (sys::DCSCTP_CHANNEL_RELIABLE, 0),
            Reliability::Retransmissions(count) => (sys::DCSCTP_CHANNEL_RETRANSMISSIONS, count),
            Reliability::Lifetime(time) => {
                (sys::DCSCTP_CHANNEL_LIFETIME, time.as_millis().try_into().unwrap_or(u32::MAX))
            }
        };
        sys::dcsctp_channel_options {
            label: self.label.as_ptr().cast(),
            label_length: self.label.len(),
            protocol: self.protocol.as_ptr().cast(),
            protocol_length: self.protocol.len(),
            limit,
            priority: self.priority,
            reliability,
            is_unordered: u16::from(!self.ordered),
            is_negotiated: u16::from(self.negotiated.is_some()),
            stream: self.negotiated.unwrap_or(0),
            ..sys::DCSCTP_CHANNEL_OPTIONS_INIT
        }
    }
}

/// What a peer may do; 0 means the default.
#[derive(Clone, Copy, Debug, Default, PartialEq, Eq)]
pub struct ChannelLimits {
    /// Bytes of a message; a longer one closes its channel: 262,144.
    pub max_message_size: usize,
    /// Bytes of a label and a protocol; more are refused: 1,024.
    pub max_text: usize,
    /// With so many streams in use each channel is refused: 1,024.
    pub max_channels: usize,
}

/// What `Channels` report.
#[non_exhaustive]
#[derive(Clone, Debug, PartialEq, Eq)]
pub enum ChannelEvent {
    /// A packet for the peer, of at most `mtu` bytes.
    SendPacket(Vec<u8>),
    /// The association was made, by either end.
    Connected,
    /// The peer knows a channel that this end has opened.
    Opened(Channel),
    /// The peer has opened a channel.
    Incoming(Channel, ChannelOptions),
    /// A message of text, which may be empty. U+FFFD replaces what isn't UTF-8.
    Text(Channel, String),
    /// A message of bytes, which may be empty.
    Binary(Channel, Vec<u8>),
    /// The queued bytes of a channel have fallen to its threshold.
    BufferedAmountLow(Channel),
    /// The last event of a channel.
    Closed(Channel, ChannelEnd),
    /// The association is over, and so are all its channels. Continue the loop for 4 s, as the crate's page says.
    Ended,
    /// A kind that a later version of the library may add. Ignore it.
    Unknown(u32),
}

impl ChannelEvent {
    /// The name of its kind.
    pub fn name(&self) -> &'static str {
        match self {
            ChannelEvent::SendPacket(_) => "send packet",
            ChannelEvent::Connected => "connected",
            ChannelEvent::Opened(_) => "channel opened",
            ChannelEvent::Incoming(..) => "incoming channel",
            ChannelEvent::Text(..) | ChannelEvent::Binary(..) => "channel message",
            ChannelEvent::BufferedAmountLow(_) => "channel buffered amount low",
            ChannelEvent::Closed(..) => "channel closed",
            ChannelEvent::Ended => "channels ended",
            ChannelEvent::Unknown(_) => "unknown",
        }
    }
}

/// Why a channel is closed.
#[non_exhaustive]
#[derive(Clone, Copy, Debug, PartialEq, Eq, Hash)]
pub enum ChannelEnd {
    /// One end has closed it, or both.
    ClosedByResets,
    /// The same before the peer knew it.
    Refused,
    /// The peer refuses resets: the stream stays in use.
    CantBeReset,
    /// The association has ended.
    Lost,
    /// No stream was free.
    NoStream,
    /// A reason that a later version of the library may add.
    Unknown(u32),
}

impl ChannelEnd {
    /// Its number in `dcsctp.h`.
    pub fn number(self) -> u32 {
        match self {
            ChannelEnd::ClosedByResets => sys::DCSCTP_CHANNEL_CLOSED_BY_RESETS,
            ChannelEnd::Refused => sys::DCSCTP_CHANNEL_REFUSED,
            ChannelEnd::CantBeReset => sys::DCSCTP_CHANNEL_CANT_BE_RESET,
            ChannelEnd::Lost => sys::DCSCTP_CHANNEL_LOST,
            ChannelEnd::NoStream => sys::DCSCTP_CHANNEL_NO_STREAM,
            ChannelEnd::Unknown(other) => other,
        }
    }

    pub(crate) fn of(number: u32) -> ChannelEnd {
        match number {
            sys::DCSCTP_CHANNEL_CLOSED_BY_RESETS => ChannelEnd::ClosedByResets,
            sys::DCSCTP_CHANNEL_REFUSED => ChannelEnd::Refused,
            sys::DCSCTP_CHANNEL_CANT_BE_RESET => ChannelEnd::CantBeReset,
            sys::DCSCTP_CHANNEL_LOST => ChannelEnd::Lost,
            sys::DCSCTP_CHANNEL_NO_STREAM => ChannelEnd::NoStream,
            other => ChannelEnd::Unknown(other),
        }
    }
}

/// The state of a channel.
#[non_exhaustive]
#[derive(Clone, Copy, Debug, PartialEq, Eq, Hash)]
pub enum ChannelState {
    /// It waits for the association, the role, or room to send.
    Connecting,
    /// Messages can be sent.
    Open,
    /// One end has closed it.
    Closing,
    /// There is no such channel, or none any more.
    Closed,
    /// A state that a later version of the library may add.
    Unknown(i32),
}

impl ChannelState {
    pub(crate) fn of(number: i32) -> ChannelState {
        match number {
            sys::DCSCTP_CHANNEL_CONNECTING => ChannelState::Connecting,
            sys::DCSCTP_CHANNEL_OPEN => ChannelState::Open,
            sys::DCSCTP_CHANNEL_CLOSING => ChannelState::Closing,
            sys::DCSCTP_CHANNEL_CLOSED => ChannelState::Closed,
            other => ChannelState::Unknown(other),
        }
    }
}

/// What was counted of a channel.
#[derive(Clone, Copy, Debug, Default, PartialEq, Eq)]
pub struct ChannelMetrics {
    /// Messages that were accepted to be sent.
    pub messages_sent: u64,
    /// Their bytes.
    pub bytes_sent: u64,
    /// Messages that were taken from the receive window.
    pub messages_received: u64,
    /// Their bytes.
    pub bytes_received: u64,
}

/// `None` if there is no such channel.
pub(crate) fn if_there<T>(result: i32, value: T) -> Option<T> {
    Error::check(result).is_ok().then_some(value)
}
