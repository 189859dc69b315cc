//! Times, names, messages and what queries return.

use std::fmt;
use std::num::NonZeroU64;
use std::ops::{Add, Sub};
use std::time::Duration;

/// A moment: the time since the socket was created. Sums and differences saturate.
#[derive(Copy, Clone, Debug, PartialEq, Eq, PartialOrd, Ord)]
pub struct SocketTime(Duration);

impl SocketTime {
    /// When the socket was created.
    pub const fn zero() -> SocketTime {
        SocketTime(Duration::ZERO)
    }

    /// Later than any other moment.
    pub const fn infinite_future() -> SocketTime {
        SocketTime(Duration::MAX)
    }
}

impl Add<Duration> for SocketTime {
    type Output = SocketTime;
    fn add(self, more: Duration) -> SocketTime {
        SocketTime(self.0.saturating_add(more))
    }
}

impl Sub<Duration> for SocketTime {
    type Output = SocketTime;
    fn sub(self, less: Duration) -> SocketTime {
        SocketTime(self.0.saturating_sub(less))
    }
}

impl Sub<SocketTime> for SocketTime {
    type Output = Duration;
    fn sub(self, earlier: SocketTime) -> Duration {
        self.0.saturating_sub(earlier.0)
    }
}

/// The name of a message in events. It isn't 0.
#[derive(Clone, Copy, Eq, Hash, Ord, PartialEq, PartialOrd)]
pub struct LifecycleId(NonZeroU64);

impl LifecycleId {
    /// The name; `None` for 0.
    pub fn new(n: u64) -> Option<LifecycleId> {
        NonZeroU64::new(n).map(LifecycleId)
    }

    /// The name. It panics for 0.
    pub fn from(n: u64) -> LifecycleId {
        LifecycleId::new(n).expect("a lifecycle id isn't 0")
    }

    /// Its number.
    pub fn value(&self) -> u64 {
        self.0.get()
    }
}

/// A stream.
#[derive(Clone, Copy, Eq, Hash, Ord, PartialEq, PartialOrd)]
pub struct StreamId(pub u16);

/// A payload protocol identifier (RFC 8831, section 8).
#[derive(Clone, Copy, Eq, Hash, PartialEq)]
pub struct PpId(pub u32);

/// `Display` and `Debug` print the number alone.
macro_rules! prints_its_number {
    ($($name:ident)*) => { $(
        impl fmt::Display for $name {
            fn fmt(&self, f: &mut fmt::Formatter<'_>) -> fmt::Result {
                write!(f, "{}", self.0)
            }
        }

        impl fmt::Debug for $name {
            fn fmt(&self, f: &mut fmt::Formatter<'_>) -> fmt::Result {
                write!(f, "{}", self.0)
            }
        }
    )* };
}
prints_its_number!(LifecycleId StreamId PpId);

/// How a message is sent. By default: in order, until it is acknowledged.
#[derive(Default)]
pub struct SendOptions {
    /// Whether the peer may deliver it out of order.
    pub unordered: bool,
    /// It is abandoned if it isn't acknowledged by then (RFC 3758).
    pub lifetime: Option<Duration>,
    /// It is abandoned if it would be sent again more often (RFC 3758).
    pub max_retransmissions: Option<u16>,
    /// Its name in events; `None`: no such events.
    pub lifecycle_id: Option<LifecycleId>,
}

/// A message, sent or received.
#[derive(Debug)]
pub struct Message {
    /// Its stream.
    pub stream_id: StreamId,
    /// What its bytes are.
    pub ppid: PpId,
    /// Its bytes.
    pub payload: Vec<u8>,
}

impl Message {
    /// A message of these.
    pub fn new(stream_id: StreamId, ppid: PpId, payload: Vec<u8>) -> Self {
        Message { stream_id, ppid, payload }
    }
}

/// The state of a socket.
#[derive(Debug, PartialEq)]
pub enum SocketState {
    /// There is no association.
    Closed,
    /// The handshake isn't over.
    Connecting,
    /// There is one.
    Connected,
    /// It is being shut down.
    ShuttingDown,
}

/// Which program the peer runs, by its cookie.
#[derive(Clone, Copy, Debug, PartialEq)]
pub enum SctpImplementation {
    /// Its cookie doesn't show it, or it sent no INIT ACK.
    Unknown,
    /// This library, or dcSCTP in Rust.
    DcsctpRs,
    /// dcSCTP in C++.
    DcsctpCc,
    /// usrsctp.
    UsrSctp,
    /// Another one.
    Other,
}

/// Counts since the socket was created, and the present state of the association.
pub struct Metrics {
    /// Packets sent.
    pub tx_packets_count: usize,
    /// Messages that `send` accepted.
    pub tx_messages_count: usize,
    /// Packets with chunks that were sent again.
    pub rtx_packets_count: usize,
    /// Bytes of chunks sent again, with headers and padding.
    pub rtx_bytes_count: u64,
    /// The congestion window.
    pub cwnd_bytes: usize,
    /// The smoothed round trip time.
    pub srtt: Duration,
    /// Chunks in flight, and those of queued messages.
    pub unack_data_count: usize,
    /// Packets handed in, readable or not.
    pub rx_packets_count: usize,
    /// Messages that became ready.
    pub rx_messages_count: usize,
    /// The peer's window, less data in flight.
    pub peer_rwnd_bytes: u32,
    /// Which program the peer runs.
    pub peer_implementation: SctpImplementation,
    /// Whether messages are interleaved.
    pub uses_message_interleaving: bool,
    /// Whether the checksum may be left out.
    pub uses_zero_checksum: bool,
    /// The peer uses streams below this.
    pub negotiated_maximum_incoming_streams: u16,
    /// Use streams below this in `send`.
    pub negotiated_maximum_outgoing_streams: u16,
}
