//! Messages, and how they are sent.

use crate::options::nanoseconds;
use dcsctp_sys as sys;
use std::time::Duration;

/// A message that has arrived.
#[derive(Clone, Debug, PartialEq, Eq)]
pub struct Message {
    /// Its stream.
    pub stream_id: u16,
    /// The payload protocol identifier (RFC 8831, section 8).
    pub ppid: u32,
    /// Its bytes, at least one.
    pub payload: Vec<u8>,
}

/// A message of `Socket::send_many`.
#[derive(Clone, Copy, Debug, PartialEq, Eq)]
pub struct OutgoingMessage<'a> {
    /// Its stream.
    pub stream_id: u16,
    /// The payload protocol identifier (RFC 8831, section 8).
    pub ppid: u32,
    /// Its bytes, which are copied.
    pub payload: &'a [u8],
}

/// How a message is sent. By default: in order, until it is acknowledged.
///
/// ```
/// let how = dcsctp_socket::SendOptions::default().unordered().max_retransmissions(0);
/// assert_eq!(how.max_retransmissions, Some(0));
/// ```
#[derive(Clone, Copy, Debug, Default, PartialEq, Eq)]
pub struct SendOptions {
    /// Its name in `Event::Lifecycle..`; 0: no such events.
    pub lifecycle_id: u64,
    /// Whether the peer may deliver it out of order.
    pub unordered: bool,
    /// It is abandoned if it isn't acknowledged by then. It needs partial reliability at both ends, as the next one
    /// does.
    pub lifetime: Option<Duration>,
    /// It is abandoned if it would be sent again more often.
    pub max_retransmissions: Option<u16>,
}

impl SendOptions {
    /// Sets its name in `Event::Lifecycle..`.
    pub fn lifecycle_id(self, lifecycle_id: u64) -> SendOptions {
        SendOptions { lifecycle_id, ..self }
    }

    /// The peer may deliver it out of order.
    pub fn unordered(self) -> SendOptions {
        SendOptions { unordered: true, ..self }
    }

    /// It is abandoned if it isn't acknowledged by then.
    pub fn lifetime(self, lifetime: Duration) -> SendOptions {
        SendOptions { lifetime: Some(lifetime), ..self }
    }

    /// It is abandoned if it would be sent again more often.
    pub fn max_retransmissions(self, count: u16) -> SendOptions {
        SendOptions { max_retransmissions: Some(count), ..self }
    }

    /// The options as `dcsctp.h` has them.
    pub(crate) fn to_sys(self) -> sys::dcsctp_send_options {
        let flag = |is_set, flag| if is_set { flag } else { 0 };
        sys::dcsctp_send_options {
            lifecycle_id: self.lifecycle_id,
            lifetime: self.lifetime.map_or(0, nanoseconds),
            flags: flag(self.unordered, sys::DCSCTP_SEND_UNORDERED)
                | flag(self.lifetime.is_some(), sys::DCSCTP_SEND_LIFETIME)
                | flag(self.max_retransmissions.is_some(), sys::DCSCTP_SEND_MAX_RETRANSMISSIONS),
            max_retransmissions: self.max_retransmissions.unwrap_or(0),
            reserved: 0,
        }
    }
}

#[cfg(test)]
mod tests {
    use super::*;

    #[test]
    fn each_option_sets_its_field_and_flag() {
        let plain = SendOptions::default();
        let none = sys::DCSCTP_SEND_INIT;
        let long = Duration::from_millis(5);
        let rows = [
            ("plain", plain, none),
            ("a name", plain.lifecycle_id(7), sys::dcsctp_send_options { lifecycle_id: 7, ..none }),
            ("unordered", plain.unordered(), sys::dcsctp_send_options { flags: 1, ..none }),
            (
                "a lifetime",
                plain.lifetime(long),
                sys::dcsctp_send_options { lifetime: 5_000_000, flags: 2, ..none },
            ),
            (
                "a count",
                plain.max_retransmissions(9),
                sys::dcsctp_send_options { max_retransmissions: 9, flags: 4, ..none },
            ),
            (
                "all",
                plain.unordered().lifetime(Duration::ZERO).max_retransmissions(0),
                sys::dcsctp_send_options { flags: 7, ..none },
            ),
        ];
        for (name, options, expected) in rows {
            assert_eq!(options.to_sys(), expected, "{name}");
        }
    }
}
