//! The struct of `api::handover` from the bytes of a snapshot that the library takes, and back.
//!
//! Numbers are big-endian. A flag is a byte. An optional number is a flag, and the number if the flag is 1. A list is a
//! count of 8 bytes and its elements; so is a payload. The format is that of one version of the library, and no other
//! one is linked.

use crate::api::handover::*;
use crate::api::Options;

const MAGIC: u32 = u32::from_be_bytes(*b"dcSn");

/// The version of the format: 2 where several messages are under way, else 1.
fn version_of(state: &SocketHandoverState) -> u16 {
    let under_way = state.tx.queued_messages.iter().filter(|it| it.remaining_offset > 0);
    if under_way.count() > 1 { 2 } else { 1 }
}

/// The bytes after the snapshot: the options that must be the same, and a check value.
const SEAL: usize = 18;

/// The bytes of a snapshot, which a socket with these options takes.
pub(crate) fn to_bytes(state: &SocketHandoverState, options: &Options) -> Vec<u8> {
    let mut out = Vec::new();
    MAGIC.write(&mut out);
    version_of(state).write(&mut out);
    state.socket_state.write(&mut out);
    state.my_verification_tag.write(&mut out);
    state.my_initial_tsn.write(&mut out);
    state.peer_verification_tag.write(&mut out);
    state.peer_initial_tsn.write(&mut out);
    state.tie_tag.write(&mut out);
    // (upstream continues with checksums if these options have no method; the library would refuse the bytes)
    let method = options.zero_checksum_alternate_error_detection_method.0;
    let zero_checksum = state.capabilities.zero_checksum && method != 0;
    HandoverCapabilities { zero_checksum, ..state.capabilities }.write(&mut out);
    state.tx.write(&mut out);
    state.rx.write(&mut out);
    // (upstream compares no options, so the seal has those of the socket that continues)
    options.local_port.write(&mut out);
    options.remote_port.write(&mut out);
    options.announced_maximum_incoming_streams.write(&mut out);
    options.announced_maximum_outgoing_streams.write(&mut out);
    options.enable_partial_reliability.write(&mut out);
    options.enable_message_interleaving.write(&mut out);
    method.write(&mut out);
    crc32c(&out).write(&mut out);
    out
}

/// The snapshot of bytes that the library has written.
pub(crate) fn from_bytes(bytes: &[u8]) -> SocketHandoverState {
    let mut rest = &bytes[..bytes.len() - SEAL];
    let from = &mut rest;
    assert_eq!(u32::read(from), MAGIC, "another format");
    let version = u16::read(from);
    // (the fields are read in this order)
    let state = SocketHandoverState {
        socket_state: HandoverSocketState::read(from),
        my_verification_tag: u32::read(from),
        my_initial_tsn: u32::read(from),
        peer_verification_tag: u32::read(from),
        peer_initial_tsn: u32::read(from),
        tie_tag: u64::read(from),
        capabilities: HandoverCapabilities::read(from),
        tx: HandoverTransmission::read(from),
        rx: HandoverReceive::read(from),
    };
    assert!(rest.is_empty() && version == version_of(&state), "another format");
    state
}

/// CRC32c (RFC 9260, appendix A), a bit at a time.
fn crc32c(bytes: &[u8]) -> u32 {
    let mut crc = !0u32;
    for byte in bytes {
        crc ^= u32::from(*byte);
        for _ in 0..8 {
            crc = (crc >> 1) ^ (0x82f6_3b78 & (crc & 1).wrapping_neg());
        }
    }
    !crc
}

/// A part of a snapshot.
trait Field {
    fn write(&self, out: &mut Vec<u8>);

    /// It takes its bytes from the front.
    fn read(from: &mut &[u8]) -> Self;
}

macro_rules! numbers {
    ($($number:ty)*) => { $(
        impl Field for $number {
            fn write(&self, out: &mut Vec<u8>) {
                out.extend(self.to_be_bytes())
            }

            fn read(from: &mut &[u8]) -> Self {
                let (front, rest) = from.split_first_chunk().expect("the whole snapshot");
                *from = rest;
                <$number>::from_be_bytes(*front)
            }
        }
    )* };
}
numbers! { u8 u16 u32 u64 i32 }

impl Field for bool {
    fn write(&self, out: &mut Vec<u8>) {
        u8::from(*self).write(out)
    }

    fn read(from: &mut &[u8]) -> Self {
        u8::read(from) != 0
    }
}

impl Field for usize {
    fn write(&self, out: &mut Vec<u8>) {
        (*self as u64).write(out)
    }

    fn read(from: &mut &[u8]) -> Self {
        u64::read(from) as usize
    }
}

impl<T: Field> Field for Option<T> {
    fn write(&self, out: &mut Vec<u8>) {
        self.is_some().write(out);
        self.iter().for_each(|it| it.write(out))
    }

    fn read(from: &mut &[u8]) -> Self {
        bool::read(from).then(|| T::read(from))
    }
}

impl<T: Field> Field for Vec<T> {
    fn write(&self, out: &mut Vec<u8>) {
        self.len().write(out);
        self.iter().for_each(|it| it.write(out))
    }

    fn read(from: &mut &[u8]) -> Self {
        (0..usize::read(from)).map(|_| T::read(from)).collect()
    }
}

impl Field for HandoverSocketState {
    fn write(&self, out: &mut Vec<u8>) {
        matches!(self, HandoverSocketState::Connected).write(out)
    }

    fn read(from: &mut &[u8]) -> Self {
        if bool::read(from) {
            HandoverSocketState::Connected
        } else {
            HandoverSocketState::Closed
        }
    }
}

/// A struct is its fields, in this order.
macro_rules! structs {
    ($($name:ident { $($field:ident)* })*) => { $(
        impl Field for $name {
            fn write(&self, out: &mut Vec<u8>) {
                $(self.$field.write(out);)*
            }

            fn read(from: &mut &[u8]) -> Self {
                $name { $($field: Field::read(from)),* }
            }
        }
    )* };
}

structs! {
    HandoverCapabilities {
        partial_reliability message_interleaving reconfig zero_checksum
        negotiated_maximum_incoming_streams negotiated_maximum_outgoing_streams
    }
    HandoverTransmission {
        next_tsn next_reset_req_sn cwnd rwnd ssthresh partial_bytes_acked last_cumulative_tsn_ack
        next_outgoing_message_id streams queued_messages outstanding_data
    }
    HandoverOutgoingStream { id next_ssn next_unordered_mid next_ordered_mid priority }
    HandoverStreamMessage {
        stream_id ppid payload unordered expires_in_ms max_retransmissions lifecycle_id message_id
        remaining_offset mid ssn fsn
    }
    HandoverOutstandingData {
        stream_id ssn mid fsn ppid payload is_beginning is_end is_unordered message_id lifecycle_id
        expires_in_ms max_retransmissions retransmission_count time_since_sent_ms acked
        is_abandoned is_nacked is_to_be_retransmitted
    }
    HandoverReceive {
        seen_packet last_cumulative_acked_tsn last_assembled_tsn
        last_completed_deferred_reset_req_sn last_completed_reset_req_sn ordered_streams
        unordered_streams
    }
    HandoverOrderedStream { id next_ssn }
    HandoverUnorderedStream { id }
}

#[cfg(test)]
mod tests {
    use super::*;
    use crate::api::{DcSctpSocket, Message, PpId, SendOptions, Socket, SocketEvent, StreamId};

    fn carry(from: &mut Socket, to: &mut Socket) {
        while let Some(event) = from.poll_event() {
            if let SocketEvent::SendPacket(packet) = event {
                to.handle_input(&packet)
            }
        }
    }

    #[test]
    fn the_check_value_is_that_of_the_standard() {
        assert_eq!(crc32c(b"123456789"), 0xe306_9283);
    }

    #[test]
    fn bytes_of_a_snapshot_are_written_as_they_were_read() {
        let options = Options { enable_handover_with_outstanding_data: true, ..Default::default() };
        let (mut a, mut b) = (Socket::new("a", &options), Socket::new("b", &options));
        a.connect();
        for _ in 0..3 {
            carry(&mut a, &mut b);
            carry(&mut b, &mut a);
        }
        for n in 1..100 {
            let message = Message::new(StreamId(n % 5), PpId(53), vec![1; 1000]);
            let how = SendOptions { unordered: n % 2 == 0, ..Default::default() };
            a.send(message, &how).expect("a message");
            b.send(Message::new(StreamId(n), PpId(53), vec![1]), &how).expect("a message");
            if n == 50 {
                carry(&mut b, &mut a);
            }
        }
        let state = a.get_handover_state_and_close().expect("a snapshot");
        assert!(!state.tx.queued_messages.is_empty());
        assert!(!state.tx.outstanding_data.is_empty());
        assert!(!state.rx.ordered_streams.is_empty());
        let bytes = to_bytes(&state, &options);
        assert_eq!(to_bytes(&from_bytes(&bytes), &options), bytes);
    }
}
