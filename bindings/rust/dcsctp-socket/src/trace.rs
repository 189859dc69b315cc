//! Packets as text, a line each, for a log. It is the text of `dcsctp_trace_line` in `examples/c/trace.c`, and
//! `trace.h` says how to read it.
//!
//! ```
//! use dcsctp_socket::trace::{trace_line, Direction};
//! use dcsctp_socket::{random_seed, Event, Options, Socket};
//! use std::time::Duration;
//!
//! let now = Duration::from_millis(12_045);
//! let mut socket = Socket::new(&Options::default(), &random_seed().unwrap(), now).unwrap();
//! socket.connect().unwrap();
//! let Some(Event::SendPacket(packet)) = socket.poll_event() else { panic!("no packet") };
//! let line = trace_line(Direction::Sent, now, &packet);
//! assert!(line.starts_with("12.045000000 sent 5000>5000 tag=0x00000000 INIT tag=0x"));
//! ```
//!
//! With the crate `log`, write
//!
//! ```text
//! log::trace!("{}", trace_line(Direction::Sent, now, &packet));
//! ```
//!
//! No text is made then unless that level is logged.
#![forbid(unsafe_code)]

mod chunks;
mod items;
mod parameters;

use items::{after, put_rest, take, u16_at, u32_at, u8_at, HEAD};
use std::fmt::{self, Display, Formatter, Write};
use std::time::Duration;

/// Which way a packet goes.
#[derive(Clone, Copy, Debug, PartialEq, Eq, Hash)]
pub enum Direction {
    /// From this end to its peer.
    Sent,
    /// From the peer.
    Received,
}

/// A line for a log, without a newline: the moment in seconds with nine decimals, `sent` or `received`, and what
/// `trace_packet` returns.
pub fn trace_line(direction: Direction, moment: Duration, packet: &[u8]) -> String {
    let name = match direction {
        Direction::Sent => "sent",
        Direction::Received => "received",
    };
    format!("{}.{:09} {name} {}", moment.as_secs(), moment.subsec_nanos(), Packet(packet))
}

/// What a packet has, as one line: ports, verification tag, and all chunks. It may have any bytes. What can't be read
/// as the RFCs say has "malformed" after it.
pub fn trace_packet(packet: &[u8]) -> String {
    Packet(packet).to_string()
}

/// Bytes of a packet before its chunks.
const COMMON_HEADER: usize = 12;

struct Packet<'a>(&'a [u8]);

impl Display for Packet<'_> {
    fn fmt(&self, to: &mut Formatter) -> fmt::Result {
        if self.0.len() < COMMON_HEADER {
            return write!(to, "malformed: {} bytes", self.0.len());
        }
        put_header(to, self.0)?;
        let (mut rest, mut before) = (after(self.0, COMMON_HEADER), " ");
        while let Some(chunk) = take(&mut rest) {
            let number = u8_at(chunk, 0);
            write!(to, "{before}{}", chunks::name_of(number))?;
            chunks::CHUNKS.put_fields(to, number, chunk)?;
            put_flags(to, chunks::letters_of(number), u8_at(chunk, 1))?;
            before = "; ";
        }
        if rest.len() >= HEAD {
            write!(to, "{before}{}", chunks::name_of(u8_at(rest, 0)))?;
        }
        put_rest(to, rest)?;
        if rest.is_empty() && self.0.len() % 4 != 0 {
            to.write_str(" malformed: no padding")?;
        }
        Ok(())
    }
}

fn put_header(to: &mut Formatter, packet: &[u8]) -> fmt::Result {
    let [source, destination] = [0, 2].map(|at| u16_at(packet, at));
    write!(to, "{source}>{destination} tag={:#010x}", u32_at(packet, 4))?;
    // (the one number that is little endian)
    match u32_at(packet, 8).swap_bytes() {
        sum if sum == checksum_of(packet) => Ok(()),
        0 => to.write_str(" checksum=zero"),
        _ => to.write_str(" checksum=wrong"),
    }
}

/// CRC32c of a packet whose checksum counts as zero (RFC 9260, section 6.8 and appendix A).
fn checksum_of(packet: &[u8]) -> u32 {
    let mut crc = u32::MAX;
    for (at, byte) in packet.iter().enumerate() {
        if !(8..COMMON_HEADER).contains(&at) {
            crc ^= u32::from(*byte);
        }
        for _ in 0..8 {
            crc = crc >> 1 ^ if crc & 1 == 1 { 0x82f6_3b78 } else { 0 };
        }
    }
    !crc
}

/// The flags that are set: letters from the highest bit on, and a number for those without one. `letters` has them from
/// bit 0 on.
fn put_flags(to: &mut Formatter, letters: &str, flags: u32) -> fmt::Result {
    let known = flags & ((1 << letters.len()) - 1);
    if flags != 0 {
        to.write_str(" flags=")?;
    }
    for (_, letter) in letters.char_indices().rev().filter(|(bit, _)| known >> bit & 1 == 1) {
        to.write_char(letter)?;
    }
    if flags != known {
        write!(to, "{}{:#04x}", if known != 0 { "+" } else { "" }, flags - known)?;
    }
    Ok(())
}
