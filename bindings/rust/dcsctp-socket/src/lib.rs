//! An SCTP association (RFC 9260) for WebRTC data channels, without system calls: you hand a socket the packets that
//! arrive, and the time. It hands you the packets to send, the messages that have arrived, and events.
//!
//! ```
//! use dcsctp_socket::{random_seed, Error, Event, Options, SendOptions, Socket};
//! use std::time::Duration;
//!
//! // Takes all events and messages of a socket. Its packets go to the other one; in a program, to the peer.
//! fn drain(from: &mut Socket, to: &mut Socket) -> Result<bool, Error> {
//!     let mut has_packets = false;
//!     for event in from.events() {
//!         if let Event::SendPacket(packet) = event {
//!             to.handle_input(&packet)?;
//!             has_packets = true;
//!         }
//!     }
//!     for message in from.messages() {
//!         println!("{}", String::from_utf8_lossy(&message.payload));
//!     }
//!     Ok(has_packets)
//! }
//!
//! fn main() -> Result<(), Box<dyn std::error::Error>> {
//!     let mut a = Socket::new(&Options::default(), &random_seed()?, Duration::ZERO)?;
//!     let mut b = Socket::new(&Options::default(), &random_seed()?, Duration::ZERO)?;
//!     a.connect()?;
//!     a.send(1, 51, b"hello", &SendOptions::default())?;
//!     while drain(&mut a, &mut b)? | drain(&mut b, &mut a)? {}
//!     assert_eq!(b.counts().rx_packets_count, 2); // INIT, then COOKIE ECHO with the message
//!     Ok(())
//! }
//! ```
//!
//! # The loop
//!
//! 1. Take all events (`events`), and send each packet to the peer. Take all messages (`messages`).
//! 2. Ask for the deadline (`poll_timeout`). Wait for a packet, or until then.
//! 3. Set the time (`advance_time`). Hand in one packet, if one has come (`handle_input`). Continue at 1.
//!
//! Each packet, time or command may add events and messages, and move the deadline. Take all messages before you hand
//! in the next packet: messages that are left when another association begins are lost.
//!
//! The loop ends at `Event::Aborted`, or 4 s after `Event::Closed`: until then the peer may need the last packet of the
//! shutdown again. Wait for `Event::Connected` before you call `shutdown`.
//!
//! `Channels` have data channels in place of messages.
//!
//! # Safety and memory
//!
//! No method panics, and none needs `unsafe`. If the library can't allocate, a call returns `Error::OutOfMemory`.
//! Packets, messages and lists are copied into `Vec`s; if that allocation fails, Rust aborts as usual.
//!
//! Run it over DTLS, or over another layer that delivers only what the peer has sent. The library is proved, unless
//! `version().is_proved` is false; this crate is tested. `docs/guide/c.md` of the repository says what is proved.

mod channel;
mod channels;
mod error;
mod event;
mod message;
mod options;
mod query;
mod socket;
pub mod trace;
mod version;

pub use channel::{
    Channel, ChannelEnd, ChannelEvent, ChannelLimits, ChannelMetrics, ChannelOptions, ChannelState,
    Reliability,
};
pub use channels::Channels;
pub use error::Error;
pub use event::{ErrorKind, Event};
pub use message::{Message, OutgoingMessage, SendOptions};
pub use options::Options;
pub use query::{Counts, HandoverReadiness, Metrics, Peer, State, Version};
pub use socket::Socket;
pub use version::{random_seed, version};
