//! The public names of the crate dcsctp 0.1.16, called upstream below, over this library. A program that was written for
//! upstream needs no edit.
//!
//! ```
//! use dcsctp::api::{DcSctpSocket, Message, Options, PpId, SendOptions, Socket, SocketEvent, StreamId};
//!
//! // Takes all events of a socket. Its packets go to the other one; in a program, to the peer.
//! fn carry(from: &mut Socket, to: &mut Socket) {
//!     while let Some(event) = from.poll_event() {
//!         if let SocketEvent::SendPacket(packet) = event {
//!             to.handle_input(&packet);
//!         }
//!     }
//! }
//!
//! let mut a = Socket::new("a", &Options::default());
//! let mut b = Socket::new("b", &Options::default());
//! a.connect();
//! a.send(Message::new(StreamId(1), PpId(51), b"hello".to_vec()), &SendOptions::default()).unwrap();
//! for _ in 0..4 {
//!     carry(&mut a, &mut b);
//!     carry(&mut b, &mut a);
//! }
//! assert_eq!(b.get_next_message().unwrap().payload, b"hello");
//! ```
//!
//! `docs/guide/from-rust-dcsctp.md` shows how a program gets it, and gives reasons for what differs.
//!
//! # The feature `follow_rfc`
//!
//! Without it a socket behaves as upstream's. With it, the socket keeps rules of the RFCs that upstream doesn't:
//! `dcsctp.h` lists them. The defaults stay upstream's. Those of `dcsctp.h` differ in three: 3 s as
//! `max_timer_backoff_duration`, and 60 as `max_retransmissions` and `max_init_retransmits`.
//!
//! # What differs from upstream
//!
//! | Where | Upstream | Here |
//! |---|---|---|
//! | target | any that Rust has | Linux with glibc on x86-64-v2 |
//! | `Socket::new` | can't fail | panics if `/dev/urandom` can't be read, or if the library has another version |
//! | the name of a socket | is logged, as events and packets are | has no effect: nothing is logged; `trace` makes lines of packets for your log |
//! | out of memory | ends the process | ends it by `handle_alloc_error`, also where the library can't allocate |
//! | `mtu` below 32 or above 65,535 | is taken | counts as 32 or 65,535 |
//! | `max_receiver_window_buffer_size` and `max_send_buffer_size` above 2^32 - 1 | are taken | count as 2^32 - 1 |
//! | `avoid_fragmentation_cwnd_mtus` | avoids short fragments | has no effect |
//! | `immediate_sack_under_cwnd_mtus` | asks the peer for SACKs at once | has no effect |
//! | a state that no socket gave, in `restore_from_state` | is taken, or panics | panics |
//! | the age of a cookie | isn't limited | with `follow_rfc`, 60 s |
//! | `Socket` | stays in its thread | is `Send` |
//!
//! `options` returns each option as it was set. `docs/design/differences.md` has a row for each difference in packets and
//! events.
//!
//! The library below is proved, unless it was built without proofs. This crate is tested, not proved.
#![forbid(unsafe_code)]

pub mod api;
mod convert;
mod snapshot;
mod socket;

/// Packets as lines of a log. Upstream has no such module.
pub use dcsctp_socket::trace;
