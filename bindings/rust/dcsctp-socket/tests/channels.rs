//! Data channels between two ends, with and without `follow_rfc`.

use dcsctp_socket::{
    Channel, ChannelEnd, ChannelEvent, ChannelLimits, ChannelMetrics, ChannelOptions, ChannelState,
    Channels, Error, HandoverReadiness, Options, Reliability,
};
use std::time::Duration;

/// Two ends, the time, and what each has reported, but for packets and `BufferedAmountLow`. A is the DTLS client.
struct Pair {
    ends: [Channels; 2],
    events: [Vec<ChannelEvent>; 2],
    low: usize,
    now: Duration,
}

const A: usize = 0;
const B: usize = 1;

impl Pair {
    fn new(follow_rfc: bool, limits: ChannelLimits) -> Pair {
        let options = Options { follow_rfc, ..Default::default() };
        let of = |limits, seed| Channels::new(&options, &limits, &[seed; 32], Duration::ZERO);
        let mut b = of(ChannelLimits::default(), 2).expect("B");
        b.set_role(false).expect("a role");
        let ends = [of(limits, 1).expect("A"), b];
        Pair { ends, events: Default::default(), low: 0, now: Duration::ZERO }
    }

    fn connected(follow_rfc: bool, limits: ChannelLimits) -> Pair {
        let mut pair = Pair::new(follow_rfc, limits);
        pair.ends[A].set_role(true).expect("a role");
        pair.ends[A].connect().expect("connect");
        pair.settle();
        assert_eq!(pair.take(A), [ChannelEvent::Connected]);
        assert_eq!(pair.take(B), [ChannelEvent::Connected]);
        pair
    }

    fn carry(&mut self, from: usize) -> usize {
        let mut packets = 0;
        while let Some(event) = self.ends[from].poll_event().expect("an event") {
            match event {
                ChannelEvent::SendPacket(packet) => {
                    self.ends[1 - from].handle_input(&packet).expect("a packet");
                    packets += 1;
                }
                ChannelEvent::BufferedAmountLow(_) => self.low += 1,
                ChannelEvent::Unknown(kind) => panic!("an event of kind {kind}"),
                event => self.events[from].push(event),
            }
        }
        packets
    }

    /// Lets a second pass, so that all is acknowledged.
    fn settle(&mut self) {
        for _ in 0..10 {
            while self.carry(A) + self.carry(B) > 0 {}
            self.now += Duration::from_millis(100);
            for end in &mut self.ends {
                end.advance_time(self.now).expect("time");
            }
        }
    }

    /// What an end has reported since the last time.
    fn take(&mut self, end: usize) -> Vec<ChannelEvent> {
        std::mem::take(&mut self.events[end])
    }

    /// A channel that A opens, at both ends.
    fn opened(&mut self, options: &ChannelOptions) -> [Channel; 2] {
        let of_a = self.ends[A].open(options).expect("a channel");
        self.settle();
        assert_eq!(self.take(A), [ChannelEvent::Opened(of_a)]);
        let at_b = self.take(B);
        let [ChannelEvent::Incoming(of_b, there)] = at_b.as_slice() else {
            panic!("{at_b:?}");
        };
        assert_eq!(there, options);
        [of_a, *of_b]
    }
}

/// A test of two ends that are connected, with and without `follow_rfc`.
fn each(test: impl Fn(&mut Pair)) {
    for follow_rfc in [true, false] {
        test(&mut Pair::connected(follow_rfc, ChannelLimits::default()));
    }
}

#[test]
fn channel_is_at_the_peer_as_it_was_opened() {
    let lifetime = Reliability::Lifetime(Duration::from_millis(66051));
    let rows = [
        ChannelOptions::default(),
        ChannelOptions::new("chat").protocol("grüße").unordered().priority(128),
        ChannelOptions::new("a\0b").reliability(Reliability::Retransmissions(u32::MAX)),
        ChannelOptions::new("").unordered().reliability(lifetime).priority(1024),
    ];
    each(|pair| {
        for (index, options) in rows.iter().enumerate() {
            let channels = pair.opened(options);
            for (end, channel) in pair.ends.iter().zip(channels) {
                assert_eq!(end.stream_of(channel), Some(2 * index as u16), "RFC 8832, section 6");
                assert_eq!(end.state_of(channel), ChannelState::Open);
                assert_eq!(end.streams_in_use(), index + 1);
            }
        }
    });
}

#[test]
fn channels_go_on_after_a_handover() {
    each(|pair| {
        let [of_a, of_b] = pair.opened(&ChannelOptions::new("chat"));
        assert!(pair.ends[A].handover_readiness().is_ready());
        let snapshot = pair.ends[A].get_handover_state_and_close().expect("a snapshot");
        pair.carry(A);
        assert_eq!(pair.take(A), [ChannelEvent::Ended]);
        let reasons = pair.ends[A].handover_readiness();
        assert_eq!(reasons.0, HandoverReadiness::WRONG_CONNECTION_STATE);
        let options = pair.ends[A].options();
        pair.now += Duration::from_secs(60);
        pair.ends[A] =
            Channels::new(&options, &ChannelLimits::default(), &[3; 32], pair.now).expect("A");
        pair.ends[A].restore_from_state(&snapshot).expect("restored");
        let again = Channel::with_number(of_a.number());
        assert_eq!(pair.ends[A].state_of(again), ChannelState::Open);
        pair.ends[B].send_text(of_b, "back").expect("text");
        pair.settle();
        let back = ChannelEvent::Text(again, "back".into());
        assert_eq!(pair.take(A), [ChannelEvent::Connected, back]);
        let [later, _] = pair.opened(&ChannelOptions::default());
        assert!(later > of_a);
        assert_eq!(pair.ends[A].restore_from_state(&snapshot), Err(Error::NotClosed));
    });
}

#[test]
fn text_and_bytes_come_back() {
    each(|pair| {
        let [of_a, of_b] = pair.opened(&ChannelOptions::new("chat"));
        let long = "x".repeat(70000);
        let texts = ["hello", "grüße ∞", "", "a\0b", &long];
        for text in texts {
            pair.ends[A].send_text(of_a, text).expect("text");
            pair.ends[A].send_binary(of_a, text.as_bytes()).expect("bytes");
            pair.settle();
            let bytes = ChannelEvent::Binary(of_b, text.into());
            assert_eq!(pair.take(B), [ChannelEvent::Text(of_b, text.into()), bytes]);
        }
        pair.ends[B].send_binary(of_b, b"").expect("nothing");
        pair.settle();
        assert_eq!(pair.take(A), [ChannelEvent::Binary(of_a, vec![])]);
        let bytes = 2 * texts.concat().len() as u64;
        let sent = ChannelMetrics {
            messages_sent: 10,
            bytes_sent: bytes,
            messages_received: 1,
            ..Default::default()
        };
        let received = ChannelMetrics {
            messages_received: 10,
            bytes_received: bytes,
            messages_sent: 1,
            ..Default::default()
        };
        assert_eq!(pair.ends[A].metrics_of(of_a), Some(sent));
        assert_eq!(pair.ends[B].metrics_of(of_b), Some(received));
    });
}

#[test]
fn either_end_closes_and_the_stream_is_used_again() {
    each(|pair| {
        let mut before = None;
        for closing in [&[A][..], &[B], &[A, B]] {
            let channels = pair.opened(&ChannelOptions::new("chat"));
            assert_eq!(pair.ends[A].stream_of(channels[A]), Some(0));
            assert_ne!(before, Some(channels[A]), "a number is never given twice");
            for &end in closing {
                pair.ends[end].close_channel(channels[end]).expect("close");
                assert_eq!(pair.ends[end].state_of(channels[end]), ChannelState::Closing);
            }
            pair.settle();
            for end in [A, B] {
                let closed = ChannelEvent::Closed(channels[end], ChannelEnd::ClosedByResets);
                assert_eq!(pair.take(end), [closed]);
                let it = &mut pair.ends[end];
                assert_eq!(it.send_text(channels[end], "late"), Err(Error::NoChannel));
                assert_eq!(
                    it.set_buffered_amount_low_threshold(channels[end], 1),
                    Err(Error::NoChannel)
                );
                assert_eq!(it.close_channel(channels[end]), Ok(()));
                assert_eq!(
                    (it.stream_of(channels[end]), it.metrics_of(channels[end])),
                    (None, None)
                );
                assert_eq!((it.buffered_amount(channels[end]), it.streams_in_use()), (0, 0));
                assert_eq!(it.state_of(channels[end]), ChannelState::Closed);
            }
            before = Some(channels[A]);
        }
    });
}

#[test]
fn negotiated_channel_needs_no_open() {
    each(|pair| {
        let agreed = ChannelOptions::new("agreed").negotiated(1000);
        let packets = pair.ends[A].counts().tx_packets_count;
        let of_a = pair.ends[A].open(&agreed).expect("A's");
        let of_b = pair.ends[B].open(&agreed).expect("B's");
        pair.settle();
        assert_eq!(pair.take(A), [ChannelEvent::Opened(of_a)]);
        assert_eq!(pair.take(B), [ChannelEvent::Opened(of_b)]);
        assert_eq!(pair.ends[A].counts().tx_packets_count, packets);
        assert_eq!(pair.ends[A].open(&agreed), Err(Error::StreamInUse));
        pair.ends[B].send_text(of_b, "hello").expect("text");
        pair.settle();
        assert_eq!(pair.take(A), [ChannelEvent::Text(of_a, "hello".into())]);
    });
}

#[test]
fn channel_waits_for_the_association_and_the_role() {
    for follow_rfc in [true, false] {
        let mut pair = Pair::new(follow_rfc, ChannelLimits::default());
        let early = pair.ends[A].open(&ChannelOptions::new("early")).expect("a channel");
        assert_eq!(pair.ends[A].send_text(early, "early"), Err(Error::NoChannel));
        pair.ends[A].connect().expect("connect");
        pair.settle();
        assert_eq!(pair.take(A), [ChannelEvent::Connected]);
        assert_eq!(pair.ends[A].state_of(early), ChannelState::Connecting);
        assert_eq!(pair.ends[A].stream_of(early), None);
        pair.ends[A].set_role(true).expect("a role");
        assert_eq!(pair.ends[A].state_of(early), ChannelState::Open);
        pair.settle();
        assert_eq!(pair.take(A), [ChannelEvent::Opened(early)]);
    }
}

#[test]
fn refused_calls_change_nothing() {
    let offload = Options { checksum_offload: true, ..Default::default() };
    let refused = Channels::new(&offload, &ChannelLimits::default(), &[1; 32], Duration::ZERO);
    assert_eq!(refused.map(drop), Err(Error::InvalidOptions));
    each(|pair| {
        let [of_a, _] = pair.opened(&ChannelOptions::default());
        pair.ends[A].set_max_message_size(4);
        assert_eq!(pair.ends[A].send_text(of_a, "hello"), Err(Error::MessageTooLarge));
        pair.ends[A].set_max_message_size(262_144);
        let long = "x".repeat(65536);
        for options in [ChannelOptions::new(&long), ChannelOptions::default().protocol(&long)] {
            assert_eq!(pair.ends[A].open(&options), Err(Error::MessageTooLarge));
        }
        pair.settle();
        assert_eq!((pair.take(A), pair.take(B)), (vec![], vec![]));
        pair.low = 0;
        pair.ends[A].set_buffered_amount_low_threshold(of_a, 8000).expect("a threshold");
        let full = (0..1000).find_map(|_| pair.ends[A].send_binary(of_a, &[0; 40000]).err());
        assert_eq!(full, Some(Error::ResourceExhaustion));
        assert!(pair.ends[A].buffered_amount(of_a) > 8000);
        pair.settle();
        assert_eq!((pair.low, pair.ends[A].buffered_amount(of_a)), (1, 0));
    });
}

#[test]
fn peer_is_limited() {
    let limits = ChannelLimits { max_message_size: 4, max_text: 4, max_channels: 1 };
    for follow_rfc in [true, false] {
        let mut pair = Pair::connected(follow_rfc, limits);
        for label in ["chatter", "chat", ""] {
            let channel = pair.ends[B].open(&ChannelOptions::new(label)).expect("a channel");
            pair.settle();
            if label == "chat" {
                assert_eq!(pair.take(B), [ChannelEvent::Opened(channel)]);
                pair.ends[B].send_text(channel, "long").expect("four bytes");
            } else {
                assert_eq!(pair.take(B), [ChannelEvent::Closed(channel, ChannelEnd::Refused)]);
            }
        }
        let at_a = pair.take(A);
        assert!(
            matches!(at_a[..], [ChannelEvent::Incoming(..), ChannelEvent::Text(..)]),
            "{at_a:?}"
        );
    }
}

#[test]
fn end_of_the_association_ends_each_channel_once() {
    for end in [Channels::close, Channels::shutdown] {
        each(|pair| {
            let channels = pair.opened(&ChannelOptions::default());
            end(&mut pair.ends[A]).expect("an end");
            pair.settle();
            for (at, channel) in channels.into_iter().enumerate() {
                let lost = ChannelEvent::Closed(channel, ChannelEnd::Lost);
                assert_eq!(pair.take(at), [lost, ChannelEvent::Ended]);
                assert_eq!(pair.ends[at].open(&ChannelOptions::default()), Err(Error::Ended));
            }
        });
    }
}
