//! What is left of an association that has ended: counts, messages that are ready, and its snapshot. Also the tag of an
//! association, which is gone then.

use dcsctp_socket::{random_seed, Counts, Error, Event, Options, SendOptions, Socket, State};
use std::time::Duration;

/// Past a minute, as `restore_from_state` wants it.
const NOW: Duration = Duration::from_secs(3600);

fn socket(options: &Options) -> Socket {
    Socket::new(options, &random_seed().expect("a seed"), NOW).expect("a socket")
}

/// Takes all events of a socket. Its packets go to the other one. Returns how many there were.
fn carry(from: &mut Socket, to: &mut Socket) -> usize {
    let mut packets = 0;
    for event in from.events() {
        if let Event::SendPacket(packet) = event {
            to.handle_input(&packet).expect("a packet");
            packets += 1;
        }
    }
    packets
}

/// Carries packets both ways until none is left. Returns how many each has sent.
fn settle(a: &mut Socket, b: &mut Socket) -> (usize, usize) {
    let (mut of_a, mut of_b) = (0, 0);
    loop {
        let (more_of_a, more_of_b) = (carry(a, b), carry(b, a));
        (of_a, of_b) = (of_a + more_of_a, of_b + more_of_b);
        if more_of_a + more_of_b == 0 {
            return (of_a, of_b);
        }
    }
}

fn connected(options: &Options) -> [Socket; 2] {
    let [mut a, mut b] = [socket(options), socket(options)];
    a.connect().expect("connect");
    // INIT and COOKIE ECHO; INIT ACK and COOKIE ACK (RFC 9260, section 5.1)
    assert_eq!(settle(&mut a, &mut b), (2, 2));
    [a, b]
}

fn send(socket: &mut Socket, text: &str) {
    socket.send(1, 51, text.as_bytes(), &SendOptions::default()).expect("send");
}

#[test]
fn events_and_messages_that_an_iterator_leaves_are_still_there() {
    let [mut a, mut b] = connected(&Options::default());
    assert_eq!((a.events().count(), b.messages().count()), (0, 0));
    for text in ["one", "two", "three"] {
        send(&mut a, text);
    }
    settle(&mut a, &mut b);
    assert_eq!(b.messages().next().map(|it| it.payload), Some(b"one".to_vec()));
    assert_eq!(b.messages_ready_count(), 2);
    let left: Vec<_> =
        b.messages().map(|it| String::from_utf8_lossy(&it.payload).into_owned()).collect();
    assert_eq!(left, ["two", "three"]);
    b.close().expect("close");
    assert!(matches!(b.events().next(), Some(Event::SendPacket(_))));
    assert_eq!(b.events().collect::<Vec<_>>(), [Event::Closed]);
}

#[test]
fn counts_outlast_their_association() {
    assert_eq!(socket(&Options::default()).counts(), Counts::default());
    let [mut a, mut b] = connected(&Options::default());
    for _ in 0..3 {
        send(&mut a, "hello");
    }
    let mut sent = settle(&mut a, &mut b);
    a.close().expect("close");
    let last = settle(&mut a, &mut b);
    sent = (2 + sent.0 + last.0, 2 + sent.1 + last.1);
    assert_eq!((a.metrics(), b.metrics(), b.state()), (None, None, State::Closed));
    let expected = |tx_packets_count, rx_packets_count, tx_messages_count| Counts {
        tx_packets_count,
        rx_packets_count,
        tx_messages_count,
    };
    assert_eq!(a.counts(), expected(sent.0, sent.1, 3));
    assert_eq!(b.counts(), expected(sent.1, sent.0, 0));
}

#[test]
fn verification_tag_is_that_of_the_packets_of_the_peer() {
    assert_eq!(socket(&Options::default()).verification_tag(), 0);
    let mut ends = connected(&Options::default());
    for from in [0, 1] {
        send(&mut ends[from], "hello");
        let packet = ends[from].events().find_map(|it| match it {
            Event::SendPacket(packet) => Some(packet),
            _ => None,
        });
        // (RFC 9260, section 3.1)
        let tag = ends[1 - from].verification_tag();
        assert_eq!(packet.expect("a packet")[4..8], tag.to_be_bytes());
        assert_ne!(tag, 0);
    }
    ends[0].close().expect("close");
    assert_eq!(ends[0].verification_tag(), 0);
}

#[test]
fn checksums_are_left_to_who_makes_them() {
    let [mut a, mut b] = connected(&Options { checksum_offload: true, ..Default::default() });
    send(&mut a, "hello");
    for event in a.events() {
        if let Event::SendPacket(mut packet) = event {
            assert_eq!(packet[8..12], [0; 4]); // RFC 9260, section 3.1
            packet[8] = 1;
            b.handle_input(&packet).expect("a packet");
        }
    }
    assert_eq!(b.messages().next().map(|it| it.payload), Some(b"hello".to_vec()));
    assert!(a.options().checksum_offload);
}

#[test]
fn message_outlasts_its_association_by_follow_rfc() {
    for follow_rfc in [true, false] {
        let [mut a, mut b] = connected(&Options { follow_rfc, ..Default::default() });
        send(&mut a, "hello");
        send(&mut a, "good bye");
        a.close().expect("close");
        settle(&mut a, &mut b);
        assert_eq!(b.state(), State::Closed);
        let taken: Vec<_> =
            std::iter::from_fn(|| b.get_next_message()).map(|it| it.payload).collect();
        let expected: [&[u8]; 2] = [b"hello", b"good bye"];
        assert_eq!(taken, if follow_rfc { &expected[..] } else { &[] }, "{follow_rfc}");
    }
}

#[test]
fn message_is_lost_when_the_next_association_begins() {
    let [mut a, mut b] = connected(&Options::default());
    send(&mut a, "hello");
    a.close().expect("close");
    settle(&mut a, &mut b);
    assert_eq!((b.state(), b.messages_ready_count()), (State::Closed, 1));
    a.connect().expect("connect");
    settle(&mut a, &mut b);
    assert_eq!((b.state(), b.get_next_message()), (State::Connected, None));
}

#[test]
fn seed_of_zeros_is_refused() {
    let created = |seed: [u8; 32]| Socket::new(&Options::default(), &seed, NOW).map(drop);
    assert_eq!(created([0; 32]), Err(Error::InvalidOptions));
    for at in 0..32 {
        let mut seed = [0; 32];
        seed[at] = 1;
        assert_eq!(created(seed), Ok(()));
    }
}

#[test]
fn snapshot_is_for_the_options_that_it_was_made_with() {
    let usual = Options::default();
    let [mut a, mut b] = connected(&usual);
    let snapshot = a.get_handover_state_and_close().expect("a snapshot");
    let rows = [
        ("local port", Options { local_port: 5001, ..usual }),
        ("remote port", Options { remote_port: 5001, ..usual }),
        ("incoming", Options { announced_maximum_incoming_streams: 9, ..usual }),
        ("outgoing", Options { announced_maximum_outgoing_streams: 9, ..usual }),
        ("reliability", Options { enable_partial_reliability: false, ..usual }),
        ("interleaving", Options { enable_message_interleaving: true, ..usual }),
        ("checksums", Options { zero_checksum_method: 1, ..usual }),
    ];
    for (name, options) in rows {
        let mut other = socket(&options);
        assert_eq!(other.restore_from_state(&snapshot), Err(Error::OtherOptions), "{name}");
        assert_eq!((other.state(), other.poll_event()), (State::Closed, None), "{name}");
    }
    let mut same = socket(&Options { max_message_size: 1000, ..usual });
    for place in [0, snapshot.len() / 2, snapshot.len() - 1] {
        let mut changed = snapshot.clone();
        changed[place] ^= 1;
        assert_eq!(same.restore_from_state(&changed), Err(Error::InvalidSnapshot), "{place}");
    }
    assert_eq!(same.restore_from_state(&snapshot), Ok(()));
    send(&mut same, "after");
    settle(&mut same, &mut b);
    assert_eq!(b.get_next_message().expect("a message").payload, b"after");
}
