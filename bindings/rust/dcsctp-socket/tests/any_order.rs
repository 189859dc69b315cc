//! Calls in any order, with any bytes: each returns, and no error comes that a `Socket` rules out.

use dcsctp_socket::{Error, Event, Options, OutgoingMessage, SendOptions, Socket, State};
use std::collections::VecDeque;
use std::time::Duration;

/// Numbers without a pattern, the same in each run.
struct Numbers(u64);

impl Numbers {
    fn next(&mut self, below: usize) -> usize {
        self.0 = self.0.wrapping_mul(6364136223846793005).wrapping_add(1442695040888963407);
        (self.0 >> 33) as usize % below
    }

    fn bytes(&mut self, limit: usize) -> Vec<u8> {
        (0..self.next(limit + 1)).map(|_| self.next(256) as u8).collect()
    }
}

/// Two sockets, a snapshot, the time, and what each call was answered.
struct World {
    sockets: [Socket; 2],
    packets: [VecDeque<Vec<u8>>; 2],
    snapshot: Vec<u8>,
    now: [Duration; 2],
    numbers: Numbers,
    follow_rfc: bool,
    messages: usize,
    errors: Vec<Error>,
}

fn socket(numbers: &mut Numbers, follow_rfc: bool) -> Socket {
    let options = Options {
        max_message_size: 3000,
        max_send_buffer_size: 9000,
        enable_handover_with_outstanding_data: true,
        follow_rfc,
        ..Default::default()
    };
    let seed = std::array::from_fn(|_| numbers.next(256) as u8);
    Socket::new(&options, &seed, Duration::ZERO).expect("a socket")
}

impl World {
    fn new(seed: u64, follow_rfc: bool) -> World {
        let mut numbers = Numbers(seed);
        World {
            sockets: [socket(&mut numbers, follow_rfc), socket(&mut numbers, follow_rfc)],
            packets: [VecDeque::new(), VecDeque::new()],
            snapshot: Vec::new(),
            now: [Duration::ZERO; 2],
            numbers,
            follow_rfc,
            messages: 0,
            errors: Vec::new(),
        }
    }

    fn recorded<T>(&mut self, result: Result<T, Error>) -> Option<T> {
        result.map_err(|error| self.errors.push(error)).ok()
    }

    fn send(&mut self, at: usize) {
        let how = SendOptions {
            lifecycle_id: self.numbers.next(3) as u64,
            unordered: self.numbers.next(2) == 0,
            lifetime: (self.numbers.next(4) == 0).then_some(Duration::from_millis(300)),
            max_retransmissions: (self.numbers.next(4) == 0).then_some(1),
        };
        let limit = [0, 10, 10, 3300][self.numbers.next(4)];
        let payload = self.numbers.bytes(limit);
        let stream_id = self.numbers.next(3) as u16;
        if self.numbers.next(3) > 0 {
            let result = self.sockets[at].send(stream_id, 51, &payload, &how);
            self.recorded(result);
            return;
        }
        let outgoing = OutgoingMessage { stream_id, ppid: 53, payload: &payload };
        let count = self.numbers.next(4);
        let results = self.sockets[at].send_many(&vec![outgoing; count], &how).expect("results");
        assert_eq!(results.len(), count);
        for result in results {
            self.recorded(result);
        }
    }

    /// Takes an event. A packet is kept for the other socket.
    fn poll(&mut self, at: usize) {
        match self.sockets[at].poll_event() {
            Some(Event::SendPacket(packet)) => self.packets[1 - at].push_back(packet),
            Some(Event::Unknown(kind)) => panic!("an event of kind {kind}"),
            Some(event) => assert_ne!(event.name(), "unknown"),
            None => {}
        }
    }

    /// Hands in a packet that waits, now and then a changed one, or any bytes.
    fn hand_in(&mut self, at: usize) {
        let mut packet = self.packets[at].pop_front().unwrap_or_default();
        if self.numbers.next(20) == 0 {
            packet = self.numbers.bytes(60);
        }
        if self.numbers.next(10) == 0 && !packet.is_empty() {
            let place = self.numbers.next(packet.len());
            packet[place] ^= 1 << self.numbers.next(8);
        }
        let result = self.sockets[at].handle_input(&packet);
        self.recorded(result);
    }

    /// Another socket takes the place of one, and continues from the snapshot, or from bytes that are none.
    fn replace(&mut self, at: usize) {
        self.sockets[at] = socket(&mut self.numbers, self.follow_rfc);
        self.now[at] = Duration::ZERO;
        let mut snapshot = self.snapshot.clone();
        if self.numbers.next(2) == 0 && !snapshot.is_empty() {
            let place = self.numbers.next(snapshot.len());
            snapshot[place] ^= 1 << self.numbers.next(8);
        }
        let result = self.sockets[at].restore_from_state(&snapshot);
        self.recorded(result);
    }

    fn query(&mut self, at: usize) {
        let socket = &self.sockets[at];
        assert!(!socket.has_failed());
        assert_eq!(socket.verification_tag() == 0, socket.state() == State::Closed);
        assert!(socket.poll_timeout().is_none_or(|it| it >= self.now[at]));
        assert!(socket.buffered_amount(1) <= 9000 + 3000);
        assert_eq!(socket.stream_priority(9), 256);
        assert_eq!(socket.options().max_message_size, 3000);
        assert!(socket.metrics().is_none_or(|it| it.cwnd_bytes > 0));
        assert!(socket
            .metrics()
            .is_none_or(|it| it.tx_packets_count == socket.counts().tx_packets_count));
        let _ = (socket.messages_ready_count(), socket.handover_readiness(), socket.state());
    }

    fn step(&mut self) {
        let at = self.numbers.next(2);
        let socket = &mut self.sockets[at];
        match self.numbers.next(100) {
            0..=29 => self.poll(at),
            30..=59 => self.hand_in(at),
            60..=74 => self.send(at),
            75..=82 => self.messages += usize::from(socket.get_next_message().is_some()),
            83..=86 => {
                self.now[at] += Duration::from_millis(self.numbers.next(300) as u64);
                let result = socket.advance_time(self.now[at]);
                self.recorded(result);
            }
            87..=89 => {
                let result = socket.reset_streams(&[0, 1, 1][..self.numbers.next(4)]);
                self.recorded(result);
            }
            90..=93 => self.query(at),
            94..=97 => {
                let result = socket.connect();
                self.recorded(result);
            }
            _ => self.end(at),
        }
    }

    fn end(&mut self, at: usize) {
        let socket = &mut self.sockets[at];
        let result = match self.numbers.next(8) {
            0 => socket.shutdown(),
            1 => socket.close(),
            2 => {
                let result = socket.get_handover_state_and_close();
                self.snapshot = self.recorded(result).unwrap_or_default();
                Ok(())
            }
            3 => {
                let result = socket.handover_bytes();
                self.recorded(result);
                Ok(())
            }
            4 => {
                self.replace(at);
                Ok(())
            }
            _ => Ok(()),
        };
        self.recorded(result);
    }

    /// Whatever was before, two ends that have closed connect once no packet is under way.
    fn connect_again(&mut self) {
        for socket in &mut self.sockets {
            socket.close().expect("close");
            while socket.poll_event().is_some() {}
        }
        self.sockets[0].connect().expect("connect");
        for turn in 0..6 {
            while let Some(event) = self.sockets[turn % 2].poll_event() {
                if let Event::SendPacket(packet) = event {
                    self.sockets[1 - turn % 2].handle_input(&packet).expect("a packet");
                }
            }
        }
        assert!(self.sockets.iter().all(|it| it.state() == State::Connected));
    }
}

#[test]
fn calls_in_any_order_return() {
    let (mut messages, mut errors) = (0, Vec::new());
    for seed in 0..20 {
        let mut world = World::new(seed, seed % 2 == 0);
        for _ in 0..2000 {
            world.step();
        }
        world.connect_again();
        messages += world.messages;
        errors.extend(world.errors);
    }
    assert!(messages > 50, "{messages} messages");
    let expected = [
        Error::NothingToCopy,
        Error::EmptyPayload,
        Error::MessageTooLarge,
        Error::ResourceExhaustion,
        Error::ShuttingDown,
        Error::NotConnected,
        Error::NotReady,
        Error::InvalidSnapshot,
    ];
    for error in &expected {
        assert!(errors.contains(error), "no call was answered: {error}");
    }
    for error in &errors {
        assert!(expected.contains(error), "a call was answered: {error}");
    }
}

#[test]
fn socket_goes_to_another_thread() {
    let mut a = socket(&mut Numbers(1), true);
    a.connect().expect("connect");
    let mut a = std::thread::spawn(move || {
        assert!(matches!(a.poll_event(), Some(Event::SendPacket(_))));
        a
    })
    .join()
    .expect("a thread");
    assert_eq!(a.poll_event(), None);
}

#[test]
fn two_words_can_be_moved() {
    let mut sockets: Vec<Socket> = (0..4).map(|seed| socket(&mut Numbers(seed), true)).collect();
    sockets[0].connect().expect("connect");
    sockets.swap(0, 3);
    sockets.truncate(4);
    let moved = Box::new(sockets.remove(3));
    assert_eq!(moved.state(), dcsctp_socket::State::Connecting);
}

#[test]
fn message_longer_than_a_packet_comes_back_whole() {
    let mut ends = [socket(&mut Numbers(1), true), socket(&mut Numbers(2), true)];
    let payload: Vec<u8> = (0..3000).map(|it| it as u8).collect();
    ends[0].connect().expect("connect");
    ends[0].send(1, 53, &payload, &SendOptions::default()).expect("send");
    for round in 0..20 {
        while let Some(event) = ends[round % 2].poll_event() {
            if let Event::SendPacket(packet) = event {
                ends[1 - round % 2].handle_input(&packet).expect("a packet");
            }
        }
    }
    assert_eq!(ends[1].messages_ready_count(), 1);
    assert_eq!(ends[1].get_next_message().expect("a message").payload, payload);
    assert_eq!(ends[1].get_next_message(), None);
}
