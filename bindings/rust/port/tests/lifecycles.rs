//! Two sockets over links that lose, delay and reorder packets. Each message with a lifecycle id has the events of one of
//! three ways, and what is reliable is read once, in order. SEEDS sets how many links there are.

use dcsctp::api::*;
use std::collections::HashMap;
use std::time::Duration;

/// The stream of reliable messages. Others are on streams below it.
const RELIABLE: StreamId = StreamId(7);

/// Numbers without a pattern, the same in each run.
struct Numbers(u64);

impl Numbers {
    fn below(&mut self, limit: u64) -> u64 {
        self.0 = self.0.wrapping_mul(6364136223846793005).wrapping_add(1442695040888963407);
        (self.0 >> 33) % limit
    }

    fn is_one_in(&mut self, count: u64) -> bool {
        self.below(count) == 0
    }

    fn milliseconds(&mut self, limit: u64) -> Duration {
        Duration::from_millis(self.below(limit))
    }
}

/// Two sockets, packets on their way, and what was seen.
struct World {
    numbers: Numbers,
    ends: [Socket; 2],
    now: SocketTime,
    percent_lost: u64,
    link: Vec<(SocketTime, usize, Vec<u8>)>,
    total: u64,
    sent: u64,
    ended: u64,
    events: HashMap<u64, Vec<&'static str>>,
    reliable: Vec<u64>,
    read: Vec<u64>,
}

impl World {
    fn new(seed: u64) -> World {
        let mut numbers = Numbers(seed);
        let options = Options {
            enable_message_interleaving: numbers.is_one_in(2),
            max_retransmissions: None,
            mtu: 300 + numbers.below(1000) as usize,
            ..Options::default()
        };
        World {
            ends: ["a", "b"].map(|name| Socket::new(name, &options)),
            now: SocketTime::zero(),
            percent_lost: numbers.below(20),
            total: 60 + numbers.below(60),
            numbers,
            link: Vec::new(),
            sent: 0,
            ended: 0,
            events: HashMap::new(),
            reliable: Vec::new(),
            read: Vec::new(),
        }
    }

    /// Takes all events of both ends.
    fn poll(&mut self) {
        for end in 0..2 {
            while let Some(event) = self.ends[end].poll_event() {
                self.handle(end, event)
            }
        }
    }

    fn handle(&mut self, end: usize, event: SocketEvent) {
        let (id, name) = match event {
            SocketEvent::SendPacket(packet) => {
                if self.numbers.below(100) >= self.percent_lost {
                    let arrival =
                        self.now + Duration::from_millis(5) + self.numbers.milliseconds(30);
                    self.link.push((arrival, 1 - end, packet))
                }
                return;
            }
            SocketEvent::OnLifecycleMessageFullySent(id) => (id, "sent"),
            SocketEvent::OnLifecycleMessageMaybeExpired(id) => (id, "maybe expired"),
            SocketEvent::OnLifecycleMessageExpired(id) => (id, "expired"),
            SocketEvent::OnLifecycleMessageDelivered(id) => (id, "delivered"),
            SocketEvent::OnLifecycleEnd(id) => (id, "end"),
            SocketEvent::OnAborted(kind, text) => panic!("{kind:?} {text}"),
            _ => return,
        };
        self.ended += u64::from(name == "end");
        self.events.entry(id.value()).or_default().push(name)
    }

    /// Sends a message: half of them are reliable.
    fn send(&mut self) {
        let numbers = &mut self.numbers;
        self.sent += 1;
        let mut how =
            SendOptions { lifecycle_id: LifecycleId::new(self.sent), ..Default::default() };
        let mut stream = RELIABLE;
        if numbers.is_one_in(2) {
            how.unordered = numbers.is_one_in(2);
            how.lifetime = numbers.is_one_in(2).then(|| numbers.milliseconds(400));
            how.max_retransmissions = numbers.is_one_in(2).then(|| numbers.below(2) as u16);
            stream = StreamId(numbers.below(4) as u16);
        } else {
            self.reliable.push(self.sent)
        }
        let mut payload = vec![0; 8 + numbers.below(5000) as usize];
        payload[..8].copy_from_slice(&self.sent.to_be_bytes());
        self.ends[0].send(Message::new(stream, PpId(53), payload), &how).expect("a message")
    }

    /// Goes to the next deadline or arrival, at most 200 ms ahead, and hands in what has arrived.
    fn advance(&mut self) {
        let arrival = self.link.iter().map(|it| it.0).min();
        let deadline = self.ends[0].poll_timeout().min(self.ends[1].poll_timeout());
        let next = deadline.min(self.now + Duration::from_millis(200));
        self.now = arrival.map_or(next, |it| it.min(next));
        self.ends.iter_mut().for_each(|it| it.advance_time(self.now));
        let here = |it: &(SocketTime, usize, Vec<u8>)| it.0 <= self.now;
        let (arrived, link) = std::mem::take(&mut self.link).into_iter().partition(here);
        self.link = link;
        let arrived: Vec<_> = arrived;
        for (_, end, packet) in arrived {
            self.ends[end].handle_input(&packet);
            while let Some(message) = self.ends[end].get_next_message() {
                if message.stream_id == RELIABLE {
                    let number = message.payload.first_chunk().expect("8 bytes");
                    self.read.push(u64::from_be_bytes(*number))
                }
            }
        }
    }

    fn run(&mut self) {
        self.ends[0].connect();
        let limit = SocketTime::zero() + Duration::from_secs(3000);
        while (self.ended < self.total || self.read.len() < self.reliable.len()) && self.now < limit
        {
            self.poll();
            let is_connected = self.ends[0].state() == SocketState::Connected;
            if self.sent < self.total && is_connected && self.numbers.is_one_in(3) {
                self.send()
            }
            self.advance()
        }
    }
}

/// How many messages were delivered, were maybe delivered, and weren't sent.
fn counts_of_a_world(seed: u64) -> [usize; 3] {
    let mut world = World::new(seed);
    world.run();
    assert_eq!(world.read, world.reliable, "seed {seed}");
    let mut counts = [0; 3];
    for id in 1..=world.total {
        let way = world.events.get(&id).map_or(&[][..], |it| &it[..]);
        let kind = match way {
            ["sent", "delivered", "end"] => 0,
            ["sent", "maybe expired", "end"] => 1,
            ["expired", "end"] => 2,
            other => panic!("seed {seed}, message {id}: {other:?}"),
        };
        assert!(kind == 0 || !world.reliable.contains(&id), "seed {seed}, message {id}");
        counts[kind] += 1
    }
    counts
}

#[test]
fn each_message_has_the_events_of_one_way() {
    let seeds = std::env::var("SEEDS").map_or(100, |it| it.parse().expect("a number"));
    let mut sums = [0; 3];
    for seed in 1..=seeds {
        for (sum, count) in sums.iter_mut().zip(counts_of_a_world(seed)) {
            *sum += count
        }
    }
    let [delivered, maybe_expired, expired] = sums;
    assert!(delivered > 0 && maybe_expired > 0 && expired > 0, "{sums:?}");
}
