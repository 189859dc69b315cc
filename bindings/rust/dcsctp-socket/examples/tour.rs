//! What a socket can do, as small programs of two sockets, A and B, in one process. `cargo run --example tour` runs all
//! of them. They print `bindings/expected.txt`, as those of the other languages do.

use dcsctp_socket::{
    random_seed, Channel, ChannelEvent, ChannelLimits, ChannelOptions, Channels, Error, Event,
    HandoverReadiness, Options, OutgoingMessage, Reliability, SendOptions, Socket, State,
};
use std::collections::BTreeMap;
use std::time::Duration;

type Outcome = Result<(), Box<dyn std::error::Error>>;
type Program = fn() -> Outcome;

const TEXT: u32 = 51;
const BINARY: u32 = 53;

/// The time at which each program begins. `restore_from_state` needs a clock past 60 s.
const BEGIN: Duration = Duration::from_secs(3600);

struct Pair {
    a: Socket,
    b: Socket,
    now: Duration,
}

fn create(options: &Options, now: Duration) -> Result<Socket, Box<dyn std::error::Error>> {
    Ok(Socket::new(options, &random_seed()?, now)?)
}

/// What follows the name of an event.
fn details(event: &Event) -> String {
    match event {
        Event::StreamsResetPerformed(streams)
        | Event::StreamsResetFailed(streams)
        | Event::IncomingStreamReset(streams) => {
            streams.iter().map(|it| format!(" {it}")).collect()
        }
        Event::BufferedAmountLow(stream_id) => format!(" {stream_id}"),
        Event::LifecycleFullySent(id) | Event::LifecycleDelivered(id) | Event::LifecycleEnd(id) => {
            format!(" {id}")
        }
        Event::Aborted { kind, .. } | Event::Error { kind, .. } => format!(" {}", kind.number()),
        _ => String::new(),
    }
}

/// Takes all events and messages of a socket. Its packets go to the other one. Returns how many there were.
fn carry(name: &str, from: &mut Socket, to: &mut Socket) -> Result<usize, Error> {
    let mut packets = 0;
    for event in from.events() {
        if let Event::SendPacket(packet) = event {
            to.handle_input(&packet)?;
            packets += 1;
        } else {
            println!("{name}: {}{}", event.name(), details(&event));
        }
    }
    for message in from.messages() {
        let text = String::from_utf8_lossy(&message.payload);
        let (stream_id, ppid) = (message.stream_id, message.ppid);
        println!("{name} has a message on stream {stream_id} under {ppid}: {text}");
    }
    Ok(packets)
}

fn say_state(name: &str, socket: &Socket) {
    let state = match socket.state() {
        State::Closed => "closed",
        State::Connecting => "connecting",
        State::Connected => "connected",
        State::ShuttingDown => "shutting down",
        _ => "unknown",
    };
    println!("{name} is {state}");
}

/// What a result says.
fn said(result: Result<(), Error>) -> String {
    result.err().map_or("no error".into(), |error| error.to_string())
}

impl Pair {
    fn new(options: &Options) -> Result<Pair, Box<dyn std::error::Error>> {
        Ok(Pair { a: create(options, BEGIN)?, b: create(options, BEGIN)?, now: BEGIN })
    }

    fn connected() -> Result<Pair, Box<dyn std::error::Error>> {
        let mut pair = Pair::new(&Options::default())?;
        pair.a.connect()?;
        pair.settle()?;
        Ok(pair)
    }

    /// Carries packets both ways until none is left.
    fn settle(&mut self) -> Result<(), Error> {
        while carry("A", &mut self.a, &mut self.b)? + carry("B", &mut self.b, &mut self.a)? > 0 {}
        Ok(())
    }

    /// Lets the time pass until the next deadline of either socket.
    fn pass(&mut self) -> Result<(), Error> {
        let deadlines = [self.a.poll_timeout(), self.b.poll_timeout()];
        self.now = deadlines.into_iter().flatten().min().unwrap_or(self.now);
        self.a.advance_time(self.now)?;
        self.b.advance_time(self.now)?;
        self.settle()
    }

    /// Waits until all that A has sent is acknowledged.
    fn until_acknowledged(&mut self) -> Result<(), Error> {
        self.settle()?;
        while self.a.metrics().is_some_and(|it| it.unack_data_count > 0) {
            self.pass()?;
        }
        Ok(())
    }

    fn send(&mut self, text: &str) -> Result<(), Error> {
        self.a.send(1, TEXT, text.as_bytes(), &SendOptions::default())
    }
}

// ---- The programs -----------------------------------------------------------------------------

fn connect() -> Outcome {
    let mut pair = Pair::new(&Options::default())?;
    say_state("A", &pair.a);
    pair.a.connect()?;
    say_state("A", &pair.a);
    pair.settle()?;
    say_state("A", &pair.a);
    say_state("B", &pair.b);
    Ok(())
}

fn send() -> Outcome {
    let mut pair = Pair::connected()?;
    pair.a.send(1, TEXT, b"hello", &SendOptions::default().lifecycle_id(7))?;
    let how =
        SendOptions::default().unordered().lifetime(Duration::from_secs(1)).max_retransmissions(0);
    let outgoing = |stream_id, payload| OutgoingMessage { stream_id, ppid: BINARY, payload };
    let three = [outgoing(2, b"one".as_slice()), outgoing(2, b""), outgoing(3, b"two")];
    let results: Vec<_> = pair.a.send_many(&three, &how)?.into_iter().map(said).collect();
    println!("the three: {}", results.join("; "));
    pair.until_acknowledged()?;
    pair.b.send(1, TEXT, b"hello to you", &SendOptions::default())?;
    pair.settle()?;
    if let Some(metrics) = pair.a.metrics() {
        let (sent, received) = (metrics.tx_messages_count, metrics.rx_messages_count);
        println!("A has sent {sent} messages, and received {received}");
    }
    Ok(())
}

/// A data channel is two streams of one number. Each end resets its own; then the number can be used again.
fn close_a_channel() -> Outcome {
    let mut pair = Pair::connected()?;
    pair.send("before")?;
    pair.until_acknowledged()?;
    pair.a.reset_streams(&[1])?;
    pair.settle()?;
    pair.b.reset_streams(&[1])?;
    pair.settle()?;
    pair.send("once more")?;
    pair.settle()?;
    Ok(())
}

/// Another socket continues in A's place. It may be in another process, since the snapshot is bytes.
fn hand_over() -> Outcome {
    let mut pair = Pair::connected()?;
    pair.send("before")?;
    let HandoverReadiness(reasons) = pair.a.handover_readiness();
    let result = pair.a.get_handover_state_and_close();
    println!("reasons: {reasons}; {}", said(result.map(drop)));
    pair.until_acknowledged()?;
    println!("reasons: {}", pair.a.handover_readiness().0);
    let snapshot = pair.a.get_handover_state_and_close()?;
    pair.settle()?;
    pair.a = create(&Options::default(), pair.now)?;
    pair.a.restore_from_state(&snapshot)?;
    pair.settle()?;
    println!("again: {}", said(pair.a.restore_from_state(&snapshot)));
    pair.send("after")?;
    pair.settle()?;
    let mut other = create(&Options::default(), pair.now)?;
    println!("other bytes: {}", said(other.restore_from_state(b"no snapshot")));
    Ok(())
}

fn shut_down() -> Outcome {
    let mut pair = Pair::connected()?;
    pair.send("last")?;
    pair.a.shutdown()?;
    say_state("A", &pair.a);
    println!("a message: {}", said(pair.send("too late")));
    pair.settle()?;
    pair.pass()?;
    say_state("A", &pair.a);
    say_state("B", &pair.b);
    Ok(())
}

/// Two ends with data channels. A is the DTLS client.
struct ChannelPair {
    ends: [Channels; 2],
    labels: BTreeMap<(usize, Channel), String>,
    now: Duration,
}

impl ChannelPair {
    fn new() -> Result<ChannelPair, Box<dyn std::error::Error>> {
        let (options, limits) = (Options::default(), ChannelLimits::default());
        let mut ends = [
            Channels::new(&options, &limits, &random_seed()?, BEGIN)?,
            Channels::new(&options, &limits, &random_seed()?, BEGIN)?,
        ];
        ends[0].set_role(true)?;
        ends[1].set_role(false)?;
        Ok(ChannelPair { ends, labels: BTreeMap::new(), now: BEGIN })
    }

    /// Opens a channel, and remembers its label.
    fn open(&mut self, end: usize, options: &ChannelOptions) -> Result<Channel, Error> {
        let channel = self.ends[end].open(options)?;
        self.labels.insert((end, channel), options.label.clone());
        Ok(channel)
    }

    /// Takes all events of an end. Its packets go to the other one. Returns how many there were.
    fn carry(&mut self, end: usize) -> Result<usize, Error> {
        let (name, mut packets) = (["A", "B"][end], 0);
        while let Some(event) = self.ends[end].poll_event()? {
            if let ChannelEvent::Incoming(channel, options) = &event {
                self.labels.insert((end, *channel), options.label.clone());
            }
            let said = event.name();
            let label = |channel: &Channel| &self.labels[&(end, *channel)];
            match &event {
                ChannelEvent::SendPacket(packet) => {
                    self.ends[1 - end].handle_input(packet)?;
                    packets += 1;
                }
                ChannelEvent::Text(it, text) => {
                    println!("{name} has a text on {:?}: {text}.", label(it));
                }
                ChannelEvent::Binary(it, bytes) => {
                    println!("{name} has {} bytes on {:?}", bytes.len(), label(it));
                }
                ChannelEvent::Closed(it, why) => {
                    println!("{name}: {said} {:?}, {}", label(it), why.number());
                }
                ChannelEvent::Opened(it)
                | ChannelEvent::Incoming(it, _)
                | ChannelEvent::BufferedAmountLow(it) => println!("{name}: {said} {:?}", label(it)),
                _ => println!("{name}: {said}"),
            }
        }
        Ok(packets)
    }

    /// Carries packets both ways until none is left.
    fn settle(&mut self) -> Result<(), Error> {
        while self.carry(0)? + self.carry(1)? > 0 {}
        Ok(())
    }

    /// Lets a second pass: then all is acknowledged.
    fn wait(&mut self) -> Result<(), Error> {
        self.settle()?;
        self.now += Duration::from_secs(1);
        for end in &mut self.ends {
            end.advance_time(self.now)?;
        }
        self.settle()
    }
}

fn data_channels() -> Outcome {
    let mut pair = ChannelPair::new()?;
    let chat = pair.open(0, &ChannelOptions::new("chat"))?;
    println!("too early: {}", said(pair.ends[0].send_text(chat, "hello")));
    pair.ends[0].connect()?;
    pair.settle()?;
    println!("A's has stream {}", pair.ends[0].stream_of(chat).ok_or(Error::NoChannel)?);
    pair.ends[0].send_text(chat, "hello")?;
    pair.ends[0].send_text(chat, "")?;
    pair.ends[0].send_binary(chat, &[1, 2, 3])?;
    pair.ends[0].close_channel(chat)?;
    println!("too late: {}", said(pair.ends[0].send_text(chat, "hello")));
    pair.wait()?;
    let fast = ChannelOptions::new("fast").protocol("of ours").unordered();
    let fast = pair.open(1, &fast.reliability(Reliability::Retransmissions(0)))?;
    pair.settle()?;
    println!("B's has stream {}", pair.ends[1].stream_of(fast).ok_or(Error::NoChannel)?);
    let agreed = ChannelOptions::new("agreed").negotiated(8);
    pair.open(0, &agreed)?;
    pair.open(1, &agreed)?;
    println!("once more: {}", said(pair.open(0, &agreed).map(drop)));
    pair.ends[0].shutdown()?;
    pair.wait()?;
    println!("another: {}", said(pair.open(0, &ChannelOptions::default()).map(drop)));
    Ok(())
}

/// A call that can't be made is an error, and changes nothing.
fn mistakes() -> Outcome {
    let options = Options { mtu: 31, ..Default::default() };
    println!("an mtu of 31: {}", said(Socket::new(&options, &random_seed()?, BEGIN).map(drop)));
    let limits = Options { max_message_size: 10, max_send_buffer_size: 10, ..Default::default() };
    let mut pair = Pair::new(&limits)?;
    println!("a reset: {}", said(pair.a.reset_streams(&[1])));
    println!("a snapshot: {}", said(pair.a.handover_bytes().map(drop)));
    println!("no bytes: {}", said(pair.send("")));
    pair.settle()?;
    println!("11 bytes: {}", said(pair.send("hello there")));
    pair.settle()?;
    println!("10 bytes: {}", said(pair.send("hello here")));
    println!("10 more: {}", said(pair.send("hello here")));
    pair.settle()?;
    println!("a packet without bytes: {}", said(pair.a.handle_input(b"")));
    pair.settle()?;
    println!("a close: {}", said(pair.a.close()));
    pair.settle()?;
    for number in 1..=24 {
        println!("-{number}: {}", Error::of(-number));
    }
    Ok(())
}

fn main() -> Outcome {
    let programs: [(&str, Program); 7] = [
        ("connect", connect),
        ("send", send),
        ("close a channel", close_a_channel),
        ("hand over", hand_over),
        ("shut down", shut_down),
        ("data channels", data_channels),
        ("mistakes", mistakes),
    ];
    for (index, (name, program)) in programs.into_iter().enumerate() {
        println!("{}{name}", if index > 0 { "\n" } else { "" });
        program()?;
    }
    Ok(())
}
