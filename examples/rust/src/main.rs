//! Sends bytes from one process to another over SCTP, by UDP on loopback:
//! `cargo run -- [--loss PERMILLE] [BYTES]`. BYTES is 10 MB by default, and PERMILLE is how many of 1,000 packets each
//! end loses. This process starts the receiver, which compares the bytes.

use dcsctp_socket::{random_seed, Event, Options, SendOptions, Socket};
use std::error::Error;
use std::io::{BufRead, BufReader, ErrorKind, Write};
use std::net::UdpSocket;
use std::process::{Child, Command, ExitCode, Stdio};
use std::time::{Duration, Instant};
use std::{env, io};

const CHUNK: usize = 65536;
const WAITING: usize = 8 * CHUNK;
const STREAM: u16 = 1;
const BINARY: u32 = 53;
const LAST: u64 = 1;

/// How long a process waits at most before it looks again.
const LONGEST: Duration = Duration::from_secs(1);

/// One end: a socket, its UDP socket, and what has happened.
struct End {
    socket: Socket,
    udp: UdpSocket,
    epoch: Instant,
    loss: u64,
    random: u64,
    sent: usize,
    lost: usize,
    received: Vec<u8>,
    connected: bool,
    delivered: bool,
    closed: bool,
    ended: bool,
}

type Failure = Box<dyn Error + Send + Sync>;

impl End {
    fn new(udp: UdpSocket, loss: u64) -> Result<End, Failure> {
        Ok(End {
            socket: Socket::new(&Options::default(), &random_seed()?, Duration::ZERO)?,
            udp,
            epoch: Instant::now(),
            loss,
            random: 1,
            sent: 0,
            lost: 0,
            received: Vec::new(),
            connected: false,
            delivered: false,
            closed: false,
            ended: false,
        })
    }

    /// Sends a packet, or loses it. A packet that the system doesn't send is lost, too.
    fn emit(&mut self, packet: &[u8]) {
        self.sent += 1;
        self.random =
            self.random.wrapping_mul(6364136223846793005).wrapping_add(1442695040888963407);
        if (self.random >> 33) % 1000 < self.loss {
            self.lost += 1;
        } else {
            drop(self.udp.send(packet));
        }
    }

    /// Takes all events and messages. Call it after each call that may add some.
    fn drain(&mut self) {
        while let Some(event) = self.socket.poll_event() {
            match event {
                Event::SendPacket(packet) => self.emit(&packet),
                Event::Connected => self.connected = true,
                Event::Closed => {
                    self.closed = true;
                    self.ended = true;
                }
                Event::Aborted { kind, text } => {
                    eprintln!("aborted, {kind:?}: {text}");
                    self.ended = true;
                }
                Event::Error { kind, text } => eprintln!("error, {kind:?}: {text}"),
                Event::LifecycleDelivered(LAST) => self.delivered = true,
                _ => {}
            }
        }
        for message in self.socket.messages() {
            self.received.extend(message.payload);
        }
    }

    /// Waits for a packet or the deadline, and hands in all packets that have come.
    fn turn(&mut self, longest: Duration) -> Result<(), Failure> {
        let deadline = self.socket.poll_timeout().unwrap_or(Duration::MAX);
        let wait = deadline.saturating_sub(self.epoch.elapsed());
        self.udp.set_nonblocking(false)?;
        self.udp.set_read_timeout(Some(wait.clamp(Duration::from_micros(1), longest)))?;
        let mut packet = [0; 1500];
        let mut read = self.udp.recv(&mut packet);
        self.udp.set_nonblocking(true)?;
        self.socket.advance_time(self.epoch.elapsed())?;
        self.drain();
        loop {
            match read {
                Ok(length) => self.socket.handle_input(&packet[..length])?,
                Err(error) if error.kind() == ErrorKind::WouldBlock => return Ok(()),
                Err(error) if error.kind() == ErrorKind::ConnectionRefused => {}
                Err(error) => return Err(error.into()),
            }
            self.drain();
            read = self.udp.recv(&mut packet);
        }
    }
}

/// The bytes that are sent.
fn sample(count: usize) -> Vec<u8> {
    (0..count).map(|at| ((at * 31) >> 3) as u8).collect()
}

/// Prints the progress on one line of standard error, twice a second.
fn progress(end: &End, done: usize, count: usize, shown: &mut Instant) {
    if shown.elapsed() > Duration::from_millis(500) {
        *shown = Instant::now();
        let time = end.epoch.elapsed().as_secs_f64();
        eprint!("\r  {:.1} of {:.1} MB, {time:.1} s", done as f64 / 1e6, count as f64 / 1e6);
    }
}

/// The other process: receives until the association has ended. It sends its port first.
fn receive(peer: u16, loss: u64, count: usize) -> Result<bool, Failure> {
    let udp = UdpSocket::bind("127.0.0.1:0")?;
    udp.connect(("127.0.0.1", peer))?;
    println!("{}", udp.local_addr()?.port());
    io::stdout().flush()?;
    let mut end = End::new(udp, loss)?;
    while !end.ended {
        end.turn(LONGEST)?;
    }
    Ok(end.closed && end.received == sample(count))
}

/// Sends bytes until they are delivered, and ends the association. Returns how long that took.
fn send(end: &mut End, bytes: &[u8]) -> Result<Duration, Failure> {
    let mut chunks = bytes.chunks(CHUNK).peekable();
    let (mut taken, mut shown) = (0, Instant::now());
    end.socket.connect()?;
    end.drain();
    while !end.delivered && !end.ended {
        while end.connected && end.socket.buffered_amount(STREAM) < WAITING {
            let Some(chunk) = chunks.next() else { break };
            let name = if chunks.peek().is_none() { LAST } else { 0 };
            end.socket.send(STREAM, BINARY, chunk, &SendOptions::default().lifecycle_id(name))?;
            taken += chunk.len();
            end.drain();
        }
        let done = taken - end.socket.buffered_amount(STREAM);
        progress(end, done, bytes.len(), &mut shown);
        end.turn(LONGEST)?;
    }
    let time = end.epoch.elapsed();
    end.socket.shutdown()?;
    end.drain();
    while !end.ended {
        end.turn(LONGEST)?;
    }
    Ok(time)
}

/// Reads the port of the other process, sends to it, and waits for its end. Returns whether all has arrived.
fn exchange(other: &mut Child, udp: UdpSocket, loss: u64, count: usize) -> Result<bool, Failure> {
    let mut port = String::new();
    BufReader::new(other.stdout.take().ok_or("no output")?).read_line(&mut port)?;
    udp.connect(("127.0.0.1", port.trim().parse::<u16>()?))?;
    let mut end = End::new(udp, loss)?;
    let time = send(&mut end, &sample(count))?.as_secs_f64();
    // It answers until the other process has ended, since the last packet of the shutdown may be lost.
    let same = loop {
        if let Some(status) = other.try_wait()? {
            break status.success();
        }
        end.turn(Duration::from_millis(20))?;
    };
    let rate = count as f64 / 1e6 / time;
    let (sent, lost) = (end.sent, end.lost);
    println!(
        "{count} bytes in {time:.3} s, {rate:.1} MB/s; {sent} packets sent, {lost} of them lost"
    );
    println!("{}", if same { "received as it was sent" } else { "the bytes differ" });
    Ok(same)
}

/// Starts the other process, and sends. The other process ends with this one.
fn run(loss: u64, count: usize) -> Result<bool, Failure> {
    let udp = UdpSocket::bind("127.0.0.1:0")?;
    let words = [udp.local_addr()?.port().to_string(), loss.to_string(), count.to_string()];
    let mut other = Command::new(env::current_exe()?)
        .arg("--receive")
        .args(words)
        .stdout(Stdio::piped())
        .spawn()?;
    let outcome = exchange(&mut other, udp, loss, count);
    if outcome.is_err() {
        other.kill()?;
        other.wait()?;
    }
    outcome
}

/// Runs the command line; `None` if it is wrong.
fn run_words(words: &[&str]) -> Option<Result<bool, Failure>> {
    Some(match words {
        [] => run(0, 10_000_000),
        [count] => run(0, count.parse().ok()?),
        ["--loss", loss] => run(loss.parse().ok()?, 10_000_000),
        ["--loss", loss, count] => run(loss.parse().ok()?, count.parse().ok()?),
        ["--receive", peer, loss, count] => {
            receive(peer.parse().ok()?, loss.parse().ok()?, count.parse().ok()?)
        }
        _ => return None,
    })
}

fn main() -> ExitCode {
    let words: Vec<String> = env::args().skip(1).collect();
    match run_words(&words.iter().map(String::as_str).collect::<Vec<_>>()) {
        Some(Ok(same)) => ExitCode::from(!same as u8),
        Some(Err(failure)) => {
            eprintln!("{failure}");
            ExitCode::FAILURE
        }
        None => {
            eprintln!("usage: cargo run -- [--loss PERMILLE] [BYTES]");
            ExitCode::from(2)
        }
    }
}
