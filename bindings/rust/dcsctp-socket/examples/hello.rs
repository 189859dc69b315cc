//! Two sockets in one process, and a message.
use dcsctp_socket::{random_seed, Error, Event, Options, SendOptions, Socket};
use std::time::Duration;

fn carry(from: &mut Socket, to: &mut Socket) -> Result<(), Error> {
    for event in from.events() {
        if let Event::SendPacket(packet) = event { to.handle_input(&packet)? }
    }
    for message in from.messages() {
        println!("{}", String::from_utf8_lossy(&message.payload));
    }
    Ok(())
}

fn main() -> Result<(), Box<dyn std::error::Error>> {
    let mut a = Socket::new(&Options::default(), &random_seed()?, Duration::ZERO)?;
    let mut b = Socket::new(&Options::default(), &random_seed()?, Duration::ZERO)?;
    a.connect()?;
    a.send(1, 51, b"hello", &SendOptions::default())?;
    for _ in 0..4 { carry(&mut a, &mut b)?; carry(&mut b, &mut a)? }
    Ok(())
}
