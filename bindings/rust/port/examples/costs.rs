//! Sends N messages of 1,024 bytes between two sockets, for scripts/c-costs.sh.

use dcsctp::api::*;

/// Hands packets over, and returns whether there was one.
fn carry(from: &mut Socket, to: &mut Socket) -> bool {
    let mut any = false;
    while let Some(event) = from.poll_event() {
        if let SocketEvent::SendPacket(packet) = event {
            to.handle_input(&packet);
            any = true;
        }
    }
    any
}

fn main() {
    let count = std::env::args().nth(1).map_or(0, |it| it.parse().expect("a number"));
    let (mut a, mut z) =
        (Socket::new("a", &Options::default()), Socket::new("z", &Options::default()));
    a.connect();
    while carry(&mut a, &mut z) | carry(&mut z, &mut a) {}
    for _ in 0..count {
        let message = Message::new(StreamId(1), PpId(53), vec![0; 1024]);
        a.send(message, &SendOptions::default()).expect("room");
        while carry(&mut a, &mut z) | carry(&mut z, &mut a) {}
        assert_eq!(z.get_next_message().map(|it| it.payload.len()), Some(1024));
    }
}
