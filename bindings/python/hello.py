"""Two sockets in one process, and a message."""
import dcsctp

def carry(source, target):
    for event in source.events():
        if isinstance(event, dcsctp.SendPacket):
            target.handle_input(event.packet)
    for message in source.messages():
        print(message.payload.decode())

with dcsctp.Socket() as a, dcsctp.Socket() as b:
    a.connect()
    a.send(1, 51, b"hello")
    for _ in range(4):
        carry(a, b)
        carry(b, a)
