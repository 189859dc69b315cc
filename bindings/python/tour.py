"""What a socket can do, as small programs of two sockets, A and B, in one process: `python3 tour.py` runs all of them.
They print what bindings/expected.txt says, as those of the other languages do."""

import dcsctp

TEXT, BINARY = 51, 53
SECOND = 1_000_000_000

# The time at which each program begins. `restore_from_state` needs a clock past 60 s.
BEGIN = 3600 * SECOND


def details(event):
    """What follows the name of an event."""
    if isinstance(event, (dcsctp.StreamsResetPerformed, dcsctp.StreamsResetFailed, dcsctp.IncomingStreamReset)):
        return "".join(f" {it}" for it in event.streams)
    if isinstance(event, (dcsctp.Aborted, dcsctp.ErrorEvent)):
        return f" {int(event.error)}"
    if isinstance(event, dcsctp.BufferedAmountLow):
        return f" {event.stream_id}"
    return f" {event.lifecycle_id}" if hasattr(event, "lifecycle_id") else ""


def carry(name, source, target):
    """Takes all events and messages of a socket. Its packets go to the other one. Returns how many there were."""
    packets = 0
    for event in source.events():
        if isinstance(event, dcsctp.SendPacket):
            target.handle_input(event.packet)
            packets += 1
        else:
            print(f"{name}: {event.name}{details(event)}")
    for message in source.messages():
        text = message.payload.decode()
        print(f"{name} has a message on stream {message.stream_id} under {message.ppid}: {text}")
    return packets


def say_state(name, socket):
    print(f"{name} is {socket.state().name.lower().replace('_', ' ')}")


def said(call, *arguments):
    """What a call says."""
    try:
        call(*arguments)
    except dcsctp.Error as error:
        return str(error)
    return "no error"


class Pair:
    """Two sockets, and the time at both."""

    def __init__(self, options=None):
        self.a, self.b = dcsctp.Socket(options, now=BEGIN), dcsctp.Socket(options, now=BEGIN)
        self.now = BEGIN

    def __enter__(self):
        return self

    def __exit__(self, *_):
        self.a.destroy()
        self.b.destroy()

    def settle(self):
        """Carries packets both ways until none is left."""
        while carry("A", self.a, self.b) + carry("B", self.b, self.a) > 0:
            pass

    def wait(self):
        """Lets the time pass until the next deadline of either socket."""
        deadlines = (self.a.poll_timeout(), self.b.poll_timeout())
        self.now = min((it for it in deadlines if it is not None), default=self.now)
        self.a.advance_time(self.now)
        self.b.advance_time(self.now)
        self.settle()

    def until_acknowledged(self):
        """Waits until all that A has sent is acknowledged."""
        self.settle()
        while self.a.metrics().unack_data_count > 0:
            self.wait()

    def send(self, text):
        self.a.send(1, TEXT, text.encode())


def connected():
    pair = Pair()
    pair.a.connect()
    pair.settle()
    return pair


# ---- The programs ----------------------------------------------------------------------------------------------------


def connect():
    with Pair() as pair:
        say_state("A", pair.a)
        pair.a.connect()
        say_state("A", pair.a)
        pair.settle()
        say_state("A", pair.a)
        say_state("B", pair.b)


def send():
    with connected() as pair:
        pair.a.send(1, TEXT, b"hello", dcsctp.SendOptions(lifecycle_id=7))
        how = dcsctp.SendOptions(unordered=True, lifetime=SECOND, max_retransmissions=0)
        three = [dcsctp.Message(2, BINARY, b"one"), dcsctp.Message(2, BINARY, b""), dcsctp.Message(3, BINARY, b"two")]
        results = pair.a.send_many(three, how)
        print("the three:", "; ".join(str(it or "no error") for it in results))
        pair.until_acknowledged()
        pair.b.send(1, TEXT, b"hello to you")
        pair.settle()
        metrics = pair.a.metrics()
        print(f"A has sent {metrics.tx_messages_count} messages, and received {metrics.rx_messages_count}")


def close_a_channel():
    """A data channel is two streams of one number. Each end resets its own; then the number can be used again."""
    with connected() as pair:
        pair.send("before")
        pair.until_acknowledged()
        pair.a.reset_streams([1])
        pair.settle()
        pair.b.reset_streams([1])
        pair.settle()
        pair.send("once more")
        pair.settle()


def hand_over():
    """Another socket continues in A's place. It may be in another process, since the snapshot is bytes."""
    with connected() as pair:
        pair.send("before")
        reasons = pair.a.handover_readiness()
        print(f"reasons: {int(reasons)}; {said(pair.a.get_handover_state_and_close)}")
        pair.until_acknowledged()
        print(f"reasons: {int(pair.a.handover_readiness())}")
        snapshot = pair.a.get_handover_state_and_close()
        pair.settle()
        pair.a.destroy()
        pair.a = dcsctp.Socket(now=pair.now)
        pair.a.restore_from_state(snapshot)
        pair.settle()
        print("again:", said(pair.a.restore_from_state, snapshot))
        pair.send("after")
        pair.settle()
        with dcsctp.Socket(now=pair.now) as other:
            print("other bytes:", said(other.restore_from_state, b"no snapshot"))


def shut_down():
    with connected() as pair:
        pair.send("last")
        pair.a.shutdown()
        say_state("A", pair.a)
        print("a message:", said(pair.send, "too late"))
        pair.settle()
        pair.wait()
        say_state("A", pair.a)
        say_state("B", pair.b)


class Channels:
    """Two ends with data channels. A is the DTLS client."""

    def __init__(self):
        self.now = BEGIN
        self.a, self.b = (dcsctp.Channels(now=BEGIN, is_dtls_client=it) for it in (True, False))

    def __enter__(self):
        return self

    def __exit__(self, *_):
        self.a.destroy()
        self.b.destroy()

    def settle(self):
        """Carries packets both ways until none is left."""
        while self.carry("A", self.a, self.b) + self.carry("B", self.b, self.a) > 0:
            pass

    def wait(self):
        """Lets a second pass: then all is acknowledged."""
        self.settle()
        self.now += SECOND
        self.a.advance_time(self.now)
        self.b.advance_time(self.now)
        self.settle()

    @staticmethod
    def carry(name, source, target):
        """Takes all events of an end. Its packets go to the other one. Returns how many there were."""
        packets = 0
        for event in source.events():
            if isinstance(event, dcsctp.SendPacket):
                target.handle_input(event.packet)
                packets += 1
            elif isinstance(event, dcsctp.ChannelMessage) and isinstance(event.data, str):
                print(f'{name} has a text on "{event.channel.label}": {event.data}.')
            elif isinstance(event, dcsctp.ChannelMessage):
                print(f'{name} has {len(event.data)} bytes on "{event.channel.label}"')
            elif isinstance(event, dcsctp.ChannelClosed):
                print(f'{name}: {event.name} "{event.channel.label}", {int(event.reason)}')
            elif isinstance(event, (dcsctp.Connected, dcsctp.ChannelsEnded)):
                print(f"{name}: {event.name}")
            else:
                print(f'{name}: {event.name} "{event.channel.label}"')
        return packets


def data_channels():
    with Channels() as pair:
        chat = pair.a.open("chat")
        print("too early:", said(chat.send, "hello"))
        pair.a.connect()
        pair.settle()
        print("A's has stream", chat.stream)
        for data in ("hello", "", bytes([1, 2, 3])):
            chat.send(data)
        chat.close()
        print("too late:", said(chat.send, "hello"))
        pair.wait()
        fast = pair.b.open("fast", ordered=False, max_retransmits=0, protocol="of ours")
        pair.settle()
        print("B's has stream", fast.stream)
        for end in (pair.a, pair.b):
            end.open("agreed", negotiated=8)
        print("once more:", said(lambda: pair.a.open("agreed", negotiated=8)))
        pair.a.shutdown()
        pair.wait()
        print("another:", said(pair.a.open))


def mistakes():
    """A call that can't be made is an error, and changes nothing."""
    print("an mtu of 31:", said(dcsctp.Socket, dcsctp.Options(mtu=31)))
    with Pair(dcsctp.Options(max_message_size=10, max_send_buffer_size=10)) as pair:
        print("a reset:", said(pair.a.reset_streams, [1]))
        print("a snapshot:", said(pair.a.handover_bytes))
        print("no bytes:", said(pair.send, ""))
        pair.settle()
        print("11 bytes:", said(pair.send, "hello there"))
        pair.settle()
        print("10 bytes:", said(pair.send, "hello here"))
        print("10 more:", said(pair.send, "hello here"))
        pair.settle()
        print("a packet without bytes:", said(pair.a.handle_input, b""))
        pair.settle()
        print("a close:", said(pair.a.close))
        pair.settle()
    for number in range(-1, -25, -1):
        print(f"{number}: {dcsctp.error_of(number)}")


if __name__ == "__main__":
    for index, program in enumerate((connect, send, close_a_channel, hand_over, shut_down, data_channels, mistakes)):
        print("\n" * (index > 0) + program.__name__.replace("_", " "))
        program()
