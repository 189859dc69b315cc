"""Data channels to aiortc's own SCTP, in one process, with the habits of a browser; scripts/check-peers.sh runs it.

Packets go from the one to the other without ICE and DTLS, and so many of a hundred are lost: with_aiortc.py [LOSS]
"""

import asyncio
import random
import sys
import types

from aiortc import RTCDataChannel, RTCDataChannelParameters
from aiortc.rtcsctptransport import RTCSctpTransport

import dcsctp
import transport

LOSS = int(sys.argv[1]) if len(sys.argv) > 1 else 0
CHANCE = random.Random(1)
PATIENCE = 60
RECONFIG = 130  # RFC 6525, section 3.1


def chunk_types(packet):
    """The types of a packet's chunks (RFC 9260, section 3.2)."""
    at, found = 12, []
    while at + 4 <= len(packet):
        found.append(packet[at])
        at += (int.from_bytes(packet[at + 2 : at + 4], "big") + 3) // 4 * 4
    return found


class Wire:
    """What both SCTPs use of a DTLS transport. Packets stay in order."""

    state = "connected"

    def __init__(self, role):
        self._role = role
        # (aiortc's server of SCTP waits, and gives even streams)
        self.transport = types.SimpleNamespace(role="controlled")
        self.receiver = self.peer = None
        self.packets = asyncio.Queue()
        self.task = asyncio.ensure_future(self.carry())

    def _register_data_receiver(self, receiver):
        self.receiver = receiver

    def _unregister_data_receiver(self, receiver):
        self.receiver = None

    async def _send_data(self, packet):
        # aiortc never repeats a request to reset streams, so neither that nor its answer may be lost.
        if RECONFIG in chunk_types(packet) or CHANCE.randrange(100) >= LOSS:
            self.peer.packets.put_nowait(packet)

    async def carry(self):
        while True:
            packet = await self.packets.get()
            if self.receiver:
                await self.receiver._handle_data(packet)


class Ours:
    """What our end has seen, by the labels of channels."""

    def __init__(self):
        self.channels, self.known, self.got, self.reasons = None, {}, {}, {}
        self.is_connected, self.failures = False, []

    def open(self, label, **how):
        self.known[label], self.got[label] = self.channels.open(label, **how), []

    def connected(self):
        self.is_connected = True

    def incoming(self, channel):
        self.known[channel.label], self.got[channel.label] = channel, []

    def opened(self, channel):
        self.got[channel.label].append("opened")

    def message(self, channel, data):
        self.got[channel.label].append(data)

    def low(self, channel):
        pass

    def closed(self, channel, reason):
        self.reasons[channel.label] = reason

    def ended(self):
        self.failures.append("ended")

    def fail(self, failure):
        self.failures.append(failure)


class Theirs:
    """The same of aiortc's end, which sends back what comes."""

    def __init__(self, sctp):
        self.sctp, self.known, self.got = sctp, {}, {}
        sctp.on("datachannel", self.add)

    def open(self, label, **how):
        self.add(RTCDataChannel(self.sctp, RTCDataChannelParameters(label=label, **how)))

    def add(self, channel):
        self.known[channel.label], self.got[channel.label] = channel, []
        channel.on("message", lambda data: self.message(channel, data))

    def message(self, channel, data):
        self.got[channel.label].append(data)
        if channel.label.startswith("echo"):
            channel.send(data)

    def is_closed(self, label):
        return self.known[label].readyState == "closed"


class World:
    def __init__(self):
        wires = Wire("server"), Wire("client")
        wires[0].peer, wires[1].peer = wires[1], wires[0]
        self.wires, self.ours = wires, Ours()
        self.our_sctp = transport.Transport(wires[0], self.ours, None)
        self.their_sctp = RTCSctpTransport(wires[1])
        self.theirs = Theirs(self.their_sctp)

    async def start(self):
        await self.their_sctp.start(RTCSctpTransport.getCapabilities(), 5000)
        await self.our_sctp.start(None, 5000)
        await self.until("connected", lambda: self.ours.is_connected)

    async def stop(self):
        await self.our_sctp.stop()
        for wire in self.wires:
            wire.task.cancel()

    def flush(self):
        """Sends what our calls have made: a call of `Channels` outside of its events needs a round of the loop."""
        self.our_sctp.turn()

    async def until(self, name, holds):
        self.flush()
        for _ in range(PATIENCE * 100):
            if self.ours.failures:
                raise AssertionError(f"{name}: {self.ours.failures}")
            if holds():
                return
            await asyncio.sleep(0.01)
        raise AssertionError(f"{name}: it doesn't happen")

    def closed(self, *labels):
        """Both ends have closed these, by resets."""
        return all(self.ours.reasons.get(it) == 0 and self.theirs.is_closed(it) for it in labels)


async def opens_from_either_end(world):
    world.ours.open("echo ours", protocol="p", ordered=False, max_retransmits=70000)
    world.theirs.open("echo theirs", ordered=True, maxPacketLifeTime=5000)
    await world.until("opened", lambda: "opened" in world.ours.got["echo ours"] and "echo theirs" in world.ours.known)
    there = world.theirs.known["echo ours"]
    assert (there.protocol, there.ordered, there.maxRetransmits) == ("p", False, 70000), there
    here = world.ours.known["echo theirs"]
    assert (here.ordered, here.max_lifetime, here.max_retransmits) == (True, 5000, None)
    data = ["hello", "grüße ∞", "", b"", b"\0\xff", "x" * 30000]
    for label in ("echo ours", "echo theirs"):
        for it in data:
            world.ours.known[label].send(it)
    await world.until("echoed", lambda: world.ours.got["echo theirs"] == data)
    # (it is unordered)
    expected = sorted(map(str, ["opened", *data]))
    await world.until("echoed", lambda: sorted(map(str, world.ours.got["echo ours"])) == expected)
    world.ours.known["echo ours"].close()
    world.theirs.known["echo theirs"].close()
    await world.until("closed", lambda: world.closed("echo ours", "echo theirs"))


async def opens_again_and_again(world):
    streams = set()
    for count in range(20):
        label = f"echo {count}"
        world.ours.open(label)
        streams.add(world.ours.known[label].stream)
        world.ours.known[label].send("again")
        await world.until("echoed", lambda: world.ours.got[label].count("again") == 1)
        (world.ours if count % 2 else world.theirs).known[label].close()
        await world.until("closed", lambda: world.closed(label))
    assert streams == {1}, streams


async def opens_fifty_at_once(world):
    ours, theirs = ([f"echo {who} {it}" for it in range(25)] for who in ("a", "b"))
    for label in ours:
        world.ours.open(label)
    for label in theirs:
        world.theirs.open(label)
    both = [*ours, *theirs]
    await world.until("opened", lambda: all(it in world.ours.known and it in world.theirs.known for it in both))
    for label in both:
        world.ours.known[label].send(label)
    await world.until("echoed", lambda: all(label in world.ours.got[label] for label in both))
    for at, label in enumerate(both):
        (world.ours if at % 2 else world.theirs).known[label].close()
    await world.until("closed", lambda: world.closed(*both))
    assert world.our_sctp.channels.streams_in_use() == 0


async def sends_a_mebibyte(world):
    parts = [CHANCE.randbytes(16384) for _ in range(64)]
    world.ours.open("echo long")
    for part in parts:
        world.ours.known["echo long"].send(part)
    await world.until("a MiB", lambda: len(world.ours.got["echo long"]) == 65)
    assert world.ours.got["echo long"][1:] == parts
    world.ours.known["echo long"].close()
    await world.until("closed", lambda: world.closed("echo long"))


async def sends_sixteen(world):
    """16 MiB from either end, no more at a time than a buffer takes."""
    if LOSS:  # (else it takes a minute)
        return
    parts = [CHANCE.randbytes(65536) for _ in range(256)]
    world.ours.open("burst")
    world.theirs.open("their burst")
    await world.until("opened", lambda: "burst" in world.theirs.known and "their burst" in world.ours.known)
    channel, their_channel = world.ours.known["burst"], world.theirs.known["their burst"]
    for part in parts:
        await world.until("room", lambda: channel.buffered_amount < 1000000)
        channel.send(part)
        await world.until("room", lambda: their_channel.bufferedAmount < 1000000)
        their_channel.send(part)
    for got in (world.theirs.got["burst"], world.ours.got["their burst"]):
        await world.until("16 MiB", lambda got=got: len(got) == len(parts))
        assert got == parts
    channel.close()
    their_channel.close()
    await world.until("closed", lambda: world.closed("burst", "their burst"))


async def abandons_what_is_lost(world):
    world.ours.open("fast", ordered=False, max_retransmits=0)
    world.theirs.open("their fast", ordered=False, maxRetransmits=0)
    await world.until("opened", lambda: "opened" in world.ours.got["fast"] and "their fast" in world.ours.known)
    sent = [f"{it}" for it in range(200)]
    for text in sent:
        world.ours.known["fast"].send(text)
        world.theirs.known["their fast"].send(text)
        world.flush()
        await asyncio.sleep(0.005)
    world.ours.known["fast"].close()
    (world.ours if LOSS else world.theirs).known["their fast"].close()
    await world.until("closed", lambda: world.closed("fast", "their fast"))
    for got in (world.theirs.got["fast"], world.ours.got["their fast"]):
        assert set(got) <= set(sent) and len(got) == len(set(got)) and len(got) > 100, got
        assert LOSS or got == sent


async def agrees_on_a_stream(world):
    world.ours.open("echo agreed", negotiated=1000)
    world.theirs.open("echo agreed", negotiated=True, id=1000)
    world.ours.known["echo agreed"].send("hello")
    await world.until("echoed", lambda: world.ours.got["echo agreed"] == ["opened", "hello"])
    assert world.ours.known["echo agreed"].stream == 1000
    world.theirs.known["echo agreed"].close()
    await world.until("closed", lambda: world.closed("echo agreed"))


async def main():
    world = World()
    await world.start()
    for step in (
        opens_from_either_end,
        opens_again_and_again,
        opens_fifty_at_once,
        sends_a_mebibyte,
        sends_sixteen,
        abandons_what_is_lost,
        agrees_on_a_stream,
    ):
        begun = asyncio.get_running_loop().time()
        await step(world)
        print(f"{step.__name__}: {asyncio.get_running_loop().time() - begun:.1f} s", flush=True)
    await world.stop()


asyncio.run(main())
