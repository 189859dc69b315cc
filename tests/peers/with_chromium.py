"""Data channels to a page in headless Chromium, with a browser's habits; scripts/check-peers.sh runs it.

    with_chromium.py SCREENSHOT [LOSS]      so many packets of a hundred are lost

The page, chromium.html, does the steps and judges them. This end sends back what comes on channels whose label begins
with "echo", and does what texts on the channel "control" ask for.
"""

import asyncio
import os
import random
import sys

import chromium
import transport

PAGE = os.path.join(os.path.dirname(os.path.abspath(__file__)), "chromium.html")
LOSS = int(sys.argv[2]) if len(sys.argv) > 2 else 0
CHANCE = random.Random(1)
PART, ENOUGH = 16384, 1_000_000


class Lossy(transport.Transport):
    """Loses packets, both ways."""

    async def _handle_data(self, packet):
        if CHANCE.randrange(100) >= LOSS:
            await super()._handle_data(packet)

    def take(self, event):
        if not isinstance(event, transport.dcsctp.SendPacket) or CHANCE.randrange(100) >= LOSS:
            super().take(event)


class Program:
    def __init__(self):
        self.channels, self.control, self.mine, self.bursts = None, None, [], {}
        self.sizes, self.failures, self.is_ended = {}, [], False

    def fail(self, failure):
        print("program: failed:", repr(failure))
        self.failures.append(failure)

    def connected(self):
        print("program: connected")

    def incoming(self, channel):
        if channel.label == "control":
            self.control = channel

    def opened(self, channel):
        if channel in self.bursts:
            self.push(channel)

    def message(self, channel, data):
        if channel is self.control:
            self.obey(*data.split())
        elif channel.label.startswith("echo"):
            channel.send(data)
        else:
            count, size = self.sizes.get(channel.label, (0, 0))
            self.sizes[channel.label] = count + 1, size + len(data)

    def obey(self, what, number):
        number = int(number)
        if what == "open":
            self.mine = [self.channels.open(f"echo b {it}") for it in range(number)]
        elif what == "close":
            for channel in self.mine[:number]:
                channel.close()
        elif what == "agree":
            self.channels.open("echo agreed", negotiated=number)
        elif what == "burst":
            self.bursts[self.channels.open("burst")] = number
        elif what == "fast":
            channel = self.channels.open("fast b", ordered=False, max_retransmits=0)
            for it in range(number):
                channel.send(str(it))
        elif what == "count":
            count, size = self.sizes.get("burst a" if number else "fast a", (0, 0))
            self.control.send(f"{count} {size}")
        elif what == "used":
            self.control.send(f"{self.channels.streams_in_use()}")
        else:
            self.fail(what)

    def push(self, channel):
        """Sends more of a burst, as much as there should be in the queue."""
        channel.buffered_amount_low_threshold = ENOUGH // 2
        while self.bursts[channel] > 0 and channel.buffered_amount < ENOUGH:
            channel.send(bytes(PART))
            self.bursts[channel] -= PART

    def low(self, channel):
        if channel in self.bursts:
            self.push(channel)

    def closed(self, channel, reason):
        self.bursts.pop(channel, None)

    def ended(self):
        self.is_ended = True


async def main():
    program = Program()
    transport.Transport = Lossy
    peer, answer = transport.make_peer(program)
    try:
        steps = await chromium.show(PAGE, sys.argv[1], answer=answer, word="lossy" if LOSS else "")
    finally:
        await peer.close()
    return bool(program.failures) or not steps or not all(right for _, _, right in steps)


sys.exit(asyncio.run(main()))
