#!/usr/bin/env python3
"""A page in headless Chromium has data channels to this program, by the C library.

    browser.py SCREENSHOT [--pcap FILE] [PAGE]      run by scripts/browser.sh

The page, index.html, sends what comes back, and closes and opens channels. It shows what it did, and
reports it here in the end. The program exits with 0 only if the page and it saw all that they should.
FILE gets the packets of SCTP, without DTLS, and Wireshark opens it. With PAGE it serves that file in
place of index.html, and judges nothing.
"""

import argparse
import asyncio
import os
import sys

import chromium
import dcsctp
import transport

FOLDER = os.path.dirname(os.path.abspath(__file__))

# What the page must do, and what the program must see. The page is the DTLS server, so its
# streams are odd.
STEPS = """\
connects
sends texts
sends bytes
sends 1 MiB
sends the longest message
closes the channel
opens one on the same stream
has it closed by the program
is offered a channel
has the association ended""".split("\n")
SEEN = """\
connected; the peer is DCSCTP_CC
stream 1 is opened by the page: "first", ordered, retransmissions None
stream 1 is closed, CLOSED_BY_RESETS: 3 texts of 29 bytes and 19 messages of 1310976 bytes came
stream 1 is opened by the page: "again", unordered, retransmissions 3
stream 1 is closed, CLOSED_BY_RESETS: 2 texts of 24 bytes and 0 messages of 0 bytes came
stream 1 is opened by the page: "third", ordered, retransmissions None
stream 0 is open
stream 0 is closed, CLOSED_BY_RESETS: 1 texts of 6 bytes and 0 messages of 0 bytes came
stream 1 is closed, LOST: 2 texts of 23 bytes and 0 messages of 0 bytes came
ended""".split("\n")


class Program:
    """Sends back what comes, and does what a text asks for."""

    def __init__(self):
        self.seen, self.streams, self.counts, self.ours = [], {}, {}, set()
        self.channels = None
        self.failures = []

    def fail(self, failure):
        print("program: failed:", repr(failure))
        self.failures.append(failure)

    def report(self, text):
        print("program:", text)
        self.seen.append(text)

    def note(self, channel):
        self.streams[channel], self.counts[channel] = channel.stream, [0, 0, 0, 0]
        return self.streams[channel]

    def connected(self):
        self.report(f"connected; the peer is {dcsctp.Peer(self.channels.metrics().peer_implementation).name}")

    def incoming(self, channel):
        how = f"{'ordered' if channel.ordered else 'unordered'}, retransmissions {channel.max_retransmits}"
        self.report(f'stream {self.note(channel)} is opened by the page: "{channel.label}", {how}')

    def opened(self, channel):
        self.report(f"stream {self.note(channel)} is open")
        channel.send("hello from the program")

    def message(self, channel, data):
        at = 0 if isinstance(data, str) else 2
        self.counts[channel][at] += 1
        self.counts[channel][at + 1] += len(data.encode() if at == 0 else data)
        if data == "close, please":
            channel.close()
        elif data == "open, please":
            self.ours.add(self.channels.open("from the program"))
        elif data == "end, please":
            self.channels.close()
        elif channel not in self.ours:
            # (a page that sends more at once would need to wait: docs/guide/channels.md)
            channel.send(data)

    def low(self, channel):
        pass

    def closed(self, channel, reason):
        texts, length, messages, size = self.counts.pop(channel)
        came = f"{texts} texts of {length} bytes and {messages} messages of {size} bytes came"
        self.report(f"stream {self.streams[channel]} is closed, {reason.name}: {came}")

    def ended(self):
        self.report("ended")


def judge(program, steps):
    """Says what isn't as it should be."""
    wrong = [f"the page: {name}: {detail}" for name, detail, right in steps if not right]
    if [name for name, _, _ in steps] != STEPS:
        wrong.append("the page did other steps")
    wrong += [f"missing: {line}" for line in SEEN if line not in program.seen]
    wrong += [f"not expected: {line}" for line in program.seen if line not in SEEN]
    if not wrong and program.seen != SEEN:
        wrong.append("another order")
    return wrong + [f"failed: {failure}" for failure in program.failures]


async def main(screenshot, page, pcap):
    """Runs the page of the example and judges it, or runs another one."""
    program = Program()
    peer, answer = transport.make_peer(program, transport.Pcap(pcap) if pcap else None)
    try:
        steps = await chromium.show(page or os.path.join(FOLDER, "index.html"), screenshot, answer=answer)
    finally:
        await peer.close()
    if page:
        return bool(program.failures)
    wrong = judge(program, steps)
    print("\n".join(wrong) if wrong else "browser: all as it should be")
    return bool(wrong)


if __name__ == "__main__":
    parser = argparse.ArgumentParser()
    parser.add_argument("--pcap")
    parser.add_argument("screenshot")
    parser.add_argument("page", nargs="?")
    sys.exit(asyncio.run(main(**vars(parser.parse_intermixed_args()))))
