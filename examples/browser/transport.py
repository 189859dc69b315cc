"""Data channels for aiortc by the C library: `Transport` replaces its SCTP. ICE and DTLS stay aiortc's.

A user has functions for what comes: `connected()`, `incoming(channel)`, `opened(channel)`, `message(channel, data)`,
`low(channel)` (its queue has fallen to the threshold), `closed(channel, reason)` and `ended()`. `fail(failure)` gets what goes wrong.
"""

import asyncio
import struct
import time

import aiortc.rtcpeerconnection
import dcsctp
from aiortc import RTCConfiguration, RTCPeerConnection, RTCSessionDescription
from aiortc.rtcsctptransport import RTCSctpCapabilities

LINKTYPE_SCTP = 248


class Pcap:
    """A file of packets for Wireshark, with the time of day."""

    def __init__(self, path):
        self.file = open(path, "wb")
        self.file.write(struct.pack("=IHHIIII", 0xA1B23C4D, 2, 4, 0, 0, 65535, LINKTYPE_SCTP))

    def write(self, packet):
        seconds, nanoseconds = divmod(time.time_ns(), 1_000_000_000)
        self.file.write(struct.pack("=IIII", seconds, nanoseconds, len(packet), len(packet)) + packet)


class Transport:
    """What RTCPeerConnection uses of aiortc's RTCSctpTransport, over `Channels`."""

    port = 5000
    _outbound_streams_count = 65535

    def __init__(self, transport, user, pcap):
        self.transport, self.user, self.pcap = transport, user, pcap
        self.channels = self.timer = self.sender = None
        self.packets = asyncio.Queue()

    def on(self, event):
        return lambda function: function

    def setTransport(self, transport):
        self.transport = transport

    @staticmethod
    def getCapabilities():
        return RTCSctpCapabilities(maxMessageSize=262144)

    async def start(self, capabilities, port):
        if self.channels:
            return
        is_client = self.transport._role == "client"
        options = dcsctp.Options(remote_port=port)
        self.channels = dcsctp.Channels(options, now=time.monotonic_ns(), is_dtls_client=is_client)
        self.user.channels = self.channels
        self.sender = asyncio.ensure_future(self.send_packets())
        self.transport._register_data_receiver(self)
        self.channels.connect()
        self.turn()

    async def stop(self):
        if self.channels:
            self.transport._unregister_data_receiver(self)
            self.timer.cancel()
            self.sender.cancel()
            self.channels.destroy()
            self.channels = None

    async def send_packets(self):
        while True:
            await self.transport._send_data(await self.packets.get())

    async def _handle_data(self, packet):
        if self.pcap:
            self.pcap.write(packet)
        self.turn(packet)

    def turn(self, packet=None):
        """One round of the loop: what has come, all events, and a timer for the next deadline."""
        try:
            self.channels.advance_time(time.monotonic_ns())
            if packet is not None:
                self.channels.handle_input(packet)
            for event in self.channels.events():
                self.take(event)
            deadline = self.channels.poll_timeout()
        except Exception as failure:
            self.user.fail(failure)
            raise
        if self.timer:
            self.timer.cancel()
        self.timer = asyncio.get_event_loop().call_at((deadline or dcsctp.NEVER) / 1e9, self.turn)

    def take(self, event):
        if isinstance(event, dcsctp.SendPacket):
            if self.pcap:
                self.pcap.write(event.packet)
            self.packets.put_nowait(event.packet)
        elif isinstance(event, dcsctp.Connected):
            self.user.connected()
        elif isinstance(event, dcsctp.ChannelIncoming):
            self.user.incoming(event.channel)
        elif isinstance(event, dcsctp.ChannelOpened):
            self.user.opened(event.channel)
        elif isinstance(event, dcsctp.ChannelMessage):
            self.user.message(event.channel, event.data)
        elif isinstance(event, dcsctp.ChannelBufferedAmountLow):
            self.user.low(event.channel)
        elif isinstance(event, dcsctp.ChannelClosed):
            self.user.closed(event.channel, event.reason)
        elif isinstance(event, dcsctp.ChannelsEnded):
            self.user.ended()


def make_peer(user, pcap=None):
    """A peer connection whose data channels are the user's, and a function that answers an offer."""
    aiortc.rtcpeerconnection.RTCSctpTransport = lambda transport: Transport(transport, user, pcap)
    peer = RTCPeerConnection(RTCConfiguration(iceServers=[]))

    async def answer(offer):
        await peer.setRemoteDescription(RTCSessionDescription(**offer))
        await peer.setLocalDescription(await peer.createAnswer())
        return {"type": peer.localDescription.type, "sdp": peer.localDescription.sdp}

    return peer, answer
