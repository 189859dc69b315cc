"""Talks to a text room of Janus by a data channel, with aiortc, in two rounds: scripts/check-janus.sh starts Janus.

    janus.py PORT
"""
import asyncio
import json
import os
import sys
import urllib.request

from aiortc import RTCPeerConnection, RTCSessionDescription

BASE = f"http://127.0.0.1:{sys.argv[1]}/janus"
LONG = "x" * 50000
names = 0


def call(path, body=None):
    """A request of Janus' HTTP API; without a body it waits for an event."""
    data = None
    if body is not None:
        data = json.dumps(dict(body, transaction="t")).encode()
    with urllib.request.urlopen(urllib.request.Request(BASE + path, data), timeout=30) as answer:
        return json.load(answer)


async def event(session):
    """The next event that says something."""
    while True:
        it = await asyncio.to_thread(call, f"/{session}")
        if it["janus"] == "event":
            return it


async def visit():
    """Joins the room, says something, hears it, and leaves."""
    global names
    names += 1
    session = call("", {"janus": "create"})["data"]["id"]
    attach = {"janus": "attach", "plugin": "janus.plugin.textroom"}
    path = f"/{session}/{call(f'/{session}', attach)['data']['id']}"
    call(path, {"janus": "message", "body": {"request": "setup"}})
    offer = (await event(session))["jsep"]
    peer = RTCPeerConnection()
    heard = asyncio.Queue()
    opened = asyncio.Event()
    channel = peer.createDataChannel("JanusDataChannel")
    channel.on("open", opened.set)
    channel.on("message", lambda text: heard.put_nowait(json.loads(text)))
    await peer.setRemoteDescription(RTCSessionDescription(offer["sdp"], offer["type"]))
    await peer.setLocalDescription(await peer.createAnswer())
    answer = {"type": "answer", "sdp": peer.localDescription.sdp}
    call(path, {"janus": "message", "body": {"request": "ack"}, "jsep": answer})
    await asyncio.wait_for(opened.wait(), 30)

    async def hear(word):
        while True:
            it = await asyncio.wait_for(heard.get(), 30)
            if it["textroom"] == word:
                return it

    join = {"textroom": "join", "transaction": "1", "room": 1234, "username": f"guest{names}-{os.getpid()}"}
    channel.send(json.dumps(join))
    assert (await hear("success"))["transaction"] == "1"
    for text in ("hello", LONG):
        said = {"textroom": "message", "transaction": "2", "room": 1234, "text": text}
        channel.send(json.dumps(said))
        assert (await hear("message"))["text"] == text
    await peer.close()
    call(f"/{session}", {"janus": "destroy"})


async def main():
    for _ in range(2):
        await visit()


asyncio.run(main())
print("janus: two visits of a text room")
