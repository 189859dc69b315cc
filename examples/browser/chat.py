#!/usr/bin/env python3
"""A page in your own browser has a data channel to this program, by the C library. What is typed there comes back.

    chat.py [PORT]      run by `make chat`; it prints the address to open
"""

import asyncio
import http.server
import os
import sys
import threading

import chromium
import transport

FOLDER = os.path.dirname(os.path.abspath(__file__))


class Chat:
    """Sends back each text."""

    def fail(self, failure):
        print("chat: failed:", repr(failure))

    def connected(self):
        print("chat: connected")

    def incoming(self, channel):
        print(f'chat: the page has opened "{channel.label}"')

    def opened(self, channel):
        pass

    def message(self, channel, data):
        print(f"chat: {data}")
        channel.send(f"you said: {data}" if isinstance(data, str) else data)

    def low(self, channel):
        pass

    def closed(self, channel, reason):
        print("chat: the channel is closed")

    def ended(self):
        print("chat: the page has gone; load it again")


async def main(port):
    peers = []

    async def answer(offer):
        peer, made = transport.make_peer(Chat())
        peers.append(peer)
        return await made(offer)

    loop = asyncio.get_running_loop()
    page = os.path.join(FOLDER, "chat.html")
    handler = chromium.make_handler(page, loop, answer, loop.create_future(), threading.Event())
    server = http.server.ThreadingHTTPServer(("127.0.0.1", port), handler)
    server.daemon_threads = True
    threading.Thread(target=server.serve_forever, daemon=True).start()
    print(f"chat: open http://127.0.0.1:{server.server_port}/ in a browser on this machine; Ctrl-C ends it", flush=True)
    await asyncio.Event().wait()


if __name__ == "__main__":
    try:
        asyncio.run(main(int(sys.argv[1]) if len(sys.argv) > 1 else 0))
    except KeyboardInterrupt:
        pass
