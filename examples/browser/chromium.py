#!/usr/bin/env python3
"""Shows a page to headless Chromium, until the page has posted what it did.

    chromium.py PAGE SCREENSHOT [WORD]      gives the page WORD as its location.hash

The page posts to /result a list of steps, each as [name, detail, right]. The program prints them. It
exits with 0 only if there are some, and all are right; else it prints what the page wrote to its
console, too.
"""

import asyncio
import http.server
import json
import os
import subprocess
import sys
import tempfile
import threading

PATIENCE = 60  # seconds


def make_handler(page, loop, answer, result, finished):
    """Serves the page of this file. What it posts to /offer, `answer` answers. /finished answers after it has posted
    what it did: since the page has it as an image, Chromium waits for it before it takes the screenshot."""

    class Handler(http.server.BaseHTTPRequestHandler):
        def reply(self, kind, body):
            self.send_response(200)
            self.send_header("Content-Type", kind)
            self.send_header("Content-Length", str(len(body)))
            self.end_headers()
            self.wfile.write(body)

        def do_GET(self):
            if self.path == "/":
                with open(page, "rb") as file:
                    self.reply("text/html; charset=utf-8", file.read())
            elif self.path == "/finished":
                finished.wait(PATIENCE)
                self.reply("image/svg+xml", b'<svg xmlns="http://www.w3.org/2000/svg"/>')
            else:
                self.send_error(404)

        def do_POST(self):
            body = json.loads(self.rfile.read(int(self.headers["Content-Length"])))
            if self.path == "/offer":
                made = asyncio.run_coroutine_threadsafe(answer(body), loop).result(PATIENCE)
                self.reply("application/json", json.dumps(made).encode())
            else:
                loop.call_soon_threadsafe(result.set_result, body)
                self.reply("application/json", b"{}")

        def log_message(self, *words):
            pass

    return Handler


async def run_page(url, result, screenshot, finished):
    """Runs Chromium until it has taken a screenshot, and returns what the page has reported."""
    with tempfile.TemporaryDirectory(ignore_cleanup_errors=True) as profile, tempfile.TemporaryFile() as log:
        browser = subprocess.Popen(
            ["chromium", "--headless=new", "--no-sandbox", "--disable-gpu", "--hide-scrollbars"]
            + ["--enable-logging=stderr"]
            + [f"--user-data-dir={profile}", "--window-size=760,480", f"--screenshot={screenshot}"]
            + [url],
            stdout=subprocess.DEVNULL,
            stderr=log,
        )

        def console():
            log.seek(0)
            return [line for line in log.read().decode(errors="replace").split("\n") if "CONSOLE" in line]

        try:
            steps = await asyncio.wait_for(result, PATIENCE)
            finished.set()
            await asyncio.to_thread(browser.wait, PATIENCE)
        except asyncio.TimeoutError:
            sys.exit("\n".join(["browser: the page reported nothing; its script may be wrong", *console()]))
        finally:
            finished.set()
            browser.terminate()
            browser.wait()
        for name, detail, right in steps:
            print(f"page: {'right' if right else 'WRONG'}: {name}: {detail}")
        if not all(right for _, _, right in steps):
            print("\n".join(console()))
        return steps


async def show(page, screenshot, word="", answer=None):
    """Shows the page, and returns what it has reported."""
    loop = asyncio.get_running_loop()
    result, finished = loop.create_future(), threading.Event()
    handler = make_handler(page, loop, answer, result, finished)
    server = http.server.ThreadingHTTPServer(("127.0.0.1", 0), handler)
    server.daemon_threads = True
    threading.Thread(target=server.serve_forever, daemon=True).start()
    try:
        url = f"http://127.0.0.1:{server.server_port}/#{word}"
        return await run_page(url, result, os.path.abspath(screenshot), finished)
    finally:
        server.shutdown()


if __name__ == "__main__":
    if len(sys.argv) not in (3, 4):
        sys.exit(__doc__)
    reported = asyncio.run(show(*sys.argv[1:]))
    sys.exit(not reported or not all(right for _, _, right in reported))
