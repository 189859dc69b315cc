"""Opens the address that examples/browser/chat.py prints in headless Chromium, types a text and presses Enter: it must
come back. Chromium is told so through pipes (its flag --remote-debugging-pipe). scripts/check-peers.sh runs it.

    types_a_text.py COMMAND..      what starts the chat
"""

import json
import os
import re
import subprocess
import sys
import tempfile
import time

PATIENCE = 40  # seconds


class Chromium:
    def __init__(self, profile):
        theirs, self.to = os.pipe()
        self.back, ours = os.pipe()
        command = ["chromium", "--headless=new", "--no-sandbox", "--disable-gpu", f"--user-data-dir={profile}"]
        # (it reads from 3 and writes to 4)
        shell = f'exec "$@" --remote-debugging-pipe 3<&{theirs} 4>&{ours}'
        self.process = subprocess.Popen(
            ["bash", "-c", shell, "bash", *command],
            pass_fds=(theirs, ours),
            stdout=subprocess.DEVNULL,
            stderr=subprocess.DEVNULL,
        )
        os.close(theirs)
        os.close(ours)
        self.number, self.rest = 0, b""

    def call(self, method, session=None, **values):
        self.number += 1
        message = {"id": self.number, "method": method, "params": values, **({"sessionId": session} if session else {})}
        os.write(self.to, json.dumps(message).encode() + b"\0")
        while True:
            while b"\0" not in self.rest:
                self.rest += os.read(self.back, 1 << 16) or sys.exit("chat: Chromium has ended")
            line, self.rest = self.rest.split(b"\0", 1)
            answer = json.loads(line)
            if answer.get("id") == self.number:
                return answer["result"]

    def open(self, url):
        target = self.call("Target.createTarget", url=url)["targetId"]
        self.session = self.call("Target.attachToTarget", targetId=target, flatten=True)["sessionId"]

    def until(self, expression, expected):
        for _ in range(PATIENCE * 10):
            value = self.call("Runtime.evaluate", self.session, expression=expression)["result"].get("value")
            if value == expected:
                return
            time.sleep(0.1)
        sys.exit(f"chat: {expression} is {value!r}")


def main():
    chat = subprocess.Popen(sys.argv[1:], stdout=subprocess.PIPE, text=True)
    with tempfile.TemporaryDirectory(ignore_cleanup_errors=True) as profile:
        browser = Chromium(profile)
        try:
            browser.open(re.search(r"http://\S+", chat.stdout.readline())[0])
            browser.until("document.getElementById('text')?.disabled", False)
            for text in ("hello", "grüße ∞"):
                browser.call("Input.insertText", browser.session, text=text)
                for kind in ("keyDown", "keyUp"):
                    key = {"key": "Enter", "code": "Enter", "windowsVirtualKeyCode": 13, "text": "\r"}
                    browser.call("Input.dispatchKeyEvent", browser.session, type=kind, **key)
                browser.until("document.getElementById('said').lastChild?.textContent", f"you said: {text}")
        finally:
            browser.process.terminate()
            browser.process.wait()
            chat.terminate()
            chat.wait()
    print("what was typed came back")


main()
