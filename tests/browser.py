#!/usr/bin/env python3
"""The page of `abft serve --http` in a real browser: tests/browser.py ABFT CHROMIUM [PICTURE]. It starts a cluster, opens the page at 400
pixels' width, sends a transaction and asks for its key by the keyboard alone, and fails where the page doesn't show the block that has it.
With PICTURE it stores the page as it looked, 900 pixels wide."""
import base64
import json
import os
import socket
import struct
import subprocess
import sys
import tempfile
import time
import urllib.request

ABFT, CHROMIUM = sys.argv[1], sys.argv[2]


class Browser:
    """A page of a headless browser, by the Chrome DevTools protocol."""

    def __init__(self, folder, url):
        self.process = subprocess.Popen(
            [CHROMIUM, "--headless=new", "--no-sandbox", "--disable-gpu", "--remote-debugging-port=0", "--user-data-dir=" + folder, url], stdout=subprocess.DEVNULL, stderr=subprocess.PIPE, text=True)
        for line in self.process.stderr:
            if "DevTools listening on ws://" in line:
                address = line.split("ws://")[1].split("/")[0]
                break
        else:
            sys.exit("the browser didn't start")
        for _ in range(100):
            pages = [p for p in json.load(urllib.request.urlopen(f"http://{address}/json")) if p["type"] == "page"]
            if pages:
                break
            time.sleep(0.1)
        host, port = address.split(":")
        self.stream = socket.create_connection((host, int(port)))
        path = pages[0]["webSocketDebuggerUrl"].split(address)[1]
        self.stream.sendall((f"GET {path} HTTP/1.1\r\nHost: {address}\r\nUpgrade: websocket\r\nConnection: Upgrade\r\n"
                             "Sec-WebSocket-Version: 13\r\nSec-WebSocket-Key: AAAAAAAAAAAAAAAAAAAAAA==\r\n\r\n").encode())
        head = b""
        while not head.endswith(b"\r\n\r\n"):
            head += self.stream.recv(1)
        self.count = 0
        self.show(400, 900)

    def show(self, width, height):
        """Makes the window as large as this."""
        self.call("Emulation.setDeviceMetricsOverride", width=width, height=height, deviceScaleFactor=1, mobile=False)

    def exact(self, count):
        data = b""
        while len(data) < count:
            data += self.stream.recv(count - len(data)) or sys.exit("the browser is gone")
        return data

    def message(self):
        """The next whole message."""
        data = b""
        while True:
            first, second = self.exact(2)
            length = second & 127
            if length == 126:
                length = struct.unpack(">H", self.exact(2))[0]
            elif length == 127:
                length = struct.unpack(">Q", self.exact(8))[0]
            data += self.exact(length)
            if first & 128:
                return json.loads(data)

    def call(self, method, **params):
        """The result of a call."""
        self.count += 1
        data = json.dumps({"id": self.count, "method": method, "params": params}).encode()
        head = bytes([0x81, 0xFE]) + struct.pack(">H", len(data)) if len(data) > 125 else bytes([0x81, 0x80 | len(data)])
        self.stream.sendall(head + bytes(4) + data)
        while True:
            answer = self.message()
            if answer.get("id") == self.count:
                return answer["result"]

    def value(self, expression):
        return self.call("Runtime.evaluate", expression=expression)["result"].get("value")

    def wait_for(self, name, expression):
        for _ in range(300):
            if self.value(expression):
                print("ok:", name)
                return
            time.sleep(0.1)
        sys.exit(f"failed: {name}: the page shows {self.value('document.body.innerText')!r}")

    def press(self, key, text=None):
        for kind in ("keyDown", "keyUp"):
            code = {"Tab": 9, "Enter": 13}.get(key, 0)
            more = {"text": text} if text and kind == "keyDown" else {}
            self.call("Input.dispatchKeyEvent", type=kind, key=key, windowsVirtualKeyCode=code, **more)

    def type(self, words):
        self.value("document.activeElement.select()")
        self.call("Input.insertText", text=words)
        self.press("Enter", "\r")


def tab_to(browser, name):
    """Goes to an element by the tabulator alone."""
    for _ in range(20):
        if browser.value("document.activeElement.id") == name:
            return
        browser.press("Tab")
    sys.exit(f"failed: the tabulator never comes to {name}")


with tempfile.TemporaryDirectory() as folder:
    server = subprocess.Popen([ABFT, "serve", "--http", "0", "--tree", "10", "--rounds", "4000000000", "--quiet",
                               "--stop-at-eof"], stdin=subprocess.PIPE, stdout=subprocess.PIPE, text=True)
    ports = [server.stdout.readline().split() for _ in range(2)]
    assert [port[0] for port in ports] == ["listening", "http"], ports
    browser = Browser(folder, f"http://127.0.0.1:{ports[1][1]}/")
    try:
        browser.wait_for("four replicas", "document.getElementById('replicas').rows.length === 4")
        browser.wait_for("a first block", "document.getElementById('blocks').innerText.includes('a=1')")
        tab_to(browser, "tx")
        browser.type("name=satoshi")
        browser.wait_for("the block of a transaction that was sent", "document.getElementById('sent').innerText.startsWith('In block ')")
        browser.wait_for("that block is shown", "document.getElementById('blocks').innerText.includes('name=satoshi')")
        tab_to(browser, "key")
        browser.type("name")
        browser.wait_for("the value of a key", "document.getElementById('found').innerText.startsWith('satoshi (height ')")
        browser.wait_for("nothing is wider than 400 pixels", "document.documentElement.scrollWidth <= 400")
        if len(sys.argv) > 3:
            browser.show(900, 760)
            time.sleep(1)
            with open(sys.argv[3], "wb") as file:
                file.write(base64.b64decode(browser.call("Page.captureScreenshot")["data"]))
    finally:
        browser.process.kill()
        server.stdin.close()
        server.wait()
