"""Browsers without a window, in which a script is run and its value told."""
import base64
import json
import os
import re
import shutil
import socket
import subprocess
import sys
import time


class Browser:
    """What both have: waiting until a script's value holds."""

    def value(self, script):
        raise NotImplementedError

    def until(self, script, seconds=60):
        """Waits until a script's value holds."""
        end = time.monotonic() + seconds
        while time.monotonic() < end:
            if self.value(script):
                return True
            time.sleep(0.05)
        return False

    def end(self):
        self.it.terminate()
        self.it.wait()


class Chromium(Browser):
    """Spoken to over two pipes (Chrome DevTools Protocol)."""

    def __init__(self, folder):
        chromium = shutil.which("chromium") or sys.exit("page: chromium isn't installed")
        down, self.to = os.pipe()
        self.back, up = os.pipe()

        def placed():
            ends = [os.dup(down), os.dup(up)]
            os.dup2(ends[0], 3)
            os.dup2(ends[1], 4)
        words = "--headless=new --no-sandbox --disable-gpu --no-first-run --remote-debugging-pipe".split()
        self.it = subprocess.Popen([chromium, *words, f"--user-data-dir={folder}", "about:blank"], pass_fds=(3, 4, down, up), preexec_fn=placed,
                                   stdout=subprocess.DEVNULL, stderr=subprocess.DEVNULL)
        os.close(down)
        os.close(up)
        self.rest, self.count, self.session = b"", 0, None
        target = self.send("Target.createTarget", url="about:blank")["targetId"]
        self.session = self.send("Target.attachToTarget", targetId=target, flatten=True)["sessionId"]

    def send(self, method, **params):
        self.count += 1
        said = {"id": self.count, "method": method, "params": params}
        if self.session:
            said["sessionId"] = self.session
        data = json.dumps(said).encode() + b"\0"
        while data:
            data = data[os.write(self.to, data):]
        while True:
            answer = self.next()
            if answer.get("id") == self.count:
                if "error" in answer:
                    raise RuntimeError(f"{method}: {answer['error']}")
                return answer["result"]

    def next(self):
        while b"\0" not in self.rest:
            piece = os.read(self.back, 1 << 20)
            if not piece:
                sys.exit("page: the browser ended")
            self.rest += piece
        one, self.rest = self.rest.split(b"\0", 1)
        return json.loads(one)

    def open(self, path):
        self.send("Page.enable")
        self.send("Page.navigate", url="file://" + os.path.abspath(path))

    def value(self, script):
        """What a script gives, once it is settled."""
        answer = self.send("Runtime.evaluate", expression=script, awaitPromise=True, returnByValue=True)
        if "exceptionDetails" in answer:
            raise RuntimeError(answer["exceptionDetails"]["exception"].get("description", "a fault of the script"))
        return answer["result"].get("value")

    def shot(self, path, width=1280, height=900, dark=False):
        self.send("Emulation.setDeviceMetricsOverride", width=width, height=height, deviceScaleFactor=1, mobile=width < 600)
        self.send("Emulation.setEmulatedMedia", features=[{"name": "prefers-color-scheme", "value": "dark" if dark else "light"}])
        with open(path, "wb") as file:
            file.write(base64.b64decode(self.send("Page.captureScreenshot", format="png")["data"]))


class Firefox(Browser):
    """Spoken to over a socket (WebDriver BiDi), by the frames of RFC 6455."""

    def __init__(self, folder):
        firefox = shutil.which("firefox-esr") or sys.exit("page: firefox-esr isn't installed")
        os.makedirs(folder, exist_ok=True)
        words = ["--headless", "--no-remote", "--profile", folder, "--remote-debugging-port", "0"]
        self.it = subprocess.Popen([firefox, *words], stdout=subprocess.DEVNULL, stderr=subprocess.PIPE, text=True, env={**os.environ, "HOME": folder})
        port = next((int(found[1]) for found in (re.search(r"listening on ws://127.0.0.1:(\d+)", line) for line in self.it.stderr) if found), None)
        self.socket = socket.create_connection(("127.0.0.1", port or sys.exit("page: firefox doesn't listen")))
        key = base64.b64encode(os.urandom(16)).decode()
        head = f"GET /session HTTP/1.1\r\nHost: 127.0.0.1:{port}\r\nUpgrade: websocket\r\nConnection: Upgrade\r\nSec-WebSocket-Key: {key}\r\nSec-WebSocket-Version: 13\r\n\r\n"
        self.socket.sendall(head.encode())
        self.rest, self.count = b"", 0
        while b"\r\n\r\n" not in self.rest:
            self.rest += self.socket.recv(4096)
        self.rest = self.rest.split(b"\r\n\r\n", 1)[1]
        self.send("session.new", capabilities={})
        self.context = self.send("browsingContext.getTree")["contexts"][0]["context"]

    def send(self, method, **params):
        self.count += 1
        data, mask = json.dumps({"id": self.count, "method": method, "params": params}).encode(), os.urandom(4)
        size = len(data)
        length = bytes([128 | size]) if size < 126 else bytes([254]) + size.to_bytes(2, "big") if size < 65536 else bytes([255]) + size.to_bytes(8, "big")
        whole = mask * (size // 4 + 1)
        self.socket.sendall(b"\x81" + length + mask + (int.from_bytes(data, "big") ^ int.from_bytes(whole[:size], "big")).to_bytes(size, "big"))
        while True:
            answer = json.loads(self.message())
            if answer.get("id") == self.count:
                if answer["type"] != "success":
                    raise RuntimeError(f"{method}: {answer.get('message')}")
                return answer["result"]

    def message(self):
        whole = b""
        while True:
            first, second = self.taken(2)
            size = second & 127
            if size > 125:
                size = int.from_bytes(self.taken(2 if size == 126 else 8), "big")
            whole += self.taken(size)
            if first & 128:
                return whole

    def taken(self, size):
        while len(self.rest) < size:
            piece = self.socket.recv(1 << 20)
            if not piece:
                sys.exit("page: the browser ended")
            self.rest += piece
        front, self.rest = self.rest[:size], self.rest[size:]
        return front

    def open(self, path):
        self.send("browsingContext.navigate", context=self.context, url="file://" + os.path.abspath(path), wait="complete")

    def value(self, script):
        """What a script gives, once it is settled."""
        answer = self.send("script.evaluate", expression=script, target={"context": self.context}, awaitPromise=True)
        if answer["type"] != "success":
            raise RuntimeError(answer["exceptionDetails"]["text"])
        return plain(answer["result"])


def plain(told):
    """A value as Firefox tells it, as Python has it."""
    kind, value = told["type"], told.get("value")
    if kind == "object":
        return {name: plain(inner) for name, inner in value}
    if kind == "array":
        return [plain(inner) for inner in value]
    return value
