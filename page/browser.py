"""Drives Chromium without a window, by its protocol over two pipes. Python's standard library is enough."""

import base64
import fcntl
import json
import os
import select
import subprocess
import time


class Failed(Exception):
    """What the browser, or the page in it, reports."""


class Browser:
    """One Chromium with one page. Its profile, and what it saves, are in the folder."""

    def __init__(self, program, folder):
        self.folder, self.number, self.received, self.waiting = folder, 0, b"", []
        (its_in, our_out), (our_in, its_out) = os.pipe(), os.pipe()
        # It reads 3 and writes 4, and no other end of a pipe may be in the way.
        high_in, high_out = (fcntl.fcntl(one, fcntl.F_DUPFD_CLOEXEC, 20) for one in (its_in, its_out))

        def its_pipes():
            os.dup2(high_in, 3)
            os.dup2(high_out, 4)

        words = [program, "--headless=new", "--no-sandbox", "--disable-gpu", "--hide-scrollbars", "--no-first-run", "--remote-debugging-pipe",
                 "--disable-background-networking", "--disable-dev-shm-usage", f"--user-data-dir={os.path.join(folder, 'profile')}", "about:blank"]
        self.process = subprocess.Popen(words, env={**os.environ, "HOME": folder}, stdin=subprocess.DEVNULL, stdout=subprocess.DEVNULL,
                                        stderr=subprocess.DEVNULL, close_fds=False, preexec_fn=its_pipes, start_new_session=True)
        for one in (its_in, its_out, high_in, high_out):
            os.close(one)
        self.our_in, self.our_out, self.session = our_in, our_out, None
        target = self.call("Target.createTarget", url="about:blank")["targetId"]
        self.session = self.call("Target.attachToTarget", targetId=target, flatten=True)["sessionId"]
        for domain in ("Page", "Runtime", "Network", "Accessibility", "DOM"):
            self.call(domain + ".enable")
        self.call("Emulation.setFocusEmulationEnabled", enabled=True)
        self.call("Browser.setDownloadBehavior", behavior="allow", downloadPath=folder, eventsEnabled=False)

    def __enter__(self):
        return self

    def __exit__(self, *_):
        os.close(self.our_out)  # its end
        try:
            self.process.wait(10)
        except subprocess.TimeoutExpired:
            self.process.kill()

    def receive(self, until):
        """The next message. Fails after that time, or if the browser ends."""
        while b"\0" not in self.received:
            left = until - time.monotonic()
            if left <= 0 or not select.select([self.our_in], [], [], left)[0]:
                raise Failed("the browser doesn't answer")
            data = os.read(self.our_in, 1 << 20)
            if not data:
                raise Failed("the browser has ended")
            self.received += data
        message, _, self.received = self.received.partition(b"\0")
        return json.loads(message)

    def call(self, method, seconds=360, **values):
        self.number += 1
        message = {"id": self.number, "method": method, "params": values}
        if self.session:
            message["sessionId"] = self.session
        data = json.dumps(message).encode() + b"\0"
        while data:
            data = data[os.write(self.our_out, data):]
        until = time.monotonic() + seconds
        while True:
            message = self.receive(until)
            if message.get("id") != self.number:
                self.waiting.append(message)
            elif "error" in message:
                raise Failed(f"{method}: {message['error']['message']}")
            else:
                return message["result"]

    def events(self, method):
        """The parameters of the events of this kind so far."""
        return [message["params"] for message in self.waiting if message.get("method") == method]

    def evaluate(self, script, seconds=360):
        """The value of an expression of JavaScript, or what its promise gives."""
        done = self.call("Runtime.evaluate", seconds, expression=script, awaitPromise=True, returnByValue=True, userGesture=True)
        if "exceptionDetails" in done:
            details = done["exceptionDetails"]
            raise Failed(details.get("exception", {}).get("description", details["text"]))
        return done["result"].get("value")

    def open(self, address):
        self.call("Page.navigate", url=address)

    def window(self, wide, high, scheme="light"):
        self.call("Emulation.setDeviceMetricsOverride", width=wide, height=high, deviceScaleFactor=1, mobile=False)
        self.call("Emulation.setEmulatedMedia", features=[{"name": "prefers-color-scheme", "value": scheme}])

    def press(self, key, modifiers=0):
        text = key if len(key) == 1 else "\r" if key == "Enter" else ""
        code = {"Tab": 9, "Enter": 13, "ArrowLeft": 37, "ArrowRight": 39, "Home": 36, "End": 35, "Backspace": 8, " ": 32}.get(key, ord(key[0]))
        values = {"key": key, "code": "Space" if key == " " else key, "windowsVirtualKeyCode": code, "modifiers": modifiers}
        self.call("Input.dispatchKeyEvent", type="keyDown", **({"text": text} if text else {}), **values)
        self.call("Input.dispatchKeyEvent", type="keyUp", **values)

    def type(self, text):
        self.call("Input.insertText", text=text)

    def click(self, selector):
        """A click in the middle of an element, as by a mouse."""
        x, y = self.evaluate(f"""(() => {{
            const element = document.querySelector({json.dumps(selector)});
            element.scrollIntoView({{ block: "center" }});
            const box = element.getBoundingClientRect();
            return [box.x + box.width / 2, box.y + box.height / 2];
        }})()""")
        for kind in ("mouseMoved", "mousePressed", "mouseReleased"):
            self.call("Input.dispatchMouseEvent", type=kind, x=x, y=y, button="none" if kind == "mouseMoved" else "left", clickCount=1)

    def choose_file(self, selector, path):
        root = self.call("DOM.getDocument")["root"]["nodeId"]
        node = self.call("DOM.querySelector", nodeId=root, selector=selector)["nodeId"]
        self.call("DOM.setFileInputFiles", nodeId=node, files=[path])

    def drop_file(self, path, x=200, y=300):
        data = {"items": [], "files": [path], "dragOperationsMask": 1}
        for kind in ("dragEnter", "dragOver", "drop"):
            self.call("Input.dispatchDragEvent", type=kind, x=x, y=y, data=data)

    def picture(self, path):
        """The whole page as a PNG."""
        box = self.call("Page.getLayoutMetrics")["cssContentSize"]
        clip = {"x": 0, "y": 0, "width": box["width"], "height": min(box["height"], 4000), "scale": 1}
        shot = self.call("Page.captureScreenshot", format="png", captureBeyondViewport=True, clip=clip)
        with open(path, "wb") as out:
            out.write(base64.b64decode(shot["data"]))
