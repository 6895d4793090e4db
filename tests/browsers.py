"""Chromium and Firefox with one page each, without a window, told by their own protocols what to do."""
import json
import os
import pathlib
import socket
import subprocess
import time

from support import PATIENCE, free_port


class Browser:
    """Chromium with one page, told by pipes what to do."""

    def __init__(self, path, folder):
        theirs, self.to = os.pipe()
        self.answers, their_answers = os.pipe()
        words = [path, "--headless=new", "--no-sandbox", "--disable-gpu", "--remote-debugging-pipe", "--no-first-run",
                 "--window-size=900,1000", f"--user-data-dir={folder}", "about:blank"]
        self.process = subprocess.Popen(["bash", "-c", f'exec "$@" 3<&{theirs} 4>&{their_answers}', "chromium", *words],
                                        pass_fds=(theirs, their_answers), stderr=subprocess.DEVNULL)
        os.close(theirs)
        os.close(their_answers)
        self.answers = os.fdopen(self.answers, "rb")
        self.number, self.left, self.events, self.session = 0, b"", [], None

    def begin(self):
        """Waits until it is there. It has to be ended also if it is not."""
        page = next(it for it in self.tell("Target.getTargets")["targetInfos"] if it["type"] == "page")
        self.session = self.tell("Target.attachToTarget", targetId=page["targetId"], flatten=True)["sessionId"]
        for domain in "Page", "DOM", "Runtime", "Network", "Accessibility":
            self.tell(domain + ".enable")

    def tell(self, method, **parameters):
        """Sends a command, and waits for its answer. What is told meanwhile is kept."""
        self.number += 1
        command = dict(id=self.number, method=method, params=parameters)
        if self.session:
            command["sessionId"] = self.session
        os.write(self.to, json.dumps(command).encode() + b"\0")
        while True:
            message = self.read()
            if message.get("id") == self.number:
                assert "error" not in message, f"{method}: {message.get('error')}"
                return message["result"]
            self.events.append(message)

    def read(self):
        while b"\0" not in self.left:
            data = self.answers.read1(1 << 20)
            assert data, "the browser ended"
            self.left += data
        message, _, self.left = self.left.partition(b"\0")
        return json.loads(message)

    def value(self, expression):
        """The value of an expression in the page."""
        found = self.tell("Runtime.evaluate", expression=expression, awaitPromise=True, returnByValue=True)
        assert "exceptionDetails" not in found, found
        return found["result"].get("value")

    def open(self, path):
        self.go(pathlib.Path(path).as_uri())

    def go(self, url):
        self.value("window.isLeft = true")
        self.tell("Page.navigate", url=url)
        self.wait_for("!window.isLeft && document.readyState === 'complete' && !!document.querySelector('#verdict')")

    def choose(self, name, path):
        """Chooses a file in the field of this name."""
        node = self.tell("Runtime.evaluate", expression=f"document.getElementById('{name}')")["result"]
        self.tell("DOM.setFileInputFiles", files=[str(path)], objectId=node["objectId"])

    def wait_for(self, expression):
        end = time.monotonic() + PATIENCE
        while not self.value(expression):
            assert time.monotonic() < end, f"it is not so: {expression}: {self.value('document.body?.innerText')}"
            time.sleep(0.01)

    def press(self, key):
        code = {"Tab": 9, "Enter": 13, "ArrowDown": 40}[key]
        text = {"text": "\r"} if key == "Enter" else {}
        for kind in "keyDown", "keyUp":
            self.tell("Input.dispatchKeyEvent", type=kind, key=key, code=key, windowsVirtualKeyCode=code, **text)

    def end(self):
        self.process.terminate()
        self.process.wait()


class Firefox(Browser):
    """Firefox with one page, told by its protocol for tests (Marionette) what to do."""

    def __init__(self, path, folder):
        folder.mkdir()
        place = "127.0.0.1", free_port()
        (folder / "user.js").write_text(f'user_pref("marionette.port", {place[1]});\n')
        self.number, self.socket, self.place = 0, None, place
        words = [path, "--headless", "--no-remote", "--marionette", "--profile", str(folder)]
        quiet = dict(stdout=subprocess.DEVNULL, stderr=subprocess.DEVNULL)
        self.process = subprocess.Popen(words, env={**os.environ, "HOME": str(folder)}, **quiet)

    def begin(self):
        end = time.monotonic() + PATIENCE
        while self.socket is None:
            try:
                self.socket = socket.create_connection(self.place, PATIENCE)
            except OSError:
                assert time.monotonic() < end and self.process.poll() is None, "Firefox does not answer"
                time.sleep(0.1)
        self.read()
        self.tell("WebDriver:NewSession")

    def read(self):
        text = b""
        while not text.endswith(b":"):
            text += self.socket.recv(1) or b"the browser ended:"
        length, text = int(text[:-1]), b""
        while len(text) < length:
            text += self.socket.recv(length - len(text)) or b"the browser ended" * length
        return json.loads(text)

    def tell(self, method, **parameters):
        self.number += 1
        text = json.dumps([0, self.number, method, parameters]).encode()
        self.socket.sendall(b"%d:%s" % (len(text), text))
        _, _, fault, result = self.read()
        assert fault is None, f"{method}: {fault}"
        return result

    def value(self, expression):
        return self.tell("WebDriver:ExecuteScript", script="return eval(arguments[0])", args=[expression])["value"]

    def go(self, url):
        self.tell("WebDriver:Navigate", url=url)

    def choose(self, name, path):
        found = self.tell("WebDriver:FindElement", using="css selector", value=f"#{name}")["value"]
        self.tell("WebDriver:ElementSendKeys", id=[*found.values()][0], text=str(path))
