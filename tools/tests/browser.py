"""A headless Chromium, driven by chromedriver (Debian: chromium, chromium-driver) over the WebDriver protocol,
with the standard library alone."""
import base64
import json
import shutil
import socket
import subprocess
import time
import urllib.error
import urllib.request

WAIT = 120          # seconds for an answer, on a machine that is busy


def is_there():
    return bool(shutil.which("chromedriver") and (shutil.which("chromium") or shutil.which("google-chrome")))


class Browser:
    """A window of a headless Chromium."""

    def __init__(self, wide=1400, high=1200):
        with socket.socket() as free:
            free.bind(("127.0.0.1", 0))
            port = free.getsockname()[1]
        self.root = "http://127.0.0.1:%d" % port
        self.driver = subprocess.Popen(["chromedriver", "--port=%d" % port], stdout=subprocess.DEVNULL,
                                       stderr=subprocess.DEVNULL)
        options = {"args": ["--headless=new", "--no-sandbox", "--disable-gpu", "--window-size=%d,%d" % (wide, high)]}
        wanted = {"capabilities": {"alwaysMatch": {"browserName": "chrome", "goog:chromeOptions": options,
                                                   "goog:loggingPrefs": {"browser": "ALL"}}}}
        until = time.time() + WAIT
        while True:
            try:
                self.session = self.root + "/session/" + self.call("POST", self.root + "/session", wanted)["sessionId"]
                return
            except OSError:
                if time.time() > until:
                    raise
                time.sleep(0.2)

    @staticmethod
    def call(method, where, what=None):
        body = None if what is None else json.dumps(what).encode()
        request = urllib.request.Request(where, body, {"Content-Type": "application/json"}, method=method)
        try:
            with urllib.request.urlopen(request, timeout=WAIT) as answer:
                return json.load(answer)["value"]
        except urllib.error.HTTPError as why:
            raise AssertionError("%s: %s" % (where, why.read()[:600]))

    def post(self, where, **what):
        return self.call("POST", self.session + where, what)

    def js(self, script, *words):
        return self.post("/execute/sync", script=script, args=list(words))

    def open(self, url):
        """Opens a page; the milliseconds after which its script was done, as it says itself."""
        self.post("/url", url="about:blank")
        self.post("/url", url=url)
        until = time.time() + WAIT
        while not self.js("return document.documentElement.dataset.ready"):
            if time.time() > until:
                raise AssertionError("the script of the page does not run: " + url)
            time.sleep(0.05)
        return int(self.js("return document.documentElement.dataset.ready"))

    def size(self, wide, high):
        self.post("/window/rect", width=wide, height=high)

    def click(self, selector, index=0):
        self.js("document.querySelectorAll(arguments[0])[arguments[1]].click()", selector, index)

    def text(self, selector):
        return self.js("return document.querySelector(arguments[0]).textContent", selector)

    def count(self, selector):
        return self.js("return document.querySelectorAll(arguments[0]).length", selector)

    def shot(self, name):
        time.sleep(0.2)
        with open(name, "wb") as file:
            file.write(base64.b64decode(self.call("GET", self.session + "/screenshot")))

    def pdf(self, name):
        with open(name, "wb") as file:
            file.write(base64.b64decode(self.post("/print", background=True)))

    def errors(self):
        return [entry for entry in self.post("/se/log", type="browser") if entry["level"] in ("SEVERE", "WARNING")]

    def pointer(self, *actions):
        self.post("/actions", actions=[{"type": "pointer", "id": "mouse", "parameters": {"pointerType": "mouse"},
                                        "actions": list(actions)}])

    def key(self, value):
        self.post("/actions", actions=[{"type": "key", "id": "keys", "actions": [
            {"type": "keyDown", "value": value}, {"type": "keyUp", "value": value}]}])

    def wheel(self, x, y, way):
        self.post("/actions", actions=[{"type": "wheel", "id": "wheel", "actions": [
            {"type": "scroll", "x": x, "y": y, "deltaX": 0, "deltaY": way, "duration": 0}]}])

    def end(self):
        self.call("DELETE", self.session)
        self.driver.terminate()
        self.driver.wait()
