"""A headless Chromium, driven by chromedriver over its HTTP protocol (WebDriver), with nothing but Python's library."""
import base64
import json
import os
import shutil
import signal
import socket
import subprocess
import time
import urllib.error
import urllib.request

PACKAGES = "apt-get install chromium chromium-driver"
TAB, ENTER, SPACE, RIGHT, SHIFT = "\ue004", "\ue007", " ", "\ue014", "\ue008"
READY, PATIENCE = 60, 300  # seconds until chromedriver answers, and for one command: a machine may be busy


class NoBrowser(Exception):
    """The browser isn't there, or doesn't answer."""


def free_port():
    with socket.socket() as it:
        it.bind(("127.0.0.1", 0))
        return it.getsockname()[1]


class Browser:
    """Used as `with Browser(width, height) as browser`. Files that a page saves go to `downloads`."""

    def __init__(self, width, height, dark=False, phone=False, downloads=None):
        if not shutil.which("chromedriver"):
            raise NoBrowser(f"there is no chromedriver: {PACKAGES}")
        port = free_port()
        self.address = f"http://127.0.0.1:{port}"
        quiet = {"stdout": subprocess.DEVNULL, "stderr": subprocess.DEVNULL}
        self.driver = subprocess.Popen(["chromedriver", f"--port={port}"], start_new_session=True, **quiet)
        try:
            self.wait_until_ready()
            self.session = self.begin(width, height, downloads)
            self.look_like(width, height, dark, phone)
        except BaseException:
            self.end()
            raise

    def __enter__(self):
        return self

    def __exit__(self, *_):
        try:
            self.call("DELETE", f"/session/{self.session}")
        except (OSError, NoBrowser):
            pass  # it doesn't answer any more, and ends all the same
        finally:
            self.end()

    def end(self):
        """Ends the driver, and a browser that it has left."""
        os.killpg(self.driver.pid, signal.SIGTERM)
        self.driver.wait()

    def call(self, method, path, body=None):
        data = None if body is None else json.dumps(body).encode()
        request = urllib.request.Request(self.address + path, data, {"Content-Type": "application/json"}, method=method)
        try:
            with urllib.request.urlopen(request, timeout=PATIENCE) as answer:
                return json.load(answer)["value"]
        except urllib.error.HTTPError as error:
            raise NoBrowser(json.load(error)["value"]["message"].split("\n")[0]) from error
        except TimeoutError as error:
            raise NoBrowser(f"no answer in {PATIENCE} s to {method} {path}") from error

    def wait_until_ready(self):
        end = time.monotonic() + READY
        while True:
            try:
                if self.call("GET", "/status")["ready"]:
                    return
            except OSError:
                if time.monotonic() > end:
                    raise NoBrowser("chromedriver doesn't answer") from None
            time.sleep(0.1)

    def begin(self, width, height, downloads):
        flags = ["--headless=new", "--disable-gpu", "--disable-dev-shm-usage", f"--window-size={width},{height}"]
        if os.geteuid() == 0:
            flags.append("--no-sandbox")  # Chromium doesn't start for root with its sandbox
        # a page may save two files at once
        allowed = {"profile.default_content_setting_values.automatic_downloads": 1}
        chrome = {"args": flags, "prefs": {"download.default_directory": downloads or os.devnull} | allowed}
        wanted = {"goog:chromeOptions": chrome, "goog:loggingPrefs": {"browser": "ALL"}, "timeouts": {"script": PATIENCE * 1000}}
        return self.call("POST", "/session", {"capabilities": {"alwaysMatch": wanted}})["sessionId"]

    def post(self, path, body):
        return self.call("POST", f"/session/{self.session}{path}", body)

    def tell(self, command, **parameters):
        """A command of Chromium's own protocol."""
        return self.post("/goog/cdp/execute", {"cmd": command, "params": parameters})

    def look_like(self, width, height, dark, phone):
        colors = {"name": "prefers-color-scheme", "value": "dark" if dark else "light"}
        self.tell("Emulation.setEmulatedMedia", features=[colors])
        scale = 2 if phone else 1
        self.tell("Emulation.setDeviceMetricsOverride", width=width, height=height, deviceScaleFactor=scale, mobile=phone)

    def open(self, path):
        self.post("/url", {"url": f"file://{os.path.abspath(path)}"})

    def run(self, script, *args):
        """What the script returns, which stands in a function of these arguments."""
        return self.post("/execute/sync", {"script": script, "args": args})

    def press(self, *keys):
        """Presses keys one after the other, each of which may be several at once."""
        actions = []
        for chord in keys:
            actions += [{"type": "keyDown", "value": key} for key in chord]
            actions += [{"type": "keyUp", "value": key} for key in reversed(chord)]
        self.post("/actions", {"actions": [{"type": "key", "id": "keys", "actions": actions}]})

    def errors(self):
        """What the page has complained of since this was asked last."""
        return [it["message"] for it in self.post("/se/log", {"type": "browser"}) if it["level"] in ("SEVERE", "WARNING")]

    def shoot(self, path):
        with open(path, "wb") as file:
            file.write(base64.b64decode(self.call("GET", f"/session/{self.session}/screenshot")))
