"""A browser without a window: chromium, driven by chromedriver (Debian's package chromium-driver)."""

import json
import shutil
import socket
import subprocess
import time
import urllib.request

ARGUMENTS = ["--headless=new", "--no-sandbox", "--disable-gpu", "--window-size=1400,950"]
ANSWERS_IN, LOOKS_EACH = 120, 0.1


def is_there():
    """Whether there are both."""
    return shutil.which("chromium") is not None and shutil.which("chromedriver") is not None


def free_port():
    """A port of this machine on which nobody listens."""
    with socket.socket() as one:
        one.bind(("127.0.0.1", 0))
        return one.getsockname()[1]


class Browser:
    """A browser, which ends with the `with` that began it."""

    def __enter__(self):
        port = free_port()
        self.top = f"http://127.0.0.1:{port}"
        self.driver = subprocess.Popen(["chromedriver", f"--port={port}"], stdout=subprocess.DEVNULL,
                                       stderr=subprocess.DEVNULL)
        for _ in range(100):
            try:
                socket.create_connection(("127.0.0.1", port)).close()
                break
            except OSError:
                time.sleep(LOOKS_EACH)
        options = {"goog:chromeOptions": {"args": ARGUMENTS}}
        self.session = None
        self.session = self._ask("POST", "/session", {"capabilities": {"alwaysMatch": options}})["sessionId"]
        return self

    def __exit__(self, *_):
        try:
            if self.session:
                self._ask("DELETE", f"/session/{self.session}")
        finally:
            self.driver.terminate()
            self.driver.wait()

    def _ask(self, method, path, body=None):
        request = urllib.request.Request(self.top + path, None if body is None else json.dumps(body).encode(),
                                         {"Content-Type": "application/json"}, method=method)
        with urllib.request.urlopen(request, timeout=ANSWERS_IN) as answer:
            return json.load(answer)["value"]

    def open(self, address):
        """Opens a page, anew where it is open already."""
        self._ask("POST", f"/session/{self.session}/url", {"url": "about:blank"})
        self._ask("POST", f"/session/{self.session}/url", {"url": address})

    def does(self, script):
        """What a script answers in the page."""
        return self._ask("POST", f"/session/{self.session}/execute/sync", {"script": script, "args": []})

    def later(self, script):
        """What a script gives to `done` in the page, which it may do later."""
        self._ask("POST", f"/session/{self.session}/timeouts", {"script": ANSWERS_IN * 1000})
        return self._ask("POST", f"/session/{self.session}/execute/async",
                         {"script": f"const done = arguments[0];\n{script}", "args": []})

    def devtool(self, command, **more):
        """What a command of the browser's tools for developers answers."""
        return self._ask("POST", f"/session/{self.session}/goog/cdp/execute", {"cmd": command, "params": more})

    def comes(self, condition, seconds=60):
        """Whether a condition comes to hold in the page."""
        end = time.monotonic() + seconds
        while time.monotonic() < end:
            if self.does(f"return {condition}"):
                return True
            time.sleep(LOOKS_EACH)
        return False
