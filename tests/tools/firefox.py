"""Firefox, headless, by Marionette: its own protocol over a socket of the loopback, since Debian has no geckodriver. Each message is its
length, a colon and JSON."""

import json
import os
import shutil
import socket
import subprocess
import time

import pytest

from tests.support import HANGS

PROGRAM = "firefox-esr"
QUIET = ("app.normandy.enabled", "datareporting.policy.dataSubmissionEnabled", "network.captive-portal-service.enabled",
         "network.connectivity-service.enabled", "toolkit.telemetry.enabled")  # what would ask the network


class Firefox:
    """The browser, with a new profile in a folder; as much of Selenium's driver as the tests here need."""

    def __init__(self, folder):
        if not shutil.which(PROGRAM):
            pytest.skip(f"Debian's package {PROGRAM} is missing")
        with socket.socket() as any_port:
            any_port.bind(("127.0.0.1", 0))
            port = any_port.getsockname()[1]
        settings = {"marionette.port": port, **dict.fromkeys(QUIET, False)}
        lines = (f"user_pref({json.dumps(name)}, {json.dumps(value)});\n" for name, value in settings.items())
        (folder / "user.js").write_text("".join(lines))
        words = [PROGRAM, "--headless", "--marionette", "--no-remote", "--profile", folder]
        quiet = {"stdin": subprocess.DEVNULL, "stdout": subprocess.DEVNULL, "stderr": subprocess.DEVNULL}
        self.process = subprocess.Popen(words, env={**os.environ, "HOME": str(folder)}, **quiet)
        try:
            self.file, self.number = connected(port).makefile("rwb"), 0
            self.received()
            self.call("WebDriver:NewSession", capabilities={"alwaysMatch": {"timeouts": {"script": 1000 * HANGS}}})
        except BaseException:
            self.process.kill()
            raise

    def received(self):
        """The next message."""
        size = b""
        while (digit := self.file.read(1)) != b":":
            assert digit, "Firefox ended"
            size += digit
        return json.loads(self.file.read(int(size)))

    def call(self, name, **words):
        """What a command answers."""
        self.number += 1
        data = json.dumps([0, self.number, name, words]).encode()
        self.file.write(b"%d:%s" % (len(data), data))
        self.file.flush()
        _, _, error, answer = self.received()
        assert error is None, error
        return answer

    def get(self, url):
        self.call("WebDriver:Navigate", url=url)

    def execute_script(self, text, *words):
        return self.call("WebDriver:ExecuteScript", script=text, args=words)["value"]

    def execute_async_script(self, text, *words):
        return self.call("WebDriver:ExecuteAsyncScript", script=text, args=words)["value"]

    def quit(self):
        self.process.terminate()
        self.process.wait(HANGS)


def connected(port):
    """A connection to the browser, once it takes one."""
    for _ in range(10 * HANGS):
        try:
            return socket.create_connection(("127.0.0.1", port))
        except OSError:
            time.sleep(0.1)
    raise TimeoutError("Firefox takes no connection")
