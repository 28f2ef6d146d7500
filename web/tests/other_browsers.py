#!/usr/bin/env python3
"""Tries the stored page in Firefox and in WebKit, from its file: web/tests/other_browsers.py [firefox] [webkit]

Not in the gate: it needs Debian's firefox-esr, and webkit2gtk-driver with xvfb. Each scene under each kind must come
to what its table says, by the kernel in the page. The shortest wrong order is played, and a text with a fault gets its
line. What isn't installed is named."""
from __future__ import annotations

import glob
import json
import os
import shutil
import socket
import subprocess
import sys
import tempfile
import time
import urllib.request
from types import TracebackType
from typing import Any, Dict, List

TOP = os.path.dirname(os.path.dirname(os.path.dirname(os.path.abspath(__file__))))
PAGE = f"file://{TOP}/docs/playground.html"
MARIONETTE, DRIVER, SCREEN = 2833, 4478, ":78"
MINI_BROWSER = "/usr/lib/x86_64-linux-gnu/webkit2gtk-4.*/MiniBrowser"
PATIENCE, STEP = 120.0, 0.1
QUIET: Dict[str, Any] = {"stdout": subprocess.DEVNULL, "stderr": subprocess.DEVNULL}
READY = "String(typeof playground !== 'undefined' && Object.keys(playground.played).length === 10 && !playground.work.isBusy)"
FAULTY = "monitor M {\\n  let a = ;\\n  procedure f() { }\\n}\\nthread t { f(); }"


class Firefox:
    """Firefox, by its Marionette."""

    def __init__(self) -> None:
        self.room, self.count, self.rest = tempfile.mkdtemp(prefix="monk-"), 0, b""
        with open(os.path.join(self.room, "user.js"), "w", encoding="utf-8") as file:
            file.write(f'user_pref("marionette.port", {MARIONETTE});\n')
        words = ["firefox-esr", "--headless", "--marionette", "--no-remote", "--profile", self.room]
        self.process = subprocess.Popen(words, env=dict(os.environ, HOME=self.room), **QUIET)
        self.line = connected(MARIONETTE)
        self.receive()
        self.call("WebDriver:NewSession")

    def receive(self) -> Any:
        while b":" not in self.rest:
            self.rest += self.line.recv(65536)
        size, self.rest = self.rest.split(b":", 1)
        while len(self.rest) < int(size):
            self.rest += self.line.recv(65536)
        text, self.rest = self.rest[:int(size)], self.rest[int(size):]
        return json.loads(text)

    def call(self, name: str, **params: Any) -> Any:
        self.count += 1
        text = json.dumps([0, self.count, name, params]).encode()
        self.line.sendall(str(len(text)).encode() + b":" + text)
        _, _, fault, result = self.receive()
        if fault:
            raise RuntimeError(str(fault))
        return result

    def go(self, address: str) -> None:
        self.call("WebDriver:Navigate", url="about:blank")
        self.call("WebDriver:Navigate", url=address)

    def run(self, script: str) -> str:
        told = self.call("WebDriver:ExecuteScript", script="return window.eval(arguments[0])", args=[script], sandbox=None)
        return str(told["value"])

    def close(self) -> None:
        self.line.close()
        self.process.terminate()
        self.process.wait()
        shutil.rmtree(self.room, ignore_errors=True)


class WebKit:
    """WebKit's small browser, by its WebDriver, on a screen of its own."""

    def __init__(self) -> None:
        self.room = tempfile.mkdtemp(prefix="monk-")
        own = {"HOME": self.room, "DISPLAY": SCREEN, "WEBKIT_DISABLE_SANDBOX_THIS_IS_DANGEROUS": "1",
               "WEBKIT_DISABLE_COMPOSITING_MODE": "1", "LIBGL_ALWAYS_SOFTWARE": "1", "NO_AT_BRIDGE": "1"}
        self.screen = subprocess.Popen(["Xvfb", SCREEN, "-screen", "0", "1400x1000x24"], **QUIET)
        self.driver = subprocess.Popen(["WebKitWebDriver", f"--port={DRIVER}"], env={**os.environ, **own}, **QUIET)
        connected(DRIVER).close()
        options = {"binary": glob.glob(MINI_BROWSER)[0], "args": ["--automation"]}
        wanted = {"capabilities": {"alwaysMatch": {"webkitgtk:browserOptions": options}}}
        self.session = ""
        self.session = f"/{self.call('', wanted)['sessionId']}"

    def call(self, path: str, body: Any) -> Any:
        address = f"http://127.0.0.1:{DRIVER}/session{self.session}{path}"
        request = urllib.request.Request(address, json.dumps(body).encode(), {"Content-Type": "application/json"})
        with urllib.request.urlopen(request, timeout=PATIENCE) as answer:
            return json.load(answer)["value"]

    def go(self, address: str) -> None:
        self.call("/url", {"url": "about:blank"})
        self.call("/url", {"url": address})

    def run(self, script: str) -> str:
        return str(self.call("/execute/sync", {"script": "return eval(arguments[0])", "args": [script]}))

    def close(self) -> None:
        for process in (self.driver, self.screen):
            process.terminate()
            process.wait()
        shutil.rmtree(self.room, ignore_errors=True)


def connected(port: int) -> socket.socket:
    until = time.monotonic() + PATIENCE
    while True:
        try:
            return socket.create_connection(("127.0.0.1", port), PATIENCE)
        except OSError:
            if time.monotonic() > until:
                raise
            time.sleep(STEP)


class Tried:
    """What was tried in a browser, and what was wrong."""

    def __init__(self, name: str, browser: Firefox | WebKit) -> None:
        self.name, self.browser, self.tried = name, browser, 0
        self.wrong: List[str] = []

    def __enter__(self) -> Tried:
        return self

    def __exit__(self, kind: type[BaseException] | None, fault: BaseException | None,
                 trace: TracebackType | None) -> None:
        self.browser.close()

    def must(self, is_right: object, words: str) -> None:
        self.tried += 1
        self.wrong += [] if is_right else [f"{self.name}: {words}"]

    def wait(self, script: str, words: str) -> None:
        until = time.monotonic() + PATIENCE
        while self.browser.run(script) != "true" and time.monotonic() < until:
            time.sleep(STEP)
        self.must(self.browser.run(script) == "true", words)

    def scene(self, table: str) -> None:
        """The scene comes to what its table says."""
        name = os.path.basename(table).removesuffix(".table")
        self.browser.go(f"{PAGE}#scene={name}")
        self.wait(READY, f"{name} isn't played")
        told = "JSON.stringify(Object.values(playground.played).map((it) => `${it.kind} ${it.bad} of ${it.runs}`))"
        with open(table, encoding="utf-8") as file:
            rows = [line.split() for line in file]
        want = {f"{row[0]} {' '.join(row[row.index('of') - 1:][:3])}" for row in rows}
        found = {*json.loads(self.browser.run(told))}
        self.must(found == want, f"{name} comes to {sorted(found - want)} in place of {sorted(want - found)}")

    def game(self) -> None:
        """An order is played up to its wrong end, and a fault of the text gets its line."""
        self.browser.go(f"{PAGE}#scene=bridge_wrong&kind=NPNB")
        self.wait(READY, "the game isn't played")
        end = self.browser.run("document.getElementById('shortest').click(), document.getElementById('end').innerText")
        self.must(end.startswith("You broke NPNB"), f"the shortest wrong order ends by {end}")
        self.browser.run(f"playground.editor.set('{FAULTY}', ''), playground.run(), '1'")
        self.wait("String(document.getElementById('fault').textContent.startsWith('Line 2'))", "the fault has no line")


def main(names: List[str]) -> int:
    lacking, faults = [], 0
    for name, command, kind in (("firefox", "firefox-esr", Firefox), ("webkit", "WebKitWebDriver", WebKit)):
        if names and name not in names:
            continue
        if not shutil.which(command):
            lacking.append(name)
            continue
        with Tried(name, kind()) as it:
            for table in sorted(glob.glob(os.path.join(TOP, "web", "scenes", "*.table"))):
                it.scene(table)
            it.game()
            print("\n".join([*it.wrong, f"{name}: {it.tried - len(it.wrong)} of {it.tried} things are as they should be, "
                             f"in {it.browser.run('navigator.userAgent')}"]))
            faults += len(it.wrong)
    print("\n".join(f"{name}: left out, since it isn't installed" for name in lacking), end="\n" if lacking else "")
    return 1 if faults else 0


if __name__ == "__main__":
    sys.exit(main(sys.argv[1:]))
