#!/usr/bin/env python3
"""Tries the stored page in Chromium, as a student does: web/tests/page.py [--shots FOLDER] [--times]

The page is opened from its file. Levels 1 to 4 are solved, by keyboard alone; a text with a fault and one without an
end get their words; a scene, a level and moves go through a link; what was done is kept. On 1280x720 the game is seen
without a scroll, and on 390x844 each choice stands at its thread's line, too. In light and dark each text has a
contrast of 4.5 or more, and each control a name and a size. A scene that calls elsewhere reaches nobody. --times also
prints how long the answers of each scene take, here and on a phone that is slower, which the gate doesn't. Pictures go
to the folder of --shots."""
from __future__ import annotations

import argparse
import base64
import functools
import http.server
import os
import socket
import sys
import threading
import time
from typing import Any, List

sys.dont_write_bytecode = True
TOP = os.path.dirname(os.path.dirname(os.path.dirname(os.path.abspath(__file__))))
sys.path.insert(0, os.path.join(TOP, "checks", "lib"))
from browser import Browser  # noqa: E402
from seen import BESIDE, COVERED, LOOK, SEEN, SOON  # noqa: E402

PAGE = f"file://{TOP}/docs/playground.html"
WIDE, PHONE = (1280, 720), (390, 844)
PATIENCE, REST, STEP = 60.0, 0.05, 0.05
READY = "typeof playground !== 'undefined' && Object.keys(playground.played).length === 10 && !playground.work.isBusy"
ENTER = {"key": "Enter", "code": "Enter", "windowsVirtualKeyCode": 13, "text": "\r"}
# How long a move may take, in milliseconds.
MOVE = 50
TIMED = """new Promise((done) => {
  const { work } = playground, begun = performance.now(), tell = work.tell;
  let first = 0;
  work.tell = (said) => {
    tell(said);
    first = first || performance.now() - begun;
    if (!said.isDone) return;
    work.tell = tell;
    done([first, performance.now() - begun]);
  };
  playground.run();
})"""
# How much slower a phone is. Chromium slows no worker, so the engine is played on the page's own thread, cold.
SLOWER = 4
ON_PAGE = """(async () => {
  const code = `${document.getElementById('engine').textContent}; return [$game.gameOf, $kernel.Kernel];`;
  const [play, Kernel] = new Function(code)(), kernel = await Kernel.of(playground.given.wasm.slice());
  const begun = performance.now();
  let first = 0;
  play(kernel, { source: playground.editor.text, kinds: Object.keys(playground.played) }, () => {
    first = first || performance.now() - begun;
  });
  return [first, performance.now() - begun];
})()"""
CALLS = ["fetch(A)", "new XMLHttpRequest().open('GET', A), 0", "importScripts(A)", "import(A)", "new WebSocket(A.replace('http', 'ws'))",
         "new EventSource(A)", "navigator.sendBeacon(A)", "new Worker(A)"]
FAULTY = "monitor M {\n  let items = [];\n  procedure f() { items.push(\"tea); }\n}\nthread t { f(); }"
ENDLESS = "monitor M {\n  procedure f() { for (;;); }\n}\nthread t { f(); }"
MANY = ("monitor M {\n  let n = 0;\n  condition c;\n  procedure f() { n += 1; if (n < 3) wait(c); signal(c); n -= 1; }\n}\n"
        "thread t[9] { f(); f(); f(); }")
PRINTER = ("monitor Printer {\n  let busy = 0;\n  condition free;\n  procedure acquire() { if (busy) wait(free); assert(!busy); "
           "busy = 1; }\n  procedure release() { busy = 0; signal(free); }\n}\n"
           "thread ann { acquire(); release(); acquire(); release(); }\nthread bob { acquire(); release(); }\n")
OWN = ("// level: Tea\n// goal: break NPNB\n// learned: a word\nmonitor M {\n  let n = 0;\n  condition c;\n  procedure f() "
       "{ if (n == 0) wait(c); assert(n > 0); n -= 1; }\n  procedure g() { n += 1; signal(c); }\n}\n"
       "thread a[2] { f(); }\ndaemon thread b { g(); }\n")


class Quiet(http.server.SimpleHTTPRequestHandler):
    """A server that says nothing of its requests."""

    def log_message(self, *_: object) -> None:
        pass


class Student:
    """A browser with the page, and what was wrong so far."""

    def __init__(self, browser: Browser, shots: str) -> None:
        self.browser, self.shots, self.tried = browser, shots, 0
        self.wrong: List[str] = []

    def must(self, is_right: object, words: str) -> None:
        self.tried += 1
        if not is_right:
            self.wrong.append(words)

    def wait(self, condition: str, words: str) -> None:
        until = time.monotonic() + PATIENCE
        while not self.run(condition):
            if time.monotonic() > until:
                self.must(False, f"{words}: not after {PATIENCE} s")
                return
            time.sleep(STEP)
        self.must(True, words)

    def run(self, script: str) -> Any:
        return self.browser.run(script)

    def text(self, name: str) -> str:
        return str(self.run(f"document.getElementById('{name}').innerText"))

    def open(self, address: str, size: tuple[int, int] = WIDE, dark: bool = False) -> None:
        self.browser.go(f"{PAGE}{address}", *size, dark)
        self.wait(READY, f"{address} is played")
        time.sleep(REST)

    def press(self, keys: str) -> None:
        for key in keys:
            self.browser.press(key)

    def enter(self) -> None:
        for kind in ("keyDown", "keyUp"):
            self.browser.call("Input.dispatchKeyEvent", type=kind, **ENTER)

    def write(self, text: str) -> None:
        """Puts a text in place of the one in the editor, by keys."""
        self.browser.press("e")
        begun = self.run("document.getElementById('source').select(), playground.begun")
        self.browser.call("Input.insertText", text=text)
        self.browser.press("Escape")
        self.wait(f"playground.begun !== {begun}", "a text that was written is played")

    def shoot(self, name: str) -> None:
        if self.shots:
            shot = self.browser.call("Page.captureScreenshot", format="png")
            with open(os.path.join(self.shots, f"{name}.png"), "wb") as out:
                out.write(base64.b64decode(shot["data"]))

    def quiet(self, where: str) -> None:
        """The page threw nothing, and asked only for its own worker."""
        found = [it for it in self.browser.faults() if "a request for blob:" not in it]
        self.must(not found, f"{where}: {found}")


def riddle(it: Student) -> None:
    """Level 1: each question is answered by what the page's own data say, once wrongly first."""
    it.open("#level=1")
    it.must("When one signals or leaves, click who is inside next" in it.text("goal"), "level 1 doesn't say how")
    choices, said, does = it.run(SOON)
    it.must(not choices and not does and said == "The questions follow as soon as every order is played.",
            f"before its questions, level 1 shows {choices} moves: {said}")
    it.wait(f"playground.riddle && {READY}", "level 1 asks")
    asked = it.run("playground.riddle.asked.map((it) => it.answer)")
    it.must(len(asked) == 6, f"level 1 asks {len(asked)} questions")
    for number, answer in enumerate(asked):
        rule = "PB (Hoare): The one who is served" if number < 3 else "NPNB (Mesa; near POSIX, Java, Go): The signaller"
        it.must(it.text("say").startswith(rule), f"the rule at question {number + 1}: {it.text('say')}")
        if number == 0:
            it.press(str((answer + 1) % 3 + 1))
            it.must(it.text("told").startswith("Not ") and "PB (Hoare): " in it.text("told"), "a wrong answer says no rule")
        it.press(str(answer + 1))
        it.must(it.text("told").startswith("Yes: "), f"answer {number + 1} is refused: {it.text('told')}")
        it.enter()
    it.must("Done" in it.text("goal") and "Learned" in it.text("goal"), "level 1 is not done")
    it.must(f"inside ({it.run('playground.kind')}, " in it.text("box"), "the monitor is of another kind than the one that is on")
    it.press("n")
    it.must(it.text("told") == "", "what level 1 told stands in another kind")
    it.quiet("level 1")


def thief(it: Student) -> None:
    """Level 2: the order is played by keys; outcomes are hidden before, and shown afterwards."""
    it.open("#level=2")
    it.must("?" in it.text("kinds") and "131" not in it.text("kinds"), "level 2 shows its outcomes before")
    it.press("h")
    it.must("9 of 131" in it.text("told"), f"the hint says {it.text('told')}")
    it.press("1u")
    moves = it.run("playground.play.shortest()")
    it.press("".join(str(move + 1) for move in moves))
    it.must("You broke NPNB, in 7 moves." in it.text("end") and "thief came in between" in it.text("end"), it.text("end"))
    it.must("Done" in it.text("goal") and "9 of 131" in it.text("kinds"), "level 2 is not done")
    it.open("#level=2&kind=NPNB&moves=0.0.0.0")
    queues = (", then thief (entry queue)", ", then taker (waiter queue)", "can’t move: it is first in the waiter queue")
    it.must(all(words in it.text("choices") for words in queues), f"the choices name no thread: {it.text('choices')}")
    it.shoot("2_thief")


def repair(it: Student) -> None:
    """Level 3: the text is changed by keys; the page reads it while it is typed."""
    it.open("#level=3")
    it.must("Change the monitor" in it.text("goal"), it.text("goal"))
    own = it.run("document.getElementById('source').value")
    it.write(own.replace("if (items.length == 0)", "while (items.length == 0"))
    it.wait("document.getElementById('fault').textContent.startsWith('Line 5')", "the fault of line 5 is said")
    it.must(it.run("document.querySelector('#rows .fault .number').textContent") == "5", "line 5 is not marked")
    it.shoot("3_fault")
    it.write(own.replace("if (items.length == 0)", "while (items.length == 0)"))
    it.wait(f"document.getElementById('goal').innerText.includes('Done') && {READY}", "level 3 is done")
    it.must("Right in every order under every kind" in it.text("verdict"), it.text("verdict"))
    it.run("[...document.querySelectorAll('#goal button')].find((it) => it.textContent === 'The level\u2019s text again').click(), 1")
    it.must(it.run("document.getElementById('source').value") == own, "the level's own text doesn't come back")
    it.wait(READY, "the level's own text is played")
    it.shoot("3_repaired")


def claim(it: Student) -> None:
    """Level 4: nothing can break it. Another kind is claimed in vain."""
    it.open("#level=4")
    it.press("nnnc")
    it.must("Not so" in it.text("told"), it.text("told"))
    it.press("pppc")
    it.must("So it is" in it.text("told") and "Done" in it.text("goal"), f"{it.text('told')} {it.text('goal')}")
    it.open("#level=1")
    done = it.run("[...document.querySelectorAll('#levels .met')].map((it) => it.textContent).join()")
    it.must(done == "1,2,3,4", f"the levels that are kept as done: {done}")


def break_first(it: Student) -> None:
    """Level 5 asks for the break before the repair."""
    it.open("#level=5")
    it.must("First break it" in it.text("goal") and "of" not in it.text("kinds"), it.text("goal"))
    for move in it.run("playground.play.shortest()"):
        it.press(str(move + 1))
    it.must("Broken." in it.text("goal") and "Change the monitor" in it.text("goal"), it.text("goal"))
    it.must("2 of 4" in it.text("kinds"), "the outcomes stay hidden after the break")


def texts(it: Student) -> None:
    """A text of one's own: its faults, one without an end, and a warning where nothing is required."""
    it.open("#scene=bridge")
    it.write(FAULTY)
    it.wait("document.getElementById('fault').textContent.includes('these quotes are not closed')", "quotes")
    it.write(ENDLESS)
    it.wait("document.getElementById('fault').textContent.startsWith('No end after')", "an endless text is ended")
    it.write(ENDLESS.replace("(;;);", "(;;) { }"))
    it.wait(READY, "a loop with a body is ended by the engine")
    it.must("goes round and round" in it.text("verdict"), it.text("verdict"))
    it.write("monitor M {\n  procedure f() { }\n}\nthread t { f(); }")
    it.wait(READY, "the page goes on after an endless text")
    it.must("right says only that no thread is stuck" in it.text("verdict"), it.text("verdict"))
    it.write(MANY)
    it.wait("document.getElementById('fault').textContent.startsWith('Too large: NPNB has more than')", "a large scene")
    real(it)
    it.quiet("texts")


def real(it: Student) -> None:
    """Where no order of a non-blocking kind goes wrong, the page says what a real lock does, and its advice finds it."""
    it.write(PRINTER)
    it.wait(READY, "two threads share a printer")
    it.must(it.text("verdict").startswith("Right in every order under every kind. Here whoever leaves"), it.text("verdict"))
    it.press("w")
    it.must("under NPNB. Here whoever leaves" in it.text("told") and "tick" in it.text("told"), it.text("told"))
    it.press("pppw")
    it.must(it.text("told").endswith("under PB."), f"a real lock is no reason under PB: {it.text('told')}")
    it.run("document.getElementById('unasked').click(), 1")
    it.wait(f"{READY} && playground.played.NPNB.bad > 0", "a wake-up unasked breaks it")
    it.run("document.getElementById('unasked').click(), 1")
    it.write(f"{PRINTER}thread cid {{ acquire(); release(); }}\n")
    it.wait(f"{READY} && playground.played.NPNB.bad > 0", "a thread that arrives meanwhile breaks it")
    it.must("NPNB" in it.text("verdict") and "real lock" in it.text("verdict"), f"PNB is right still: {it.text('verdict')}")


def links(it: Student) -> None:
    """A scene with its moves, and a level of one's own, go through a link."""
    it.open("#scene=bridge_wrong&kind=NPNB")
    it.press("w")
    said, moves = it.text("end"), it.run("playground.play.path.join('.')")
    it.must(said.startswith("You broke NPNB"), said)
    it.wait(f"location.hash.endsWith('moves={moves}')", "the address holds the moves")
    address = it.run("location.hash")
    it.open(address)
    it.must(it.text("end") == said, "the link leads elsewhere")
    it.write(it.run("document.getElementById('source').value").replace("east += 1;", "east += 1; signal(eastMay);", 1))
    it.wait(f"location.hash.includes('text=') && {READY}", "the address holds the text")
    kinds = it.text("kinds")
    it.open(it.run("location.hash"))
    it.must(it.text("kinds") == kinds, "the link holds another text")
    it.open("#scene=your own level")
    it.must(it.run("document.getElementById('scenes').options[1].text") == "write your own level", "it isn't offered first")
    it.write(FAULTY)
    it.wait("document.getElementById('fault').textContent.includes('quotes')", "a level's fault is said")
    it.press("l")
    it.wait("document.getElementById('edits').textContent.includes('has a fault')", "the link of a fault says so")
    it.run("document.querySelector('#share button').click(), 1")
    it.write(OWN)
    it.wait(f"document.getElementById('goal').innerText.includes('Your level: Tea') && {READY}", "a level is read")
    it.write(OWN.replace("a[2]", "a"))
    it.wait("document.getElementById('goal').innerText.includes('nobody can find one. Here whoever leaves')", "a level that can't be done")
    it.wait(READY, "all kinds of it are played")
    it.must("a real lock" not in it.text("verdict"), "what a real lock does is said twice")
    it.write(OWN)
    it.wait(f"!document.getElementById('goal').innerText.includes('nobody') && {READY}", "a level that can be done")
    it.press("l")
    it.wait("document.getElementById('address').value.includes('#')", "the link is shown")
    it.must("opens only on this computer" in it.text("edits"), f"the link of a file: {it.text('edits')}")
    address = it.run("document.getElementById('address').value")
    it.open(address[address.index("#"):])
    it.must("Tea." in it.text("goal") and "Break it: find an order" in it.text("goal"), it.text("goal"))
    it.must(it.text("threads").startswith("thread a[2]"), "the threads are not the level's own")
    it.open("#scene=constructor&level=99&kind=XY&moves=7.x.9")
    it.must("1. Who goes next?" in it.text("goal"), "a link that says nothing leads nowhere")
    it.quiet("links")


def served(it: Student) -> None:
    """From a server, the link of a level opens anywhere."""
    handler = functools.partial(Quiet, directory=os.path.join(TOP, "docs"))
    with http.server.ThreadingHTTPServer(("127.0.0.1", 0), handler) as server:
        threading.Thread(target=server.serve_forever, daemon=True).start()
        address = f"http://127.0.0.1:{server.server_port}/playground.html#scene=your%20own%20level"
        it.browser.go(address, *WIDE, False)
        it.wait(READY, "a page from a server is played")
        it.press("l")
        it.wait("document.getElementById('edits').textContent.startsWith('This link gives the level to students.')", "its link")
        server.shutdown()


def looks(it: Student) -> None:
    """Both sizes, light and dark: what is seen, contrasts, names and sizes."""
    for size, dark in ((WIDE, False), (WIDE, True), (PHONE, False), (PHONE, True)):
        name = f"{size[0]}_{'dark' if dark else 'light'}"
        for level in (2, 9, 10):
            it.open(f"#level={level}", size, dark)
            it.must(it.run("document.documentElement.dataset.theme") == ("dark" if dark else "light"), f"{name}: the theme")
            it.must("wake-ups" in it.text("wakes"), f"{name}: the tick reads {it.text('wakes')}")
            it.must(it.run("document.documentElement.scrollWidth <= innerWidth"), f"{name}: level {level} is too wide")
            covered = it.run(COVERED)
            it.must(not covered, f"{name}: level {level} covers the end of {covered}")
            it.press("1")
            hidden, beside = it.run(SEEN), it.run(BESIDE)
            it.must(size == PHONE or not hidden, f"{name}: level {level} hides {hidden}")
            it.must(beside, f"{name}: a choice of level {level} doesn't stand at its line")
            it.shoot(f"{level}_{name}")
        it.press("w")
        found = it.run(LOOK)
        it.must(not found, f"{name}: {found[:5]}")


def speed(it: Student) -> None:
    """A move is shown at once, in the largest scene."""
    it.open("#scene=philosophers_wrong")
    times = it.run("""Array.from({ length: 12 }, () => { const begun = performance.now(); playground.choose(0);
      document.body.offsetHeight; return performance.now() - begun; }).sort((a, b) => a - b)""")
    it.must(times[3] < MOVE, f"a move takes {times[3]:.0f} ms")


def alone(it: Student) -> None:
    """A scene that calls elsewhere reaches nobody."""
    server = socket.create_server(("127.0.0.1", 0))
    callers: List[Any] = []

    def listen() -> None:
        while True:
            try:
                callers.append(server.accept())
            except OSError:
                return

    threading.Thread(target=listen, daemon=True).start()
    port = server.getsockname()[1]
    tries = "\n".join(f"    try {{ {call}; }} catch (fault) {{ }}" for call in CALLS)
    it.open("#scene=bridge")
    it.write(f"const A = 'http://127.0.0.1:{port}/';\nmonitor M {{\n  procedure f() {{\n{tries}\n  }}\n}}\nthread t {{ f(); }}")
    it.wait(f"({READY}) || document.getElementById('fault').textContent !== ''", "a scene that calls elsewhere ends")
    time.sleep(0.5)
    it.must(not callers, f"a scene called elsewhere: {len(callers)} times")
    server.close()


def times(it: Student) -> None:
    """Prints how long the first kind and all ten take, in each scene, here and on a slower phone."""
    for scene in it.run("Object.keys(playground.given.scenes)"):
        it.open(f"#scene={scene}")
        here = it.run(TIMED)
        it.browser.call("Emulation.setCPUThrottlingRate", rate=SLOWER)
        phone = it.run(ON_PAGE)
        it.browser.call("Emulation.setCPUThrottlingRate", rate=1)
        said = [f"the first kind after {first:.0f} ms, all ten after {whole:.0f} ms" for first, whole in (here, phone)]
        load = os.getloadavg()[0]
        print(f"{scene}: {said[0]}; {SLOWER} times slower: {said[1]} (load {load:.1f})", flush=True)


def main() -> int:
    asked = argparse.ArgumentParser()
    asked.add_argument("--shots", metavar="FOLDER", default="")
    asked.add_argument("--times", action="store_true")
    words = asked.parse_args()
    with Browser() as browser:
        it = Student(browser, words.shots)
        parts = [riddle, thief, repair, claim, break_first, texts, links, served, looks, speed, alone]
        for part in [*parts, times] if words.times else parts:
            part(it)
    print("\n".join([*it.wrong, f"page: {it.tried - len(it.wrong)} of {it.tried} things are as they should be"]))
    return 1 if it.wrong else 0


if __name__ == "__main__":
    sys.exit(main())
