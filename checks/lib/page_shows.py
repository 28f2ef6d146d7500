"""What a page shows, read in the browser, and what it must show: for a history by `monk explain`, for a log by the
page's data."""
import json
import re
import subprocess
from typing import Any

Told = dict[str, Any]
DATA = re.compile(r'<script type="application/json" class="history-data">\n(.*)\n</script>')
# What the boxes of a history show, in the words of `monk explain`. NUMBER is its place on the page.
BOXES = """(() => {
  const root = document.querySelectorAll('.history')[NUMBER];
  const at = (cls) => root.querySelector('.' + cls);
  const seats = (it) => [...it.querySelectorAll('.seat')].map((seat) => seat.textContent.replace(/\\D/g, ''));
  const of = (cls) => [...root.querySelectorAll('.boxes .box.' + cls)].map(seats);
  const active = root.querySelector('.boxes .box.active');
  const marks = [...root.querySelectorAll('.cropped .mark')].filter((mark) => mark.querySelector('title'));
  const band = at('band').getBoundingClientRect(), picture = at('picture').getBoundingClientRect();
  return {
    active: seats(active), open: active.textContent.includes('open to whoever'),
    due: active.textContent.includes('is next'),
    conditions: of('condition'), waiter: of('waiter'), signaller: of('signaller'), until: of('until'),
    outside: of('outside')[0], entry: of('entry')[0], count: document.getElementById('count').textContent,
    say: at('say').textContent, bad: at('told').classList.contains('bad'), answer: at('answer').textContent,
    guesses: [...root.querySelectorAll('.guess')].map((it) => it.textContent), verdict: at('verdict').textContent,
    choices: [...root.querySelectorAll('.choices li')].map((it) => it.textContent), line: at('line').textContent,
    table: root.querySelectorAll('.table tr[data-step]').length, isOver: root.classList.contains('over'),
    hidden: marks.filter((mark) => getComputedStyle(mark).visibility === 'hidden')
      .map((mark) => mark.querySelector('title').textContent),
    isInView: !band.width || (band.right > picture.left && band.left < picture.right),
    isWide: at('picture').scrollWidth > at('picture').clientWidth + 1,
  };
})()"""
# What the boxes of a log's page show.
LOG_BOXES = """(() => {
  const at = (cls) => document.querySelector('.' + cls).textContent;
  const seats = (it) => [...it.querySelectorAll('.seat')].map((seat) => Number(seat.textContent.replace(/\\D/g, '')));
  const of = (cls) => [...document.querySelectorAll('.boxes .box.' + cls)].flatMap(seats);
  return {
    active: of('active'), waiting: of('condition'), woken: of('waiter'), out: of('until'), outside: of('outside'),
    line: at('line'), say: at('say'), count: document.getElementById('count').textContent, story: at('choices'),
  };
})()"""


def data_of(file: str) -> list[Told]:
    """The data of the histories of a page."""
    with open(file, encoding="utf-8") as page:
        return [json.loads(found) for found in DATA.findall(page.read())]


def explained(monk: str, lines: list[str]) -> Told:
    """What `monk explain` says about these lines, by the words before the colons."""
    text = "".join(f"{line}\n" for line in lines)
    said = subprocess.run([monk, "explain"], input=text, capture_output=True, text=True, check=False).stdout
    verdict, *rest = said.splitlines()
    return {"verdict": verdict, **dict(line.split(":", 1) for line in rest)}


def expected(told: Told, seats: int) -> Told:
    """The boxes of that situation."""
    words, inside = told["turn"].split(), told["inside"].split()
    want: Told = {"open": words[0] == "open", "due": words[0] == "due", "active": words[1:2]}
    want["outside"] = [str(seat) for seat in range(seats) if str(seat) not in inside]
    if "until" in told:
        waits = [it.split()[0] for it in told["until"].split(",") if it.strip()]
        # the box of the ready seats is before that of all who wait
        want["until"] = [told["ready"].split(), waits]
        return want
    numbers = sorted(int(key.split()[1]) for key in told if re.fullmatch(r"condition \d+", key))
    want["conditions"] = [told[f"condition {number}"].split() for number in numbers]
    want["waiter"] = [told["waiter"].split()]
    want["signaller"] = [told["signaller"].split()] if "signaller" in told else []
    return want


def differences(said: Told, want: Told) -> list[str]:
    """Where the boxes differ. A seat that is known to enter next is in the box of entry and not outside."""
    said = {**said, "outside": sorted([*said["outside"], *said["entry"]], key=int)}
    return [f"{key}: {said[key]}, not {want[key]}" for key in want if said[key] != want[key]]


def behind_lines(data: Told) -> list[Told]:
    """The states of a log's page: the first, and that after each line, with the silent steps that belong to it."""
    states: list[Told] = [data["start"]]
    for entry in data["steps"]:
        word = entry["told"].split()[0]
        if word == "out":
            states[-1] = entry
        elif word != "wake":
            states.append(entry)
    return states


class Shown:
    """A history as its page has it: the lines of its text, and its data."""

    def __init__(self, monk: str, history: str, data: Told) -> None:
        with open(history, encoding="utf-8") as text:
            self.lines = text.read().splitlines()
        self.monk, self.data, self.first = monk, data, int(data["before"])
        self.events: list[Told] = [*data["steps"][1:], *([data["forbidden"]] if data["forbidden"] else [])]
        self.last = self.first + len(self.events)
        self.known: dict[int, Told] = {}

    def event(self, step: int) -> list[str]:
        """The words of the event of a step, and none before the first."""
        return str(self.events[step - self.first - 1]["event"]).split() if step > self.first else []

    def choice(self, step: int) -> Told | None:
        """What that step had to choose from, if it chose."""
        found: Told | None = self.events[step - self.first - 1].get("choice") if step > self.first else None
        return found

    def is_bad(self, step: int) -> bool:
        return bool(self.data["forbidden"]) and step == self.last

    def boxes(self, step: int) -> Told:
        """What the boxes must show at that step."""
        if step not in self.known:
            lines = self.lines[: step if self.is_bad(step) else step + 1]
            self.known[step] = expected(explained(self.monk, lines), self.data["seats"])
        return self.known[step]

    def marks_behind(self, step: int) -> list[str]:
        """The titles of the marks after that step."""
        return [f"{number}: {' '.join(self.event(number))}" for number in range(step + 1, self.last + 1)]
