"""Drives a page in the browser by its keys, its questions and its lanes, and says where it goes wrong."""
from browser import Browser
from page_shows import BOXES, Shown, Told, differences

# Where the choice of a release begins in an event.
RELEASES = {"leave": 2, "wait": 3, "signal": 3, "signal-leave": 3, "until": 3, "signal-wait": 4}
LANES = """[...document.querySelectorAll('.history')[NUMBER].querySelectorAll('.cropped .lane')].map((it) => {
  const box = it.getBoundingClientRect();
  return [box.x + 4, box.y + box.height / 2];
})"""


class Drive:
    """A page of several histories or one, in the browser."""

    def __init__(self, browser: Browser, address: str, histories: list[Shown]) -> None:
        self.browser, self.address, self.histories = browser, address, histories
        self.first = min(it.first for it in histories)
        self.last = max(it.last for it in histories)
        self.compared, self.wrong = 0, list[str]()

    def open(self, words: str, width: int = 1280, height: int = 800) -> None:
        self.browser.go(f"{self.address}#{words}", width, height)

    def said(self, number: int) -> Told:
        said: Told = self.browser.run(BOXES.replace("NUMBER", str(number)))
        return said

    def must(self, how: str, found: list[str]) -> None:
        """Keeps what was found wrong."""
        self.wrong += [f"{how}: {it}" for it in found]

    def compare(self, step: int, how: str) -> None:
        """Compares what each history shows now with what `monk explain` says about that step."""
        for number, it in enumerate(self.histories):
            said, shown = self.said(number), max(it.first, min(step, it.last))
            found = differences(said, it.boxes(shown))
            found += [] if said["count"] == f"step {step} of {self.last}" else [f"count: {said['count']}"]
            found += [] if said["bad"] == it.is_bad(shown) else ["a forbidden step that is not marked, or one that is"]
            why = f"Forbidden: {it.data['forbidden']['why']}." if it.is_bad(shown) else ""
            found += [] if why in said["say"] else ["its sentence is missing"]
            found += ["a word is undefined"] if "undefined" in said["say"] else []
            found += [] if said["isOver"] == (step > it.last) else ["it fades, or doesn't"]
            found += [] if said["isInView"] else ["the step is out of view"]
            self.compared += 1
            self.must(f"history {number}, step {step} by {how}", found)

    def at(self, step: int, key: str) -> None:
        """Presses the key, which must lead to that step."""
        self.browser.press(key)
        count = self.said(0)["count"]
        self.must(key, [] if count == f"step {step} of {self.last}" else [f"{count}, not {step}"])

    def hide(self) -> None:
        """With `hide what follows` the marks after the step must be hidden, and no others."""
        self.open(f"step={self.first}&hide=1")
        for step in range(self.first, self.last + 1):
            for number, it in enumerate(self.histories):
                found = self.said(number)["hidden"]
                self.must(f"history {number}, hiding at {step}", [] if found == it.marks_behind(step)
                          else [f"hidden are {found}"])
            self.browser.press("ArrowRight")

    def ask(self) -> None:
        """Asks first, from the first step to the last, and answers each question."""
        self.open(f"step={self.first}")
        self.browser.press("a")
        right = asked = 0
        for step in range(self.first + 1, self.last + 1):
            self.browser.press("ArrowRight")
            for number, it in enumerate(self.histories):
                said = self.said(number)
                if said["guesses"]:
                    asked += 1
                    right += self.answer(it, number, step, said)
                elif step <= it.last and it.choice(step):
                    may = (it.choice(step) or {})["may"]
                    self.must(f"step {step}", [] if may == ["entry"] else ["nothing is asked"])
            self.compare(step, "answer")
        score = self.browser.run("document.getElementById('score').textContent")
        self.must("score", [] if score == (f"{right}/{asked}" if asked else "") else [f"{score}, not {right}/{asked}"])

    def answer(self, it: Shown, number: int, step: int, said: Told) -> bool:
        """Answers an open question, whose page mustn't show the answer before. Returns whether it was right."""
        event, may = it.event(step), (it.choice(step) or {})["may"]
        allowed = {seat_of(next_, event[1]) for next_ in may}
        guesses = [guess[1:].replace("seat ", "").replace("whoever enters next", "entry") for guess in said["guesses"]]
        found = differences({**said, "entry": []}, it.boxes(step - 1))
        found += [] if said["hidden"] == it.marks_behind(step) else [f"hidden are {said['hidden']}"]
        found += ["what stands below tells it"] if said["line"] or said["choices"] or said["verdict"] else []
        found += [f"{allowed} may, and asked are {guesses}"] if not allowed <= {*guesses} else []
        # who is ticked: all who may, the first alone, or all
        ticked = {0: [it for it in guesses if it in allowed], 1: guesses[:1], 2: guesses}[step % 3]
        for guess in ticked:
            self.browser.press(str(guesses.index(guess) + 1))
        self.browser.press("ArrowRight" if step % 2 and len(self.histories) == 1 else "Enter")
        told, is_right = self.said(number)["answer"], {*ticked} == allowed
        found += [] if told == judged(guesses, ticked, allowed, it.data["kind"]) else [f"{told} of {ticked}"]
        self.must(f"history {number}, question at {step}", found)
        return is_right

    def keys(self) -> None:
        """Goes to a seat's events, and to what is refused, by keys and by its lane."""
        it = self.histories[0]
        self.open(f"step={min(self.first + 1, it.last)}")
        step = self.to_each_of_seat(min(self.first + 1, it.last))
        for key in ("?", "?", "t", "t", "f", "f", "h", "h"):
            self.at(step, key)
        self.at(self.first, "Home")
        refused = [number for number in range(it.first + 1, it.last + 1) if it.is_bad(number)
                   or is_refused(it.event(number))]
        for step in refused:
            self.at(step, "r")
        if refused:
            self.at(refused[-1], "r")
        self.lanes(it)

    def to_each_of_seat(self, step: int) -> int:
        """Goes by `n` to the last event of that step's seat, and back by `b`."""
        it = self.histories[0]
        seat = it.event(step)[1:2]
        own = [number for number in range(it.first + 1, it.last + 1) if it.event(number)[1:2] == seat and number > step]
        for number in own:
            self.at(number, "n")
        for number in [step, *own][-2::-1]:
            self.at(number, "b")
        return step

    def lanes(self, it: Shown) -> None:
        """A click on a seat's name goes to its next event."""
        for seat in range(min(4, int(it.data["seats"]))):
            self.browser.press("Home")
            lanes = self.browser.run(LANES.replace("NUMBER", "0"))
            own = [number for number in range(it.first + 1, it.last + 1) if it.event(number)[1] == str(seat)]
            self.browser.click(*lanes[seat])
            want = own[0] if own else self.first
            count = self.said(0)["count"]
            self.must(f"lane of {seat}", [] if count == f"step {want} of {self.last}" else [f"{count}, not {want}"])

    def fit(self) -> None:
        """Fitted, no picture is wider than its place, unless it would be too small to tell bars apart."""
        self.open(f"step={self.first}&fit=1", width=1280)
        scale = self.browser.run("document.querySelector('.cropped').getBoundingClientRect().height / document.querySelector('.cropped').viewBox.baseVal.height")
        wide = [number for number in range(len(self.histories)) if self.said(number)["isWide"]]
        self.must("fit", [] if not wide or scale < 0.31 else [f"{wide} are too wide"])

    def alone(self) -> None:
        """By `w` one history after the other must move alone, and then all must be in step again."""
        self.open(f"step={self.first}")
        for number, it in enumerate(self.histories):
            self.browser.press("w")
            self.browser.press("End")
            counts = [self.said(other)["line"] for other in range(len(self.histories))]
            ends = [" ".join(other.event(other.last)) if i <= number else "" for i, other in enumerate(self.histories)]
            self.must(f"alone {number}", [] if counts == ends else [f"{counts}, not {ends}"])
        self.browser.press("w")
        self.compare(self.histories[-1].last, "w")


def seat_of(next_: str, caller: str) -> str:
    """Whom a choice lets go on."""
    return caller if next_ == "stay" else next_.split()[-1]


def judged(guesses: list[str], ticked: list[str], allowed: set[str], kind: str) -> str:
    """What must be said of who is ticked."""
    def names(some: list[str]) -> str:
        words = ["whoever enters next" if it == "entry" else f"seat {it}" for it in some]
        return " and ".join([", ".join(words[:-1]), words[-1]] if words[1:] else words)
    wrong, missing = [it for it in ticked if it not in allowed], [it for it in guesses if it in allowed - {*ticked}]
    if wrong or missing:
        return " ".join([f"Not {names(wrong)}."] * bool(wrong) + [f"Also {names(missing)}."] * bool(missing))
    return f"Right: {kind} leaves it open." if len(allowed) > 1 else "Right."


def is_refused(event: list[str]) -> bool:
    return event[0] == "act" and event[4] == "0"
