"""What can be said of a history: by the program `monk`, as pictures, and in files."""

from __future__ import annotations

import html
import json
import os
import re
import tempfile
from typing import Any, Dict, List, Optional

from .errors import MonkError
from .picture import picture
from .program import ask

# The limits for the name of a seat or a condition on a page.
UNUSUAL, LONGEST_NAME = re.compile("[^A-Za-z0-9_ -]"), 16
WIDTH_IN_A_NOTEBOOK = 110


class Told:
    """Something that has a history. Each answer needs the program `monk`: `ask` says where it is looked for."""

    def _text(self) -> str:
        raise NotImplementedError

    def _names(self) -> List[str]:
        """The names of the seats, in order."""
        raise NotImplementedError

    def _condition_names(self) -> List[str]:
        raise NotImplementedError

    def audit(self) -> str:
        """What `monk audit` says of the history: `legal N`, or the first event that the kind forbids."""
        return ask("audit", self._text())

    def explain(self, kind: Optional[str] = None) -> str:
        """What `monk explain` says of the history: the monitor's situation, and why an event is forbidden. With a
        kind: the same as if the monitor were of that kind."""
        return ask("explain", self._text(), *(("--kind", kind) if kind else ()))

    def fit(self) -> str:
        """What `monk fit` says of the same events under each of the ten kinds."""
        return ask("fit", self._text())

    def svg(self) -> str:
        """The picture that `monk draw` makes of the history."""
        return ask("draw", self._text())

    def draw(self, path: str) -> None:
        """Writes that picture into a file."""
        _write(path, self.svg())

    def page(self, path: str) -> None:
        """Writes the page that `monk page` makes of the history and of `page_data`, which a browser steps through."""
        with tempfile.TemporaryDirectory() as folder:
            stored = os.path.join(folder, "run.history")
            self.save(stored)
            answer = ask("page", "", stored)
        _write(path, answer)

    def save(self, path: str) -> None:
        """Writes the history into a file, and what `page_data` returns into another beside it, PATH.told, which `monk
        page` reads."""
        _write(path, self._text())
        # a page can hold no `<`
        _write(path + ".told", json.dumps(self.page_data(), indent=1).replace("<", "\\u003c") + "\n")

    def page_data(self) -> Dict[str, Any]:
        """What a page shows in addition to the history: names of seats and conditions."""
        return {"seats": _usual(self._names(), "seat"), "conditions": _usual(self._condition_names(), "condition")}

    def picture(self, width: Optional[int] = None, is_plain: bool = False, last: Optional[int] = None) -> str:
        """The history as a picture of text, in strips as wide as the terminal, or `width` columns wide. If it is
        plain, it is ASCII. last: only so many events, the last ones."""
        return picture(self._text(), self._names(), self._condition_names(), width, is_plain, last)

    def _repr_html_(self) -> str:
        """In a notebook: the picture, as an SVG if there is a program `monk`."""
        try:
            return f"<div style='overflow-x:auto'>{self.svg()}</div>"
        except (FileNotFoundError, MonkError):
            return f"<pre style='line-height:1.25;white-space:pre;overflow-x:auto'>{html.escape(self.picture(WIDTH_IN_A_NOTEBOOK))}</pre>"


def _usual(names: List[str], what: str) -> List[str]:
    """The names as a page may have them; a number in place of a name if nothing is left of it."""
    return [UNUSUAL.sub("", name)[:LONGEST_NAME] or f"{what} {number}" for number, name in enumerate(names)]


def _write(path: str, text: str) -> None:
    with open(path, "w", encoding="utf-8", newline="\n") as file:
        file.write(text)
