"""One run of a scene: how it ended, its story, and its history."""

from __future__ import annotations

import html
from dataclasses import dataclass, field
from typing import Any, Dict, List, Set, Tuple

from .shared import in_words
from .told import WIDTH_IN_A_NOTEBOOK, Told

RIGHT, WRONG, STUCK, NO_SUCH_CALL = "right", "wrong", "stuck", "no such call"


@dataclass
class Run(Told):
    """One run of a scene. The history is the kernel's; everything else is the driver's."""
    kind: str
    # The names of the seats.
    seats: List[str]
    # "right", "wrong", "stuck" or "no such call"; whose fault it is, why, and after which event.
    outcome: str = RIGHT
    who: str = ""
    why: str = ""
    at: int = 0
    # Who signalled, who came between, and who went on; or which signal found nobody.
    between: str = ""
    # Whether a program went on until its events were spent.
    is_endless: bool = False
    # A call was made where it can't be, or wasn't yielded; or data were changed outside.
    is_misuse: bool = False
    # The functions of programs that waited; and the conditions on which somebody waited, or signalled.
    waited: Set[str] = field(default_factory=set)
    waited_on: Set[str] = field(default_factory=set)
    signalled_on: Set[str] = field(default_factory=set)
    moves: List[str] = field(default_factory=list)
    # For each event: who made it, and what it was in words.
    story: List[Tuple[str, str]] = field(default_factory=list)
    # What the programs share: at the end; and before the first event and at each event.
    data: Dict[str, str] = field(default_factory=dict)
    told: List[str] = field(default_factory=list)
    history: str = ""
    conditions: List[str] = field(default_factory=list)

    @property
    def schedule(self) -> str:
        """The moves, as `play` takes them."""
        return " ".join(self.moves)

    @property
    def fault(self) -> str:
        """Whose fault it was and why, in words; nothing if the run was right."""
        return f"{self.who}: {self.why}" if self.who else self.why

    def _text(self) -> str:
        return self.history

    def _names(self) -> List[str]:
        return self.seats

    def _condition_names(self) -> List[str]:
        return self.conditions

    def page_data(self) -> Dict[str, Any]:
        """What a page shows in addition to the history: names, the data before the first event and after each, and
        how it ended."""
        return {**super().page_data(), "data": self.told, "end": f"Then {self.fault}." if self.why else ""}

    def _repr_html_(self) -> str:
        """In a notebook: the picture as text, and the story."""
        words = f"{self.picture(WIDTH_IN_A_NOTEBOOK)}\n\n{self}"
        return f"<pre style='line-height:1.25;white-space:pre;overflow-x:auto'>{html.escape(words)}</pre>"

    def __str__(self) -> str:
        width = max(map(len, self.seats))
        lines = [f"{number:3}  {who:<{width}}  {words}" for number, (who, words) in enumerate(self.story, 1)]
        ends = [f"     {line}" for line in (self.fault, self.between) if line]
        if self.data:
            ends.append("     at the end: " + in_words(self.data))
        return "\n".join([f"{self.kind}: {self.outcome}", *lines, *ends])
