"""The answers that lab/test tries: each is the right one with some lines changed, or with some added."""

from __future__ import annotations

from dataclasses import dataclass, field
from typing import Sequence, Tuple

# The statuses of a check: all is met; not; and the file can't be loaded.
MET, NOT_MET, NOT_LOADED = 0, 1, 2
# How long the check of an answer may take, in seconds, if it isn't to end by itself.
SHORT = 5


@dataclass
class Tried:
    """An answer: what is changed in the right one, and what is added at its end; the status of its check, and what
    that must say, as patterns of whole lines or parts of them."""
    exercise: str
    name: str
    changes: Sequence[Tuple[str, str]] = ()
    added: str = ""
    says: Sequence[str] = ()
    status: int = NOT_MET
    # How long the check may take, in seconds, if it isn't to end by itself.
    seconds: int = 120
    # The whole text, in place of the right answer's.
    text: str = field(default="")
    ending: str = ".py"
    # The number of a check that is tried alone; 0 tries all.
    only: int = 0
