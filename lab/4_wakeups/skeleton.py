"""Exercise 4: lost wake-ups. Run: python3 check.py skeleton.py

Three programs are in given.py, each with a mistake. First write down under which kinds each goes wrong. Then copy
each to here, in place of its import, and mend it, so that it goes right under every kind. Change how it waits and
signals, and not what it does to the data."""

from types import SimpleNamespace
from typing import Dict, List, Sequence

from given import early_signal, late_work, one_signal
from monk import Calls, Program, enter, leave, signal, wait

# Under which kinds does each of given.py go wrong? (["PB", "NPB"] would say: under these two.)
WRONG: Dict[str, List[str]] = {"late_work": [], "early_signal": [], "one_signal": []}
