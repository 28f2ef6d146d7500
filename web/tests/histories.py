#!/usr/bin/env python3
"""Compares the kernel in the page with the native library: web/tests/histories.py [--audit]

Each order of five scenes is played under ten kinds, by the page's engine over the kernel in WebAssembly, and by Python
over libmonk. The same orders must be possible, with the same outcomes and histories. --audit also gives some of the
histories to `monk audit`, chosen by dice: all must be legal. The library is the one that MONK_LIBRARY names, else that
of `make -C c`."""
from __future__ import annotations

import importlib
import json
import os
import random
import subprocess
import sys
from typing import Dict, List

sys.dont_write_bytecode = True
HERE = os.path.dirname(os.path.abspath(__file__))
TOP = os.path.dirname(os.path.dirname(HERE))
os.environ.setdefault("MONK_LIBRARY", os.path.join(TOP, "c", "out", "libmonk.so"))
sys.path[:0] = [os.path.join(TOP, "c", "python"), os.path.join(TOP, "examples", "python")]
from monk import KINDS  # noqa: E402
from monk.libmonk import build  # noqa: E402
from monk.orders import all_orders  # noqa: E402
from monk.scenes import played  # noqa: E402
from monk.stage import Way  # noqa: E402

# Each scene of web/tests/shared, and what makes it in examples/python.
SCENES = {"buffer": "buffer", "signal_first": "signal_first", "one_signal": "one_signal_for_two", "bridge": "bridge",
          "readers": "readers_and_writer"}
MOST, AUDITED, DICE = 20000, 200, 3


def native(name: str, kind: str) -> List[str]:
    """The outcome and the history of each order, by the native library."""
    made = getattr(importlib.import_module(f"compare_{name}"), SCENES[name])
    names: List[str] = []
    runs = [played(made, Way(kind, None, is_short=True, is_kept=True), names, begin) for begin in all_orders(MOST)]
    return [f"{run.outcome}\n{run.history}" for run in runs]


def audit(texts: List[str]) -> List[str]:
    """What isn't legal of some of these histories."""
    program = subprocess.check_output([os.path.join(TOP, "checks", "program")], text=True).strip()
    wrong = []
    for text in random.Random(DICE).sample(sorted(texts), min(AUDITED, len(texts))):
        done = subprocess.run([program, "audit"], input=text, capture_output=True, text=True, check=False)
        if done.stdout.strip() != f"legal {len(text.splitlines()) - 1}":
            wrong.append(f"monk audit says {done.stdout.strip() or done.stderr.strip()} of\n{text}")
    return wrong


def main() -> int:
    asked = ["node", os.path.join(HERE, "histories.js"), *SCENES]
    theirs: Dict[str, List[str]] = json.loads(subprocess.check_output(asked))
    wrong, total = [], 0
    for name in SCENES:
        for kind in KINDS:
            mine, page = native(name, kind), theirs[f"{name} {kind}"]
            total += len(page)
            if set(mine) != set(page):
                other = sorted(set(mine) ^ set(page))[0]
                whose = "the library" if other in set(mine) else "the page"
                wrong.append(f"histories: {name} under {kind}: only {whose} plays\n{other}")
    if "--audit" in sys.argv[1:]:
        wrong += audit([it.split("\n", 1)[1] for texts in theirs.values() for it in texts])
    print("\n".join([*wrong, f"histories: {total} orders of {len(SCENES)} scenes, by the page and by {build()}: "
                     + (f"{len(wrong)} differences" if wrong else "the same histories")]))
    return 1 if wrong else 0


if __name__ == "__main__":
    sys.exit(main())
