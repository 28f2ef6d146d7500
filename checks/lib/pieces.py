"""What the pieces of a check took, by the times at which it wrote the files that it keeps. If the check has one job,
each is written when it is done."""
from __future__ import annotations

import collections
import glob
import os
import re
from typing import Dict

# What the checker adds to a module's name: the parts of a function's proof.
PARTS = ("Proof", "Lts", "Mir", "Tie", "Kinds", "Code", "Reads", "Given", "Goals", "Layout", "Symbol", "Statement",
         "Met", "TheLink", "Key", "Answers", "Invariants", "decls")
PART = rf"(?:\.(?:{'|'.join(PARTS)})[\w+-]*)*"
MODULE = re.compile(rf"Rattle-\w+[-.](?:proofs|specs\.contracts|specs)\.(.*?){PART}\.oantt")
# Longer than any piece takes, in seconds.
PAUSE = 300


def seconds(folder: str, since: float = 0) -> Dict[str, float]:
    """What each piece took, by its function's path or file of lemmas, from what was written in the folder after that
    time. Gaps in which nothing was written, between two checks or when a copy of the checker began, are left out."""
    files = glob.glob(f"{folder}/*/*.oantt")
    written = sorted((os.stat(file).st_mtime, os.path.basename(file)) for file in files)
    written = [it for it in written if it[0] > since]
    took: Dict[str, float] = collections.defaultdict(float)
    for (before, _), (at, file) in zip(written, written[1:]):
        found = MODULE.fullmatch(file)
        if found and at - before < PAUSE:
            took[found[1]] += at - before
    return took
