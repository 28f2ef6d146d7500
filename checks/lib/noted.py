"""The crates whose wrong bodies the prover has refused as they are now. checks/refused has a line for each: its name,
and the sum of what it and the crates below it are made of. Comments count too, because a sum can't tell them from
code."""
from __future__ import annotations

import hashlib
import os
from typing import Any, Dict, Iterator

from edits import TOP, read, write

NOTES = os.path.join(TOP, "checks", "refused")
PARTS = ("src", "specs", "proofs")


def files_of(folder: str) -> Iterator[str]:
    """All files below the folder, but not those of tests, which have no wrong bodies."""
    for place, folders, files in os.walk(folder):
        folders[:] = sorted(it for it in folders if it != "tests")
        yield from (os.path.join(place, it) for it in sorted(files))


def sum_of(crate: Any) -> str:
    """The sum of the crate, its wrong bodies and the crates below it."""
    folders = [f"{it.folder}/{part}" for it in [*crate.below(), crate] for part in PARTS]
    found = hashlib.sha256()
    for file in (file for folder in [*folders, f"{crate.folder}/wrong-bodies"] for file in files_of(folder)):
        with open(file, "rb") as it:
            found.update(os.path.relpath(file, TOP).encode() + b"\0" + hashlib.sha256(it.read()).digest())
    return found.hexdigest()


def notes() -> Dict[str, str]:
    if not os.path.exists(NOTES):
        return {}
    rows = (line.partition(" ") for line in read(NOTES).splitlines())
    return {name: found for name, _, found in rows}


def is_noted(crate: Any) -> bool:
    """Whether all wrong bodies of the crate were refused as it is now."""
    return notes().get(crate.name) == sum_of(crate)


def note(sums: Dict[str, str]) -> None:
    """Notes that all wrong bodies of these crates were refused, when they had these sums."""
    write(NOTES, "".join(f"{name} {found}\n" for name, found in sorted({**notes(), **sums}.items())))
