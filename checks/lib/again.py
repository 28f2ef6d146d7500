"""A second function with the contract and the proof of another, in a copy of a crate, for a second wrong body of it."""
from __future__ import annotations

import os
import re
import shutil
from typing import Any, Dict, List

from functions import Function, first_line, functions_of, read

# What is added to the function's name, once for the second function and twice for the third.
AGAIN = "_again"


def put_again(crate: Any, room: str, edits: List[Any]) -> Dict[Any, Function]:
    """Puts one more function into the copy for each wrong body, like its own. Returns these functions by their wrong
    bodies."""
    more: Dict[Any, str] = {}
    for edit in edits:
        more[edit] = AGAIN * (1 + sum(it.function == edit.function for it in more))
        put_text(crate, room, edit, more[edit])
        put_proof(crate, room, edit.function, more[edit])
    made = {it.asked: it for it in functions_of(crate, room)} if edits else {}
    return {it: made[it.function.asked + more[it]] for it in edits}


def put_text(crate: Any, room: str, edit: Any, more: str) -> None:
    """Puts the function's text, with the wrong body and under its new name, before the function. (The function's own
    contract may be another wrong body's in the copy.)"""
    function = edit.function
    whole = read(f"{crate.folder}/{function.path}")
    wrong = edit.texts[function.path]
    name = function.asked.split("::")[-1]
    own = wrong[start_of(whole, function) : function.end + len(wrong) - len(whole)]
    own = re.sub(rf"\bfn {name}\b", f"fn {name}{more}", own, count=1)
    text = read(f"{room}/{function.path}")
    at = start_of(text, next(it for it in functions_of(crate, room) if it.asked == function.asked))
    with open(f"{room}/{function.path}", "w", encoding="utf-8") as it:
        it.write(f"{text[:at]}{own}\n\n{text[at:]}")


def start_of(text: str, function: Function) -> int:
    """Where the function begins in the text, with its attributes."""
    return len("".join(text.splitlines(True)[: first_line(text, function.start) - 1]))


def put_proof(crate: Any, room: str, function: Function, more: str) -> None:
    """Puts the function's proof under the new name."""
    path = (function.folder or "").split("::")
    at = "/".join([room, "proofs", *path])
    if not os.path.isdir(at):
        return
    shutil.copytree(at, at + more)
    dotted = ".".join([crate.name, "proofs", *path])
    for folder, _, names in os.walk(at + more):
        for name in names:
            text = read(f"{folder}/{name}").replace(f"{dotted}.", f"{dotted}{more}.")
            text = text.replace(f"{path[-1]}_spec", f"{path[-1]}{more}_spec")
            with open(f"{folder}/{name}", "w", encoding="utf-8") as it:
                it.write(text)
