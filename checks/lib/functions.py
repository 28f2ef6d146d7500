"""The functions of a crate: where each is in its text, how a check is asked for it, and where its proof is."""
from __future__ import annotations

import glob
import itertools
import os
import re
from typing import Any, List, Match, Optional, Sequence, Tuple

from edits import read

PUB = r"(?:pub(?:\([\w ]+\))? )?"
FUNCTION = re.compile(rf"^( *){PUB}(?:const )?(?:unsafe )?(?:extern \"C\" )?fn (\w+)", re.M)
TRAIT = r"(?:(?P<trait>[\w:]+)(?:<(?P<of>[^{]*?)>)? for )?"
OWNER = re.compile(rf"^(?:unsafe )?impl(?:<[^{{]*?>)? {TRAIT}(?P<type>\w+)|^{PUB}trait ", re.M)
OTHER_ITEMS = r"fn |impl\b|trait |struct |enum |use |mod |ghost "
ITEM = re.compile(rf"^ *{PUB}(?:const (?P<name>[A-Z]\w*):|{OTHER_ITEMS})", re.M)
TYPE = re.compile(rf"^{PUB}(?:struct|enum) (\w+)", re.M)
# The word that asks a check for a function, how a check names it, and the folder of its proof if that is sure.
Names = Tuple[str, str, Optional[str]]


class Function:
    """A function of a crate: where it is, how a check is asked for it and names it, and the folder of its proof if
    that is sure."""

    def __init__(self, crate: Any, path: str, span: Tuple[int, int, int], names: Names, is_free: bool) -> None:
        self.path = path
        self.start, self.body, self.end = span
        self.asked, named, self.folder = names
        self.named = re.compile(f"{re.escape(crate.name)}::{named}")
        # a function that a trait asks for can't have a second one beside it
        self.may_stand_again = bool(self.folder) and is_free


def module_of(path: str) -> str:
    module = re.sub(r"^src/|\.rt$", "", path).replace("/mod", "").replace("/", "::")
    return "" if module in ("lib", "main") else f"{module}::"


def functions_of(crate: Any, folder: str) -> List[Function]:
    """The functions of the crate in this folder that have a body, but not those of tests and those that a trait gives
    its types."""
    files = sorted(glob.glob(f"{folder}/src/**/*.rt", recursive=True))
    paths = [path for path in (os.path.relpath(file, folder) for file in files) if "/tests" not in path]
    texts = {path: read(f"{folder}/{path}") for path in paths}
    types = [(found, module_of(path)) for path, text in texts.items() for found in TYPE.findall(text)]
    made = [it for path, text in texts.items() for it in functions_in(crate, path, text, types)]
    folders = [it.folder for it in made]
    for function in made:
        # a number distinguishes two impls of one trait for one type
        function.folder = function.folder if folders.count(function.folder) == 1 else None
    return made


def functions_in(crate: Any, path: str, text: str, types: List[Tuple[str, str]]) -> List[Function]:
    """The functions of one file."""
    made, heads = [], list(FUNCTION.finditer(text))
    for head, until in zip(heads, [*(it.start() for it in heads[1:]), len(text)]):
        # a line of a contract may end with a brace too, and is indented further
        body = re.compile(rf"^{head[1]}(?:\S.*)?\{{\}}?$", re.M).search(text, head.start(), until)
        end = re.compile(rf"^{head[1]}\}}$", re.M)
        ends = body and (body if body[0].endswith("}") else end.search(text, body.end()))
        owners = list(OWNER.finditer(text, 0, head.start())) if head[1] else []
        names = names_of(head, owners[-1] if owners else None, module_of(path), types)
        if body and ends and names:
            span = head.start(), body.start() + body[0].rindex("{"), ends.end()
            made.append(Function(crate, path, span, names, not owners or not owners[-1]["trait"]))
    return made


def names_of(head: Match[str], owner: Optional[Match[str]], module: str,
             types: Sequence[Tuple[str, str]]) -> Optional[Names]:
    """The names of the function, or None for what a trait gives."""
    name = head[2]
    if not head[1]:
        return f"{module}{name}", re.escape(f"{module}{name}"), f"{module}{name}"
    if not owner or not owner["type"]:
        return None
    of_type = owner["type"]
    if not owner["trait"]:
        # it is named by where its type is, which may be another file
        stands = [where for found, where in types if found == of_type]
        whole = f"{stands[0]}{of_type}::{name}" if len(stands) == 1 else None
        return whole or f"{of_type}::{name}", re.escape(whole) if whole else rf"(.*::)?{of_type}::{name}", whole
    # a number's type is named with a capital
    of_type = of_type[0].upper() + of_type[1:]
    trait, of = owner["trait"].split("::")[-1], owner["of"] or ""
    named = rf"{module}{of_type}\d*{trait}\w*::{name}"
    whole = f"{module}{of_type}{trait}{of}::{name}" if re.fullmatch(r"\w*", of) else None
    return (whole or module[:-2], named, whole) if module else None


def first_line(text: str, start: int) -> int:
    """The number of the line at which the function at that place of the text begins, with its attributes."""
    lines = text[:start].split("\n")[:-1]
    above = itertools.takewhile(lambda it: it.strip() and not re.search(r"[;{}]$|^ *//", it), reversed(lines))
    return len(lines) + 1 - len(list(above))


def changed_by(functions: List[Function], crate: Any, path: str, old: str) -> Optional[Function]:
    """The function that has the text in its contract or body, or None."""
    at = read(f"{crate.folder}/{path}").find(old)
    inside = [it for it in functions if it.path == path and it.start <= at and at + len(old) <= it.end]
    return inside[-1] if inside else None


def is_named_alone(crate: Any, path: str, old: str, function: Function) -> bool:
    """Whether the text is in a constant that only this function names, in the crate's code, contracts and
    definitions."""
    text = read(f"{crate.folder}/{path}")
    at = text.find(old)
    heads, owners = list(ITEM.finditer(text, 0, at)), list(OWNER.finditer(text, 0, at))
    if not heads or not heads[-1]["name"]:
        return False
    head = heads[-1]
    owner = owners[-1] if owners and head[0].startswith(" ") else None
    named = rf"\b(?:Self|{owner['type']})(?:::|\.){head['name']}\b" if owner else rf"\b{head['name']}\b"
    spans = [(path, head.start(), text.find(";\n", at)), (function.path, function.start, function.end)]
    for kind in ("src/**/*.rt", "specs/**/*.antt"):
        for file in glob.glob(f"{crate.folder}/{kind}", recursive=True):
            own = [(start, end) for of, start, end in spans if of == os.path.relpath(file, crate.folder)]
            places = named_at(read(file), named)
            if any(not any(start <= place < end for start, end in own) for place in places):
                return False
    return True


def named_at(text: str, named: str) -> List[int]:
    """Where a text names it, outside of comments."""
    lines = [(it.start(), text[text.rfind("\n", 0, it.start()) + 1 : it.start()]) for it in re.finditer(named, text)]
    return [at for at, before in lines if not re.search(r"^ *(//|--)", before)]
