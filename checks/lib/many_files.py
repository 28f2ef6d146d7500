"""Asks `monk fit` about many files at once: good and bad texts, files that aren't there, folders, and names with a line
in them or with bytes that are no text. Each answer has its file's name, and none stops the others."""
from __future__ import annotations

import json
import os
import subprocess
from random import Random
from typing import Dict, List, NamedTuple

LOG = b"log 1 2 1 buffer 1\nenter 0\nwait 0 0\n"
TEXTS: Dict[bytes, bytes] = {
    b"good.log": LOG,
    b"misfit.log": LOG + b"leave 0\n",
    b"busy.log": b"log 1 2 1 buffer 1\nenter 0\n",
    b"cut.log": b"log 1 2 1 buffer 1\nenter",
    b"no.log": b"log 3\n",
    b"a.history": b"monk 1 PB 1 0 buffer 1\nenter 0 free\n",
    b"a.play": b"play 1 PB 1 0 buffer 1 8\n0 arrive\n",
    b"README": b"# A text\n",
    b"empty": b"",
    b"bytes": b"\0\xff\n\x80",
    b"two words.log": LOG,
    b"forged.log: fits\nother.log": LOG,
    b"bell\x07.log": LOG,
    b"no\xfftext.log": LOG,
    "straße.log".encode(): LOG,
}
FOLDER, MISSING = b"folder", b"missing.log"


class Said(NamedTuple):
    """What the program answers, a line each, what it says beside it, and its status."""

    lines: List[str]
    errors: str
    status: int


def shown(name: bytes) -> str:
    """The name as it is shown: no character ends a line, and bytes that are no text have a sign."""
    try:
        text = name.decode()
    except UnicodeDecodeError:
        text = "".join(chr(byte) if byte < 128 else "\ufffd" for byte in name)
    return "".join("\\n" if it == "\n" else "?" if ord(it) < 32 else it for it in text)


def said(monk: str, words: List[str], names: List[bytes], folder: bytes) -> Said:
    ran = subprocess.run([monk.encode(), b"fit", *(word.encode() for word in words), *names], cwd=folder,
                         stdin=subprocess.DEVNULL, stdout=subprocess.PIPE, stderr=subprocess.PIPE, timeout=60)
    lines = ran.stdout.decode().split("\n")
    return Said(lines[:-1], ran.stderr.decode(), ran.returncode)


def is_log(name: bytes) -> bool:
    """Whether the file can be opened, and its text is that of a log."""
    return TEXTS.get(name, b"").startswith(b"log ") and name not in (b"cut.log", b"no.log", b"no\xfftext.log")


def parsed(line: str) -> Dict[str, object]:
    try:
        return dict(json.loads(line))
    except ValueError:
        return {}


def wrong_json(monk: str, names: List[bytes], folder: bytes) -> str:
    """What is wrong with the answers in JSON, or nothing: one object a file, in order, with its name."""
    told = said(monk, ["--json"], names, folder)
    objects = [parsed(line) for line in told.lines]
    if [it.get("file") for it in objects] != [shown(name) for name in names]:
        return f"fit --json of {names}: {told.lines}"
    wrong = [it for it, name in zip(objects, names) if ("fits" in it) != is_log(name) or ("error" in it) == is_log(name)]
    return f"fit --json of {names}: {wrong}" if wrong else ""


def wrong_words(monk: str, names: List[bytes], folder: bytes) -> str:
    """What is wrong with the answers in words, or nothing: each line begins with the name of a file, in order, and a
    file without an answer is named beside them."""
    told, at = said(monk, [], names, folder), 0
    for line in told.lines:
        while at < len(names) and not line.startswith(f"{shown(names[at])}: "):
            at += 1
        if at == len(names):
            return f"fit of {names}: {line!r} of {told.lines}"
    unnamed = [name for name in names if f"{shown(name)}: " not in "\n".join([*told.lines, told.errors])]
    return f"fit of {names}: no answer for {unnamed}" if unnamed else ""


def write_texts(folder: bytes, dice: Random) -> List[bytes]:
    """Writes the files into the folder, some of them with random bytes, and returns all names."""
    for name, text in TEXTS.items():
        with open(os.path.join(folder, name), "wb") as file:
            file.write(text)
    random = [b"random%d" % number for number in range(5)]
    for name in random:
        with open(os.path.join(folder, name), "wb") as file:
            file.write(dice.randbytes(dice.choice([1, 30, 400])))
    os.mkdir(os.path.join(folder, FOLDER))
    return [*TEXTS, *random, FOLDER, MISSING]


def wrong_of_many(monk: str, folder: str, times: int, seed: int = 1) -> List[str]:
    """What is wrong with answers to random lists of these files, and to the list of all of them."""
    dice = Random(seed)
    names = write_texts(folder.encode(), dice)
    lists = [names, *(dice.choices(names, k=dice.randint(2, 8)) for _ in range(times))]
    return [wrong for some in lists for ask in (wrong_json, wrong_words) if (wrong := ask(monk, some, folder.encode()))]
