"""Whether a volume of a history begins as the one before it ended: who waits where, in order, and who is
inside."""
import os
import re
import subprocess
from typing import Dict, List, Optional, Tuple


def situation(monk: str, path: str) -> "Tuple[Dict[int, List[str]], str, List[str]]":
    """At the end: the queues of the conditions, who is inside, and who else waits inside, though nobody may."""
    with open(path) as file:
        text = subprocess.run([monk, "explain"], stdin=file, stdout=subprocess.PIPE, universal_newlines=True).stdout
    queues = {int(found[1]): found[2].split() for found in re.finditer(r"^condition (\d+):(.*)$", text, re.M)}
    turn = re.search(r"^turn: of (\d+)", text, re.M)
    others = " ".join(found[1] for found in re.finditer(r"^(?:waiter|signaller):(.*)$", text, re.M)).split()
    return queues, turn[1] if turn else "", others


def beginning(path: str, waits: int) -> "Tuple[Dict[int, List[str]], List[str]]":
    """The queues that the first pairs of enter and wait make, as many as there were waits; and the next step."""
    with open(path) as file:
        rows = [line.split() for line in file.read().splitlines()[1:]]
    queues: Dict[int, List[str]] = {}
    for at in range(0, 2 * waits, 2):
        enters, wait = rows[at], rows[at + 1]
        if enters[0] != "enter" or wait[0] != "wait" or enters[1] != wait[1]:
            break
        queues.setdefault(int(wait[2]), []).append(wait[1])
    return queues, rows[2 * waits]


def ghosts_of(monitor: str, volume: str) -> "set[str]":
    """The seats whose waits were given up: the next volume begins without them."""
    names = monitor + ".names"
    if not os.path.exists(names):
        return set()
    with open(names) as file:
        rows = [line.split() for line in file if line.startswith("ghost ")]
    return {row[3] for row in rows if row[2] == volume}


def first_break(monk: str, path: str) -> Optional[str]:
    """What is wrong between this volume and the next, if there is one."""
    monitor, _, volume = path.rpartition(".")
    following = f"{monitor}.{int(volume) + 1}"
    if not os.path.exists(following):
        return None
    queues, inside, others = situation(monk, path)
    ghosts = ghosts_of(monitor, volume)
    left = {condition: [seat for seat in seats if seat not in ghosts] for condition, seats in queues.items()}
    waiting = {condition: seats for condition, seats in left.items() if seats}
    began, step = beginning(following, sum(map(len, waiting.values())))
    if began == waiting and step[:2] == ["enter", inside] and not others:
        return None
    ends = f"{waiting}, inside {inside or 'nobody'}, others {others}"
    return f"{following} begins with {began} and {step}, and {path} ends with {ends}"
