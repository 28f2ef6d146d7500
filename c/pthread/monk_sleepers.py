"""Whether a program hangs: each of its threads sleeps until another one wakes it. Part of monk-try."""
import os
import time
from typing import List

# System calls of x86-64: a futex, and others in which a process waits for its own: reads of pipes, and children.
FUTEX, FOR_OTHERS = "202", ("0", "61", "247")
# Where a futex's limit stands in `syscall`, and what it is if there is none; where `stat` has these, after the name.
LIMIT, NONE, STATE, SESSION = 4, "0x0", 0, 3
BETWEEN_LOOKS = 0.3


def text_of(path: str) -> str:
    try:
        with open(path) as file:
            return file.read()
    except OSError:
        return ""


def is_in_session(process: str, leader: int) -> bool:
    fields = text_of(f"/proc/{process}/stat").rpartition(")")[2].split()
    return len(fields) > SESSION and fields[SESSION] == str(leader) and fields[STATE] != "Z"


def calls_of(leader: int) -> List[str]:
    """The system call of each thread of a session, with what it was given. (`running` of a thread that runs.)"""
    processes = [name for name in os.listdir("/proc") if name.isdigit() and is_in_session(name, leader)]
    tasks = [f"/proc/{name}/task" for name in processes]
    return [text_of(f"{at}/{thread}/syscall") for at in tasks if os.path.isdir(at) for thread in os.listdir(at)]


def is_asleep(call: str) -> bool:
    words = call.split()
    return words[:1] == [FUTEX] and words[LIMIT:LIMIT + 1] == [NONE] or bool(words) and words[0] in FOR_OTHERS


def sleeps_for_ever(leader: int) -> bool:
    """Whether nothing moved between two looks, and nothing can. False where the system doesn't say."""
    calls = calls_of(leader)
    if not all(map(is_asleep, calls)) or not any(call.startswith(f"{FUTEX} ") for call in calls):
        return False
    time.sleep(BETWEEN_LOOKS)
    return calls_of(leader) == calls
