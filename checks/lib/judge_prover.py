"""Wrong bodies that the prover must refuse: checks/wrong_bodies [--look | --compile | --after-ci] [--changed]
[--slowest] [CRATE | CRATE/BODY ..]

Each crates/NAME/wrong-bodies/*.edit has one, in the form of the kit's must-fail edits, which are tried one by one.
These are tried together: wrong bodies of different functions of a crate stand side by side in one copy, and one check
asks for those functions. A contract is all that one function knows of another; so in the copy each other function is
taken by its contract, by a hole in place of its proof, and each wrong body has to be refused by the proof of its own
function.

A second body of one function stands in the same copy as a second function with the same contract and the same proof
(again).

A fault that stands in no function's body, as in a constant, names the function whose proof refuses it in a line
'refused by: PATH', and has a copy of its own, unless it is in a constant that this function alone names. A fault in an
impl whose law is refused names the law, in a line 'law: NAME', and may share its copy with faults in other impls. Where
that proof stands on a lemma, and the lemma is what is refused, a line 'stands on: LEMMA' names it. What the copies
don't decide is tried alone, as the kit does it.

--look tries none, and says which can't be put in. --compile says what the compiler refuses of them, and of those in
must-fail/. --after-ci takes the libraries that `rt ci` has just built, where a clean clone has no others; else those of
`rt check` are taken. --changed leaves out each crate that checks/refused notes: all its wrong bodies were refused, and
neither it nor a crate below has changed since. A run that refuses all of a crate notes it there. --slowest says before
the last line how long the bodies took that took longest; of bodies that stand in one copy each. The last line is
'N passed, M failed'."""
from __future__ import annotations

import glob
import os
import re
import resource
import shutil
import subprocess
import tempfile
import time
from concurrent.futures import ThreadPoolExecutor
from typing import Any, Dict, List, Optional, Set, Tuple

import edits
import kit
import noted
import pieces
from again import put_again
from compiling import not_compiled
from edits import TOP, name_of, say, told
from functions import Function, changed_by, first_line, functions_of, is_named_alone

# The most wrong bodies in one copy. One that can't be read or stated takes the others with it, and they are tried
# again.
TOGETHER = 60
# A check takes up to this much memory, in bytes.
ROOM = 5_000_000_000
# What the proof of the function below it may cite or open, which a hole doesn't need.
TACTIC = re.compile(r"^ *#\[tactic\(auto, [^\]]*\)\]\n(?=(?: *#\[.*\n)*\Z)", re.M)
STATUS = re.compile(r"^fn (\S+): (.*)$", re.M)
# What antt refuses in a wrong body's file of answers. If a file has an error, a check doesn't print at length what each
# open goal needs, which takes a fifth of its time. So a function with it is never proved, and what its own goals came
# to is what counts.
NO_GOAL = "\npub no-goal : goal.no-goal\nno-goal = ?\n"
GOALS = "use Rattle.{crate}.proofs.{dotted}.Goals as goal\n"
OPEN = re.compile(r"^note: (src/\S+\.rt):(\d+):\d+: (it is not proved that .*)$", re.M)
# The proof of a function that is taken by its contract.
HOLE = """use Rattle.{crate}.proofs.{dotted}.Statement.{{statement}}

pub {name}_spec : {{M : Type 1}} → statement M
{name}_spec = ?
"""
# How long each wrong body took in the last copy that had it, by its crate and name, in seconds.
TOOK: Dict[Tuple[str, str], float] = {}
# How many of them --slowest names.
SLOWEST = 30
FLAGS = {"--look", "--compile", "--after-ci", "--changed", "--slowest"}
Texts = Dict[str, str]


rt = kit.rt_module()
# What `must_fail` returns if the prover refuses: a kit names two outcomes, or returns whether it did.
REFUSALS = (rt.REFUSED, rt.AT_LIMIT) if hasattr(rt, "REFUSED") else (True,)


class Edit:
    """A wrong body: what it changes, and the one function whose proof has to refuse it, if that is known."""

    def __init__(self, functions: List[Function], crate: Any, file: str) -> None:
        self.name, self.file, self.text = name_of(file), file, edits.read(file)
        self.texts, self.why = rt.edited(self.text, crate.folder)
        lines = edits.lines_of(self.text)
        by, self.lemma, self.law = (edits.said(lines, word) for word in ("refused by", "stands on", "law"))
        named = [it for it in functions if by and it.named.fullmatch(f"{crate.name}::{by}")]
        if by and len(named) != 1:
            self.why = self.why or f"no function is {by}"
        self.places = [(it.file, it.old) for it in edits.changes(lines)]
        places = {it: changed_by(functions, crate, *it) for it in self.places} if not self.why else {}
        # the functions that it changes; a wrong body that changes more has a copy of its own
        self.changed = {it for it in places.values() if it}
        outside = [it for it, function in places.items() if not function]
        self.has_own_copy = any(not named or not is_named_alone(crate, *it, named[0]) for it in outside)
        alone = next(iter(self.changed)) if len(self.changed) == 1 and not outside else None
        self.function: Optional[Function] = named[0] if named else alone
        self.may_stand_again = not named and alone is not None and alone.may_stand_again


def copy_of(crate: Any, texts: Texts) -> str:
    """A copy of the crate with these texts."""
    room = tempfile.mkdtemp(prefix="wrong-bodies-")
    for part in rt.rtlib.PARTS:
        if os.path.isdir(f"{crate.folder}/{part}"):
            shutil.copytree(f"{crate.folder}/{part}", f"{room}/{part}")
    for path, text in texts.items():
        with open(f"{room}/{path}", "w", encoding="utf-8") as it:
            it.write(text)
    return room


def put_together(crate: Any, waiting: List[Edit]) -> Tuple[Texts, List[Edit], List[Edit], List[Edit]]:
    """The copy's texts with as many of the wrong bodies as can be in it side by side, these wrong bodies, those that
    get a second function like their own, and the others."""
    texts: Texts = {}
    taken: List[Edit] = []
    again: List[Edit] = []
    left: List[Edit] = []
    for edit in waiting:
        beside = {function for it in taken for function in {it.function, *it.changed}}
        is_apart = taken and (edit.has_own_copy or taken[0].has_own_copy) and not (edit.law and taken[0].law)
        if len(taken) + len(again) >= TOGETHER or is_apart:
            left.append(edit)
        elif beside & {edit.function, *edit.changed} and not edit.law:
            (again if edit.may_stand_again else left).append(edit)
        else:
            more, why = edited_over(crate, edit, texts)
            texts.update(more or {})
            (left if why else taken).append(edit)
    return texts, taken, again, left


def edited_over(crate: Any, edit: Edit, texts: Texts) -> Tuple[Optional[Texts], str]:
    """What the wrong body makes of these texts of the crate, or why it can't be put into them."""
    with tempfile.TemporaryDirectory() as room:
        for path in {path for path, _ in edit.places}:
            os.makedirs(os.path.dirname(f"{room}/{path}"), exist_ok=True)
            edits.write(f"{room}/{path}", texts.get(path) or edits.read(f"{crate.folder}/{path}"))
        changed, why = rt.edited(edit.text, room)
        return changed, why


def take_by_contract(crate: Any, room: str, wrong: Set[Function]) -> None:
    """Puts a hole in place of the proof of each function but these, and a loop in place of its body, so that what it
    calls isn't read."""
    kept = {function.asked for function in wrong}
    taken = [it for it in functions_of(crate, room) if it.folder and it.asked not in kept]
    for function in reversed(taken):
        text = edits.read(f"{room}/{function.path}")
        head = TACTIC.sub("", text[: function.start]) + text[function.start : function.body]
        edits.write(f"{room}/{function.path}", f"{head}{{ loop {{}} }}{text[function.end :]}")
        path = (function.folder or "").split("::")
        proof = "/".join([room, "proofs", *path])
        for file in ("Invariants", "Answers"):
            if os.path.exists(f"{proof}/{file}.antt"):
                os.remove(f"{proof}/{file}.antt")
        os.makedirs(proof, exist_ok=True)
        edits.write(f"{proof}/Proof.antt", HOLE.format(crate=crate.name, dotted=".".join(path), name=path[-1]))


def refuse_an_answer(crate: Any, room: str, wrong: Set[Function]) -> None:
    """Puts an answer that no goal has into each wrong body's file of answers."""
    for function in (it for it in wrong if it.folder):
        path = (function.folder or "").split("::")
        file = "/".join([room, "proofs", *path, "Answers.antt"])
        if os.path.exists(os.path.join(os.path.dirname(file), "Proof.antt")):
            continue
        os.makedirs(os.path.dirname(file), exist_ok=True)
        is_new = not os.path.exists(file)
        with open(file, "a", encoding="utf-8") as it:
            it.write((GOALS.format(crate=crate.name, dotted=".".join(path)) if is_new else "") + NO_GOAL)


def open_goals(crate: Any, room: str, said: str) -> Dict[str, List[str]]:
    """What the check left unproved: the open goals of each function of the copy that it can name, by the word that
    asks for it."""
    begins: Dict[str, List[Tuple[int, Function]]] = {}
    found: Dict[str, List[str]] = {}
    for function in functions_of(crate, room):
        first = first_line(edits.read(f"{room}/{function.path}"), function.start)
        begins.setdefault(function.path, []).append((first, function))
    for path, line, goal in OPEN.findall(said):
        own = [function for first, function in begins.get(path, []) if first <= int(line)]
        if own and own[-1].folder:
            found.setdefault(own[-1].asked, []).append(goal)
    return found


def law_refused(edit: Edit, said: str) -> Optional[str]:
    """Why the law that the wrong body names is refused in the file that it changes; None if it isn't."""
    path, law = edit.places[0][0], edit.law or ""
    found = re.search(rf"^(?:\./)?{re.escape(path)}:\d+:\d+: error: `{re.escape(law)}`: .*$", said, re.M)
    return found[0] if found else None


def why_refused(crate: Any, name: str, status: str, goals: Optional[List[str]], lemma: Optional[str]) -> Optional[str]:
    """Why the function's own proof is refused, or the lemma that the wrong body names; None if it isn't, or if only
    another proof is refused on which it rests."""
    proofs = f"`Rattle.{crate.name}.proofs."
    own = f"{proofs}{name.removeprefix(crate.name + '::').replace('::', '.')}."
    rests_on_own = own in status or lemma and f"{proofs}{lemma}`" in status
    if status.startswith("no proof: expected ") or status.startswith("not proved; it stands on ") and rests_on_own:
        return status
    return goals[0] if goals else None


def checked(crate: Any, room: str, wrong: Set[Function], kept: str) -> str:
    """What a check of these functions of the copy says."""
    words = [rt.rtlib.RATTLE, "check", *crate.words(["--jobs", "1"], keeps=False), "--incremental", kept]
    only = [word for asked in sorted({it.asked for it in wrong}) for word in ("--only", asked)]
    ran = subprocess.run([*rt.rtlib.guarded(), *words, "--allow-holes", *only], cwd=room, stdin=subprocess.DEVNULL,
                         stdout=subprocess.PIPE, stderr=subprocess.STDOUT, text=True, errors="replace", check=False)
    return ran.stdout


def try_together(crate: Any, texts: Texts, taken: List[Edit], again: List[Edit], kept: str,
                 at_length: bool) -> Dict[Edit, str]:
    """Which of them the prover refuses by the proofs of their own functions, with what it says. With `at_length` it
    prints open goals at length."""
    room, began = copy_of(crate, texts), time.time()
    try:
        stands = {it: it.function for it in taken if it.function} | put_again(crate, room, again)
        wrong = set(stands.values())
        take_by_contract(crate, room, wrong)
        if not at_length:
            refuse_an_answer(crate, room, wrong)
        said = checked(crate, room, wrong, kept)
        goals = open_goals(crate, room, said)
    finally:
        shutil.rmtree(room, ignore_errors=True)
    took = pieces.seconds(kept, began)
    TOOK.update({(crate.name, it.name): took[(of.folder or "").replace("::", ".")] for it, of in stands.items()})
    if any(rt.unread(it, texts) for it in said.split("\n")) or rt.rtlib.STALE.search(said):
        return {}
    statuses = STATUS.findall(said)
    refused = {}
    for edit, function in stands.items():
        found = [(name, status) for name, status in statuses if function.named.fullmatch(name)]
        why = why_refused(crate, *found[0], goals.get(function.asked), edit.lemma) if len(found) == 1 else None
        why = law_refused(edit, said) if edit.law else why
        if why:
            refused[edit] = why
    return refused


def try_by_copies(crate: Any, asked: List[Edit], kept: str, at_length: bool) -> List[Edit]:
    """Tries wrong bodies together, copy after copy, and returns those that no copy has decided."""
    alone: List[Edit] = []
    waiting = [asked] if asked else []
    while waiting:
        texts, taken, again, left = put_together(crate, waiting.pop())
        waiting += [left] if left else []
        refused = try_together(crate, texts, taken, again, kept, at_length)
        taken += again
        for edit, status in refused.items():
            say(f"{crate.name}/{edit.name}: refused: {status[:140]}")
        half = len(taken) // 2
        if refused or not half:
            alone += [it for it in taken if it not in refused]
        else:
            # one that cannot be read, or be stated, takes the others with it
            waiting += [taken[:half], taken[half:]]
    return alone


def try_crate(crate: Any, asked: List[Edit]) -> List[str]:
    """Tries all wrong bodies of the crate, and returns those that are not refused."""
    failed = [it for it in asked if it.why]
    for edit in failed:
        say(f"{crate.name}/{edit.name}: BAD EDIT: {edit.why}")
    tried = [it for it in asked if not it.why]
    with tempfile.TemporaryDirectory(prefix="wrong-bodies-kept-") as kept:
        if os.path.isdir(f"{crate.folder}/out/incremental"):
            shutil.copytree(f"{crate.folder}/out/incremental", kept, dirs_exist_ok=True)
        alone = [it for it in tried if not it.function]
        # (some open goals are printed only at length)
        left = try_by_copies(crate, [it for it in tried if it.function], kept, False)
        alone += try_by_copies(crate, left, kept, True)
        for edit in alone:
            outcome, text = rt.must_fail(crate, edit.file, ["--jobs", "1"], kept)
            say(text.removeprefix("must-fail "))
            failed += [] if outcome in REFUSALS else [edit]
    return [f"{crate.name}/{it.name}" for it in failed]


class Asked:
    """The crates and the wrong bodies that the words ask for; all if they name none."""

    def __init__(self, words: List[str]) -> None:
        self.flags = {it for it in words if it.startswith("--")}
        self.names = [it for it in words if not it.startswith("--")]
        chosen = {name.partition("/")[0] for name in self.names}
        crates = [it for it in rt.rtlib.crates_below(TOP) if os.path.isdir(f"{it.folder}/wrong-bodies")]
        crates = [it for it in crates if not chosen or it.name in chosen]
        self.crates = [it for it in crates if "--changed" not in self.flags or not noted.is_noted(it)]
        self.files = {it.name: self.files_of(it) for it in self.crates}

    def includes(self, crate: str, file: str) -> bool:
        """Whether the wrong body is asked for, by itself or by its crate."""
        return not self.names or crate in self.names or f"{crate}/{name_of(file)}" in self.names

    def files_of(self, crate: Any) -> List[str]:
        files = sorted(glob.glob(f"{crate.folder}/wrong-bodies/*.edit"))
        return [file for file in files if self.includes(crate.name, file)]

    def is_there(self, name: str) -> bool:
        """Whether a crate of that name has wrong bodies, or that one."""
        crate, _, body = name.partition("/")
        return crate in self.files and (not body or body in map(name_of, self.files[crate]))

    def is_plain(self) -> bool:
        return self.flags <= FLAGS and all(map(self.is_there, self.names))


def first_unproved(asked: Asked) -> Optional[str]:
    """The crate below that can't be built. After `rt ci` its libraries are taken."""
    for below in (below for crate in asked.crates for below in crate.below()):
        is_there = "--after-ci" in asked.flags and os.path.isdir(below.rlib)
        if not is_there and below.build_rlib(["--jobs", "2"], anew=False):
            return str(below.name)
    return None


def main(words: List[str]) -> int:
    os.chdir(TOP)
    began = time.monotonic()
    # its first call sets a signal's handler, which only the main thread may
    rt.rtlib.guarded()
    asked = Asked(words)
    if "--compile" in asked.flags:
        return told(not_compiled(rt, TOP, asked.includes))
    if not asked.is_plain():
        print(__doc__)
        return 2
    functions = {it.name: functions_of(it, it.folder) for it in asked.crates}
    sums = {it.name: noted.sum_of(it) for it in asked.crates if not asked.names or it.name in asked.names}
    found = {it.name: [Edit(functions[it.name], it, file) for file in asked.files[it.name]] for it in asked.crates}
    if not asked.crates:
        say("no crate with wrong bodies has changed since all of them were refused")
        return 0
    if "--look" in asked.flags:
        return told(f"{it.file}: {it.why}" for all_ in found.values() for it in all_ if it.why)
    unproved = first_unproved(asked)
    if unproved:
        return told([f"{unproved} is not proved"])
    failed = try_all(asked.crates, found)
    used = resource.getrusage(resource.RUSAGE_CHILDREN)
    say(f"that took {time.monotonic() - began:.0f} s, and of all processors {used.ru_utime + used.ru_stime:.0f} s")
    if "--slowest" in asked.flags:
        for (crate, name), seconds in sorted(TOOK.items(), key=lambda it: -it[1])[:SLOWEST]:
            say(f"{seconds:5.1f} s {crate}/{name}")
    noted.note({name: it for name, it in sums.items() if name not in {of.partition("/")[0] for of in failed}})
    if failed:
        say(f"FAILED: {' '.join(failed)}")
    print(f"{sum(map(len, found.values())) - len(failed)} passed, {len(failed)} failed")
    return 1 if failed else 0


def try_all(crates: List[Any], found: Dict[str, List[Edit]]) -> List[str]:
    """Tries all, and returns those that are not refused. The crate with the most to try begins. As many crates are
    tried side by side as there are processors, and memory for them."""
    first = sorted(crates, key=lambda it: -len(found[it.name]) * int(it.count(rb"\n")))
    memory = os.sysconf("SC_PAGE_SIZE") * os.sysconf("SC_PHYS_PAGES")
    with ThreadPoolExecutor(max(1, min(os.cpu_count() or 1, memory // ROOM))) as pool:
        return [name for names in pool.map(lambda it: try_crate(it, found[it.name]), first) for name in names]
