"""Answers in Python."""

from __future__ import annotations

from typing import List

from . import MET, NOT_LOADED, NOT_MET, SHORT, Tried


def _line(exercise: str, name: str, old: str, new: str, *says: str, only: int = 0) -> Tried:
    return Tried(exercise, name, [(old, new)], says=says, only=only)


TAKE = "        item = box.items.pop()\n"
PUT = "        box.items.append(item)\n"

RIGHT: List[Tried] = [
    Tried("1_buffer", "calls of the module", [("from monk import Calls, enter, leave, signal, wait",
          "import monk\nfrom monk import Calls, enter, leave, signal\nwait = monk.wait")], status=MET, only=2),
    Tried("1_buffer", "a helper", [('        yield signal("room")\n', '        yield from tell("room")\n')],
          'def tell(name):\n    yield signal(name)\n', status=MET, only=2),
    Tried("1_buffer", "conditions by name and test", [
        ("    def put(", '    from monk import condition\n    room = condition("room", lambda: not box.items)\n\n    def put('),
        ('wait("room", lambda: not box.items)', "wait(room)"), ('signal("room")', "signal(room)")], status=MET, only=4),
    Tried("1_buffer", "it prints", [(TAKE, '        print("taken")\n' + TAKE)], status=MET, only=2),
    Tried("1_buffer", "a call that is kept", [('        yield signal("room")\n', '        call = signal("room")\n        yield call\n')],
          status=MET, only=2),
    Tried("1_buffer", "a part that runs alone", added='if __name__ == "__main__":\n    raise SystemExit(1)\n', status=MET, only=2),
    Tried("1_buffer", "star", [("from monk import Calls, enter, leave, signal, wait", "from monk import *")], status=MET, only=2),
    Tried("3_bridge", "names of its own", [('SIDES = ["east", "west"]', 'SIDES = ["left", "right"]')], status=MET, only=1),
]

IF = Tried("1_buffer", "if", [("while box", "if box"), ("while not box", "if not box")], says=[
    r"NPNB, \d+ of 720 orders: taker1: IndexError: pop from empty list \(line 22: item = box.items.pop\(\)\), after event 9",
    r"putter1 signalled item \(4\), taker2 came in between \(6\), taker1 went on \(9\)", "^3 of 5$"])
WRONG: List[Tried] = [
    IF,
    Tried("1_buffer", "if, and no test", [*IF.changes, ('wait("item", lambda: box.items)', 'wait("item")')], says=[
        r"^ *So it is under NPQB, NPIR, too\.\n *And under PIS, NPIS: taker1: PIS has no signals: write wait\('item', lambda: \.\.\) in line 21\.$"],
        only=4),
    _line("1_buffer", "a signal forgotten", '        yield signal("room")\n', "",
          "nobody can go on: .* waits on room, after event", only=2),
    _line("1_buffer", "a kind too few", '["NPNB", "NPQB", "NPIR"]', '["NPNB"]', "NO   you found the kinds", only=5),
    _line("1_buffer", "wait without yield", "            yield wait(\"item\"", "            wait(\"item\"",
          r"^  NO   line 21: `wait\(..\)` without `yield`: write `yield wait\(..\)`$", only=1),
    _line("1_buffer", "signal without yield", '        yield signal("room")', '        signal("room")',
          r"^  NO   line 23: `signal\(..\)` without `yield`: write `yield signal\(..\)`$", only=1),
    Tried("1_buffer", "enter and leave without yield", [("        yield enter()", "        enter()"),
          ("        yield leave()", "        leave()")], says=["line 11: `enter", "line 16: `leave", "line 19", "line 24"], only=1),
    Tried("1_buffer", "wait of the module, without yield", [("from monk import Calls, enter, leave, signal, wait",
          "import monk\nfrom monk import Calls, enter, leave, signal"), ("            yield wait(", "            monk.wait(")],
          says=["line 14: `wait"], only=1),
    Tried("1_buffer", "another name of wait, without yield", [("yield wait(\"item\"", "pause(\"item\"")],
          "pause = wait\n", [r"calls wait\(item\) in line 21, and doesn't yield it: write `yield wait\(..\)`"], only=1),
    Tried("1_buffer", "another name of signal, without yield", [('yield signal("room")', 'tell("room")')],
          "tell = signal\n", [r"calls signal\(room\) in line 23, and doesn't yield it: write `yield signal\(..\)`"], only=1),
    Tried("1_buffer", "a helper that isn't delegated to", [('        yield signal("room")\n', '        tell("room")\n')],
          'def tell(name):\n    yield signal(name)\n', ["nobody can go on: .* waits on room"], only=2),
    Tried("1_buffer", "wait outside", [('        yield enter()\n        while box.items:\n            yield wait("room", lambda: not box.items)\n',
          '        while box.items:\n            yield wait("room", lambda: not box.items)\n        yield enter()\n')],
          says=["line 12: `wait` outside: `yield enter\\(\\)` comes first"], only=4),
    _line("1_buffer", "a condition misspelt", 'signal("item")', 'signal("items")', "nobody ever waits on `items`; there is `item`", only=1),
    Tried("1_buffer", "a signal before the change", [(PUT + '        yield signal("item")\n', '        yield signal("item")\n' + PUT)],
          says=[r"nobody can go on: taker waits on item", r"taker's test was false when it went on \(line 21\)"], only=1),
    _line("1_buffer", "a test that is inverted", "lambda: box.items)", "lambda: not box.items)",
          "PIS, the last 20 of 1022 events", "goes on and on: its 1024 events are spent", only=4),
    _line("1_buffer", "a procedure without an end", "while not box.items:", "while True:", "nobody can go on|goes on and on", only=1),
    _line("1_buffer", "return forgotten", "        return item\n", "", "take returned nothing: it ends by `return item`", only=1),
    Tried("1_buffer", "the item put outside", [(PUT + '        yield signal("item")\n        yield leave()\n',
          '        yield signal("item")\n        yield leave()\n' + PUT)], says=["changes box outside the monitor, (before line|after its)"], only=1),
    Tried("1_buffer", "the item put before it is in", [(PUT, ""), ("    def put(item: str) -> Calls:\n", "    def put(item: str) -> Calls:\n" + PUT)],
          says=["changes box outside the monitor, before line 12"], only=1),
    _line("1_buffer", "leave forgotten", "        yield leave()\n        return item", "        return item",
          r"ends inside: there is no leave|`enter` inside", only=1),
    _line("1_buffer", "enter twice", "        yield enter()\n        while not", "        yield enter()\n        yield enter()\n        while not",
          r"line 20: `enter` inside: `yield leave\(\)` comes first", only=1),
    _line("1_buffer", "leave twice", "        yield leave()\n        return item", "        yield leave()\n        yield leave()\n        return item",
          r"line 25: `leave` outside: `yield enter\(\)` comes first", only=1),
    _line("1_buffer", "yields a number", '        yield signal("room")\n', "        yield 7\n", "yields 7 in line 23, which is no call", only=1),
    _line("1_buffer", "a signal to all", 'signal("item")', 'signal_all("item")', "NameError: name 'signal_all' is not defined", only=1),
    _line("1_buffer", "no test for the kinds without signals", 'wait("item", lambda: box.items)', 'wait("item")',
          r"PIS has no signals: write wait\('item', lambda: ..\) in line 21", only=4),
    _line("1_buffer", "a test that raises", "lambda: box.items)", "lambda: box.item)", "the test of item: AttributeError", only=4),
    _line("1_buffer", "nine conditions", '        yield signal("room")\n',
          '        for i in range(9):\n            yield signal(f"c{i}")\n', "is one condition too many: a monitor has 8", only=1),
    _line("1_buffer", "the list isn't one of kinds", '["NPNB", "NPQB", "NPIR"]', "[7]", "NO   you found the kinds", only=5),
    _line("2_readers", "if", "while book.is_written or book.readers", "if book.is_written or book.readers",
          r"NPNB, \d+ of \d+ orders: .*: the invariant doesn't hold, after event",
          r"signalled write \(\d+\), reader\d came in between", only=2),
    _line("2_readers", "no chain", '        book.readers += 1\n        yield signal("read")\n', "        book.readers += 1\n",
          r"PNB, \d+ of \d+ orders: nobody can go on: reader2 waits on read, after event", only=2),
    _line("2_readers", "one reader at a time", "        while book.is_written:", "        while book.is_written or book.readers:",
          "NO   two readers may read at once\n         in no order under PNB and NPNB", only=4),
    Tried("2_readers", "written outside", [("        book.is_written = True\n        yield leave()\n", "        yield leave()\n        book.is_written = True\n")],
          says=["changes book outside the monitor"], only=1),
    _line("2_readers", "the last signal forgotten", '        yield signal("read" if waiting_readers else "write")\n', "", "nobody can go on: ", only=1),
    _line("3_bridge", "if", "while bridge", "if bridge", r"NPNB, \d+ of \d+ orders: .*: the invariant doesn't hold, after event",
          r"signalled east \(\d+\), west2 came in between", only=2),
    _line("3_bridge", "no chain", "        yield signal(SIDES[side])\n", "", r"nobody can go on: west2 waits on west, after event", only=2),
    _line("3_bridge", "one car at a time", "while bridge.cars[other]:", "while bridge.cars[other] or bridge.cars[side]:",
          "NO   two cars of one side may be on the bridge together\n         in no order under PNB and NPNB", only=3),
    Tried("3_bridge", "counted outside", [("        bridge.cars[side] += 1\n        yield signal(SIDES[side])\n        yield leave()\n",
          "        yield signal(SIDES[side])\n        yield leave()\n        bridge.cars[side] += 1\n")],
          says=["changes bridge outside the monitor"], only=1),
    _line("3_bridge", "the other side isn't told", "            yield signal(SIDES[1 - side])", "            yield signal(SIDES[side])",
          "nobody can go on: west waits on west", only=1),
    _line("4_wakeups", "a wait that isn't asked for", '        while not gate.is_open:\n            yield wait("gate"', '        if True:\n            yield wait("gate"',
          r"PB, 2 of 4 orders: nobody can go on: guest waits on gate, after event 5\n *porter signalled gate \(2\) when nobody waited", only=5),
    _line("4_wakeups", "one signal for two", '        yield signal("gate")\n        yield leave()\n\n    def porter', "        yield leave()\n\n    def porter",
          r"PB, 10 of 38 orders: nobody can go on: guest2 waits on gate, after event 10", "^5 of 6$"),
    _line("4_wakeups", "a kind too few", '"late_work": ["PB", ', '"late_work": [', "NO   late_work: where it goes wrong", "^5 of 6$"),
    Tried("4_wakeups", "nobody waits", added="""
def early_signal(gate):
    def guest():
        yield enter()
        gate.is_open = True
        yield leave()
    return guest, guest
one_signal = early_signal
""", says=["in no order does guest wait", "^4 of 6$"]),
    Tried("4_wakeups", "the given ones", added="from given import early_signal, late_work, one_signal\n",
          says=["it is the given one still", "^3 of 6$"]),
    _line("5_own", "no slip in the right one", "goes_on_waiting=True", "goes_on_waiting=False",
          r"NPNB, \d+ of 100 orders: car\d: the invariant doesn't hold, after event",
          r"car\d signalled place \(\d+\), car\d came in between", only=1),
    _line("5_own", "an invariant that always holds", "lambda: park.cars <= 1", "lambda: True",
          "either the slip does no harm there, or the invariant doesn't see it", only=2),
    _line("5_own", "a kind too few", '["NPNB", "NPQB", "NPIR"]', '["NPNB"]', "NO   WRONG_WITH_SLIP names them all", "^3 of 4$"),
    _line("5_own", "nothing", "    return Scene([car, car, car]", "    return Scene([]", "has 0 programs: 1 to 31 can be played", only=1),
]

# ---- files that want to be passed without work, or to last

NO_VERDICT = "ends the check before there is a verdict|ends the check: "
LATE = r"doesn't end in time|doesn't end within|takes too long|all the time"


def _hostile(name: str, added: str, *says: str, status: int = NOT_LOADED, seconds: int = 120) -> Tried:
    return Tried("1_buffer", name, added=added, says=says, status=status, seconds=seconds)


def _inside(name: str, line: str, *says: str, seconds: int = 120, added: str = "") -> Tried:
    """A line of the procedure that takes."""
    new = "\n".join("        " + it for it in line.splitlines()) + "\n" + TAKE
    return Tried("1_buffer", name, [(TAKE, new)], added, says, NOT_MET, seconds, only=1)


WRONG_AND = "def procedures(box):\n    return None, None\nWRONG_WITH_IF = []\n"
HOSTILE: List[Tried] = [
    _hostile("ends by sys.exit(0)", "import sys\nsys.exit(0)\n", r"ends the check: SystemExit: 0 \(line 33: sys.exit\(0\)\)"),
    _hostile("ends by exit()", "exit()\n", "ends the check: SystemExit"),
    _hostile("says so itself", 'import os\nprint("5 of 5", flush=True)\nos._exit(0)\n', "ends the check before there is a verdict", "^It printed: 5 of 5$"),
    _inside("exit in a procedure", "import sys; sys.exit(0)", "ends the check: SystemExit: 0"),
    _inside("_exit in a procedure", "import os; os._exit(0)", "ends the check before there is a verdict"),
    Tried("1_buffer", "atexit", added=WRONG_AND + 'import atexit\natexit.register(print, "5 of 5")\n', says=["^0 of 5$"]),
    _hostile("puts another compare in its place", WRONG_AND + "import monk.lab\nmonk.lab.compare = None\n", "the file changes monk.lab.compare"),
    _hostile("says that all holds", WRONG_AND + "import monk.orders\nmonk.orders.Finding.holds = property(lambda self: True)\n", "the file changes monk.*Finding.holds"),
    _hostile("another code of a judge", WRONG_AND + "import monk.orders\nmonk.orders.Finding.add.__code__ = (lambda self, run: None).__code__\n", "the file changes monk.*Finding.add's code"),
    _hostile("another sorted", WRONG_AND + "import builtins\nbuiltins.sorted = lambda them: []\n", "the file changes builtins.sorted"),
    _inside("another judge, later", "import monk.stage; monk.stage._answer = lambda *words: True", "the file changes monk.stage._answer"),
    Tried("1_buffer", "asks the check for the solution", [('["NPNB", "NPQB", "NPIR"]', "[]")], "import __main__\nWRONG_WITH_IF = __main__.WRONG_WITH_IF\n", ["NO   you found the kinds"], only=5),
    _hostile("sleeps while it is loaded", "import time\ntime.sleep(1000)\n", LATE, seconds=SHORT),
    _hostile("loops while it is loaded", "while True:\n    pass\n", LATE, seconds=SHORT),
    _inside("loops", "while True: pass", LATE + r".*line 22", seconds=SHORT),
    _inside("sleeps", "import time; time.sleep(1000)", LATE + r".*line 22", seconds=SHORT),
    _inside("is blocked", "import threading; lock = threading.Lock(); lock.acquire(); lock.acquire()", LATE, seconds=SHORT),
    _inside("ignores signals", "import signal\nfor it in (signal.SIGALRM, signal.SIGPROF, signal.SIGTERM, signal.SIGXCPU): signal.signal(it, signal.SIG_IGN)\nwhile True: pass", LATE, seconds=SHORT),
    _inside("catches all", "while True:\n    try:\n        while True: pass\n    except BaseException: pass", LATE, seconds=SHORT),
    _inside("prints without an end", "while True: print('x' * 1000)", "OSError|" + LATE, seconds=SHORT),
    _inside("fills the memory", "them = []\nwhile True: them.append(bytearray(1 << 24))", "MemoryError|" + NO_VERDICT),
    _inside("calls itself", "def again(): again()\nagain()", "RecursionError"),
    Tried("1_buffer", "leaves a thread", added="import threading, time\nthreading.Thread(target=time.sleep, args=(1000,)).start()\n", status=MET, only=1),
    Tried("1_buffer", "leaves a process", added='import subprocess\nsubprocess.Popen(["sleep", "1007"])\n', status=MET, only=1),
    Tried("1_buffer", "leaves a process of its own session", added='import subprocess\nsubprocess.Popen(["sleep", "1007"], start_new_session=True)\n', status=MET, only=1),
    _inside("an error without words", "class Bad(Exception):\n    def __str__(self): raise ValueError('no')\nraise Bad()", r"Bad: \(its text can't be made\) \(line 24"),
    Tried("1_buffer", "closes its output", added="import os\nos.close(1)\nos.close(2)\n", status=MET, only=1),
    _inside("writes into all files", "import os\nfor it in range(3, 60):\n    try: os.write(it, b'{\"said\": {\"is_met\": true}}')\n    except OSError: pass", "ends the check before there is a verdict|no verdict"),
    Tried("1_buffer", "a file that is no Python", text="def procedures(box:\n", says=["SyntaxError"], status=NOT_LOADED),
    Tried("1_buffer", "an import that isn't there", text="import no_such_module\n", says=["ModuleNotFoundError"], status=NOT_LOADED),
    Tried("1_buffer", "an empty file", text="\n", says=["has no attribute"], status=NOT_LOADED),
    Tried("1_buffer", "procedures is missing", [("def procedures", "def procedure")], says=["has no attribute 'procedures'"]),
    _hostile("text that isn't UTF-8", "# \udcff\n", "codec can't decode", status=NOT_LOADED),
]

TRIED = RIGHT + WRONG + HOSTILE
