"""Answers in Java."""

from __future__ import annotations

from typing import List, Sequence, Tuple

from . import MET, NOT_LOADED, NOT_MET, Tried

ALL = 0


def _java(exercise: str, name: str, only: int, changes: Sequence[Tuple[str, str]], *says: str,
          status: int = NOT_MET) -> Tried:
    return Tried(exercise, f"Java, {name}", changes, "", says, status, ending=".java", only=only)


CHANCE = "the same moves don't do the same once more"
TAKEN = "        String item = items.remove(0);\n"


def _taking(name: str, line: str, *says: str, status: int = NOT_MET, only: int = 1) -> Tried:
    """A line of the method that takes."""
    return _java("1_buffer", name, only, [(TAKEN, f"        {line}\n{TAKEN}")], *says, status=status)


def _outside(condition: str, call: str) -> Sequence[Tuple[str, str]]:
    """A loop that waits before it is inside."""
    return [(f"        monitor.enter();\n        while ({condition}) {call}\n",
             f"        while ({condition}) {call}\n        monitor.enter();\n")]


RIGHT = [
    _java("1_buffer", "a public class", 1, [("class Buffer", "public final class Buffer")], status=MET),
    _java("1_buffer", "try with resources", 2, [
        ('        monitor.enter();\n        while (items.isEmpty())', '        try (var visit = monitor.enter()) {\n        while (items.isEmpty())'),
        ("        monitor.leave();\n        return item;\n", "        return item;\n        }\n")], status=MET),
    _java("1_buffer", "a lock and its conditions", 2, [
        ("class Buffer {\n", "class Buffer {\n    final java.util.concurrent.locks.Condition room, there;\n"
         "    Buffer() { room = monitor.newCondition(); there = monitor.newCondition(); }\n"),
        ("monitor.enter()", "monitor.lock()"), ("monitor.leave()", "monitor.unlock()"),
        ('monitor.await("room", () -> items.isEmpty())', "room.awaitUninterruptibly()"), ('monitor.signal("room")', "room.signal()"),
        ('monitor.await("item", () -> !items.isEmpty())', "there.awaitUninterruptibly()"), ('monitor.signal("item")', "there.signal()")],
        status=MET),
    _java("1_buffer", "Java's own monitor", 1, [
        ("    final Monitor monitor = new Monitor();\n", ""), ("import lab.Monitor;\n", ""), ("void put(", "synchronized void put("),
        ("String take(", "synchronized String take("), ("monitor.enter();\n", ""), ("monitor.leave();\n", ""),
        ('monitor.await("room", () -> items.isEmpty())', "pause()"), ('monitor.await("item", () -> !items.isEmpty())', "pause()"),
        ('monitor.signal("room")', "notifyAll()"), ('monitor.signal("item")', "notify()"),
        ("    static final String WRONG", "    private void pause() { try { wait(); } catch (InterruptedException never) { } }\n"
         "    static final String WRONG")],
        "PB has no signal_all", status=NOT_MET),
    _taking("it prints", 'System.out.println("taken");', status=MET),
    _taking("leaves a thread", "new Thread(() -> { while (true) java.util.concurrent.locks.LockSupport.park(); }).start();", status=MET),
    _taking("leaves a process", 'try { new ProcessBuilder("sleep", "1007").start(); } catch (java.io.IOException no) { }', status=MET),
]

WRONG: List[Tried] = [
    _java("1_buffer", "if", ALL, [("while (", "if (")],
          r"NPNB, \d+ of 720 orders: taker1: IndexOutOfBoundsException: Index 0 out of bounds for length 0 "
          r"\(answer.java:22: String item = items.remove\(0\);\), after event 9",
          r"putter1 signalled item \(4\), taker2 came in between \(6\), taker1 went on \(9\)", "^3 of 5$"),
    _java("1_buffer", "a signal forgotten", 2, [('        monitor.signal("room");\n', "")], "nobody can go on: .* waits on room"),
    _java("1_buffer", "leave forgotten", 1, [("        monitor.leave();\n        return item;\n", "        return item;\n")],
          r"ends inside: there is no leave \(its last call: line 23 of answer.java\)"),
    _java("1_buffer", "the item put outside", 1, [
        ('        items.add(item);\n        monitor.signal("item");\n        monitor.leave();\n',
         '        monitor.signal("item");\n        monitor.leave();\n        items.add(item);\n')],
        "changes buffer.items outside the monitor, (before line|after its last call)"),
    _java("1_buffer", "wait outside", 1, _outside("items.isEmpty()", 'monitor.await("item", () -> !items.isEmpty());'),
          "line 20 of answer.java: `wait` outside: an enter comes first"),
    _java("1_buffer", "enter twice", 1, [("        while (items.isEmpty())", "        monitor.enter();\n        while (items.isEmpty())")],
          "line 21 of answer.java: `enter` inside: a leave comes first"),
    _java("1_buffer", "leave twice", 1, [("        return item;", "        monitor.leave();\n        return item;")],
          "line 25 of answer.java: `leave` outside: an enter comes first"),
    _java("1_buffer", "a condition misspelt", 1, [('signal("item")', 'signal("items")')], "nobody ever waits on `items`; there is `item`"),
    _java("1_buffer", "a signal before the change", 1, [
        ('        items.add(item);\n        monitor.signal("item");\n', '        monitor.signal("item");\n        items.add(item);\n')],
        r"taker's test was false when it went on \(line 21 of answer.java\)"),
    _java("1_buffer", "a test that is inverted", 4, [("() -> !items", "() -> items")], "PIS, the last 20 of 10\\d\\d events",
          "goes on and on: its 1024 events are spent"),
    _java("1_buffer", "a test that throws", 4, [("() -> !items.isEmpty()", "() -> items.get(7) != null")],
          "the test of item: IndexOutOfBoundsException"),
    _java("1_buffer", "no test for the kinds without signals", 4, [('await("item", () -> !items.isEmpty())', 'await("item")')],
          "PIS has no signals: give the wait on item in line 21 of answer.java a test"),
    _java("1_buffer", "return forgotten", 1, [("return item;", "return null;")], "take returned nothing: it ends by `return item`"),
    _java("1_buffer", "a kind too few", 5, [('"NPNB NPQB NPIR"', '"NPNB"')], "NO   you found the kinds"),
    _java("1_buffer", "two monitors", 1, [("    final List", "    final Monitor other = new Monitor();\n    final List")],
          r"a scene has one monitor, and this Monitor is another \(answer.java:9: "),
    _java("1_buffer", "a monitor twice", 1, [("String take(", "synchronized String take(")],
          r"a scene has one monitor, and this Buffer is another \(answer.java:20: "),
    _java("1_buffer", "static data", 1, [("    final List", "    static final List")],
          "buffer.items is static: it isn't made anew for each run"),
    _java("1_buffer", "an error of the language", ALL, [("items.add(item)", "itms.add(item)")],
          "it can't be compiled:\nanswer.java:14: error: cannot find symbol", status=NOT_LOADED),
    _java("1_buffer", "another class", ALL, [("class Buffer", "class Puffer")], "it can't be compiled:\n.*error: cannot find symbol",
          status=NOT_LOADED),
    _java("2_readers", "if", 3, [("while (isWritten || readers > 0)", "if (isWritten || readers > 0)")],
          r"NPNB, \d+ of 100 orders: ", r"signalled write \(\d+\), (reader|writer)\d? came in between"),
    _java("2_readers", "no chain", 2, [('        readers++;\n        monitor.signal("read");\n', "        readers++;\n")],
          r"PNB, \d+ of \d+ orders: nobody can go on: reader2 waits on read, after event"),
    _java("2_readers", "one reader at a time", 4, [("while (isWritten) {", "while (isWritten || readers > 0) {")],
          "NO   two readers may read at once\n         in no order under PNB and NPNB"),
    _java("2_readers", "written outside", 1, [("        isWritten = true;\n        monitor.leave();\n", "        monitor.leave();\n        isWritten = true;\n")],
          "changes book.isWritten outside the monitor"),
    _java("2_readers", "the last signal forgotten", 1, [('        monitor.signal(waitingReaders > 0 ? "read" : "write");\n', "")],
          "nobody can go on: reader waits on read"),
    _java("2_readers", "a condition misspelt", 1, [('> 0 ? "read"', '> 0 ? "reader"')], "nobody ever waits on `reader`; there is `read`"),
    _java("2_readers", "leave forgotten", 1, [('signal("write");\n        monitor.leave();\n', 'signal("write");\n')],
          "ends inside: there is no leave"),
    _java("3_bridge", "if", 4, [("while (cars", "if (cars")], r"NPNB, \d+ of \d+ orders: .*the invariant doesn't hold",
          r"signalled \w+ \(\d+\), \w+ came in between"),
    _java("3_bridge", "no chain", 2, [("        monitor.signal(name(side));\n", "")], "nobody can go on: west2 waits on west"),
    _java("3_bridge", "one car at a time", 3, [("while (cars[1 - side] > 0)", "while (cars[0] + cars[1] > 0)")],
          "NO   two cars of one side may be on the bridge together\n         in no order under PNB and NPNB"),
    _java("3_bridge", "counted outside", 1, [("        cars[side]++;\n        monitor.signal(name(side));\n        monitor.leave();\n",
          "        monitor.signal(name(side));\n        monitor.leave();\n        cars[side]++;\n")], "changes bridge.cars outside the monitor"),
    _java("3_bridge", "the other side isn't told", 1, [("monitor.signal(name(1 - side))", "monitor.signal(name(side))")],
          "nobody can go on: west waits on west"),
    _java("3_bridge", "leave forgotten", 1, [("monitor.signal(name(1 - side));\n        monitor.leave();\n", "monitor.signal(name(1 - side));\n")],
          "ends inside: there is no leave"),
    _java("4_wakeups", "a wait that isn't asked for", 5, [
        ('boolean isOpen;\n\n    void pass() {\n        monitor.enter();\n        while (!isOpen) monitor.await("gate", () -> isOpen);\n        monitor.leave',
         'boolean isOpen;\n\n    void pass() {\n        monitor.enter();\n        monitor.await("gate", () -> isOpen);\n        monitor.leave')],
        r"nobody can go on: guest waits on gate, after event 5\n *porter signalled gate \(2\) when nobody waited"),
    _java("4_wakeups", "one signal for two", 6, [('() -> isOpen);\n        monitor.signal("gate");\n', "() -> isOpen);\n")],
          r"PB, 10 of 38 orders: nobody can go on: guest2 waits on gate, after event 10"),
    _java("4_wakeups", "a signal before the work", 4, [
        ('        items++;\n        monitor.signal("item");\n', '        monitor.signal("item");\n        items++;\n')],
        "nobody can go on: taker waits on item", "taker's test was false when it went on"),
    _java("4_wakeups", "a kind too few", 1, [('"PB NPB PQB NPQB PIR NPIR"', '"NPB PQB NPQB PIR NPIR"')],
          "NO   late_work: where it goes wrong\n         you say NPB, "),
    _java("4_wakeups", "nobody waits", 5, [('while (!isOpen) monitor.await("gate", () -> isOpen);', "isOpen = true;")],
          "in no order does guest wait"),
    _java("4_wakeups", "opened outside", 5, [
        ('        isOpen = true;\n        monitor.signal("gate");\n        monitor.leave();\n',
         '        monitor.signal("gate");\n        monitor.leave();\n        isOpen = true;\n')],
        "changes earlysignal.isOpen outside the monitor, after its last call"),
    Tried("5_own", "Java, an exercise in Python", says=["this exercise isn't in the language of that file"], status=NOT_LOADED,
          text="class Own { }\n", ending=".java"),
]

HOSTILE: List[Tried] = [
    _taking("exit", "System.exit(0);", r"ends the whole process \(answer.java:22: System.exit\(0\);\)"),
    _taking("halt", "Runtime.getRuntime().halt(0);", r"ends the whole process \(status 0\) after line 20 of answer.java"),
    _java("1_buffer", "exit while it is loaded", 1, [("class Buffer {\n", "class Buffer {\n    static { System.exit(0); }\n")],
          r"ends the whole process \(answer.java:7: "),
    _java("1_buffer", "an error while it is loaded", 1, [("class Buffer {\n", "class Buffer {\n    static { if (true) throw new RuntimeException(\"no\"); }\n")],
          r"RuntimeException: no \(answer.java:7: "),
    _java("1_buffer", "loops while it is loaded", 1, [("class Buffer {\n", "class Buffer {\n    static { while (items() == null) Thread.onSpinWait(); }\n    static String items() { return null; }\n")],
          r"buffer: isn't made in 2 s \(answer.java:7: "),
    _taking("loops", "while (items.size() < 9) Thread.onSpinWait();",
            r"makes no call for 2 s \(answer.java:22: while \(items.size\(\) < 9\) Thread.onSpinWait\(\);\)"),
    _taking("sleeps", "try { Thread.sleep(1_000_000); } catch (InterruptedException no) { }", r"makes no call for 2 s \(answer.java:22: "),
    _taking("is blocked", "new java.util.concurrent.Semaphore(0).acquireUninterruptibly();", r"makes no call for 2 s \(answer.java:22: "),
    _taking("prints without an end", 'while (items.size() < 9) System.out.println("5 of 5");', "makes no call for 2 s", "It printed: 5 of 5$"),
    _taking("fills the memory", "List<long[]> all = new ArrayList<>(); while (items.size() < 9) all.add(new long[1_000_000]);",
            r"OutOfMemoryError: Java heap space \(answer.java:22: "),
    _taking("calls itself", "class It { void again() { again(); } } new It().again();", r"StackOverflowError \(answer.java:22: "),
    _taking("catches all", "while (items.size() < 9) try { monitor.enter(); } catch (Throwable any) { }",
            "`enter` inside: a leave comes first"),
    _taking("a call by a thread of its own", 'Thread it = new Thread(() -> monitor.signal("item")); it.start(); try { it.join(); } '
            "catch (InterruptedException no) { }", status=MET),
    _taking("an exit that never ends", "Runtime.getRuntime().addShutdownHook(new Thread(() -> { while (true) Thread.onSpinWait(); })); System.exit(0);",
            r"ends the whole process \(answer.java:22: |makes no call for 2 s"),
    _taking("answers in the lab's place", 'try { new java.io.FileOutputStream(java.io.FileDescriptor.out).write("{\\"ended\\":true}\\n".getBytes()); } '
            "catch (java.io.IOException no) { }", "writes where the lab answers"),
    _taking("floods the lab's answers", "try (java.io.FileOutputStream out = new java.io.FileOutputStream(java.io.FileDescriptor.out)) "
            "{ while (items.size() < 9) out.write(new byte[9999]); } catch (java.io.IOException no) { }", "writes where the lab answers"),
    _taking("begins threads without an end", "while (items.size() < 9) new Thread(() -> { while (true) java.util.concurrent.locks.LockSupport.park(); }).start();",
            "OutOfMemoryError|makes no call for|ends the whole process"),
    _taking("reads the lab's questions", "try { System.in.read(); new java.io.FileInputStream(java.io.FileDescriptor.in).read(); } catch (java.io.IOException no) { }",
            "makes no call for 2 s"),
    _java("1_buffer", "a test without an end", 4, [("() -> !items.isEmpty()", "() -> { while (items.isEmpty()) Thread.onSpinWait(); return true; }")],
          r"makes no call for 2 s \(answer.java:21: while"),
    _java("1_buffer", "data whose words never end", 1, [("    final List", "    final Object it = new Object() { @Override public String toString() "
          "{ while (items.size() < 9) Thread.onSpinWait(); return null; } };\n    final List")], r"buffer: isn't made in 2 s \(answer.java:9: "),
    _taking("doesn't let itself be ended", "try { monitor.signal(\"room\"); } catch (Error over) { while (items.size() < 9) Thread.onSpinWait(); }",
            r"makes no call for 2 s \(answer.java:22: "),
    # (a name of chance is another in each run, and no answer after it says so)
    _taking("leaves it to chance", 'monitor.signal("chance" + Math.random());', CHANCE + r".* \(answer.java:22: monitor.signal", only=2),
    _java("1_buffer", "data of chance", 2, [("    final List", "    final double luck = Math.random();\n    final List")],
          CHANCE + ".*: buffer.luck; after line"),
    _java("1_buffer", "data that outlast a run", 2, [(TAKEN, '        if (++Count.of % 3 == 0) monitor.signal("room");\n' + TAKEN),
          ("class Buffer", "class Count { static int of; }\n\nclass Buffer")], CHANCE),
]
TRIED = RIGHT + WRONG + HOSTILE
