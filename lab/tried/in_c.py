"""Answers in C."""

from __future__ import annotations

from typing import List, Sequence, Tuple

from . import MET, NOT_LOADED, NOT_MET, Tried

ALL = 0


def _c(exercise: str, name: str, only: int, changes: Sequence[Tuple[str, str]], *says: str,
       status: int = NOT_MET) -> Tried:
    return Tried(exercise, f"C, {name}", changes, says=says, status=status, ending=".c", only=only)


def _taking(name: str, line: str, *says: str, only: int = 1) -> Tried:
    """A line of the procedure that takes."""
    return _c("1_buffer", name, only, [("    int taken = item;\n", f"    {line}\n    int taken = item;\n")], *says)


def _outside(condition: str, test: str) -> Sequence[Tuple[str, str]]:
    """A loop that waits before it is inside."""
    return [(f"    lab_enter();\n    while {condition} lab_wait({test});\n",
             f"    while {condition} lab_wait({test});\n    lab_enter();\n")]


RIGHT = [
    _c("1_buffer", "pthreads", 1, [
        ('#include "lab.h"\n', '#include "lab_pthread.h"\nstatic pthread_mutex_t m;\nstatic pthread_cond_t room, there;\n'),
        ("lab_enter()", "pthread_mutex_lock(&m)"), ("lab_leave()", "pthread_mutex_unlock(&m)"),
        ('lab_wait("room", has_room)', "pthread_cond_wait(&room, &m)"), ('lab_signal("room")', "pthread_cond_signal(&room)"),
        ('lab_wait("item", is_there)', "pthread_cond_wait(&there, &m)"),
        ('lab_signal("item")', "pthread_cond_signal(&there), (void)has_room, (void)is_there")], status=MET),
    _c("1_buffer", "it prints", 1, [("    count--;\n", '    extern int puts(const char *);\n    puts("taken");\n    count--;\n')],
       status=MET),
]

WRONG: List[Tried] = [
    _c("1_buffer", "if", ALL, [("while (count", "if (count")],
       r"NPNB, \d+ of \d+ orders: taker\d: the invariant doesn't hold", r"signalled item \(\d+\), taker\d came in between",
       "^3 of 5$"),
    _c("1_buffer", "a signal forgotten", 2, [('    lab_signal("room");\n', "")], "nobody can go on: .* waits on room"),
    _c("1_buffer", "leave forgotten", 1, [('    lab_signal("room");\n    lab_leave();\n', '    lab_signal("room");\n')],
       r"ends inside: there is no leave \(its last call: line 23 of answer.c\)"),
    _c("1_buffer", "the item put outside", 1, [('    count++;\n    lab_signal("item");\n    lab_leave();\n',
       '    lab_signal("item");\n    lab_leave();\n    count++;\n')],
       "changes count outside the monitor, (before line|after its last call)"),
    _c("1_buffer", "wait outside", 1, _outside("(count == 0)", '"item", is_there'),
       "line 19 of answer.c: `wait` outside: an enter comes first"),
    _c("1_buffer", "enter twice", 1, [("    while (count == 0)", "    lab_enter();\n    while (count == 0)")],
       "line 20 of answer.c: `enter` inside: a leave comes first"),
    _c("1_buffer", "a condition misspelt", 1, [('lab_signal("item")', 'lab_signal("items")')],
       "nobody ever waits on `items`; there is `item`"),
    _c("1_buffer", "a signal before the change", 1, [
        ('    item = new_item;\n    count++;\n    lab_signal("item");\n', '    lab_signal("item");\n    item = new_item;\n    count++;\n')],
       r"taker's test was false when it went on \(line 20 of answer.c\)"),
    _c("1_buffer", "a test that is inverted", 4, [("return count > 0", "return count == 0")],
       "PIS, the last 20 of 10\\d\\d events", "goes on and on: its 1024 events are spent"),
    _c("1_buffer", "no test for the kinds without signals", 4, [('lab_wait("item", is_there)', '(void)is_there, lab_wait("item", 0)')],
       "PIS has no signals: give the wait on item in line 20 of answer.c a test"),
    _c("1_buffer", "a kind too few", 5, [('"NPNB NPQB NPIR"', '"NPNB"')], "NO   you found the kinds"),
    _c("1_buffer", "an error of the language", ALL, [("count++;", "cuont++;")],
       "it can't be compiled:\nanswer.c:13:5: error: .*cuont", status=NOT_LOADED),
    _c("1_buffer", "a main of its own", ALL, [("int count, item;", "int count, item;\nint main(void) { return 0; }")],
       "it can't be compiled:", status=NOT_LOADED),
    _c("2_readers", "if", 3, [("while (is_written || readers)", "if (is_written || readers)")],
       r"NPNB, \d+ of 100 orders: ", r"signalled write \(\d+\), (reader|writer)\d? came in between"),
    _c("2_readers", "no chain", 2, [('    readers++;\n    lab_signal("read");\n', "    readers++;\n")],
       r"PNB, \d+ of \d+ orders: nobody can go on: reader2 waits on read, after event"),
    _c("2_readers", "one reader at a time", 4, [("while (is_written) {", "while (is_written || readers) {")],
       "NO   two readers may read at once\n         in no order under PNB and NPNB"),
    _c("2_readers", "written outside", 1, [("    is_written = 1;\n    lab_leave();\n", "    lab_leave();\n    is_written = 1;\n")],
       "changes is_written outside the monitor"),
    _c("2_readers", "the last signal forgotten", 1, [('    lab_signal(waiting_readers ? "read" : "write");\n', "")],
       "nobody can go on: reader waits on read"),
    _c("2_readers", "a condition misspelt", 1, [('waiting_readers ? "read"', 'waiting_readers ? "reader"')],
       "nobody ever waits on `reader`; there is `read`"),
    _c("2_readers", "leave forgotten", 1, [('signal("write");\n    lab_leave();\n', 'signal("write");\n')],
       "ends inside: there is no leave"),
    _c("3_bridge", "if", 4, [("while (cars[1 - side])", "if (cars[1 - side])")], r"NPNB, \d+ of \d+ orders: .*the invariant doesn't hold",
       r"signalled \w+ \(\d+\), \w+ came in between"),
    _c("3_bridge", "no chain", 2, [("    lab_signal(sides[side]);\n", "")], "nobody can go on: west2 waits on west"),
    _c("3_bridge", "one car at a time", 3, [("while (cars[1 - side])", "while (cars[1 - side] || cars[side])")],
       "NO   two cars of one side may be on the bridge together\n         in no order under PNB and NPNB"),
    _c("3_bridge", "counted outside", 1, [("    cars[side]++;\n    lab_signal(sides[side]);\n    lab_leave();\n",
       "    lab_signal(sides[side]);\n    lab_leave();\n    cars[side]++;\n")], r"changes cars\[\d\] outside the monitor"),
    _c("3_bridge", "the other side isn't told", 1, [("lab_signal(sides[1 - side])", "lab_signal(sides[side])")],
       "nobody can go on: west waits on west"),
    _c("3_bridge", "leave forgotten", 1, [("lab_signal(sides[1 - side]);\n    lab_leave();\n", "lab_signal(sides[1 - side]);\n")],
       "ends inside: there is no leave"),
    _c("4_wakeups", "a wait that isn't asked for", 5, [
        ("void early_guest(void) {\n    lab_enter();\n    while (!is_open) ", "void early_guest(void) {\n    lab_enter();\n    ")],
       r"nobody can go on: guest waits on gate, after event 5\n *porter signalled gate \(2\) when nobody waited"),
    _c("4_wakeups", "one signal for two", 6, [('    lab_signal("gate");\n    lab_leave();\n}\n\nvoid porter', "    lab_leave();\n}\n\nvoid porter")],
       r"PB, 10 of 38 orders: nobody can go on: guest2 waits on gate, after event 10"),
    _c("4_wakeups", "a signal before the work", 4, [('    items++;\n    lab_signal("item");\n', '    lab_signal("item");\n    items++;\n')],
       "nobody can go on: taker waits on item", "taker's test was false when it went on"),
    _c("4_wakeups", "a kind too few", 1, [('"PB NPB PQB NPQB PIR NPIR"', '"NPB PQB NPQB PIR NPIR"')],
       "NO   late_work: where it goes wrong\n         you say NPB, "),
    _c("4_wakeups", "nobody waits", 5, [("while (!is_open) lab_wait(\"gate\", opened);", "is_open = 1;"),
       ("static bool opened(void) { return is_open; }\n", "")], "in no order does guest wait"),
    _c("4_wakeups", "opened outside", 5, [
        ('    is_open = 1;\n    lab_signal("gate");\n    lab_leave();\n', '    lab_signal("gate");\n    lab_leave();\n    is_open = 1;\n')],
       "changes is_open outside the monitor, after its last call"),
    Tried("5_own", "C, an exercise in Python", says=["this exercise isn't in the language of that file"], status=NOT_LOADED,
          text="int count;\n", ending=".c"),
]

HOSTILE: List[Tried] = [
    _taking("exit", "extern void exit(int); exit(0);", r"ends the whole process \(status 0\)"),
    _taking("abort", "extern void abort(void); abort();", "Aborted after line"),
    _taking("a null pointer", "*(volatile int *)0 = 1;", "Segmentation fault after line 19 of answer.c"),
    _taking("calls itself", "int take(void); take();", "Segmentation fault after line|enter` inside"),
    _taking("loops", "for (volatile int n = 0;; n++) { }", "makes no call for 2 s after line"),
    _taking("sleeps", "extern unsigned sleep(unsigned); sleep(1000);", "makes no call for 2 s"),
    _taking("prints without an end", "extern int puts(const char *); for (;;) puts(\"5 of 5\");",
            "makes no call for|File size limit exceeded", "It printed: 5 of 5$"),
    _taking("fills the memory", "extern void *malloc(unsigned long); for (volatile char *p; (p = malloc(4096)); ) *p = 1; *(volatile int *)0 = 1;",
            "Segmentation fault|makes no call for|Killed"),
    _taking("leaves a process", "extern int fork(void), execlp(const char *, const char *, ...); "
            "if (!fork()) execlp(\"sleep\", \"sleep\", \"1007\", (char *)0); for (;;) { }", "makes no call for"),
    _taking("answers in the lab's place", "extern long write(int, const void *, unsigned long); "
            "for (int i = 3; i < 9; i++) if (write(i, \"{\\\"ended\\\":true}\\n\", 15)) { }", "writes where the lab answers"),
    _taking("floods the lab's answers", "extern long write(int, const void *, unsigned long); static char zeros[9999]; "
            "for (;;) for (int i = 3; i < 9; i++) if (write(i, zeros, 9999)) { }", "writes where the lab answers"),
    _c("1_buffer", "a test without an end", 4, [("return count > 0", "while (!*(volatile int *)&count) { } return count > 0")],
       "makes no call for 2 s after line 19 of answer.c"),
    # (a name of chance is another in each run, and no answer after it says so)
    _taking("leaves it to chance", "extern int getentropy(void *, unsigned long), snprintf(char *, unsigned long, const char *, ...); "
            "static char name[40]; unsigned long dice = 0; if (getentropy(&dice, sizeof dice)) return 0; "
            "snprintf(name, sizeof name, \"chance %lx\", dice); lab_signal(name);", r"the same moves don't do the same once more.* \(answer.c:21: extern", only=2),
]
TRIED = RIGHT + WRONG + HOSTILE
