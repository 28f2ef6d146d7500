"""Mutants of the layer: wrong changes of a line, each of which the tests have to find."""
import os
import shutil
from typing import Dict, NamedTuple, Tuple


class Mutant(NamedTuple):
    file: str
    old: str
    new: str
    tests: Tuple[str, ...] = ()      # those that have to find it; nothing: the sound programs


MUTANTS: Dict[str, Mutant] = {
    "doesn't look again once it has the mutex": Mutant(
        "layer_calls.h",
        "    if (m) return real.unlock(it->mutex), lock_monitor(m, it);\n",
        "    (void)m;\n"),
    "a ghost swallows a signal": Mutant(
        "layer_queues.h",
        "    return SERVED_GHOST;\n",
        "    return SERVED_THREAD;\n"),
    "serves the last who waits": Mutant(
        "layer_queues.h",
        "m->places[n].ticket < m->places[first].ticket",
        "m->places[n].ticket > m->places[first].ticket"),
    "carries waits over in the wrong order": Mutant(
        "layer_halls.h",
        "m->places[n].ticket < m->places[first].ticket",
        "m->places[n].ticket > m->places[first].ticket"),
    "renews while somebody is on the way": Mutant(
        "layer_halls.h",
        "return m->transit == 0 && m->deferred == NONE;",
        "return m->deferred == NONE;"),
    "doesn't wait until nobody is on the way": Mutant(
        "layer_halls.h",
        "    monk_set_wish(h->seats[n], MONK_WAITER);\n",
        ""),
    "doesn't stop the old hall": Mutant(
        "layer_halls.h",
        "    monk_stop(h->monitor);\n",
        ""),
    "frees a hall that is used": Mutant(
        "layer_halls.h",
        "        if (is_used(m, h)) {",
        "        if (0 && is_used(m, h)) {"),
    "loses a signal from outside": Mutant(
        "layer_ghosts.h",
        "    if (n != NONE) visit(m, n);\n",
        "    if (n != NONE) (void)visit, give_number(m, n);\n"),
    "a ghost forgets the rest of a broadcast": Mutant(
        "layer_signals.h",
        "    if (count <= 0) return;\n",
        "    return;\n"),
    "doesn't look after ghosts": Mutant(
        "layer_ghosts.h",
        "    if (atomic_load(&m->due) > 0) look_after_ghosts(m);\n",
        "    (void)m;\n"),
    "gives a wait up that was served": Mutant(
        "layer_waits.h",
        "    return atomic_compare_exchange_strong(&p->standing, &is, GHOST_WAITS);",
        "    (void)is, p->standing = GHOST_WAITS;\n    return 1;"),
    "a cancelled thread sleeps on": Mutant(
        "layer_waits.h",
        "    if (!t->is_cancelled) return 0;\n",
        "    return 0;\n"),
    "a child has no mutex locked": Mutant(
        "layer_ends.h",
        "lock_for_child(m);",
        "(void)lock_for_child;"),
    "no wait wakes unasked": Mutant(
        "layer_shakes.h",
        "    note_place(woken, t->from);\n    return 1;\n",
        "    note_place(woken, t->from);\n    return 0;\n",
        ("unasked",)),
    "doesn't say which waits woke unasked": Mutant(
        "layer_shakes.h",
        "    note_place(woken, t->from);\n",
        "    (void)woken;\n",
        ("unasked",)),
    "doesn't remark two mutexes": Mutant(
        "layer_waits.h",
        "    look_at_mutexes(c, m);\n",
        "    (void)look_at_mutexes;\n",
        ("remarked",)),
    "remarks each unlock": Mutant(
        "layer_remarks.h",
        "    if (!owner || owner == t || owner->id == t->id) return;\n",
        "    if (!owner || !t) return;\n",
        ("remarked",)),
    "looks at the wrong clock": Mutant(
        "layer_remarks.h",
        "clock == CLOCK_MONOTONIC ? CLOCK_REALTIME : CLOCK_MONOTONIC;",
        "clock == CLOCK_MONOTONIC ? CLOCK_MONOTONIC : CLOCK_REALTIME;",
        ("remarked",)),
    "doesn't leave the mutex of a wait alone": Mutant(
        "layer_calls.h",
        "    if (!m && !(asked.left_alone && is_named(from)))",
        "    if (!m)",
        ("left_alone",)),
    "a condition stays with its monitor as another mutex waits": Mutant(
        "layer_calls.h",
        "    waits_left_alone++;\n    forget_condition(condition);\n",
        "    waits_left_alone++;\n",
        ("left_alone",)),
    "makes what may be left alone a monitor": Mutant(
        "layer_visits.h",
        "serials >= asked.eager || may_be_left(mutex)) return;",
        "serials >= asked.eager || (0 && may_be_left(mutex))) return;",
        ("left_alone",)),
    "the watcher keeps the process": Mutant(
        "layer_ends.h",
        "        if (is_alone()) exit(0);",
        "        if (0 && is_alone()) exit(0);",
        ("first_ends",)),
    "writes over what stands there": Mutant(
        "layer_files.h",
        "    open_history(&file, m, volume, NEW);\n",
        "    open_history(&file, m, volume, NAMED);\n",
        ("outputs",)),
    "a file's limit ends the program": Mutant(
        "monk_outputs.h",
        "    pthread_sigmask(SIG_BLOCK, &ours, &before);\n",
        "    pthread_sigmask(SIG_BLOCK, NULL, &before);\n",
        ("outputs",)),
    "an interrupted write is an error": Mutant(
        "monk_outputs.h",
        "        if (wrote < 0 && errno == EINTR) continue;\n",
        "",
        ("outputs",)),
    "a part that is written is all": Mutant(
        "monk_outputs.h",
        "length -= (size_t)wrote;",
        "length = 0;",
        ("outputs",)),
    "a file that fails as it is closed is whole": Mutant(
        "monk_outputs.h",
        "syscall(SYS_close, it->file) && !it->error) it->error = errno;",
        "syscall(SYS_close, it->file) && !it->error) it->error = 0;",
        ("outputs",)),
    "what is lost isn't removed": Mutant(
        "monk_outputs.h",
        "    if (it->how == MORE || (it->how == NEW && is_open)) unlink(it->name);\n",
        "",
        ("outputs",)),
    "names that were lost are written again": Mutant(
        "layer_files.h",
        "m->names = close_output(it) ? HAS_NAMES : LOST_NAMES;",
        "m->names = close_output(it) ? HAS_NAMES : NO_NAMES;",
        ("outputs",)),
    "a file to which nothing can be added stays": Mutant(
        "monk_outputs.h",
        "    if (it->how == MORE || (",
        "    if ((",
        ("outputs",)),
    "a cancelled thread ends as it writes": Mutant(
        "monk_outputs.h",
        "    long wrote = syscall(SYS_write, file, text, length);\n",
        "    long wrote = write(file, text, length);\n",
        ("outputs",)),
    "lost files don't change the status": Mutant(
        "libmonk_pthread.c",
        "    if (is_in_parent() || has_all()) return;\n",
        "    if (is_in_parent() || has_all() || 1) return;\n",
        ("outputs",)),
    "a thread goes on without its turn": Mutant(
        "layer_turns.h",
        "    while (!t->turn.has && !turns.is_over) syscall(",
        "    while (0 && !t->turn.has && !turns.is_over) syscall(",
        ("repeated",)),
    "a walk isn't by the seed": Mutant(
        "layer_schedule.h",
        "    if (!*dice) *dice = asked.seed * 0x9e3779b97f4a7c15u",
        "    if (!*dice) *dice = (uint64_t)getpid() * 0x9e3779b97f4a7c15u",
        ("repeated",)),
    "keeps the turn as it joins": Mutant(
        "layer_elsewhere.h",
        "    if (other->turn.state != OVER) sleep_by_turns(me, has_left, other, NEVER);\n",
        "    (void)has_left;\n",
        ("met",)),
    "keeps the turn at a barrier": Mutant(
        "layer_elsewhere.h",
        "    if (!is_by_turns(me) || it->is_of_processes) return real.barrier_wait(barrier);\n",
        "    if (!is_by_turns(me) || 1) return real.barrier_wait(barrier);\n",
        ("met",)),
    "doesn't count locks of read-write locks": Mutant(
        "layer_elsewhere.h",
        "    count_elsewhere(RWLOCKS, answer == EBUSY);\n",
        "",
        ("met",)),
    "takes a child's time for a sleep": Mutant(
        "layer_turns.h",
        "state[2] == 'S';",
        "state[2] != 'R';",
        ("met",)),
    "takes a wait for another process for a hang": Mutant(
        "layer_ends.h",
        "waits_left_alone || waits_for_others()) return 1;",
        "waits_left_alone) return 1;",
        ("piped",)),
    "takes a semaphore of processes for one of threads": Mutant(
        "layer_elsewhere.h",
        "(const void *)semaphore)[2] != 0; }",
        "(const void *)semaphore)[2] < 0; }",
        ("piped",)),
    "takes a mutex of processes for one of threads": Mutant(
        "layer_calls.h",
        " && !(it->mutex->__data.__kind & SHARED);",
        ";",
        ("piped",)),
    "takes a read-write lock of processes for one of threads": Mutant(
        "layer_elsewhere.h",
        " && !lock->__data.__shared) {",
        ") {",
        ("piped",)),
    "takes a barrier of processes for one of threads": Mutant(
        "layer_elsewhere.h",
        " || it->is_of_processes) return real",
        ") return real",
        ("piped",)),
    "doesn't watch a child that takes turns": Mutant(
        "layer_turns.h",
        "    be_watched();\n",
        "",
        ("piped",)),
    "takes the time of others for a spin": Mutant(
        "layer_turns.h",
        "    real.clock_gettime((clockid_t)(~(unsigned)id << 3 | OF_A_THREAD), &used);\n",
        "    real.clock_gettime(id ? CLOCK_MONOTONIC : CLOCK_REALTIME, &used);\n",
        ("busy",)),
    "wakes sleepers too seldom": Mutant(
        "layer_ends.h",
        "    int most = asked.turns ? MOST_WAKES_BY_TURNS : MOST_WAKES;\n",
        "    int most = asked.turns ? MOST_WAKES : MOST_WAKES_BY_TURNS;\n",
        ("woken",)),
    "doesn't take a turn away": Mutant(
        "layer_turns.h",
        "    if (!has_others(t)) return;\n",
        "    if (!has_others(t) || 1) return;\n",
        ("lost",)),
    "plays no schedule": Mutant(
        "layer_schedule.h",
        "    if (asked.turns == BY_SCHEDULE && self) next = by_schedule(self, able, count);\n",
        "    (void)by_schedule;\n",
        ("played",)),
    "sleepers stay as a monitor steps down": Mutant(
        "layer_descents.h",
        "    monk_stop(h->monitor);\n",
        "    (void)h;\n",
        ("descents",)),
    "a mutex that stepped down steps down again": Mutant(
        "layer_visits.h",
        "    return is_lowered(mutex) || (asked.left_alone",
        "    return (0 && is_lowered(mutex)) || (asked.left_alone",
        ("descents",)),
}


def mutant(folders: Tuple[str, ...], room: str, it: Mutant) -> str:
    """Makes a copy of the layer's sources, of some folders, with that change in it; returns its main file."""
    for folder in folders:
        shutil.copytree(folder, room, ignore=shutil.ignore_patterns("tests"), dirs_exist_ok=True)
    path = os.path.join(room, it.file)
    with open(path) as file:
        text = file.read()
    if text.count(it.old) != 1:
        raise SystemExit(f"mutants: {it.old!r} stands {text.count(it.old)} times in {it.file}")
    with open(path, "w") as file:
        file.write(text.replace(it.old, it.new))
    return os.path.join(room, "libmonk_pthread.c")
