"""A program of threading and queue that knows nothing of a recorder: beyond.py STYLE

ends       a queue, to its end, with status 7
hangs      somebody takes from a queue that stays empty
threads    40 threads take from a queue
conds      ten conditions of one lock
lost       a notify without the lock, which is refused
sigwait    a signal that its one thread blocks, and waits for
fails      ends with an exception"""
import os
import queue
import signal
import sys
import threading
import time

THREADS, CONDITIONS, STATUS = 40, 10, 7


def pass_on(takers: int) -> None:
    items: queue.Queue[int] = queue.Queue(2)
    all_there = threading.Barrier(takers)

    def take() -> None:
        items.get()
        all_there.wait()

    threads = [threading.Thread(target=take) for _ in range(takers)]
    for thread in threads:
        thread.start()
    for item in range(takers):
        items.put(item)
    for thread in threads:
        thread.join()


def wait_on_each() -> None:
    lock = threading.Lock()
    for _ in range(CONDITIONS):
        condition = threading.Condition(lock)
        with condition:
            condition.wait(0.001)


def wait_for_signal() -> None:
    signal.pthread_sigmask(signal.SIG_BLOCK, (signal.SIGUSR1,))
    os.kill(os.getpid(), signal.SIGUSR1)
    time.sleep(0.1)
    print(signal.Signals(signal.sigwait((signal.SIGUSR1,))).name)


def main(style: str) -> None:
    if style == "sigwait":
        wait_for_signal()
    if style == "conds":
        wait_on_each()
    else:
        pass_on(THREADS if style == "threads" else 3)
    if style == "hangs":
        queue.Queue[int]().get()
    if style == "lost":
        try:
            threading.Condition().notify()
        except RuntimeError as error:
            print(error)
    if style == "fails":
        raise ValueError(style)
    print("done")
    sys.exit(STATUS)


main(sys.argv[1])
