"""In how many of RUNS runs does an `if` go wrong?

    if_or_while.py [RUNS [ROUNDS]]      100 runs of 100 rounds, if nothing is said

The buffer of buffer.py, with `if`, under each kind, with the wish for a waiter, for entry, and any. Prints a table: in
how many runs some thread that had been woken found nothing. docs/MONITORS.md, "When does an `if` suffice?", says
why."""

from __future__ import annotations

import sys

import buffer
import monk

WISHES = ("waiter", "entry", "any")


def main(runs: str = "100", rounds: str = "100") -> None:
    print("| Kind | " + " | ".join(f"wish {wish}" for wish in WISHES) + " |\n|---|" + "---|" * len(WISHES))
    for kind in monk.KINDS:
        wrong = [sum(buffer.run(kind, False, wish, int(rounds), seed)[0].wrong > 0 for seed in range(int(runs)))
                 for wish in WISHES]
        print(f"| {kind} | " + " | ".join(map(str, wrong)) + " |", flush=True)


if __name__ == "__main__":
    main(*sys.argv[1:3])
