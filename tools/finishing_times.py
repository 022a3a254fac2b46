#!/usr/bin/env python3
"""Writes the table that the program `figures` is held to: for many server rows the starts and ends of imports that are
all filed at one tick, from the closed formulas for the finishing time of each request.

With the bandwidth U = rate / 1000, the threshold and the budget Q counted in ticks, a request of C ticks after one
that finished at f with the budget Q finishes
  at f + C                                if Q is 0 or more,
  at f + (threshold - Q) / U + C          if Q is below 0, the wait rounded up to whole ticks,
and leaves the budget that it found less (1 - U) C. The budget is 0 at tick 0 and never rises above the ceiling. Before
the first request it has to reach the threshold, as after a debt; a request that is filed once it has does not wait.

  finishing_times.py           writes crates/figures/stdin and crates/figures/stdout
  finishing_times.py --check   fails if they are not what it writes
"""
import math
import pathlib
import random
import sys
from fractions import Fraction

LAST_TICK = 10**12
FOLDER = pathlib.Path(__file__).resolve().parent.parent / "crates" / "figures"


def slots(tick, rate, ceiling, threshold, lengths):
    bandwidth = Fraction(rate, 1000)
    theta = Fraction(threshold, 1000)
    top = Fraction(ceiling, 1000)
    finish, budget = tick, min(bandwidth * tick, top)
    waits = budget < theta
    for length in lengths:
        start = finish
        if waits:
            wait = math.ceil((theta - budget) / bandwidth)
            start += wait
            budget = min(budget + bandwidth * wait, top)
        finish = start + length
        budget -= (1 - bandwidth) * length
        waits = budget < 0
        yield start, finish


def cases():
    yield 0, 200, 2000, 1000, [3, 1]
    yield 0, 300, 2000, 1000, [1]
    yield 0, 500, 3000, 3000, [6, 1, 5, 1]
    yield 0, 500, 3000, 3000, [6, 5, 1]
    for rate in (1, 2, 333, 500, 998, 999):
        for ceiling, threshold in ((0, 0), (1, 0), (1, 1), (999, 1), (1000, 999), (10**9, 0), (10**9, 10**9)):
            yield 0, rate, ceiling, threshold, [1] * 16
            yield 0, rate, ceiling, threshold, [10**6] * 16
            yield 0, rate, ceiling, threshold, [1, 10**6, 2, 999_999, 1]
            woken = -(-threshold // rate)
            for tick in (max(woken - 1, 0), woken, woken + 1, LAST_TICK):
                yield tick, rate, ceiling, threshold, [1, 10**6, 2, 999_999, 1]
    rng = random.Random(20_261_127)
    for _ in range(500):
        ceiling = rng.choice((rng.randrange(10), rng.randrange(5000), rng.randrange(10**6), rng.randrange(10**9 + 1)))
        threshold = rng.choice((0, ceiling, rng.randrange(ceiling + 1)))
        longest = rng.choice((3, 30, 3000, 10**6))
        lengths = [rng.randrange(1, longest + 1) for _ in range(rng.randrange(1, 17))]
        rate = rng.randrange(1, 1000)
        tick = rng.choice((0, rng.randrange(10), rng.randrange(2 * ceiling // rate + 2), rng.randrange(LAST_TICK + 1)))
        yield tick, rate, ceiling, threshold, lengths


def main():
    asked, told = [], []
    for tick, rate, ceiling, threshold, lengths in cases():
        asked.append(" ".join(map(str, [tick, rate, ceiling, threshold, *lengths])) + "\n")
        told.append(f"{tick} {rate}:" + "".join(f" {a} {b}" for a, b in slots(tick, rate, ceiling, threshold, lengths)) + "\n")
    table = {FOLDER / "stdin": "".join(asked), FOLDER / "stdout": "".join(told)}
    if "--check" in sys.argv[1:]:
        stale = [path.name for path, text in table.items() if not path.is_file() or path.read_text() != text]
        sys.exit(f"not what tools/finishing_times.py writes: {', '.join(stale)}" if stale else 0)
    for path, text in table.items():
        path.write_text(text)


main()
