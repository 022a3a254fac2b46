#!/usr/bin/env python3
"""Writes what the program `play_runs` is held to: plans, and texts that are none, each as a line of its standard input, in
which '|' stands for a line feed; and for each of them what a play of it prints, written in the same way.

The answers are those of `Jumps`, which knows of no rows, and of no ticks between one happening and the next. A level is
told from the runs of the lab alone: from some tick on the rate comes in and the lock time goes out, and the level is the
smallest that this gives from tick 0, where it was 0, from the start of a run, or from now, where it was at most the
ceiling. The level at the end of its last run tells from which tick on a lab is able, and the next start is the smallest
of these ticks among labs with tickets, unless something that the plan asks for comes first.

Each is held against `ticks`, which has a row for each lab and an order of turns, and goes through the ticks one by one,
though through no more than MOST_TICKS; and so are plays of the same plans that end at an early last tick.

  plays.py           writes crates/play_runs/stdin and crates/play_runs/stdout
  plays.py --check   fails if they are not what it writes
"""
import collections
import math
import pathlib
import random
import sys

from plans import FAULTS, LAST_TICK, MOST_BYTES, Broken, read, write

MOST_TICKS = 1500  # how many are gone through one by one
FOLDER = pathlib.Path(__file__).resolve().parent.parent / "crates" / "play_runs"


def refused_at_first(labs):
    """The line and number of the first refusal of a row, or else of the opening."""
    for line, (rate, ceiling, threshold) in enumerate(labs, 2):
        for number, is_lawful in ((1, 1 <= rate <= 999), (2, ceiling <= 10**9), (3, threshold <= ceiling)):
            if not is_lawful:
                return line, number
    return (1, 5) if sum(rate for rate, _, _ in labs) > 900 else None


def level(terms, runs, tick):
    """At a tick that lies in none of the runs and comes after them."""
    rate, ceiling, _ = terms
    levels, held = [ceiling], 0
    for start, end in reversed(runs):
        held += end - start
        levels.append(ceiling + rate * (tick - start) - 1000 * held)
    return min(levels + [rate * tick - 1000 * held])


def able_from(terms, runs):
    """The first tick, from the end of its last run on, at which a lab is able."""
    rate, _, threshold = terms
    end = runs[-1][1] if runs else 0
    left = level(terms, runs, end)
    return end if runs and left >= 0 else end - (left - threshold) // rate


class Jumps:
    """A play that goes from one happening to the next."""

    def __init__(self, plan, last):
        self.labs, filings, withdrawals = plan
        self.last = last
        first = len(self.labs) + 3
        asked = [(row[0], "withdrawal", line, row) for line, row in enumerate(withdrawals, first + len(filings) + 1)]
        asked += [(row[0], "filing", line, row) for line, row in enumerate(filings, first)]
        asked.sort(key=lambda ask: (ask[0], ask[1] == "filing"))
        self.asked = collections.deque(ask for ask in asked if ask[0] <= last)
        self.runs = [[] for _ in self.labs]
        self.able = [able_from(terms, []) for terms in self.labs]
        self.given = {}  # of each ticket: filing tick, lab, length
        self.waiting = []  # tickets
        self.served = 63
        self.printed = []
        self.reached = collections.Counter()
        self.happened = collections.defaultdict(set)  # at each tick

    def waiting_labs(self):
        return [self.given[ticket][1] for ticket in self.waiting]

    def withdraw(self, _, ticket):
        """Answers the number of a refusal, as does `file`."""
        if ticket in self.waiting:
            self.waiting.remove(ticket)
            self.reached["withdrawal of a ticket that waits"] += 1
            return None
        self.reached["withdrawal of one that waits no more" if ticket in self.given else "withdrawal of one never given"] += 1
        return 13

    def file(self, tick, lab, length, due):
        is_lawful = {
            8: lab in range(len(self.labs)),
            9: length in range(1, 10**6 + 1),
            10: due in range(tick, LAST_TICK + 1),
            11: self.waiting_labs().count(lab) < 16,
        }
        if not all(is_lawful.values()):
            return min(number for number, lawful in is_lawful.items() if not lawful)
        self.given[len(self.given) + 1] = tick, lab, length
        self.waiting.append(len(self.given))
        return None

    def ask(self):
        """What the plan asks for next."""
        tick, kind, line, row = self.asked.popleft()
        number = self.withdraw(*row) if kind == "withdrawal" else self.file(*row)
        if number is None:
            self.happened[tick].add(kind)
        else:
            self.printed.append(f"no {line} {number}")
            self.reached[number] += 1

    def run(self, start):
        """An import that begins at this tick, and all that is asked for before its end, which is answered."""
        standing = [(lab, ticket) for lab, ticket in zip(self.waiting_labs(), self.waiting) if self.able[lab] <= start]
        lab, ticket = min(standing, key=lambda pair: ((pair[0] - self.served - 1) % 64, pair[1]))
        self.served = lab
        self.waiting.remove(ticket)
        self.happened[start].add("begin")
        filed, _, length = self.given[ticket]
        end = start + length
        while self.asked and self.asked[0][0] < end:
            _, kind, _, row = self.asked[0]
            self.reached["withdrawal of the running import"] += kind == "withdrawal" and row[1] == ticket
            self.ask()
        self.reached["end at the last tick" if end == self.last else "end after it" if end > self.last else "end before it"] += 1
        if end <= self.last:
            self.printed.append(f"{lab} {ticket} {start} {end} {end - filed}")
            self.happened[end].add("end")
            self.runs[lab].append((start, end))
            self.able[lab] = able_from(self.labs[lab], self.runs[lab])
        return end

    def play(self):
        free = 0  # the tick from which on the lock is free
        while free <= self.last:
            start = max(free, min((self.able[lab] for lab in self.waiting_labs()), default=math.inf))
            if self.asked and self.asked[0][0] <= start:
                free = self.asked[0][0]
                self.ask()
            elif start <= self.last:
                free = self.run(start)
            else:
                self.reached["wait past the last tick"] += start < math.inf
                break
        for kinds in self.happened.values():
            self.reached[frozenset(kinds)] += 1
        return self


class Row:
    def __init__(self, rate, ceiling, threshold):
        self.rate, self.ceiling, self.threshold = rate, ceiling, threshold
        self.level, self.able = 0, threshold == 0

    def rest(self, count):
        self.level = min(self.level + self.rate * count, self.ceiling)
        self.able = self.able or self.level >= self.threshold

    def ended(self, count):
        self.level -= (1000 - self.rate) * count
        self.able = self.level >= 0


def ticks(plan, last):
    """What is printed at so many ticks, from the first on at which the plan asks for something, and whether that is all."""
    labs, filings, withdrawals = plan
    rows, queues, order = [Row(*terms) for terms in labs], [[] for _ in labs], list(range(64))
    first = clock = min([row[0] for row in filings + withdrawals], default=last)
    for row in rows:
        row.rest(clock)
    running, count, printed = None, 0, []
    while clock <= last and clock < first + MOST_TICKS:
        if running and running[3] + running[4] == clock:
            lab, number, filed, began, length = running
            printed.append(f"{lab} {number} {began} {clock} {clock - filed}")
            rows[lab].ended(length)
            running = None
        for line, (tick, number) in enumerate(withdrawals, len(labs) + len(filings) + 4):
            if tick == clock:
                places = [(queue, waiting) for queue in queues for waiting in queue if waiting[0] == number]
                if not places:
                    printed.append(f"no {line} 13")
                for queue, waiting in places:
                    queue.remove(waiting)
        for line, (tick, lab, length, due) in enumerate(filings, len(labs) + 3):
            if tick != clock:
                continue
            if lab >= len(labs):
                printed.append(f"no {line} 8")
            elif length < 1 or length > 1_000_000:
                printed.append(f"no {line} 9")
            elif due < tick or due > LAST_TICK:
                printed.append(f"no {line} 10")
            elif len(queues[lab]) == 16:
                printed.append(f"no {line} 11")
            else:
                count += 1
                queues[lab].append((count, tick, length))
        if not running:
            for place, lab in enumerate(order):
                if lab < len(labs) and rows[lab].able and queues[lab]:
                    number, filed, length = queues[lab].pop(0)
                    running = lab, number, filed, clock, length
                    order = order[place + 1 :] + order[: place + 1]
                    break
        for lab, row in enumerate(rows):
            if not running or running[0] != lab:
                row.rest(1)
        clock += 1
    to_come = running or any(queues) or any(row[0] >= clock for row in filings + withdrawals)
    return printed, clock > last or not to_come


def hold(plan, last):
    """A play, which both means tell alike as far as the ticks are gone through."""
    play = Jumps(plan, last).play()
    printed, is_all = ticks(plan, last)
    assert printed == (play.printed if is_all else play.printed[: len(printed)]), (plan, last)
    play.reached["told by both means to the end"] += is_all
    return play


def answer(text, reached):
    """The lines that are printed. What is reached on the way is counted."""
    if len(text.encode()) > MOST_BYTES:
        reached["big"] += 1
        return ["big"]
    try:
        plan = read(text)
    except Broken as broken:
        reached["bad"] += 1
        return ["bad {} {}".format(*broken.args)]
    if refusal := refused_at_first(plan[0]):
        reached[refusal[1]] += 1
        return ["no {} {}".format(*refusal)]
    for last in (0, 1, 6, 25):
        hold(plan, last)
    play = hold(plan, LAST_TICK)
    reached.update(play.reached)
    return play.printed


# what some play of a whole plan has to reach
WANTED = {
    "big",
    "bad",
    *(1, 2, 3, 5, 8, 9, 10, 11, 13),
    *("withdrawal of a ticket that waits", "withdrawal of one that waits no more", "withdrawal of one never given"),
    "withdrawal of the running import",
    *("end before it", "end at the last tick", "end after it", "wait past the last tick"),
    "told by both means to the end",
    frozenset(("end", "withdrawal", "filing", "begin")),
}

# a row that is able at tick 5, one that is able from tick 0 on and saves nothing up, and one that saves up four ticks
WORKED, SPACED, SAVING = "200 2000 1000", "300 0 0", "400 4000 0"
CHOSEN = (
    f"1|{WORKED}|2|0 0 3 1000|0 0 1 1000|0|",
    # nothing to do
    f"1|{WORKED}|0|0|",
    f"1|{WORKED}|0|2|0 1|1000000000000 0|",
    f"1|{WORKED}|1|3 0 2 3|1|3 1|",
    f"1|{WORKED}|1|3 0 2 3|1|4 1|",
    # two labs whose turns alternate, and two of which one is not able yet
    f"2|{SAVING}|{SAVING}|6|0 1 1 9|0 1 1 9|0 1 1 9|0 0 1 9|0 0 1 9|0 0 1 9|0|",
    f"2|{WORKED}|{SPACED}|4|0 0 3 9|0 0 1 9|0 1 2 9|0 1 2 9|0|",
    # an end, a withdrawal, a filing and a begin at one tick
    f"2|{SPACED}|{SAVING}|4|0 0 3 9|1 1 1 9|3 1 2 9|3 0 1 9|3|3 2|3 3|3 1|",
    f"1|{SAVING}|3|0 0 2 9|0 0 2 9|2 0 2 9|2|2 2|2 3|",
    # a withdrawal before the begin, at it, and after it
    f"1|{WORKED}|1|0 0 3 9|1|4 1|",
    f"1|{WORKED}|1|0 0 3 9|1|5 1|",
    f"1|{WORKED}|1|0 0 3 9|2|6 1|8 1|",
    f"1|{WORKED}|1|0 0 3 9|2|7 1|9 1|",
    # not in the order of their ticks
    f"1|{SAVING}|4|9 0 1 9|0 0 1 9|9 0 2 9|4 0 1 9|3|9 2|4 3|0 1|",
    # each refusal of a filing, and the first that denies it
    f"1|{SPACED}|6|5 1 0 4|5 0 0 4|5 0 1000001 4|5 0 1 4|5 64 1 5|5 0 1 5|0|",
    # a queue that is full with 16 tickets, where the running import does not wait, and a withdrawal makes room
    f"1|{WORKED}|18|" + "0 0 1 99|" * 17 + "9 0 1 99|2|0 16|9 2|",
    f"1|{SPACED}|20|" + "0 0 1 99|" * 17 + "1 0 1 99|2 0 1 99|2 0 1 99|2|1 3|2 4|",
    # at the last tick, and about it
    f"1|{SPACED}|1|1000000000000 0 1 1000000000000|2|1000000000000 1|1000000000000 2|",
    f"1|{SPACED}|1|999999999999 0 1 1000000000000|1|1000000000000 1|",
    f"1|{SPACED}|2|999999999998 0 2 1000000000000|1000000000000 0 1 1000000000000|0|",
    f"1|{SPACED}|3|999999999999 0 2 1000000000000|1000000000000 1 1 1000000000000|1000000000000 0 1 999999999999|0|",
    f"1|{SPACED}|2|999999999993 0 2 1000000000000|999999999993 0 1 1000000000000|0|",
    f"1|{SPACED}|2|999999999994 0 2 1000000000000|999999999994 0 1 1000000000000|1|1000000000000 2|",
    f"1|{SPACED}|2|999999999992 0 2 1000000000000|999999999992 0 1 1000000000000|0|",
    "1|1 0 0|2|999000000999 0 1000000 1000000000000|999000000999 0 1 1000000000000|0|",
    "1|1 1000000000 1000000000|2|0 0 1000000 1000000000000|0 0 1000000 1000000000000|0|",
    # rows and openings that are refused, for the first reason that there is, and some that are just lawful
    *(f"{labs.count('|') + 1}|{labs}|1|0 0 1 0|1|0 0|" for labs in (
        *("0 0 0", "1000 0 0", "1000000000000 0 0", "0 1000000001 1000000002", "999 1000000001 1000000002", "1 1000000001 0"),
        *("1 1000000000000 1000000000000", "1 1000000000 1000000001", "1 0 1", "900 1000000000 1000000000", "901 0 0", "999 9 9"),
        *("450 0 0|450 0 0", "450 0 0|451 0 0", "999 0 0|999 0 0|1 0 1", "0 0 0|1 0 1", "1 0 1|0 0 0", "900 0 0|1 1000000001 0"),
        *("|".join(["14 0 0"] * 63 + [last]) for last in ("14 0 0", "18 0 0", "19 0 0", "0 0 0", "18 1000000001 0", "19 5 6")),
    )),
)


def random_labs(rng, count):
    """Lawful ones, whose rates have a lawful sum."""
    left = 900
    for others in reversed(range(count)):
        rate = min(rng.choice((100, 200, 300, 450, rng.randrange(1, 901))), left - others)
        left -= rate
        ceiling = rng.choice((0, rng.randrange(1000), 1000 * rng.randrange(6), rng.randrange(5000), rng.randrange(30_000)))
        yield rate, ceiling, rng.choice((0, ceiling, rng.randrange(ceiling + 1)))


def random_filing(rng, labs, first, span, longest):
    tick = min(first + rng.randrange(span), LAST_TICK)
    lab, length = rng.randrange(labs), rng.randrange(1, longest + 1)
    due = min(rng.choice((tick, tick + rng.randrange(100), LAST_TICK)), LAST_TICK)
    if not rng.randrange(9):
        lab = rng.choice((lab, lab, labs, 63, 64, LAST_TICK))
        length = rng.choice((length, length, 0, 10**6, 10**6 + 1, LAST_TICK))
        due = rng.choice((due, due, 0, max(tick - 1, 0)))
    return tick, lab, length, due


def random_plan(rng, labs, filings, withdrawals, first, span, longest):
    asked = [random_filing(rng, labs, first, span, longest) for _ in range(filings)]
    ticks = [min(first + rng.randrange(span + longest), LAST_TICK) for _ in range(withdrawals)]
    return [list(random_labs(rng, labs)), asked, [(tick, rng.randrange(filings + 2)) for tick in ticks]]


def small_plan(rng, first=0):
    labs, span, longest = rng.choice((1, 1, 2, 2, 3, 5)), rng.choice((1, 4, 12, 40, 150)), rng.choice((2, 5, 15))
    return random_plan(rng, labs, rng.randrange(1, 9), rng.randrange(6), first, span, longest)


def aimed_plan(rng, first=0):
    """A small plan to which come filings at ends, and withdrawals of tickets around their begins and ends."""
    labs, filings, _ = small_plan(rng, first)
    runs = [line.split() for line in Jumps([labs, filings, []], LAST_TICK).play().printed if line[0] != "n"]
    withdrawals = []
    for _, ticket, start, end, _ in rng.sample(runs, min(len(runs), 3)):
        filings += [(int(end), rng.randrange(len(labs)), rng.randrange(1, 4), LAST_TICK) for _ in range(rng.randrange(3))]
        tick = int(start) + rng.choice((-1, 0, 0, 1)) if rng.randrange(3) else int(end)
        withdrawals.append((min(max(tick, 0), LAST_TICK), int(ticket)))
        withdrawals.append((int(end), rng.randrange(len(filings) + 1)))
    rng.shuffle(filings)
    rng.shuffle(withdrawals)
    return [labs, filings, withdrawals]


def crowded_plan(rng):
    """One or two labs whose queues fill up."""
    labs, span, longest = rng.choice((1, 1, 2)), rng.choice((2, 30)), rng.choice((2, 9))
    return random_plan(rng, labs, rng.randrange(20, 40), rng.randrange(6), 0, span, longest)


def wide_plan(rng):
    """Large numbers."""
    rates = [rng.choice((1, 2, 299, 300)) for _ in range(rng.randrange(1, 4))]
    labs = [(rate, 10**9 - rng.choice((0, 1)), rng.choice((0, 1, 10**6, 10**9 - 1))) for rate in rates]
    ticks = [0, rng.randrange(10**7), LAST_TICK - rng.randrange(10**7)] + [rng.randrange(LAST_TICK + 1) for _ in range(3)]
    lengths = (1, 10**6, rng.randrange(1, 10**6 + 1))
    filings = [(rng.choice(ticks), rng.randrange(len(labs)), rng.choice(lengths), LAST_TICK) for _ in range(8)]
    return [labs, filings, [(rng.choice(ticks), rng.randrange(10)) for _ in range(3)]]


def refused_plan(rng):
    """One whose rows or opening are refused, as a rule, for one or two of the terms."""
    labs, filings, withdrawals = small_plan(rng)
    for _ in range(rng.randrange(1, 3)):
        place = rng.randrange(len(labs))
        rate, ceiling, threshold = labs[place]
        rates = [(number, ceiling, threshold) for number in (0, rng.randrange(1000, 1100), rng.randrange(800, 1000))]
        others = [(rate, 10**9 + rng.randrange(2), threshold), (rate, ceiling, ceiling + 1), (rate, ceiling, LAST_TICK)]
        labs[place] = rng.choice(rates + others)
    return [labs, filings, withdrawals]


def long_plan(most):
    """One of so many bytes, and of as many lines as a plan may have. Most filings are refused."""
    labs = [(14, 10**9, 10**9 - lab) for lab in range(64)]
    filings = [(LAST_TICK,) * 4] * 1004
    filings[500:500] = [(LAST_TICK - 10**7 + 999_999 * (i % 11), i % 5, 10**6 - i, LAST_TICK) for i in range(20)]
    withdrawals = [(LAST_TICK,) * 2] * 256
    surplus = len(write([labs, filings, withdrawals])) - most
    for place in range(0, 256, 3):
        fewer = min(surplus, 12)
        withdrawals[place] = LAST_TICK, LAST_TICK // 10**fewer
        surplus -= fewer
    return [labs, filings, withdrawals]


def inputs():
    rng = random.Random(20_261_129)
    yield from (text.replace("|", "\n") for text in CHOSEN)
    yield from (write(long_plan(most)) for most in (MOST_BYTES, MOST_BYTES + 1))
    yield write(random_plan(rng, 64, 150, 40, 0, 300, 4))
    for span in (10, 300, 900):
        yield write(random_plan(rng, 4, 200, 100, 0, span, 3))
    makers = ((small_plan, 250), (aimed_plan, 150), (crowded_plan, 30), (wide_plan, 40), (refused_plan, 60))
    for make, count in makers:
        yield from (write(make(rng)) for _ in range(count))
    for make, count in ((small_plan, 50), (aimed_plan, 50)):
        yield from (write(make(rng, LAST_TICK - rng.choice((3, 10, 50)))) for _ in range(count))
    for fault in FAULTS.values():
        texts = [fault(write(small_plan(rng))) for _ in range(2)]
        yield from (rng.choice(text) for text in texts if text)


def main():
    reached = collections.Counter()
    table = {text: answer(text, reached) for text in inputs()}
    assert MOST_BYTES in map(len, table) and MOST_BYTES + 1 in map(len, table)
    assert all(reached[what] for what in WANTED), [what for what in WANTED if not reached[what]]
    files = {
        FOLDER / "stdin": "".join(text.replace("\n", "|") + "\n" for text in table).encode(),
        FOLDER / "stdout": "".join("".join(line + "|" for line in lines) + "\n" for lines in table.values()).encode(),
    }
    if "--check" in sys.argv[1:]:
        stale = [path.name for path, data in files.items() if not path.is_file() or path.read_bytes() != data]
        sys.exit(f"not what tools/plays.py writes: {', '.join(stale)}" if stale else 0)
    for path, data in files.items():
        path.write_bytes(data)


main()
