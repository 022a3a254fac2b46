#!/usr/bin/env python3
"""Writes what the program `plan_runs` is held to: plans, and texts that are plans but for a fault or two, each as a line
of its standard input, in which '|' stands for a line feed; and for each of them what the plan says, or the line and field
at which the text first breaks the form of a plan.

The answers are those of `read`, which cuts a text at line feeds and spaces. Each is held against `is_plan`, one regular
expression for a whole plan, which knows of no breaks. What is read as a plan matches it, and is that plan written out.
Of a short text that is no plan, every field is tried: at the break and nowhere else, some plan begins with the fields
before, and none begins with this field too. Such plans are looked for by trying what may follow.

  plans.py           writes crates/plan_runs/stdin and crates/plan_runs/stdout
  plans.py --check   fails if they are not what it writes
"""
import functools
import itertools
import pathlib
import random
import re
import sys

LAST_TICK = 10**12
MOST_BYTES = 65_536
SHORT = 300  # every field is tried of texts no longer than this
FOLDER = pathlib.Path(__file__).resolve().parent.parent / "crates" / "plan_runs"

# of each section its name, the fields of a line, and how many lines it may have
SECTIONS = (("labs", 3, range(1, 65)), ("filings", 4, range(1025)), ("withdrawals", 2, range(257)))
TICKS = range(LAST_TICK + 1)


class Broken(Exception):
    """The line and field of the first break."""


def is_number(word, allowed):
    try:
        return str(int(word)) == word and int(word) in allowed
    except ValueError:
        return False


def numbers(lines, line, due, allowed):
    words = lines[line - 1].split(" ")
    for field, word in enumerate(words, 1):
        if field > due or not is_number(word, allowed):
            raise Broken(line, field)
    if len(words) < due:
        raise Broken(line, len(words) + 1)
    if line == len(lines):  # no line feed ends the last one
        raise Broken(line, due)
    return tuple(map(int, words))


def read(text):
    """The rows of each section."""
    lines = text.split("\n")
    line, plan = 1, []
    for _, due, counts in SECTIONS:
        [count] = numbers(lines, line, 1, counts)
        plan.append([numbers(lines, line + i, due, TICKS) for i in range(1, count + 1)])
        line += count + 1
    if lines[line - 1 :] != [""]:
        raise Broken(line, 1)
    return plan


def write(plan):
    return "".join(f"{len(rows)}\n" + "".join(" ".join(map(str, row)) + "\n" for row in rows) for rows in plan)


NUMBER = "(?:0|[1-9][0-9]{0,11}|1000000000000)"
PLAN = re.compile("".join(rf"({NUMBER})\n((?:{' '.join([NUMBER] * due)}\n)*)" for _, due, _ in SECTIONS))


def is_plan(text):
    match = PLAN.fullmatch(text)
    if not match:
        return False
    counted = zip(match.groups()[0::2], match.groups()[1::2], SECTIONS)
    return all(int(count) == rows.count("\n") and int(count) in counts for count, rows, (_, _, counts) in counted)


def endings(text):
    """What may follow a text that ends with a space, with a line feed or not at all: zeros up to the end of the line, the
    lines of zeros that are missing after one of the counts, and empty sections."""
    if not text:
        yield "1\n0 0 0\n0\n0\n"
    for row in ("0\n", "0 0\n", "0 0 0\n") if text.endswith(" ") else ("",):
        lines = (text + row).split("\n")[:-1]
        counts = [int(line) - (len(lines) - i) for i, line in enumerate(lines, 1) if re.fullmatch("[0-9]{1,4}", line)]
        missing = {""} | {"".join(["0" + " 0" * (due - 1) + "\n"] * count) for count in counts for _, due, _ in SECTIONS}
        for rows, sections in itertools.product(missing, ("", "0\n", "0\n0\n")):
            yield row + rows + sections


@functools.cache
def begins_plan(text):
    return any(is_plan(text + ending) for ending in endings(text))


def is_break(text, line, field):
    """Whether the fields before this one begin a plan, and none begins with this one too."""
    lines = text.split("\n")
    words = lines[line - 1].split(" ")
    before = "".join(line + "\n" for line in lines[: line - 1]) + "".join(word + " " for word in words[: field - 1])
    is_due, is_surplus = begins_plan(before), begins_plan(before[:-1] + "\n")
    if field > len(words):
        return is_due
    here = before + words[field - 1]
    goes_on = begins_plan(here + " ") or here != text and begins_plan(here + "\n")
    return (is_due or is_surplus) and not goes_on


def breaks(text):
    """All of a text that is no plan, which should be one."""
    lines = text.split("\n")
    places = [(line, field) for line, words in enumerate(lines, 1) for field in range(1, words.count(" ") + 3)]
    return [place for place in places if is_break(text, *place)]


def answer(text):
    if len(text.encode()) > MOST_BYTES:
        return "too long for a plan"
    try:
        plan = read(text)
    except Broken as broken:
        assert not is_plan(text), text
        assert len(text) > SHORT or breaks(text) == [broken.args], (text, broken.args)
        return "line {}, field {}".format(*broken.args)
    assert is_plan(text) and write(plan) == text, text
    rows = [", ".join(" ".join(map(str, row)) for row in rows) or "none" for rows in plan]
    return "; ".join(f"{name} {rows}" for (name, _, _), rows in zip(SECTIONS, rows))


def at(places, change):
    """A fault that can be made at each of these places."""
    return lambda text: [
        text[: match.start()] + change(match[0]) + text[match.end() :] for match in re.finditer(places, text, re.M)
    ]


FIELD, SPACE, FEED, LINE, COUNT = "[0-9]+", " ", "\n", "^.*\n", "^[0-9]+$"
FAULTS = {
    "leading zero": at(FIELD, lambda n: "0" + n),
    "two leading zeros": at(FIELD, lambda n: "00" + n),
    "plus": at(FIELD, lambda n: "+" + n),
    "minus": at(FIELD, lambda n: "-" + n),
    "letter before": at(FIELD, lambda n: "x" + n),
    "letter after": at(FIELD, lambda n: n + "x"),
    "letter only": at(FIELD, lambda n: "x"),
    "byte below the digits": at(FIELD, lambda n: n + "/"),
    "byte above the digits": at(FIELD, lambda n: ":" + n),
    "digit of another script": at(FIELD, lambda n: n + "\u0663"),
    "point": at(FIELD, lambda n: n + ".0"),
    "underscore": at(FIELD, lambda n: "1_" + n),
    "one above the last tick": at(FIELD, lambda n: str(LAST_TICK + 1)),
    "the same in 64 bits": at(FIELD, lambda n: str(int(n) + 2**64)),
    "25 digits": at(FIELD, lambda n: "9" * 25),
    "empty field": at(FIELD, lambda n: ""),
    "double space": at(SPACE, lambda _: "  "),
    "leading space": at(LINE, lambda line: " " + line),
    "trailing space": at(FEED, lambda _: " \n"),
    "surplus field": at(FEED, lambda _: " 7\n"),
    "missing first field": at("^[0-9]+ ", lambda _: ""),
    "missing last field": at(" [0-9]+$", lambda _: ""),
    "tab for a space": at(SPACE, lambda _: "\t"),
    "tab beside a space": at(SPACE, lambda _: " \t"),
    "carriage return before a line feed": at(FEED, lambda _: "\r\n"),
    "carriage return for a line feed": at(FEED, lambda _: "\r"),
    "missing line feed": at(FEED, lambda _: ""),
    "space for a line feed": at(FEED, lambda _: " "),
    "line feed for a space": at(SPACE, lambda _: "\n"),
    "empty line": at(LINE, lambda line: "\n" + line),
    "missing line": at(LINE, lambda _: ""),
    "doubled line": at(LINE, lambda line: line + line),
    "count below the lines": at(COUNT, lambda n: str(max(int(n) - 1, 0))),
    "count above the lines": at(COUNT, lambda n: str(int(n) + 1)),
    "count 0": at(COUNT, lambda _: "0"),
    "count 64": at(COUNT, lambda _: "64"),
    "count 65": at(COUNT, lambda _: "65"),
    "count 256": at(COUNT, lambda _: "256"),
    "count 257": at(COUNT, lambda _: "257"),
    "count 1024": at(COUNT, lambda _: "1024"),
    "count 1025": at(COUNT, lambda _: "1025"),
    "cut off": lambda text: [text[:i] for i in range(len(text))],
    "goes on": lambda text: [text + more for more in ("\n", "0", "0 0\n", " ", "x", "\r\n", text)],
}


def random_number(rng):
    return rng.choice((0, rng.randrange(10), rng.randrange(100), rng.randrange(10**6), rng.randrange(LAST_TICK + 1), LAST_TICK))


def random_plan(rng, *counts):
    return [[tuple(random_number(rng) for _ in range(due)) for _ in range(count)] for count, (_, due, _) in zip(counts, SECTIONS)]


def long_plan(last):
    """With a last withdrawal 0 0 it has as many bytes as a plan may have."""
    return [[(LAST_TICK,) * 3] * 64, [(LAST_TICK,) * 4] * 1024, [(LAST_TICK,) * 2] * 196 + [last]]


def some(rng, texts):
    """The first, the last, and two between."""
    return texts if len(texts) < 4 else [texts[0], *(rng.choice(texts[1:-1]) for _ in range(2)), texts[-1]]


def inputs():
    rng = random.Random(20_261_128)
    smallest = [[(0, 0, 0)], [], []]
    worked = [[(200, 2000, 1000)], [(0, 0, 3, 1000), (0, 0, 1, 1000)], []]
    mixed = [[(200, 2000, 1000), (300, 0, 0)], [(0, 0, 3, 1000), (7, 1, 2, 40)], [(3, 1)]]
    withdrawn = [[(5, 6, 7)], [], [(8, 1), (9, 2), (10, 3)]]
    medium = random_plan(rng, 3, 4, 3)
    plans = [write(plan) for plan in (smallest, worked, mixed, withdrawn, medium)]
    yield from plans
    yield from (write(long_plan(last)) for last in ((0, 0), (0, 10)))
    yield write(random_plan(rng, 64, 200, 50))
    for fault, plan in itertools.product(FAULTS.values(), plans):
        yield from some(rng, fault(plan))
    for first, second in itertools.combinations_with_replacement(FAULTS.values(), 2):
        once = rng.choice(first(rng.choice(plans[1:4])))
        yield rng.choice(second(once) or [once])
    for _ in range(100):
        yield write(random_plan(rng, rng.randrange(1, 6), rng.randrange(5), rng.randrange(4)))
    for _ in range(150):
        yield "".join(rng.choice("0123456789 \n-x") for _ in range(rng.randrange(20)))


def main():
    texts = list(dict.fromkeys(inputs()))
    table = {
        FOLDER / "stdin": "".join(text.replace("\n", "|") + "\n" for text in texts).encode(),
        FOLDER / "stdout": "".join(answer(text) + "\n" for text in texts).encode(),
    }
    if "--check" in sys.argv[1:]:
        stale = [path.name for path, data in table.items() if not path.is_file() or path.read_bytes() != data]
        sys.exit(f"not what tools/plans.py writes: {', '.join(stale)}" if stale else 0)
    for path, data in table.items():
        path.write_bytes(data)


if __name__ == "__main__":
    main()
