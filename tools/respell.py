#!/usr/bin/env python3
"""Brings the repository's own definitions and lemmas to the spelling of today's library: words in snake case, types in
camel case, a test named as the function that it defines. Run once, at the top of the repository, after the kit's port.py.

A name is the repository's own where a file of specs/ or proofs/ defines it, but for goals and invariants, whose names the
checker makes. The script changes whole names alone, in .antt and .rt files, also where the checker names a step by the
same letters, and stops where two names that one file defines would fall together."""
import pathlib
import re
import sys

NAME = r"[A-Za-z_][\w'?]*(?:-[\w'?]+)*"
SIGNATURE = re.compile(rf"^\s*(?:abbrev |unfoldable |pub )*({NAME}) :(?:\s|$)")
RECORD = re.compile(rf"^\s*(?:pub )?(?:record|data) ({NAME})\b")

# tests that a plain rule would name badly, and a lemma's name that joins the names of two definitions
SPELLED = {"lengths?": "are_lengths", "spaced?": "asks_spaced", "length-schedule": "length-schedule", "fileable-schedulable": "fileable-schedulable"}


def spelled(name):
    if name in SPELLED:
        return SPELLED[name]
    if name.endswith("?"):
        return "is_" + name[:-1].replace("-", "_")
    if name[0].isupper():
        return "".join(part[0].upper() + part[1:] for part in name.split("-"))
    return name.replace("-", "_")


def own(path):
    """The names that a file defines."""
    found = set()
    for line in path.read_text().splitlines():
        for rule in (SIGNATURE, RECORD):
            match = rule.match(line)
            if match:
                found.add(match[1])
    if path.name in ("Answers.antt", "Invariants.antt", "Choices.antt", "Proof.antt"):
        found = {name for name in found if not re.search(rf"^\s*(?:abbrev )?pub {re.escape(name)} :", path.read_text(), re.M)}
    return found


pages = [p for p in sorted(pathlib.Path("crates").rglob("*.antt")) if "out" not in p.parts]
names = {}
for page in pages:
    here = own(page)
    for name in here:
        names[name] = spelled(name)
    for name in here:
        same = [other for other in here if other != name and spelled(other) == spelled(name)]
        if same:
            sys.exit(f"{page}: {name} and {same[0]} fall together")
names = {old: new for old, new in names.items() if old != new}

whole = re.compile(rf"(?<![\w'-])({NAME})(?![\w'-])")
for path in pages + [p for p in sorted(pathlib.Path("crates").rglob("*.rt")) if "out" not in p.parts]:
    text = path.read_text()
    turned = whole.sub(lambda match: names.get(match[1], match[1]), text)
    if turned != text:
        path.write_text(turned)
for old in sorted(names):
    print(f"{old} -> {names[old]}")
