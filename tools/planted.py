#!/usr/bin/env python3
"""Tries the planted bugs of planted/, each alone, in a copy of the repository: the check has to refuse it, or a run has to catch it.

usage: tools/planted.py [CRATE..]

planted/CRATE/NAME.edit is an edit of that crate's code, in the form of the must-fail edits. Where the crate itself stays proved, a line
`caught: HOW OTHER` says what finds the bug: `proof`, that crate OTHER is refused; `test`, that a test of OTHER fails; `run`, that the program
OTHER prints or ends otherwise than is stored.

It prints a line for each planted bug, and a table by crate. Each takes some ten to twenty seconds of a processor, and a run a minute or more.
"""
import collections
import glob
import os
import re
import shutil
import subprocess
import sys
import tempfile
from concurrent.futures import ThreadPoolExecutor


def copied(room):
    """The files of the repository, in a new folder of this room."""
    copy = tempfile.mkdtemp(dir=room)
    listed = subprocess.run(["git", "ls-files", "-z"], stdout=subprocess.PIPE, text=True, check=True).stdout
    for path in listed.split("\0")[:-1]:
        if not path.startswith("planted/") and os.path.exists(path):
            os.makedirs(os.path.join(copy, os.path.dirname(path)), exist_ok=True)
            shutil.copy(path, os.path.join(copy, path))
    return copy


def catcher(edit):
    """What is to catch a bug that its own crate's contracts let through: how, and in which crate."""
    with open(edit) as text:
        found = re.search(r"(?m)^caught: (\S+) (\S+)$", text.read())
    return found.groups() if found else None


def refusals(edits, copy):
    """What rt says of each of these edits."""
    if not edits:
        return {}
    by_crate = collections.defaultdict(list)
    for edit in edits:
        by_crate[edit.split("/")[1]].append(edit)
    for crate, those in by_crate.items():
        folder = f"{copy}/crates/{crate}/must-fail"
        shutil.rmtree(folder, ignore_errors=True)
        os.makedirs(folder)
        for edit in those:
            shutil.copy(edit, folder)
    said = subprocess.run(["rt", "must-fail", *by_crate], cwd=copy, stdout=subprocess.PIPE, stderr=subprocess.STDOUT, text=True).stdout
    told = {f"planted/{crate}/{name}": line for crate, name, line in re.findall(r"must-fail (\S+)/(\S+\.edit): (.*)", said)}
    return {edit: told.get(edit, "rt said nothing of it") for edit in edits}


def applied(edit, copy):
    """Whether the edit stands in the copy now."""
    with open(edit) as text:
        lines = [line.split(": ", 1) for line in text.read().splitlines()]
    path = next(value for key, value in lines if key == "file")
    path = f"{copy}/crates/{edit.split('/')[1]}/{path}"
    with open(path) as source:
        code = source.read()
    pairs = [value for key, value in lines if key in ("old", "new")]
    for old, new in zip(pairs[::2], pairs[1::2]):
        if code.count(old) != 1:
            return False
        code = code.replace(old, new)
    with open(path, "w") as source:
        source.write(code)
    return True


def stored_run(other, copy):
    """Whether the program runs as stored: its own run, and those of its folder runs."""
    crate = f"{copy}/crates/{other}"
    words, given = f"{crate}/args", f"{crate}/stdin"
    args = open(words).read().split("\n")[:-1] if os.path.exists(words) else []
    with open(given if os.path.exists(given) else os.devnull) as stdin, open(f"{crate}/stdout") as stdout:
        ran = subprocess.run(["rt", "try", "--seconds", "600", "--", *args], cwd=crate, stdin=stdin, stdout=subprocess.PIPE, stderr=subprocess.DEVNULL, text=True)
        as_stored = ran.returncode == 0 and ran.stdout == stdout.read()
    return as_stored and subprocess.run(["python3", "tools/runs.py", other], cwd=copy, stdout=subprocess.DEVNULL).returncode == 0


def passes(how, other, copy):
    """Whether the copy passes this check, run or test of crate OTHER."""
    if how == "run":
        return stored_run(other, copy)
    command = ["rt", "check"] if how == "proof" else ["rt", "try", "--test"]
    return subprocess.run(command, cwd=f"{copy}/crates/{other}", stdout=subprocess.DEVNULL, stderr=subprocess.DEVNULL).returncode == 0


def caught(edit, room):
    """Whether what is to catch this bug does: it passes without the bug, and not with it."""
    how, other = catcher(edit)
    copy = copied(room)
    if not passes(how, other, copy):
        return f"PASSES, since {how} of {other} fails without it too"
    if not applied(edit, copy):
        return "BAD EDIT"
    found = not passes(how, other, copy)
    shutil.rmtree(copy)
    return f"caught by {how} of {other}" if found else f"PASSES, also {how} of {other}"


def main(names):
    edits = sorted(glob.glob("planted/*/*.edit"))
    edits = [edit for edit in edits if not names or edit.split("/")[1] in names]
    table = collections.defaultdict(collections.Counter)
    wrong = 0
    with tempfile.TemporaryDirectory() as room:
        told = refusals([edit for edit in edits if not catcher(edit)], copied(room))
        others = [edit for edit in edits if catcher(edit)]
        with ThreadPoolExecutor(2) as two:
            told |= dict(zip(others, two.map(lambda edit: caught(edit, room), others)))
    for edit in edits:
        # one that is refused at no place of the crate, or for a name that it took away, shows nothing
        refused = re.match(r"refused, as it must be: (note: )?(\./)?(src|proofs)/|caught by proof", told[edit])
        kind = "refused" if refused else "run only" if told[edit].startswith("caught") else "passed"
        wrong += kind == "passed"
        table[edit.split("/")[1]][kind] += 1
        print(f"{edit}: {told[edit]}")
    print("| crate | planted | refused by proof | caught by a run only | passed |\n|---|---|---|---|---|")
    for crate, kinds in [*table.items(), ("all", sum(table.values(), collections.Counter()))]:
        print(f"| {crate} | {sum(kinds.values())} | {kinds['refused']} | {kinds['run only']} | {kinds['passed']} |")
    return 1 if wrong else 0


if __name__ == "__main__":
    os.chdir(os.path.dirname(os.path.dirname(os.path.abspath(__file__))))
    sys.exit(main(sys.argv[1:]))
