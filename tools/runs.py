#!/usr/bin/env python3
"""Runs each program that has a folder runs on what is stored there, with no proof: it has to print what is stored, and to end as it should.

usage: tools/runs.py [PROGRAM..]

A run NAME of crates/PROGRAM/runs is a file NAME, its standard input, with NAME.args, its words, and NAME.stdout, what it prints. It ends
with status 0 and says nothing on standard error, unless the file crates/PROGRAM/failures has a line for it: its name, the status with which
it ends, and the line that it says there. The first of these other runs, by name, is run again where its second allocation fails: then it ends
with status 1 and prints nothing.
"""
import glob
import os
import re
import subprocess
import sys


def failures(crate):
    """The status and the line on standard error of each run that is to fail."""
    path = f"{crate}/failures"
    if not os.path.exists(path):
        return {}
    with open(path) as lines:
        return {name: (status, said) for name, status, said in (line.rstrip("\n").split(" ", 2) for line in lines)}


def run(crate, name, *flags):
    """A run of the program, with these flags for rt."""
    words = f"{crate}/runs/{name}.args"
    args = open(words).read().split("\n")[:-1] if os.path.exists(words) else []
    with open(f"{crate}/runs/{name}") as given:
        return subprocess.run(["rt", "try", *flags, "--", *args], cwd=crate, stdin=given, capture_output=True, text=True)


def said(ran):
    """What a run says on standard error, apart from what rt says of it."""
    return [line for line in ran.stderr.splitlines() if not re.match(r"(rt: |checked: |run=)", line)]


def tells_want_of_memory(crate, name):
    """Whether a run whose second allocation fails ends with status 1 and prints nothing."""
    ran = run(crate, name, "--fail-alloc", "2")
    return (ran.returncode, ran.stdout) == (1, "")


def main(programs):
    wrong = []
    for folder in sorted(glob.glob("crates/*/runs")):
        crate = os.path.dirname(folder)
        if programs and os.path.basename(crate) not in programs:
            continue
        fails = failures(crate)
        ran = subprocess.run(["rt", "try", "--cases", "runs"], cwd=crate, stdout=subprocess.PIPE, stderr=subprocess.STDOUT, text=True)
        print(ran.stdout, end="")
        names = {os.path.basename(path)[: -len(".stdout")] for path in glob.glob(f"{folder}/*.stdout")}
        wrong += [f"{crate}: a failure of a run that is not there: {name}" for name in fails if name not in names]
        for name in sorted(names):
            status, line = fails.get(name, ("0", ""))
            if not re.search(rf"(?m)^case={name} run=ended status={status} .*output=expected", ran.stdout):
                wrong.append(f"{folder}/{name}: it does not end with status {status}, or does not print what is stored")
            if name in fails and said(run(crate, name)) != [line]:
                wrong.append(f"{folder}/{name}: it does not say on standard error: {line}")
        first = min(names - fails.keys())
        if not tells_want_of_memory(crate, first):
            wrong.append(f"{folder}/{first}: it does not tell that its second allocation failed")
        if ran.returncode != 0:
            wrong.append(f"{folder}: rt try ended with status {ran.returncode}")
    print(*wrong, sep="\n", end="\n" if wrong else "")
    return 1 if wrong else 0


if __name__ == "__main__":
    os.chdir(os.path.dirname(os.path.dirname(os.path.abspath(__file__))))
    sys.exit(main(sys.argv[1:]))
