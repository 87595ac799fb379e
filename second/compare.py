#!/usr/bin/env python3
"""The comparison: many cases, answered by this program and by another, line against line."""

import argparse
import os
import sys
from pathlib import Path

from corpus import cases_in, packed, worked
from coverage import Coverage
from generator import cases
from program import PROVED, ROOT, printed
from search import NotFound
from stored import store

MISMATCHES = Path("target", "mismatch")
MOST_SHOWN = 20
LONGEST_SHOWN = 300

CASES = 14_400


def excerpt(line, place):
    """The line or, of a long one, a stretch around a place."""
    if len(line) <= LONGEST_SHOWN:
        return line
    begin = max(0, place - LONGEST_SHOWN // 2)
    return f"{'...' if begin else ''}{line[begin:begin + LONGEST_SHOWN]}..."


def show_mismatch(name, command, stream, wanted, got):
    """Keep the bytes of a case on which the lines differ, and print both lines."""
    path = MISMATCHES / name
    (ROOT / MISMATCHES).mkdir(parents=True, exist_ok=True)
    (ROOT / path).write_bytes(stream)
    place = len(os.path.commonprefix([wanted, got]))
    print(path)
    print(f"  wanted {excerpt(wanted, place)}")
    print(f"  got    {excerpt(got, place)}")
    print(f"  replay with {command} <{path}")


def compare(seed, count, command):
    """Print what differs, the coverage and the sum; say whether all is well."""
    print(f"seed {seed}", flush=True)
    made = list(cases(seed, count))
    streams = [packed(case) for case in made]
    lines, faults = printed(command, streams)
    if not lines:
        print(*faults, "0 passed, 1 failed", sep="\n")
        return False
    lines += ["(no line)"] * (len(made) - len(lines))

    coverage, differing = Coverage(), 0
    for index, (stream, answered, got) in enumerate(zip(streams, map(worked, made), lines)):
        coverage.add(answered)
        wanted = answered.line()
        if got != wanted:
            differing += 1
            if differing <= MOST_SHOWN:
                show_mismatch(f"{seed}-{index}.case", command, stream, wanted, got)
    if differing > MOST_SHOWN:
        print(f"{differing - MOST_SHOWN} more differ")

    print(*coverage.tables(), sep="\n")
    faults += coverage.faults()
    for fault in faults:
        print(fault)
    failed = differing + len(faults)
    print(f"{len(made) - differing + coverage.met()} passed, {failed} failed")
    return not failed


def answer(stream):
    """Print the answers to the cases in a stream."""
    for case in cases_in(stream):
        print(worked(case).line())


def main():
    """Do what the command line asks for."""
    parser = argparse.ArgumentParser(description=__doc__)
    add = parser.add_argument
    add("--seed", type=int, help="the seed of the cases; without it, any")
    add("--cases", type=int, default=CASES, help=f"make at least so many cases ({CASES})")
    add("--program", default=PROVED, help="compare with this command, run in the repository's root")
    add("--store", type=Path, metavar="DIR", help="write a small corpus to DIR/stdin, and its answers to DIR/stdout")
    add("--answer", metavar="FILE", help="print this program's answers to a file of cases, or to standard input for -")
    wishes = parser.parse_args()
    if wishes.store:
        store(wishes.store)
    elif wishes.answer:
        answer(sys.stdin.buffer.read() if wishes.answer == "-" else Path(wishes.answer).read_bytes())
    else:
        seed = int.from_bytes(os.urandom(4), "little") if wishes.seed is None else wishes.seed
        try:
            well = compare(seed, wishes.cases, wishes.program)
        except NotFound as fault:
            print(fault, "0 passed, 1 failed", sep="\n")
            well = False
        sys.exit(0 if well else 1)


if __name__ == "__main__":
    main()
