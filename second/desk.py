#!/usr/bin/env python3
"""What `bin/admit` has to say, in this program's words: of files or numbers that are given, or of many by chance.

A check runs the command over inputs by chance and ends in a line `N passed, M failed`: what runs said on standard
output and standard error, their statuses and the files that they wrote were as they should be, or were not.
"""

import argparse
import os
import random
import shlex
import shutil
import subprocess
import sys
import tempfile
from pathlib import Path

from desk_cases import Call, Desk
from program import ROOT
from reports import STANDARD_INPUT, Said, report, said_as_text, said_of, said_of_two
from rules import Table, broken_rule
from search import NotFound
from tables import LARGEST_ENTRY

COMMAND = "bin/admit"
INPUTS = 300
LONGEST_SHOWN = 1_000


def ended(command, call):
    """What the command says of a call."""
    run = subprocess.run([*shlex.split(command), *call.arguments], input=call.given, capture_output=True, cwd=ROOT)
    return Said(run.stdout.decode(errors="replace"), run.stderr.decode(errors="replace"), run.returncode)


def content(name):
    """The bytes of a file, or None where there is none."""
    path = Path(name)
    return path.read_bytes() if path.exists() else None


def excerpt(wanted, got):
    """Both from the first line on that differs, cut where they are long."""
    if not (isinstance(wanted, str) and isinstance(got, str)):
        return wanted, got
    same = os.path.commonprefix([wanted, got]).rfind("\n") + 1
    return wanted[same:][:LONGEST_SHOWN], got[same:][:LONGEST_SHOWN]


def compared(command, call):
    """Run a call, print what differs, and say of each thing whether it is as it should be."""
    got = ended(command, call)
    found = [(field, getattr(call.said, field), getattr(got, field)) for field in Said._fields]
    found += [(name, wanted, content(name)) for name, wanted in call.written.items()]
    for what, wanted, had in found:
        # What a wrong call says is not looked at.
        same = wanted is None and what == "errors" or wanted == had
        if not same:
            wanted, had = excerpt(wanted, had)
            print(f"{command} {shlex.join(call.arguments)}: {what}:")
            print(f"  wanted {wanted!r}")
            print(f"  got    {had!r}")
        yield same


def check(seed, count, command):
    """Check so many inputs, print what differs and the sum, and say whether all is well."""
    print(f"seed {seed}", flush=True)
    folder, same = tempfile.mkdtemp(prefix="munasirel-desk."), []
    try:
        # What is said while the program is built belongs to no call.
        ended(command, Call((), Said("", None, 0)))
        for call in Desk(folder, random.Random(seed)).calls(count):
            same += compared(command, call)
    except (NotFound, OSError) as fault:
        print(fault)
        same.append(False)
    failed = same.count(False)
    if failed:
        print(f"the inputs are kept in {folder}")
    else:
        shutil.rmtree(folder)
    print(f"{len(same) - failed} passed, {failed} failed")
    return same and not failed


def taken_from(names):
    """The inputs of these names, each behind it; None for what can not be opened."""
    for name in names:
        try:
            yield name, sys.stdin.buffer.read() if name == STANDARD_INPUT else Path(name).read_bytes()
        except OSError:
            yield name, None


def said(wishes):
    """What is to be said of what is given."""
    named = list(taken_from(wishes.names))
    if wishes.numbers:
        table = Table(*wishes.numbers)
        return Said(report(table), "", 1 if broken_rule(table) else 0)
    if wishes.text:
        return said_as_text(*named[0])
    return said_of_two(named) if wishes.two else said_of(named)


def entry(word):
    """The number of an entry."""
    if not 0 <= int(word) <= LARGEST_ENTRY:
        raise ValueError(word)
    return int(word)


def main():
    """Do what the command line asks for."""
    parser = argparse.ArgumentParser(description=__doc__.splitlines()[0])
    add = parser.add_argument
    add("names", nargs="*", metavar="FILE", help="print what is to be said of these tables; - is standard input")
    add("--from", action="store_true", dest="two", help="print what is to be said of two tables, an old and a new one")
    add("--text", action="store_true", help="print a table as text")
    add("--numbers", nargs=len(Table._fields), type=entry, metavar="N", help="print the report of 22 numbers")
    add("--check", nargs="?", type=int, const=INPUTS, metavar="N", help=f"run the command over N inputs ({INPUTS})")
    add("--seed", type=int, help="the seed of a check; without it, any")
    add("--program", default=COMMAND, help=f"check this command, run in the repository's root ({COMMAND})")
    wishes = parser.parse_args()
    if wishes.check is not None:
        seed = int.from_bytes(os.urandom(4), "little") if wishes.seed is None else wishes.seed
        sys.exit(0 if check(seed, wishes.check, wishes.program) else 1)
    wanted = 2 if wishes.two else 1 if wishes.text else 0 if wishes.numbers else max(1, len(wishes.names))
    if len(wishes.names) != wanted:
        parser.error(f"it takes {wanted} names")
    out, errors, status = said(wishes)
    sys.stdout.write(out)
    sys.stderr.write(errors)
    sys.exit(status)


if __name__ == "__main__":
    main()
