"""The sheet's cells as the proved program answers them: next phases, limits, delays, errors, requests and ends step by step; the old
default as a file without a table is read, and the new default as it is written at the wish for none."""

import re
from typing import NamedTuple

from table import DONE, ERROR, rules

# table.py makes the second program's folder known.
from corpus import case_of, packed
from files import ENTRIES, HEADER, record_offset
from program import printed

# An admitted table in which no two limits of a column are equal, so that an entry taken for another shows.
APART = rules.OLD_DEFAULT._replace(Engine_Zero_DL=202, Clutch_Open_DL=153, Clutch_Close_DL=144, Gear_Release_DL=206,
                                   OpenClutch_DL=203, CloseClutch_DL=196, ChangeDL=2000, Clutch_Open_DE=21, Error_Clutch_Open_DE=62,
                                   Clutch_Close_DE=23, Error_Clutch_Close_DE=64)

# The length and the header of a file with eighteen entries and no records.
LENGTH = record_offset(rules.LIMITS)
HEAD = HEADER.pack(HEADER.size, rules.LIMITS, LENGTH, 0)


class Question(NamedTuple):
    """A cell of the sheet in words, a step on a state, and the number, the excess and the phase that the answer has to have."""

    cell: str
    state: rules.State
    code: int
    amount: int
    number: int
    excess: int
    phase: int


def told(cell, state, code, phase, amount=0):
    """A step that is accepted and leads to this phase."""
    return Question(cell, state, code, amount, 0, 0, phase)


def passed(cell, state, code, number, amount=0):
    """A step that is refused with the number of a limit, over it by one."""
    return Question(cell, state, code, amount, number, 1, state.phase)


def not_allowed(cell, state, code):
    """A step that the phase doesn't allow."""
    return Question(cell, state, code, 0, rules.NOT_ALLOWED, 0, state.phase)


def asked_of_report(cell, working, code, delay):
    """Questions on a device that is good or failed, from its delay on; without one at once."""
    yield told(cell, working._replace(clock=delay), code, working.phase)
    if delay:
        yield passed(cell, working._replace(clock=delay - 1), code, rules.TOO_EARLY)


def asked_of_order(row, limits):
    """Questions on a phase that has an order."""
    at = rules.State(phase=row.phase)
    ready, working, waiting = (at._replace(stage=stage) for stage in (rules.GOOD, rules.WORKING, rules.WAITING))
    limit = {column: getattr(APART, by_order[row.order].name) for column, by_order in limits.items() if row.order in by_order}
    yield told("next when taken", ready, rules.TAKE, row.next)
    yield told("device limit", working, rules.TICK, row.phase, limit["device"])
    yield passed("device limit", working, rules.TICK, rules.PAST_STAGE_LIMIT, limit["device"] + 1)
    yield told("phase limit", at, rules.TICK, row.phase, limit["phase"])
    yield passed("phase limit", at, rules.TICK, rules.PAST_PHASE_LIMIT, limit["phase"] + 1)
    yield from asked_of_report("good from", working, rules.DEVICE_GOOD, limit.get("plain", 0))
    if row.clutch:
        yield passed("latest take", ready._replace(clock=limit["ex"] + 1), rules.TAKE, rules.TOO_LATE)
        yield told("latest take", ready._replace(clock=limit["ex"]), rules.TAKE, row.next)
        yield told("after asking for the clutch", waiting._replace(clock=limit["de"]), rules.ASK_CLUTCH, row.clutch)
        yield passed("earliest ask", waiting._replace(clock=limit["de"] - 1), rules.ASK_CLUTCH, rules.TOO_EARLY)
        yield not_allowed("error", working, rules.DEVICE_FAILED)
    else:
        yield not_allowed("after asking for the clutch", waiting._replace(clock=1000), rules.ASK_CLUTCH)
        yield from asked_of_report("failed from", working, rules.DEVICE_FAILED, limit.get("error", 0))
        yield told("error", at._replace(stage=rules.FAILED), rules.RAISE_ERROR, ERROR)


def questions(table):
    """All questions."""
    for row in table.rows:
        if row.order:
            yield from asked_of_order(row, table.limits)
        else:
            at = rules.State(phase=row.phase)
            yield not_allowed("next when taken", at._replace(stage=rules.GOOD), rules.TAKE)
            yield not_allowed("after asking for the clutch", at._replace(stage=rules.WAITING), rules.ASK_CLUTCH)
    for kind in table.kinds:
        yield told(f"request {kind.request}", rules.State(box=rules.REQUESTS[kind.request].box), kind.request, kind.first)
    yield told("finish", rules.State(phase=DONE), rules.FINISH, rules.AT_REST)
    yield told("reset", rules.State(phase=ERROR), rules.RESET, rules.AT_REST)


def asked_of_defaults():
    """The cases that tell the old default and the new one: a file without a table is read, and one of no records is written at the wish
    for none, with another table handed over."""
    yield case_of("read", HEADER.pack(HEADER.size, 0, HEADER.size, 0))
    yield case_of("write", 0, APART, [], b"", bytes(LENGTH))


def entries_read(line):
    """The entries in the answer of the reader, or nothing where it refuses the file."""
    found = re.fullmatch(r"read 0 0((?: \d+){%d}) -" % len(rules.Table._fields), line)
    return [int(entry) for entry in found.group(1).split()] if found else []


def entries_written(line):
    """The eighteen entries in the answer of the writer and four delays of 0, or nothing where it writes anything else."""
    found = re.fullmatch(rf"write 0 0 0 {LENGTH} {HEAD.hex()}((?:[0-9a-f]{{4}}){{{rules.LIMITS}}})", line)
    return list(ENTRIES.unpack(bytes.fromhex(found.group(1)).ljust(ENTRIES.size, b"\0"))) if found else []


def default_facts(table, old, new):
    """The entries of both defaults beside what the sheet says."""
    for limit in (table.channel, *(limit for by_order in table.limits.values() for limit in by_order.values())):
        for name, said, wanted in ("old", old, limit.old_default), ("new", new, limit.new_default):
            yield f"the {name} default of {limit.name} is not {wanted}", said[limit.entry:limit.entry + 1] == [wanted]


def facts(table, command):
    """What the program answers, beside what the sheet says: pairs of a complaint and whether there is none."""
    asked = list(questions(table))
    steps = [case_of("step", APART, each.state, each.code, each.amount) for each in asked]
    lines, faults = printed(command, [packed(case) for case in (*steps, *asked_of_defaults())])
    for fault in faults:
        yield fault, False
    *_, read, written = ["", "", *lines]
    yield from default_facts(table, entries_read(read), entries_written(written))
    for each, line in zip(asked, lines):
        word, number, _, excess, _, _, phase, *_ = line.split() + 7 * ["nothing"]
        said, wanted = (number, excess, phase), (str(each.number), str(each.excess), str(each.phase))
        yield ("phase {}, {}: step {} {} is answered {} by {} in phase {}, not {} by {} in phase {}".format(
            each.state.phase, each.cell, each.code, each.amount, *said, *wanted), (word, *said) == ("step", *wanted))
