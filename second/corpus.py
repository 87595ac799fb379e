"""The corpus: a case's bytes and its parts, and the answer line of a case."""

import struct
from typing import Callable, NamedTuple, Tuple

import files
import m9
import rules
import shifts
import texts

LONGEST_FIELD = 66_000
HEAD = struct.Struct("<B3I")


class Case(NamedTuple):
    """A kind and three fields."""

    kind: int
    a: bytes = b""
    b: bytes = b""
    c: bytes = b""


def join(held, offset, part, buffer):
    """Joining, on the parts of a case."""
    return files.join(buffer, held, offset, part)


def write(wish, table, amounts, codes, buffer):
    """The writer, on the parts of a case."""
    return files.write(table if wish else None, codes, amounts, buffer)


def manual(table, records):
    """Both engines from their starts: the manual's, with its variables and their reading, and ours."""
    *answer, variables = files.run(m9.step, m9.START, table, records)
    seen = m9.flags(variables), m9.times(variables), m9.reading(variables)
    return answer, seen, files.run(rules.step, rules.START, table, records)


class Kind(NamedTuple):
    """A kind of case: the parts in its field a, its other fields that hold a part each, and what answers it."""

    name: str
    in_a: Tuple[str, ...]
    others: str
    answer: Callable
    unit: int = 1  # the length of field b is a multiple of this


KINDS = {
    1: Kind("admit", ("table",), "", rules.broken_rule),
    2: Kind("step", ("table", "state", "code", "amount"), "", rules.step),
    3: Kind("advance", ("table", "state", "record"), "", files.advance),
    4: Kind("read", (), "b", files.read),
    5: Kind("judge", (), "b", files.judge),
    6: Kind("line", (), "bc", files.lay_line),
    7: Kind("join", ("held", "offset"), "bc", join),
    8: Kind("write", ("wish", "table", "amounts"), "bc", write),
    9: Kind("manual", ("table",), "b", manual, unit=files.RECORD.size),
    10: Kind("block", ("table", "state"), "b", files.block),
    11: Kind("list", (), "bc", shifts.build),
    12: Kind("fetch", ("number",), "b", shifts.fetch),
    13: Kind("extend", ("table", "state", "held", "count"), "bc", shifts.extend),
    14: Kind("text", (), "b", texts.read),
    15: Kind("tighter", ("table", "table"), "", texts.tighter),
    16: Kind("print", ("table",), "", texts.printed),
    17: Kind("rules", ("table",), "", texts.all_rules),
}
NUMBERS = {kind.name: number for number, kind in KINDS.items()}

# The layout of each part in field a, and what its numbers make. The amounts are a list that fills the field.
LAYOUTS = {
    "table": (files.ENTRIES, rules.Table),
    "state": (struct.Struct("<IBBIBIIB"), rules.State),
    "code": (struct.Struct("<B"), int),
    "amount": (struct.Struct("<I"), int),
    "record": (struct.Struct("<4s"), bytes),
    "held": (struct.Struct("<Q"), int),
    "offset": (struct.Struct("<Q"), int),
    "wish": (struct.Struct("<B"), int),
    "number": (struct.Struct("<Q"), int),
    "count": (struct.Struct("<I"), int),
}
AMOUNT, _ = LAYOUTS["amount"]


def case_of(name, *parts):
    """The case of a kind, by its name and its parts."""
    kind = KINDS[NUMBERS[name]]
    a = b""
    for part_name, part in zip(kind.in_a, parts):
        if part_name == "amounts":
            a += b"".join(map(AMOUNT.pack, part))
        else:
            layout, make = LAYOUTS[part_name]
            a += layout.pack(*part) if issubclass(make, tuple) else layout.pack(part)
    return Case(NUMBERS[name], a, **dict(zip(kind.others, parts[len(kind.in_a):])))


def parts_of(case):
    """The parts of a case, or None where a field has a length that its kind doesn't have."""
    kind = KINDS[case.kind]
    parts, rest = [], case.a
    for name in kind.in_a:
        if name == "amounts":
            whole = len(rest) // AMOUNT.size * AMOUNT.size
            parts.append([amount for amount, in AMOUNT.iter_unpack(rest[:whole])])
            rest = rest[whole:]
        else:
            layout, make = LAYOUTS[name]
            if len(rest) < layout.size:
                return None
            parts.append(make(*layout.unpack_from(rest)))
            rest = rest[layout.size:]
    if rest or len(case.b) % kind.unit or any(getattr(case, field) for field in "bc" if field not in kind.others):
        return None
    return parts + [getattr(case, field) for field in kind.others]


def packed(case):
    """The bytes of a case."""
    return HEAD.pack(case.kind, len(case.a), len(case.b), len(case.c)) + case.a + case.b + case.c


def cases_in(stream):
    """The cases that stand one behind another in these bytes; None for what is no case, and nothing behind it."""
    place = 0
    while place < len(stream):
        if len(stream) - place < HEAD.size:
            yield None
            return
        kind, *lengths = HEAD.unpack_from(stream, place)
        place += HEAD.size
        if kind not in KINDS or max(lengths) > LONGEST_FIELD or len(stream) - place < sum(lengths):
            yield None
            return
        fields = []
        for length in lengths:
            fields.append(stream[place:place + length])
            place += length
        yield Case(kind, *fields)


def words(value):
    """What a line has for a number, for bytes, or for several of them."""
    if isinstance(value, int):
        yield str(value)
    elif isinstance(value, bytes):
        yield value.hex() or "-"
    else:
        for single in value:
            yield from words(single)


class Worked(NamedTuple):
    """A case worked out: the name of its kind, its parts and its answer."""

    name: str
    parts: list
    answer: object

    def line(self):
        """The answer line, without its line feed."""
        return " ".join((self.name, *words(self.answer)))


def worked(case):
    """A case worked out; None and a case with wrong lengths are bad."""
    parts = None if case is None else parts_of(case)
    if parts is None:
        return Worked("bad", [], ())
    kind = KINDS[case.kind]
    return Worked(kind.name, parts, kind.answer(*parts))
