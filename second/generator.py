"""The generator of cases: all that the coverage demands, then as many by chance as are wanted."""

import random
from itertools import islice

import block_cases
import default_cases
import delay_cases
import entry_cases
import extend_cases
import fetch_cases
import file_cases
import join_cases
import list_cases
import manual_cases
import refused_extend_cases
import step_cases
import table_cases
import text_cases
import write_cases
from search import NotFound

MAKERS = (
    step_cases, file_cases, join_cases, write_cases, manual_cases, block_cases, list_cases, fetch_cases, extend_cases,
    refused_extend_cases, delay_cases, entry_cases, default_cases, text_cases, table_cases,
)


def other_lengths(case):
    """The case with a byte more in each field, and with one less in the first."""
    for field in "abc":
        yield case._replace(**{field: getattr(case, field) + b"\0"})
    yield case._replace(a=case.a[:-1])


def demanded(chance):
    """The cases that the coverage demands and, for the first of each kind, other lengths of its fields."""
    kinds = set()
    for maker in MAKERS:
        for case in maker.demanded(chance):
            yield case
            if case.kind not in kinds:
                kinds.add(case.kind)
                yield from other_lengths(case)


def drawn(chance):
    """Cases by chance, for ever; every draw has to make one."""
    while True:
        maker = chance.choice(MAKERS)
        made = 0
        for made, case in enumerate(maker.draw(chance), 1):
            yield case
        if not made:
            raise NotFound(f"not found: a case that {maker.__name__} draws")


def cases(seed, count):
    """The demanded cases and, if they are fewer than the count, more by chance."""
    chance = random.Random(seed)
    made = 0
    for case in demanded(chance):
        made += 1
        yield case
    yield from islice(drawn(chance), max(0, count - made))
