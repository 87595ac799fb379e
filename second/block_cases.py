"""Cases of block: blocks that are accepted whole or refused at each place, with bytes left over, on any state."""

from itertools import cycle, product

from corpus import LONGEST_FIELD, case_of
from coverage import LISTED_NUMBERS, STAGE_LIMITS, later_numbers, step_numbers
from files import RECORD
from records import (
    LISTED, UNLISTED, any_record, bad_records, good_amount, packed_pieces, packed_steps, unlisted_code, unlisted_codes,
)
from rules import (
    AT_REST, GOOD, NO_SUCH_CODE, NOT_ADMITTED, OLD_DEFAULT, PHASES, REQUESTS, RESET, START, TAKE, TICK, TOO_LATE,
    WRONG_AMOUNT, forbidden,
)
from search import first_found
from step_cases import aimed_steps, aimed_tick, allowing, free_state, limits, past_both, refused_step, unlisted
from tables import RULES, any_table, broken_table, edge_tables, good_table
from walks import ROUNDS, any_walk, lead, mixed, states, timed

# Most blocks are not longer.
MOST_STEPS = 60
LEFT_OVER = range(RECORD.size)


def block_case(table, state, *pieces):
    """The case of lists of steps and of bytes."""
    return case_of("block", table, state, packed_pieces(*pieces))


def left_over(chance, count, code):
    """So many bytes, which begin with the code."""
    return (bytes((code,)) + chance.randbytes(RECORD.size))[:count]


def some_records(chance):
    """A few records, mostly ones that read."""
    return b"".join(any_record(chance, chance.choice(LISTED)) for _ in range(chance.randint(1, 9)))


def unreadable_records(chance, code):
    """A record of the code that is refused with 6, and one of no code."""
    return chance.choice(bad_records(chance, code)), packed_steps([(unlisted_code(chance), 0)])


def ticks_to(chance, table, state):
    """A few ticks that lead to the state, and the state before them; None where they are refused."""
    ticks = [(TICK, chance.randint(1, 9)) for _ in range(chance.randint(1, 9))]
    clock = state.clock - sum(amount for _, amount in ticks)
    if clock < 0 or forbidden(table, state._replace(clock=state.clock - 1), TICK, 1)[0]:
        return None
    return ticks, state._replace(clock=clock)


def refused_record(chance, table, code, number):
    """A state and a record of this code that is refused with this number on it."""
    if number == NO_SUCH_CODE:
        return free_state(chance), packed_steps([(code, 0)])
    if number == WRONG_AMOUNT:
        return allowing(chance, code), chance.choice(bad_records(chance, code))
    state, amount = refused_step(chance, table, code, number, good_amount)
    return state, packed_steps([(code, amount)])


def just_too_late(table, state):
    """The state with times by which its order is taken one past EX, though a tick leads there."""
    past = limits(table, state.phase, GOOD, TAKE)[TOO_LATE] + 1
    clock = max(state.clock, past)
    return state._replace(clock=clock, phase_time=clock - past, stage_time=clock)


def refused_behind_ticks(chance, table, code, number):
    """The same behind a few ticks: the state before them, they and the record."""

    def attempt():
        state, four = refused_record(chance, table, code, number)
        led = ticks_to(chance, table, just_too_late(table, state) if number == TOO_LATE else state)
        return (led[1], led[0], four) if led else None

    return first_found(f"ticks to a state on which code {code} is refused with {number}", attempt)


def every_refusal(chance):
    """Every number from 5 on that each code can give: of a record alone, the first, between others and the last."""
    counts = cycle(LEFT_OVER)
    for code, behind in product((*LISTED, chance.choice(UNLISTED)), (False, True)):
        for numbers, refused in ((step_numbers(code), refused_record), (later_numbers(code), refused_behind_ticks)):
            for number in sorted(numbers - {0, NOT_ADMITTED}):
                table, rest = good_table(chance), some_records(chance) if behind else b""
                rest += left_over(chance, next(counts), chance.choice(LISTED))
                yield block_case(table, *refused(chance, table, code, number), rest)


def every_excess(chance):
    """Records over each limit by excesses of each size, behind ticks where some lead there; ticks past both limits."""
    for table, state, *step in aimed_steps(chance):
        ticks, begin = ticks_to(chance, table, state) or ([], state)
        yield block_case(table, begin, ticks, [step])
    for stage in STAGE_LIMITS:
        for past in past_both(chance):
            table = good_table(chance)
            state, amount = aimed_tick(chance, table, chance.choice(list(PHASES)), stage, *past)
            yield block_case(table, state, [(TICK, amount)])


def every_table(chance):
    """Tables at the edge of each rule, over a record that reads or does not; bad ones without a record."""
    for rule in RULES:
        broken, kept, _ = edge_tables(chance, rule)
        code = chance.choice(LISTED)
        for first in (packed_steps([(code, good_amount(chance, code))]), *unreadable_records(chance, code)):
            rest = some_records(chance) if rule % 2 else b""
            rest += left_over(chance, rule % RECORD.size, chance.choice(LISTED))
            yield block_case(broken, free_state(chance), first, rest)
        yield block_case(kept, START, any_walk(chance, OLD_DEFAULT)[:MOST_STEPS])
    for table, state in product((broken_table(chance), good_table(chance)), (START, free_state(chance))):
        for count in LEFT_OVER:
            yield block_case(table, state, left_over(chance, count, chance.choice(LISTED)))


def every_unlisted_field(chance):
    """States that are not listed: without a record, and with a first one that is refused with each number."""
    for field, least in LISTED_NUMBERS.items():
        values = least, chance.randint(least, 255), 255
        for value, code in zip(values, chance.sample((TICK, RESET, chance.choice(LISTED)), len(values))):
            state = allowing(chance, code, **{field: value})
            good = packed_steps([(code, good_amount(chance, code))])
            yield block_case(good_table(chance), state, left_over(chance, chance.choice(LEFT_OVER), code))
            for four in (good, *unreadable_records(chance, code)):
                yield block_case(good_table(chance), state, four, some_records(chance))
            yield block_case(broken_table(chance), state, good, some_records(chance))


def part_of_walk(chance, table):
    """The state before a part of a walk, and that part, which is accepted."""
    request = chance.choice(tuple(REQUESTS))
    walk = timed(table, lead(chance, request) + chance.choice(ROUNDS[request]), mixed(chance))
    place = chance.randrange(len(walk))
    return states(table, walk[:place])[-1], walk[place:place + chance.randint(1, MOST_STEPS)]


def every_left_over(chance):
    """Parts of walks and bytes left over, that begin with a code or with none."""
    for count, code in product(LEFT_OVER, (*LISTED, *unlisted_codes(chance))):
        table = good_table(chance)
        state, steps = part_of_walk(chance, table)
        yield block_case(table, state, steps, left_over(chance, count, code))


def whole_field(chance):
    """As many records as a field holds: ticks, and a last one that is refused."""
    count = LONGEST_FIELD // RECORD.size
    state = free_state(chance, phase=AT_REST, clock=chance.randint(0, 2_000))
    yield block_case(good_table(chance), state, [(TICK, 1)] * (count - 1), bytes(RECORD.size))


def demanded(chance):
    """The cases that the coverage demands of this function."""
    yield from every_refusal(chance)
    yield from every_excess(chance)
    yield from every_table(chance)
    yield from every_unlisted_field(chance)
    yield from every_left_over(chance)
    yield from whole_field(chance)


def draw(chance):
    """A part of a walk, with a record in it that may be refused, on a state and under a table that may be bad."""
    table = good_table(chance)
    state, steps = part_of_walk(chance, table)
    place = chance.randint(0, len(steps))
    odd = any_record(chance, chance.choice(LISTED)) if chance.random() < 0.6 else b""
    if chance.random() < 0.1:
        state = unlisted(chance, state)
    if chance.random() < 0.1:
        table = any_table(chance)
    rest = left_over(chance, chance.choice(LEFT_OVER), chance.randint(0, 255))
    yield block_case(table, state, steps[:place], odd, steps[place:], rest)
