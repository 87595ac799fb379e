"""What the desk's check calls `bin/admit` with: inputs by chance, the calls over them, and what each has to end in."""

from itertools import cycle
from pathlib import Path
from typing import Dict, NamedTuple, Optional, Tuple

from file_cases import wrong_headers, wrong_lengths
from files import ENTRY_COUNTS, WITH_DELAYS, file_of, file_with_entries, file_without_entries, k_written, read
from records import packed_steps
from reports import (
    LONGEST_TEXT, STANDARD_INPUT, STEP_FILE, Said, said_as_text, said_of, said_of_file, said_of_two, taken,
)
from rules import NEW_DEFAULT, OLD_DEFAULT, Table
from table_cases import ALL_BROKEN, DEFAULTS, RISING, ZEROS, moved
from tables import DELAY_CONDITIONS, HOUSE, RULES, any_table, delay_edges, edge_tables, good_table
from text_cases import (
    any_text, dressed_text, every_missing, every_no_name, every_no_number, every_too_large, every_twice, first_of_two,
)
from texts import FREE, NAMES, WAITING_TIMES, printed
from walks import any_walk

# A table in which every entry can be moved a little either way and stays admitted.
WIDE = Table(10, 100, 200, 150, 150, 300, 200, 150, 250, 170, 270, 160, 260, 200, 350, 250, 200, 2000, 20, 60, 20, 60)
A_LITTLE = 4
# So many inputs are in a call without an option, and so many are wanted as text.
IN_A_CALL, AS_TEXT = 30, 24
WRONG_CALL = 4


class Call(NamedTuple):
    """A call: its arguments, what it has to say, its standard input, and the files then, with None for no file."""

    arguments: Tuple[str, ...]
    said: Said
    given: bytes = b""
    written: Dict[str, Optional[bytes]] = {}


def records(chance):
    """The bytes of a few records."""
    return packed_steps(any_walk(chance, OLD_DEFAULT)[:chance.randint(0, 20)])


def shaped(chance, table):
    """The table as text, plain or not, or in a step file."""
    if chance.random() < 0.4:
        return file_with_entries(chance.choice((k_written(table), WITH_DELAYS)), table, records(chance))
    return chance.choice((printed(table), dressed_text(chance, table, k_written(table))))


def damaged_file(chance):
    """A step file with a wrong header or length, or too short for one."""
    file = file_with_entries(chance.choice(ENTRY_COUNTS), any_table(chance), records(chance))
    short = file[:chance.randint(2, 11)]
    return chance.choice([*wrong_headers(chance, file), *wrong_lengths(chance, file), short, short])


def wrong_texts(chance):
    """Texts with every fault."""
    for make in (every_missing, every_twice, every_no_number, every_too_large, every_no_name, first_of_two):
        yield from make(chance)


def odd_inputs(chance):
    """Inputs at the ends: none, nothing, as long as a text may be, and longer."""
    text = printed(good_table(chance))
    yield from (None, b"", STEP_FILE[:1], STEP_FILE, text.ljust(LONGEST_TEXT), text.ljust(LONGEST_TEXT + 1))
    yield from (b"#" * (LONGEST_TEXT + 1), STEP_FILE.ljust(LONGEST_TEXT + 9), file_without_entries(b""))
    yield from map(printed, (ZEROS, RISING, ALL_BROKEN))
    yield from (file_of(table, b"") for table in DEFAULTS)


def inputs(chance, count):
    """So many inputs: admitted tables, each rule and each way of rule 16 broken, several rules, faults and damage."""
    rules, conditions, faults = cycle(RULES), cycle(DELAY_CONDITIONS), list(wrong_texts(chance))
    makers = cycle((
        lambda: shaped(chance, good_table(chance)),
        lambda: shaped(chance, edge_tables(chance, next(rules))[0]),
        lambda: shaped(chance, any_table(chance)),
        lambda: chance.choice(faults),
        lambda: shaped(chance, delay_edges(chance, next(conditions))[0]),
        lambda: any_text(chance),
        lambda: damaged_file(chance),
        lambda: shaped(chance, moved(chance, ALL_BROKEN, chance.sample(range(len(NAMES)), 3), False)),
        lambda: file_without_entries(records(chance)),
    ))
    made = list(odd_inputs(chance))[:count]
    made += [next(makers)() for _ in range(count - len(made))]
    return chance.sample(made, len(made))


def a_little(chance, entries, tight):
    """The wide table with these entries a little tighter, or looser; ChangeDL is moved as the limits are."""
    moves = {}
    for entry in entries:
        step = chance.randint(1, A_LITTLE)
        moves[Table._fields[entry]] = WIDE[entry] + (step if (entry in WAITING_TIMES) == tight else -step)
    return WIDE._replace(**moves)


def pairs(chance):
    """Old and new inputs: each entry alone, many, the defaults, others, and such as are not admitted or wrong."""
    every, broken = range(len(NAMES)), [edge_tables(chance, chance.choice(RULES))[0] for _ in range(4)]
    news = [a_little(chance, [entry], True) for entry in every]
    news += [a_little(chance, chance.sample(every, chance.randint(2, 9)), True) for _ in range(4)]
    news += [a_little(chance, entries, tight) for entries in (every, [FREE]) for tight in (True, False)]
    tables = [(WIDE, new) for new in (*news, WIDE)]
    tables += [(OLD_DEFAULT, NEW_DEFAULT), (NEW_DEFAULT, OLD_DEFAULT), (NEW_DEFAULT, HOUSE), (HOUSE, NEW_DEFAULT)]
    tables += [(good_table(chance), good_table(chance)) for _ in range(3)]
    tables += [(WIDE, broken[0]), (broken[1], WIDE), (broken[2], broken[3])]
    for old, new in tables:
        yield shaped(chance, old), shaped(chance, new)
    wrong = chance.sample(list(wrong_texts(chance)), 2)
    yield from ((wrong[0], shaped(chance, WIDE)), (shaped(chance, WIDE), wrong[1]), (shaped(chance, HOUSE), None))


def to_files(chance):
    """Inputs that are to be written as step files, with what is there before, and whether it may be written over."""
    before = cycle(((b"what is there", True), (b"what is there", False), (None, True)))
    for table in (*DEFAULTS, WIDE, *(good_table(chance) for _ in range(4))):
        yield shaped(chance, table), None, False
        yield (shaped(chance, table), *next(before))
    broken = [shaped(chance, edge_tables(chance, rule)[0]) for rule in (1, 14, 16)]
    for given in (*broken, b"", None, damaged_file(chance)):
        yield given, None, chance.choice((True, False))


class Desk:
    """The folder of a check, and the calls over what is put there."""

    def __init__(self, folder, chance):
        self.folder, self.chance, self.count = Path(folder), chance, 0

    def put(self, given):
        """The path of a new file with these bytes, or of one that is not there."""
        self.count += 1
        path = self.folder / f"{self.chance.choice(('table', 'a table', 'steps'))}.{self.count}"
        if given is not None:
            path.write_bytes(given)
        return str(path)

    def call(self, said, given, *option):
        """A call over inputs that are put here, and what is said of them, each behind its path."""
        named = [(self.put(each), each) for each in given]
        return Call((*option, *(name for name, _ in named)), said(named))

    def writing(self, given, before, over):
        """A call that writes a step file."""
        name, target = self.put(given), self.put(before)
        said, file = said_of_file(name, given, target, before is not None, over)
        assert file is None or read(file) == (0, 0, taken(given)[0], b"")
        return Call((*("--over",) * over, "--file", target, name), said, written={target: file or before})

    def calls(self, count):
        """The calls over so many inputs and, with options, over some more."""
        made = inputs(self.chance, count)
        alone, together = made[:IN_A_CALL], made[IN_A_CALL:]
        for each in alone:
            yield self.call(said_of, [each])
        for place in range(0, len(together), IN_A_CALL):
            yield self.call(said_of, together[place:place + IN_A_CALL])
        for each in self.chance.sample([each for each in made if each is not None], min(8, count // 2)):
            yield Call((STANDARD_INPUT,), said_of([(STANDARD_INPUT, each)]), each)
        for pair in pairs(self.chance):
            yield self.call(said_of_two, pair, "--from")
        for each in inputs(self.chance, AS_TEXT):
            yield self.call(lambda named: said_as_text(*named[0]), [each], "--text")
        for given in to_files(self.chance):
            yield self.writing(*given)
        table = self.put(printed(WIDE))
        for wrong in (("--no-such-option", table), ("--from", table), ("--from", table, table, table)):
            yield Call(wrong, Said("", None, WRONG_CALL))
