"""The phase table as the project has it: the definitions of the crates, and the cases of the code beside them."""

import re
import sys
from pathlib import Path
from typing import Dict, List, NamedTuple, Tuple

ROOT = Path(__file__).resolve().parent.parent
sys.path.append(str(ROOT / "second"))

import rules  # noqa: E402: the second program, for the manual's names of the limits

PHASES, LIMITS, KINDS = (f"crates/{name}.antt" for name in ("phases/specs/Phases", "limits/specs/Limits", "promises/specs/Kinds"))
CODE = "crates/phases/src/lib.rt"
SOURCES = PHASES, LIMITS, KINDS, CODE

DONE, ERROR = rules.DONE, rules.ERROR

# The ranges of phases in each choice of the code: rest, working, done and error.
RANGES = [(0, 0), (1, DONE - 1), (DONE, ERROR)]


class Unread(Exception):
    """What is not there as it was looked for."""


class Limit(NamedTuple):
    """An entry of the limit table: its number, its name, and its values in the old default, the new default and the house's table."""

    entry: int
    name: str
    old_default: int
    new_default: int
    house: int


class Row(NamedTuple):
    """A phase: its order, the next phases (0 where there is none), and what stands behind its number on the sheet."""

    phase: int
    order: str
    next: int
    clutch: int
    said: str


class Kind(NamedTuple):
    """A kind of shift: the code of its request, the phase that this enters, and the sum that no unfinished one is older than."""

    name: str
    request: int
    first: int
    sum: int


class Table(NamedTuple):
    """Phases, limits by order, kinds, and the channel's limit."""

    rows: List[Row]
    limits: Dict[str, Dict[str, Limit]]
    kinds: List[Kind]
    channel: Limit


def found(pattern, text, what):
    """The only place where a pattern stands."""
    places = list(re.finditer(pattern, text, re.M | re.S))
    if len(places) != 1:
        raise Unread(f"{what} stands {len(places)} times")
    return places[0]


def words(name):
    """A name of the definitions or the code in words: zero_torque, zeroTorque and ZERO_TORQUE are zero torque."""
    return re.sub(r"(?<=[a-z])(?=[A-Z])|_", " ", name.strip("«»")).lower()


def numbers(text):
    """The numbers of a list."""
    return [int(number) for number in re.findall(r"\d+", text)]


def listed(text, part):
    """The names of the limits or of the delays in the definitions, in their order."""
    return re.findall(r"t\.(\w+)", found(rf"^{part} t =\n(.*?)\[\]$", text, f"the list of {part}").group(1))


def fields(text):
    """The names of the entries in the definitions, in their order: behind the limits come the delays."""
    return listed(text, "limits") + listed(text, "delays")


def entries(text):
    """The entries, under the manual's names, by their names in the definitions. In both defaults the delays are 0."""
    names, delays = fields(text), listed(text, "delays")
    old = numbers(found(r"^old_default =\n +table_of \(([^)]*)\)$", text, "the old default").group(1))
    entry, value = map(int, found(r"^new_default = table_of \(set \(limits old_default\) (\d+) (\d+)\)$", text, "the new default").groups())
    house = numbers(found(r"^house = table_of \(limits new_default \+\+ \(([^)]*)\)\)$", text, "the house's table").group(1))
    if [name.replace("_", "") for name in names] != [name.replace("_", "").lower() for name in rules.Table._fields]:
        raise Unread("the entries are not those of the second program")
    if len(old) + len(delays) != len(names):
        raise Unread(f"the old default has {len(old)} entries, not {len(names) - len(delays)}")
    if names[entry:entry + 1] != ["channel_dl"] or value == old[entry]:
        raise Unread("the two defaults don't differ in the channel's time alone, as the sheet says")
    if len(house) != len(delays):
        raise Unread(f"the house's table has {len(house)} delays, not {len(delays)}")
    new, none = [*old[:entry], value, *old[entry + 1:]], [0] * len(delays)
    values = zip(rules.Table._fields, old + none, new + none, new + house)
    return {name: Limit(number, *value) for number, (name, value) in enumerate(zip(names, values))}


def orders(text):
    """The orders by number."""
    names = {int(number): words(name) for name, number in re.findall(r"^(\S+) = (\d+)$", text, re.M)}
    return {number: names[number] for number in range(1, 7)}


def rows(text):
    """The rows of the phase table."""
    lines = re.findall(r"row (\S+) (\d+) (\d+)  -- (\d+) ?(.*)$", text, re.M)
    if [int(line[3]) for line in lines] != list(range(ERROR + 1)):
        raise Unread("the rows of the phase table are not 0 to 23")
    return [Row(int(phase), "" if order == "0" else words(order), int(next_), int(clutch), said)
            for order, next_, clutch, phase, said in lines]


def kinds(text, limits, all_entries):
    """The three kinds, with the sums under the new default."""

    def value(part):
        """An entry of the new default, or the value of a sum that has a name."""
        if part in all_entries:
            return all_entries[part].new_default
        return total(found(rf"^{part} t = (.*?)$", limits, part).group(1))

    def total(formula):
        """The value of a sum, or of the larger of two."""
        parts = [value(part.removeprefix("t.")) for part in re.findall(r"t\.\w+|\w+(?= t\b)", formula)]
        return max(parts) if formula.startswith("max") else sum(parts)

    sums = dict(re.findall(r"^sum_of t (\w+) = (.*)$", text, re.M))
    first = re.findall(r"^first_phase (\w+) = (\d+)$", text, re.M)
    return [Kind(words(name), request, int(phase), total(sums[name])) for request, (name, phase) in enumerate(first, 1)]


def limits_by_order(text, all_entries):
    """The limits of the definitions, each column by order."""
    by_number = list(all_entries.values())
    columns = {}
    for column in ("device", "phase", "ex", "de", "plain", "error"):
        by_order = dict(enumerate(numbers(found(rf"^{column}_entries = (.*?)$", text, f"{column}_entries").group(1))))
        columns[column] = {order: by_number[by_order[number]] for number, order in orders(text).items()
                           if by_order.get(number, len(by_number)) < len(by_number)}
    return columns


def read(texts):
    """The phase table of the definitions."""
    all_entries = entries(texts[LIMITS])
    limits = limits_by_order(texts[PHASES], all_entries)
    made = Table(rows(texts[PHASES]), limits, kinds(texts[KINDS], texts[LIMITS], all_entries), all_entries["channel_dl"])
    for row in made.rows:
        if bool(row.clutch) != (row.order in limits["de"]):
            raise Unread(f"phase {row.phase}: the clutch is asked for in the phases of the engine's orders, and in no other")
    return made


class Case(NamedTuple):
    """A case of a choice: its phases, what it says, and the comment behind it."""

    phases: Tuple[int, ...]
    said: str
    comment: str


class Choice(NamedTuple):
    """A choice of the code by phase: the ranges of its outer cases, its cases in their order, and what each `_` says."""

    ranges: List[Tuple[int, int]]
    cases: List[Case]
    otherwise: List[str]

    def of(self, phase):
        """What is chosen for a phase."""
        return next((case.said for case in self.cases if phase in case.phases), self.otherwise[-1])


def body(code, name):
    """The text of a function."""
    return found(rf"^pub fn {name}\(.*?^}}$", code, name).group()


def choice(code, name):
    """The choice that a function makes by a `match` on the phase, and inside its ranges by further ones."""
    made = Choice([], [], [])
    for line in body(code, name).splitlines():
        arm = re.match(r"( +)(\d+)(?:\.\.=(\d+)|((?: \| \d+)*)) => (?:(\w+),|match phase \{)(?: // (.*))?$", line)
        otherwise = re.match(r" +_ => (\w+),$", line)
        if otherwise:
            made.otherwise.append(words(otherwise.group(1)))
        elif arm:
            indent, first, last, others, said, comment = arm.groups()
            phases = *range(int(first), int(last or first) + 1), *numbers(others or "")
            unknown = [phase for phase in (*phases, *numbers(comment or "")) if phase > ERROR]
            if unknown:
                raise Unread(f"{name}: there is no phase {unknown[0]}")
            if len(indent) == 8:
                made.ranges.append((phases[0], phases[-1]))
            if said:
                made.cases.append(Case(phases, words(said), comment or ""))
        elif "=>" in line:
            raise Unread(f"{name}: {line.strip()}")
    return made


def sheet_rows(code):
    """The phases of each row of the sheet: a case of `order_of`, or several that have the phases of one row behind them."""
    listed = [tuple(numbers(case.comment)) or case.phases for case in choice(code, "order_of").cases]
    return list(dict.fromkeys(listed))


def limits_in_code(code, name):
    """A choice of a limit by order: the field, or the number of the entry, that each order has; one that says 0 has none."""
    return {words(order): said for order, said in re.findall(r"^ +([A-Z]\w*) => (?:table\.)?(\w+),$", body(code, name), re.M)
            if said != "0"}


def orders_in_code(code):
    """The orders by number in the code."""
    return {int(number): words(name) for name, number in re.findall(r"^pub const (\w+): u8 = (\d+);$", code, re.M)}
