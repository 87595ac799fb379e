#!/usr/bin/env python3
"""Counts, in the crates' src/, the places that read like the older language: the points of docs/DESIGN-PASS.md, by a rule for each.

    tools/old_forms.py            a line for each point, with its count
    tools/old_forms.py --list     each place, too
    tools/old_forms.py CRATE ..   of these crates alone

A rule finds by the text alone, so it also finds places that stay; the page says which do, and why."""

import re
import sys
from collections import defaultdict
from itertools import combinations
from pathlib import Path

CRATES = Path(__file__).resolve().parent.parent / "crates"
FUNCTION = re.compile(r"^ *(?:pub(?:\([^)]*\))? )?(?:const )?(?:extern \"C\" )?fn (\w+)", re.M)
NUMBER = r"(?:\w*\.)?(?:number|rule|kind|wrong|unlisted|broken|size|entry|refusal\(\))"


class Source:
    """A file of src/: its lines without comments, and its functions."""

    def __init__(self, path):
        self.name = path.relative_to(CRATES)
        self.text = "\n".join(re.sub(r"\s*//.*", "", line) for line in path.read_text().splitlines())
        self.functions = list(self.found())

    def at(self, place):
        return f"{self.name}:{self.text.count(chr(10), 0, place) + 1}"

    def found(self):
        """The functions: name, place, parameters, and body from its first brace behind the clauses."""
        for match in FUNCTION.finditer(self.text):
            indent = re.match(r" *", match.group(0)).group(0)
            end = re.compile(rf"^{indent}}}$", re.M).search(self.text, match.end())
            whole = self.text[match.start():end.end() if end else None]
            body = re.search(r"^%s\{\n|\{\n" % indent, whole, re.M)
            head = whole[:body.start()] if body else whole
            yield match.group(1), match.start(), head, whole[body.start():] if body else ""


def lines(pattern):
    """Places of lines in which a pattern stands."""
    def of(source):
        return [(source.at(match.start()), match.group(0).strip()) for match in re.finditer(pattern, source.text, re.M)]
    return of


def numbered(source):
    """Functions that answer a number where Option, Result or an enum could stand: u8, or a place that can stand for none."""
    for name, place, head, body in source.functions:
        result = re.search(r"\) -> (u8|usize|u32)\b", head)
        if result and (result.group(1) == "u8" or re.search(r"^ *(?:return )?(?:0|22|NONE);?$", body, re.M)):
            yield source.at(place), f"fn {name} -> {result.group(1)}"


def copied(source):
    """Runs of three or more fields that are copied one by one from another value."""
    for match in re.finditer(r"(?:^ *(\w+): (\w+)\.\1,\n(?:^ *\w+(?:: [^\n]*)?,\n)*?){3,}", source.text, re.M):
        yield source.at(match.start()), f"{match.group(2)}, field by field"


def converted(source):
    """Functions by whose names a value is compared, copied, converted or printed."""
    for name, place, head, _ in source.functions:
        if re.fullmatch(r"is_same|same|copy|append|of|entries|wide|pick\w*|choose|one_if|flag|or_zero|u\d+_of|number\d*|"
                        r"print_\w+|word_of|said|wish_\w+|\w*amount_of|half|digit", name):
            yield source.at(place), f"fn {name}"


ONE = (lines(r"^(?:pub(?:\([^)]*\))? )?enum \w+"),
       lines(r"^ *(?:pub )?(?:number|rule|failed|enabled|kind): (?:u8|bool),$"),
       numbered,
       lines(rf"\b{NUMBER} (?:!=|==) (?:0|22)\b"),
       lines(r"^(?:pub )?const (?:ABOVE|NONE|NOT_GIVEN|END|NO_CASE): .*"))
THREE = (lines(r"^.*\bwhile\b.*\{"),)
FOUR = (copied, converted)
SIX = (lines(r"= \[0u\d+; \w+\]"), lines(r"\b(?:used|length|count|size|end|n|k) = [^;=]*&mut \w+\)"))
SEVEN = (lines(r"^ *(?:let \w+ = )?(?:return )?match (?:x|self|code|kind|number|entry|rule) \{"),)


def shape(name, body):
    """A body with its types, numbers and texts left out."""
    body = re.sub(r'b?"[^"]*"', "TEXT", body)
    body = re.sub(r"\b(?:u8|u16|u32|u64|usize)\b", "TYPE", body)
    body = re.sub(r"\b[0-9]\w*\b|\b[A-Z][A-Z_]+\b", "NUMBER", body)
    body = re.sub(rf"\b{name}\b", "SELF", body)
    return re.sub(r"\s+", " ", re.sub(r"\b\w*?(?:8|16|32|64)\b", "NAME", body))


def twins(sources):
    """Functions whose bodies differ only in types, numbers and texts."""
    groups = defaultdict(list)
    for source in sources:
        for name, place, head, body in source.functions:
            said = shape(name, body)
            if len(said) > 24:
                groups[said].append((source.at(place), f"fn {name}"))
    return [place for group in groups.values() if len(group) > 1 for place in group]


def together(sources):
    """Parameters that stand together in the signatures of three functions of a crate or more: a place for each such pair."""
    for crate in sorted({source.name.parts[0] for source in sources}):
        pairs = defaultdict(set)
        for source in sources:
            if source.name.parts[0] == crate:
                for name, _, head, _ in source.functions:
                    given = re.findall(r"(\w+): (&?(?:mut )?[^,()]+?(?:\[[^\]]*\])?)(?=,|\)|\n)", head.split(" -> ")[0])
                    for pair in combinations(sorted(set(given)), 2):
                        pairs[pair].add(name)
        for (a, b), names in sorted(pairs.items(), key=lambda pair: -len(pair[1])):
            if len(names) > 2:
                yield f"{crate}", f"{a[0]}: {a[1]}, {b[0]}: {b[1]} in {len(names)} functions"


def repeated(sources):
    """Clauses that stand in the contracts of three functions of a crate or more."""
    for crate in sorted({source.name.parts[0] for source in sources}):
        clauses = defaultdict(set)
        for source in sources:
            if source.name.parts[0] == crate:
                for name, _, head, _ in source.functions:
                    for clause in re.findall(r"requires[^{]*\{ (.*) \}", head):
                        clauses[clause].add(name)
        for clause, names in clauses.items():
            if len(names) > 2:
                yield crate, f"requires {clause} in {len(names)} functions"


POINTS = (("1 enums, flags and numbers", ONE), ("2 twins", (twins,)), ("3 loops that count by hand", THREE),
          ("4 copied, converted, printed by hand", FOUR), ("5 what travels together", (together, repeated)),
          ("6 buffers with a length beside", SIX), ("7 switches", SEVEN))


def main(arguments):
    listed = "--list" in arguments
    wanted = [argument for argument in arguments if argument != "--list"]
    sources = [Source(path) for path in sorted(CRATES.glob("*/src/*.rt"))
               if not wanted or path.relative_to(CRATES).parts[0] in wanted]
    for name, rules in POINTS:
        places = []
        for rule in rules:
            places += rule(sources) if rule in (twins, together, repeated) else [p for source in sources for p in rule(source)]
        print(f"{len(places):4}  {name}")
        if listed:
            for place, said in places:
                print(f"        {place}  {said}")


try:
    main(sys.argv[1:])
except BrokenPipeError:
    sys.stderr.close()
