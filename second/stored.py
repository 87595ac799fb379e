"""The stored corpus: small cases that are always the same, with the answers that the check holds the program to."""

import random

from corpus import KINDS, cases_in, packed, worked
from coverage import marks, possible_cells
from generator import cases
from program import ROOT
from versions import WRONG_VERSIONS, cases_needed, concerned, loaded

STORED = ROOT / "crates" / "vectors"

SEED = 1
MADE = 14_400
LONGEST = 400
MORE_OF_A_KIND = 30


def stored_cases():
    """The stored cases, each with its line."""
    lines = (STORED / "stdout").read_text().splitlines()
    return list(zip(cases_in((STORED / "stdin").read_bytes()), lines))


def covering(small):
    """Cases that together cover what small cases can, and some more of each kind."""
    chance, uncovered = random.Random(SEED), set(possible_cells())
    chosen, others = [], {kind: [] for kind in KINDS}
    for case in small:
        found = marks(worked(case))
        (others[case.kind] if uncovered.isdisjoint(found) else chosen).append(case)
        uncovered -= found
    for rest in others.values():
        chosen += chance.sample(rest, min(len(rest), MORE_OF_A_KIND))
    return chosen


def sharpened(chosen, small):
    """The chosen cases and, for each wrong version that none of them tells apart, the first small case that does."""
    chosen, small = ([(case, worked(case).line()) for case in each] for each in (chosen, small))
    for wrong in WRONG_VERSIONS:
        version = loaded("corpus", wrong).worked
        if not cases_needed(version, concerned(wrong, chosen)):
            tellers = concerned(wrong, small)
            needed = cases_needed(version, tellers)
            chosen += tellers[needed - 1:needed] if needed else []
    return chosen


def store(directory):
    """Write a corpus of small cases: DIR/stdin, with their answers in DIR/stdout."""
    small = [case for case in cases(SEED, MADE) if len(packed(case)) <= LONGEST]
    chosen = sharpened(covering(small), small)
    directory.mkdir(parents=True, exist_ok=True)
    (directory / "stdin").write_bytes(b"".join(packed(case) for case, _ in chosen))
    (directory / "stdout").write_text("".join(f"{line}\n" for _, line in chosen))
