"""Wrong versions of this program: one place of its source changed, and the modules loaded anew beside those in use."""

import importlib
import signal
import sys
from contextlib import contextmanager
from pathlib import Path
from types import ModuleType
from typing import NamedTuple

from corpus import NUMBERS
from wrong_defaults import WRONG_DEFAULTS
from wrong_delays import WRONG_DELAYS
from wrong_extends import WRONG_EXTENDS
from wrong_files import WRONG_FILES
from wrong_m9 import WRONG_M9
from wrong_rules import WRONG_RULES
from wrong_shifts import WRONG_SHIFTS
from wrong_tables import WRONG_TABLES
from wrong_texts import WRONG_TEXTS

HERE = Path(__file__).resolve().parent

# The files whose wrong versions show in cases of these kinds alone.
SHOWN_IN = {file: {NUMBERS["manual"]} for _, file, *_ in WRONG_M9}
SHOWN_IN["shifts.py"] = {NUMBERS[name] for name in ("list", "fetch", "extend")}
SHOWN_IN["texts.py"] = {NUMBERS[name] for name in ("text", "tighter", "print", "rules")}


class Wrong(NamedTuple):
    """A wrong version: what is wrong with it, and the text of a file that stands in the place of another."""

    what: str
    file: str
    old: str
    new: str


WRONG_VERSIONS = [
    *(Wrong(what, "rules.py", old, new) for what, old, new in WRONG_RULES),
    *(Wrong(what, "files.py", old, new) for what, old, new in WRONG_FILES),
    *(Wrong(what, "shifts.py", old, new) for what, old, new in WRONG_SHIFTS + WRONG_EXTENDS),
    *(Wrong(what, "texts.py", old, new) for what, old, new in WRONG_TEXTS + WRONG_TABLES),
    Wrong("the wish for none crossed", "corpus.py", "table if wish else None", "None if wish else table"),
    *(Wrong(*wrong) for wrong in WRONG_M9 + WRONG_DELAYS + WRONG_DEFAULTS),
]


class NoSuchPlace(Exception):
    """The old text does not stand in the file exactly once."""


def wrong_source(wrong):
    """The file's source with the new text in the place of the old."""
    source = (HERE / wrong.file).read_text(encoding="utf-8")
    places = source.count(wrong.old)
    if places != 1:
        raise NoSuchPlace(f"in {wrong.file} {wrong.old!r} stands {places} times")
    return source.replace(wrong.old, wrong.new)


def loaded(name, wrong=None):
    """The module of this name, loaded anew with all that it imports from here; one of them is the wrong version's."""
    ours = {path.stem for path in HERE.glob("*.py")}
    in_use = {name: sys.modules.pop(name) for name in ours & sys.modules.keys()}
    try:
        if wrong:
            module = ModuleType(Path(wrong.file).stem)
            sys.modules[module.__name__] = module
            exec(compile(wrong_source(wrong), wrong.file, "exec"), module.__dict__)
        return importlib.import_module(name)
    finally:
        for name in ours & sys.modules.keys():
            del sys.modules[name]
        sys.modules.update(in_use)


def concerned(wrong, answered):
    """The cases that the wrong version can show in, each with its line."""
    if wrong.file not in SHOWN_IN:
        return answered
    return [(case, line) for case, line in answered if case and case.kind in SHOWN_IN[wrong.file]]


def cases_needed(worked, answered):
    """How many of the cases it takes until a line is another than the right one, or None. An error is no line."""
    for needed, (case, right) in enumerate(answered, 1):
        try:
            line = worked(case).line()
        except Exception:
            continue
        if line != right:
            return needed
    return None


class TooLong(BaseException):
    """The time is over."""


@contextmanager
def at_most(seconds):
    """Raise TooLong in what is run so, once it has computed for so many seconds."""

    def end(*_):
        raise TooLong(f"no end after {seconds} s")

    before = signal.signal(signal.SIGVTALRM, end)
    signal.setitimer(signal.ITIMER_VIRTUAL, seconds)
    try:
        yield
    finally:
        signal.setitimer(signal.ITIMER_VIRTUAL, 0)
        signal.signal(signal.SIGVTALRM, before)
