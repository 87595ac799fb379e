"""Codes, amounts and records by chance: good ones, and ones that are refused with 5 and 6."""

from files import RECORD
from rules import ALLOWED, LAST_CLOCK, LONGEST_TICK, TICK

LISTED = tuple(ALLOWED)
# The codes beside those that are listed, and the last.
UNLISTED = 0, max(LISTED) + 1, 255
EXTREME_AMOUNTS = 0, 1, LONGEST_TICK, LONGEST_TICK + 1, LAST_CLOCK


def packed_steps(steps):
    """The record bytes of a list of steps."""
    return b"".join(RECORD.pack(code, 0, amount) for code, amount in steps)


def packed_pieces(*pieces):
    """The bytes of pieces that are lists of steps, or bytes already."""
    return b"".join(piece if isinstance(piece, bytes) else packed_steps(piece) for piece in pieces)


def unlisted_codes(chance):
    """Codes that are none: those at the ends, and one between."""
    return (*UNLISTED, chance.randint(max(LISTED) + 2, 254))


def unlisted_code(chance):
    """A code that is none."""
    return chance.choice(unlisted_codes(chance))


def tick_amount(chance):
    """An amount that a tick may have."""
    return chance.choice((1, 2, LONGEST_TICK, chance.randint(1, 400), chance.randint(1, LONGEST_TICK)))


def good_amount(chance, code):
    """An amount that the code may have."""
    return tick_amount(chance) if code == TICK else 0


def bad_amount(chance, code, largest=LAST_CLOCK):
    """An amount up to the largest that the code may not have."""
    low = [0] if code == TICK else [1, 256, LONGEST_TICK, chance.randint(1, LONGEST_TICK)]
    high = [LONGEST_TICK + 1, LONGEST_TICK + 2, LAST_CLOCK, chance.randint(LONGEST_TICK + 1, LAST_CLOCK)]
    return chance.choice([amount for amount in low + high if amount <= largest])


def bad_records(chance, code):
    """Records of a listed code: with a wrong middle byte, with a wrong amount, and with both."""
    middle, amount = chance.choice((1, 255, chance.randint(1, 255))), bad_amount(chance, code, LONGEST_TICK)
    return [
        RECORD.pack(code, middle, good_amount(chance, code)),
        RECORD.pack(code, 0, amount),
        RECORD.pack(code, middle, amount),
    ]


def any_record(chance, code):
    """A record, mostly one of this code that reads."""
    if chance.random() < 0.1:
        return chance.randbytes(RECORD.size)
    if chance.random() < 0.1:
        return chance.choice(bad_records(chance, code))
    return packed_steps([(code, good_amount(chance, code))])
