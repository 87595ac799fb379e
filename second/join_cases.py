"""Cases of join: parts that overlap, agree, differ, leave gaps or don't fit, and whole transfers."""

from buffers import with_other_byte
from corpus import case_of
from files import join

LARGEST = 2**64 - 1
ROOM = 24


def within(least, most, *numbers):
    """Those of the numbers that lie between the least and the most, each once."""
    return sorted({number for number in numbers if least <= number <= most})


def places(chance):
    """How held, offset and the part's end can lie to each other and to the buffer's length."""
    for held in (0, 1, chance.randint(2, ROOM - 2), ROOM, ROOM + 1, 2**32 + 3, LARGEST):
        for offset in within(0, LARGEST, 0, held // 2, held - 1, held, held + 1, 2**32, LARGEST):
            ends = offset, offset + 1, held - 1, held, held + 1, ROOM - 1, ROOM, ROOM + 1
            for end in within(offset, offset + ROOM + 1, *ends):
                yield held, offset, end


def joins_at(chance, held, offset, end):
    """A part that agrees with the held bytes and, where it overlaps them, parts that differ in one byte."""
    buffer = chance.randbytes(ROOM)
    overlap = buffer[offset:min(held, end)]
    part = overlap + chance.randbytes(end - offset - len(overlap))
    yield case_of("join", held, offset, part, buffer)
    for place in within(0, len(overlap) - 1, 0, len(overlap) - 1, chance.randint(0, ROOM)):
        yield case_of("join", held, offset, with_other_byte(chance, part, place), buffer)


def transfer(chance):
    """The joins of a transfer that goes on, repeats, begins again or skips, one behind the other."""
    whole = chance.randbytes(chance.randint(1, 80))
    held, buffer = 0, chance.randbytes(len(whole) + chance.choice((-1, 0, 0, 10)))
    for _ in range(chance.randint(2, 10)):
        offset = max(0, held + chance.choice((0, 0, 0, -3, -held, 1)))
        part = whole[offset:offset + chance.randint(0, 30)]
        yield case_of("join", held, offset, part, buffer)
        _, held, buffer = join(buffer, held, offset, part)


def demanded(chance):
    """The cases that the coverage demands of joining."""
    for held, offset, end in places(chance):
        yield from joins_at(chance, held, offset, end)
    for part in (b"", b"\0"):
        yield case_of("join", 0, 0, part, b"")
    for _ in range(10):
        yield from transfer(chance)


def draw(chance):
    """A transfer by chance."""
    yield from transfer(chance)
