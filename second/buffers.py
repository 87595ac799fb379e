"""Bytes by chance: buffers with room for a text or too short for it, and bytes of which one is changed."""

# A number of spare bytes that leaves no buffer at all.
NO_BUFFER = -100_000


def buffer_for(chance, length, spare):
    """A buffer that has so many spare bytes beside a text of this length."""
    return chance.randbytes(max(0, length + spare))


def with_other_byte(chance, whole, place):
    """The bytes with another one at this place."""
    return whole[:place] + bytes((whole[place] ^ chance.randint(1, 255),)) + whole[place + 1:]
