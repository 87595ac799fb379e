"""Searches by chance that end: with what was sought, or by saying what it was."""

MOST_TRIES = 1_000


class NotFound(Exception):
    """What was sought and did not come up."""


def first_found(sought, attempt):
    """What the first attempt that gives more than None gives; so many attempts are made."""
    for _ in range(MOST_TRIES):
        found = attempt()
        if found is not None:
            return found
    raise NotFound(f"not found in {MOST_TRIES} tries: {sought}")
