"""The fewest parts of a case that still fail, by hypothesis."""
import random
from typing import Callable

TRIES = 500     # cases that are looked at before one is found, and as many while it shrinks


def fewest(parts: list, fails: Callable[[list], bool]) -> list:
    """Of these parts, in their order, as few as were found that still fail; all of them where
    Debian's python3-hypothesis is not here."""
    try:
        from hypothesis import find, settings, strategies
        from hypothesis.errors import NoSuchExample
    except ImportError:
        return parts
    marks = strategies.lists(strategies.booleans(), min_size=len(parts), max_size=len(parts))

    def kept(marked: list) -> list:
        return [part for part, is_kept in zip(parts, marked) if is_kept]

    try:
        return kept(find(marks, lambda marked: fails(kept(marked)), random=random.Random(1),
                         settings=settings(max_examples=TRIES, deadline=None, database=None)))
    except NoSuchExample:
        return parts
