"""A plain model of how `edfmend` reads signals and annotations blocks, written from its manual page
and from nothing of the program.

    from checks.lib import mending_signals
    mending_signals.good_signal(row)        the ten fields of its good form
    mending_signals.good_block(block)       its lists, to the nanosecond and in UTF-8
"""
import re
from dataclasses import dataclass
from fractions import Fraction
from typing import Optional

from . import model
from .mending_fields import Refused, characters, dimension_spelling, numeral, spaced, text_of, \
    unfilled

Row = tuple[bytes, ...]
WIDTHS = model.WIDTHS
LABEL, TRANSDUCER, DIMENSION, LOW, HIGH, FIRST, LAST, PREFILTERING, SAMPLES, REST = range(10)
TEXTS = (LABEL, TRANSDUCER, PREFILTERING, REST)
NUMBER = re.compile(rb"([+-]?)([0-9]*)(?:([.,])([0-9]*))?(?:[eE]([+-]?)([0-9]+))?")


# Signals

def value(field: bytes) -> Optional[Fraction]:
    found = NUMBER.fullmatch(unfilled(field).lstrip(b" "))
    if not found or not found[2] + (found[4] or b""):
        return None
    number = Fraction(int(found[2] + (found[4] or b"")), 10 ** len(found[4] or b""))
    if found[6]:
        size = int(found[6])
        if size > 99:
            return None
        number *= Fraction(10 ** size) if found[5] != b"-" else Fraction(1, 10 ** size)
    return -number if found[1] == b"-" else number


def is_clear(field: bytes) -> bool:
    """Whether no comma may part thousands, as it can't behind a zero alone."""
    text = re.sub(rb"^[+-]", b"", unfilled(field).lstrip(b" "))
    return not re.match(rb"(?!0,)[0-9]{1,3},[0-9]{3}(?![0-9])", text)


def limit(field: bytes) -> bytes:
    """The same number as EDF spells it in eight bytes; zeros at its end go where they have no
    room."""
    text = numeral(field)
    if model.physical(text) is not None:
        return text
    number, found = value(field), NUMBER.fullmatch(unfilled(field).lstrip(b" "))
    if number is None or found is None or not is_clear(field):
        raise Refused("E17")
    size = int(found[6] or 0) * (-1 if found[5] == b"-" else 1)
    places = max(0, len(found[4] or b"") - size)
    digits = b"%d" % abs(number * 10 ** places)
    digits = digits.rjust(places + 1, b"0")
    made = digits[:len(digits) - places] + (b"." + digits[-places:] if places else b"")
    made = (b"-" if found[1] == b"-" else b"") + made
    while len(made) > 8 and re.search(rb"\.[0-9]*0$|\.$", made):
        made = made[:-1]
    made = made.removesuffix(b".")
    if len(made) > 8:
        raise Refused("E17")
    return made.ljust(8)


def line_of(row: Row) -> Row:
    """Dimension, physical and digital limits, of which the second digital is the greater."""
    low, high, first, last = row[LOW], row[HIGH], numeral(row[FIRST]), numeral(row[LAST])
    numbers = model.signed(first), model.signed(last)
    if numbers[0] is None or numbers[1] is None:
        raise Refused("E18")
    if numbers[0] > numbers[1]:
        low, high, first, last = high, low, last, first
    if value(low) is not None and value(low) == value(high) and is_clear(low) and is_clear(high):
        return b" " * 8, first, last, first, last
    return text_of(row[DIMENSION], dimension_spelling), limit(low), limit(high), first, last


def is_labelled(row: Row) -> bool:
    return spaced(row[LABEL]) == model.ANNOTATIONS


def speaks_of_annotations(row: Row) -> bool:
    return b"annotation" in re.sub(rb"[^a-z]", b"", row[LABEL].lower())


def good_signal(row: Row) -> Row:
    samples = numeral(row[SAMPLES])
    if is_labelled(row):
        return annotations_row(samples)
    texts = {at: text_of(row[at]) for at in TEXTS}
    return (texts[LABEL], texts[TRANSDUCER], *line_of(row), texts[PREFILTERING], samples,
            texts[REST])


def annotations_row(samples: bytes) -> Row:
    texts = (model.ANNOTATIONS, b"", b"", b"-1", b"1", b"-32768", b"32767", b"", samples, b"")
    return tuple(text.ljust(width) for text, width in zip(texts, WIDTHS))


def rows_of(part: bytes, count: int) -> list[Row]:
    rows: list[list[bytes]] = [[] for _ in range(count)]
    at = 0
    for width in WIDTHS:
        for row in rows:
            row.append(part[at:at + width])
            at += width
    return [tuple(row) for row in rows]


# Annotations

def cut_off(text: bytes) -> bytes:
    """A decimal without what is finer than a nanosecond."""
    found = re.match(rb"([^.]*\.[0-9]{9})[0-9]+\Z", text, re.DOTALL)
    return found[1] if found else text


@dataclass(frozen=True)
class Part:
    """The times of a list, or a text: its offset in the block, its bytes, the new ones, and what
    ends them."""
    at: int
    old: bytes
    new: bytes
    end: bytes


def good_block(block: bytes) -> list[Part]:
    """The lists of a block, and nothing of what fills it."""
    text = block.rstrip(b"\0 ")
    text += block[len(text):len(text) + 1] if text else b""
    parts: list[Part] = []
    at, are_times = 0, True
    while at < len(text):
        found = re.compile(rb"([^\0\x14]*)([\0\x14])").match(text, at)
        if not found:
            raise Refused("E22")
        new = b"\x15".join(map(cut_off, found[1].split(b"\x15", 1))) if are_times else \
            characters(found[1]).encode()
        parts.append(Part(at, found[1], new, found[2]))
        at, are_times = found.end(), found[2] == b"\0"
    return parts
