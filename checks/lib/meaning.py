"""Whether a file that `edfmend` made means what the one before it meant, signal by signal and
annotation by annotation, by rational numbers: nothing here comes from the program.

    from checks.lib import meaning
    meaning.look(data, made)        raises Lost
"""
from fractions import Fraction
from typing import Optional

from . import model
from .checks import Lost
from .mending_fields import characters, numeral, spaced
from .mending_signals import DIMENSION, FIRST, HIGH, LABEL, LAST, LOW, PREFILTERING, REST, Row, \
    SAMPLES, TRANSDUCER, is_labelled, rows_of, value

Note = tuple[int, Optional[int], str]


def row_at(text: bytes) -> Row:
    """A signal of a key in its fields."""
    fields, at = [], 0
    for width in model.WIDTHS:
        fields.append(text[at:at + width])
        at += width
    return tuple(fields)


def line_of(row: Row) -> Optional[tuple[Fraction, Fraction]]:
    """The slope and the intercept from digital to physical values; nothing where the physical
    limits are one number."""
    low, high = value(row[LOW]), value(row[HIGH])
    first, last = model.signed(numeral(row[FIRST])), model.signed(numeral(row[LAST]))
    if low is None or high is None or first is None or last is None:
        raise Lost(f"limits that are no numbers: {row}")
    if low == high:
        return None
    slope = (high - low) / Fraction(last - first)
    return slope, low - slope * first


def look_at_signal(old: Row, new: Row) -> None:
    """Compares what the samples of an ordinary signal mean."""
    for at in (LABEL, TRANSDUCER, DIMENSION, PREFILTERING, REST):
        is_ascii = all(32 <= byte <= 126 for byte in spaced(old[at]))
        if is_ascii and new[at] != spaced(old[at]) and (at != DIMENSION or line_of(old)):
            raise Lost(f"another text of a signal: {new[at]!r} for {old[at]!r}")
    if model.whole(numeral(old[SAMPLES])) != model.whole(new[SAMPLES]):
        raise Lost(f"another number of samples: {new[SAMPLES]!r} for {old[SAMPLES]!r}")
    line = line_of(old)
    if line is None and (line_of(new) != (Fraction(1), Fraction(0)) or new[DIMENSION].strip()):
        raise Lost(f"equal limits became others than the digital ones: {new}")
    if line is not None and line_of(new) != line:
        raise Lost(f"another line from digital to physical values: {new} for {old}")


def nanoseconds(digits: bytes, decimals: Optional[bytes]) -> int:
    """A decimal, cut off at the nanosecond."""
    return int(digits) * model.SECOND + int((decimals or b"")[:9].ljust(9, b"0"))


def notes_of(block: bytes) -> list[Note]:
    """Onset, duration and text of each annotation of a block."""
    found: list[Note] = []
    at = 0
    while one := model.LIST.match(block, at):
        onset = nanoseconds(one[2], one[3])
        duration = None if one[4] is None else nanoseconds(one[4], one[5])
        found += [(-onset if one[1] == b"-" else onset, duration, characters(text))
                  for text in one[6].split(b"\x14")[:-1]]
        at = one.end()
    if block[at:].strip(b"\0 "):
        raise Lost(f"a block that is no lists: {block!r}")
    return found


def look(data: bytes, made: bytes) -> None:
    """Compares a file and what was made of it."""
    count = model.whole(numeral(data[252:256])) or 0
    rows, layout = rows_of(data[256:256 + 256 * count], count), model.Layout(made)
    key, records = model.read(made)
    ordinary = [row for row in rows if not is_labelled(row)]
    if len(ordinary) != len(key.rows):
        raise Lost(f"{len(key.rows)} signals for {len(ordinary)}")
    for old, new in zip(ordinary, map(row_at, key.rows)):
        look_at_signal(old, new)
    widths = [2 * (model.whole(numeral(row[SAMPLES])) or 0) for row in rows]
    for nth, record in enumerate(records):
        at, samples, notes = 256 + 256 * count + nth * sum(widths), b"", []
        for row, width in zip(rows, widths):
            if is_labelled(row):
                notes += notes_of(data[at:at + width])
            else:
                samples += data[at:at + width]
            at += width
        if samples != record.samples:
            raise Lost(f"other samples of data record {nth + 1}")
        told = [(instant - layout.start, duration, text.decode())
                for instant, duration, text in record.notes]
        if [note[1:] for note in notes[1:]] != [note[1:] for note in told]:
            raise Lost(f"other annotations of data record {nth + 1}: {told} for {notes}")
