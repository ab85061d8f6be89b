"""A plain model of `edfruns fill`, beside those of `edfstore` and of the runs: one EDF+C file of a
whole recording. It is short and slow on purpose: it tries each division of a data record, and each
digital value of a signal, and it keeps a list of all places.

    from checks.lib import filled
    made = filled.fill("night.edf", data)       what goes out, what is told, and the status
    made.out, made.err, made.status
    filled.fill("night.edf", data, longest="48", moved="15")        with both options
"""
from dataclasses import dataclass, replace
from fractions import Fraction
from functools import lru_cache
from math import gcd, lcm

from . import edf, model, runs
from .model import Key, Record

Note = tuple[int, int | None, bytes]
SECOND, HOUR = model.SECOND, 3_600 * model.SECOND
NOT_RECORDED, MARK = b"Not recorded", b" filled"
SAMPLES = slice(216, 224)       # of a signal's row
SIGNALS = {"label": slice(0, 16), "dimension": slice(96, 104), "low": slice(104, 112),
           "high": slice(112, 120), "least": slice(120, 128), "most": slice(128, 136)}


class NotFilled(Exception):
    """Why a recording has no filled file: the line, without the name of its file."""


@dataclass(frozen=True)
class Made:
    """What a command writes, what it tells, and its status."""
    out: bytes
    err: str
    status: int


@dataclass(frozen=True)
class Filled:
    """The data records of a filled file, under its key, and what is told of them."""
    key: Key
    records: tuple[Record, ...]
    is_flat: tuple[bool, ...]       # of each of them
    gaps: int
    closed: int
    moved: int


def text(row: bytes, name: str) -> bytes:
    return row[SIGNALS[name]].rstrip(b" ")


def samples_of(row: bytes) -> int:
    """How many samples a signal has in a data record."""
    number = model.whole(row[SAMPLES])
    assert isinstance(number, int)
    return number


# Parts

def lasts(key: Key, parts: int) -> int:
    """How long one of so many parts lasts; 0 where a data record can't be divided so."""
    length, over = divmod(key.duration(), parts)
    is_even = not over and not any(samples_of(row) % parts for row in key.rows)
    return length if is_even and len(model.shortest(length)) <= 8 else 0


def division(key: Key) -> tuple[int, int]:
    """Into how many parts a data record is divided, and how long each lasts."""
    common = gcd(key.duration(), *map(samples_of, key.rows))
    able = [parts for parts in range(1, common + 1) if not common % parts and lasts(key, parts)]
    short = [parts for parts in able if lasts(key, parts) <= SECOND]
    parts = min(short) if short else max(able)
    return parts, lasts(key, parts)


def parted(key: Key, parts: int, samples: bytes) -> list[bytes]:
    """The samples of each part."""
    signals, at = [], 0
    for row in key.rows:
        size = 2 * samples_of(row)
        signals.append(samples[at:at + size])
        at += size
    return [b"".join(signal[nth * len(signal) // parts:(nth + 1) * len(signal) // parts]
                     for signal in signals) for nth in range(parts)]


def marked(key: Key, parts: int, length: int) -> Key:
    """The key of a filled file: of another recording, whose data records are the parts."""
    following = key.following.rstrip(b" ") + MARK
    if len(following) > (59 if key.dated == b"D" else 69):
        raise NotFilled("has no room for the word 'filled' in its recording field")
    rows = tuple(row[:216] + edf.filled(str(samples_of(row) // parts), 8) + row[224:]
                 for row in key.rows) if parts > 1 else key.rows
    duration = edf.filled(model.shortest(length), 8) if parts > 1 else key.duration_text
    return replace(key, following=following.ljust(len(key.following)), duration_text=duration,
                   rows=rows)


# Flat samples

def physical(row: bytes, name: str) -> Fraction:
    value = model.physical(row[SIGNALS[name]])
    assert isinstance(value, Fraction)
    return value


@lru_cache(maxsize=None)
def flat_value(row: bytes) -> int:
    """The digital value whose physical value is nearest to 0, and the least of such."""
    limits = physical(row, "low"), physical(row, "high")
    unit = lcm(*(limit.denominator for limit in limits))
    low, high = (int(limit * unit) for limit in limits)
    least, most = int(text(row, "least")), int(text(row, "most"))
    distances = [abs(low * (most - digital) + high * (digital - least))
                 for digital in range(least, most + 1)]
    return least + distances.index(min(distances))


def flat_samples(key: Key) -> bytes:
    return b"".join(samples_of(row) * flat_value(row).to_bytes(2, "little", signed=True)
                    for row in key.rows)


def outside_line(nth: int, row: bytes) -> str:
    """What is told of a signal whose limits don't have 0 between them."""
    low, high = physical(row, "low"), physical(row, "high")
    if low * high <= 0:
        return ""
    nearer = text(row, "low" if abs(low) < abs(high) else "high").decode()
    parts = [f"signal {nth}", text(row, "label").decode(), "is flat at", nearer,
             text(row, "dimension").decode()]
    return " ".join(part for part in parts if part) + ": 0 is outside its limits\n"


# Places

def gaps_of(key: Key, records: list[Record]) -> list[tuple[int, int]]:
    """When each gap begins, and how long it is."""
    ends = [record.start + key.duration() for record in records]
    return [(end, record.start - end) for end, record in zip(ends, records[1:])
            if record.start > end]


def place(length: int, first: int, instant: int) -> int:
    """How many parts after the first an instant lies, to the nearest; a half counts as one."""
    return int((2 * Fraction(instant - first, length) + 1) // 2)


def moves(records: list[Record], length: int) -> list[int]:
    """How far each data record moves."""
    first = records[0].start
    return [first + place(length, first, record.start) * length - record.start
            for record in records]


def moved_notes(key: Key, records: list[Record], length: int) -> list[Note]:
    """Each annotation, moved with the data record in which it happened, or as it is."""
    notes: list[Note] = []
    shifts = list(zip(records, moves(records, length)))
    for onset, duration, words in (note for record in records for note in record.notes):
        shift = [by for record, by in shifts
                 if record.start <= onset < record.start + key.duration()]
        notes.append((onset + sum(shift), duration, words))
    return notes


def gap_notes(is_flat: list[bool], first: int, length: int) -> list[Note]:
    """An annotation for each stretch of flat places."""
    notes: list[Note] = []
    at = 0
    while at < len(is_flat):
        end = at
        while is_flat[end]:
            end += 1
        if end > at:
            notes.append((first + at * length, (end - at) * length, NOT_RECORDED))
        at = end + 1
    return notes


def laid_out(key: Key, records: list[Record], parts: int, length: int) -> list[bytes | None]:
    """The samples at each place; None where it has none."""
    first = records[0].start
    count = place(length, first, records[-1].start) + parts
    if count > model.MOST_RECORDS:
        raise NotFilled(f"would have more than {model.MOST_RECORDS} data records")
    places: list[bytes | None] = [None] * count
    for record in records:
        at = place(length, first, record.start)
        for nth, samples in enumerate(parted(key, parts, record.samples)):
            assert places[at + nth] is None, "a place has one part"
            places[at + nth] = samples
    return places


def with_gaps(key: Key, records: list[Record], moved: int) -> Filled:
    """The filled data records of a recording that has gaps."""
    parts, length = division(key)
    filled_key = marked(key, parts, length)
    first, shifts = records[0].start, [abs(by) for by in moves(records, length)]
    if max(shifts) > moved:
        raise NotFilled(moved_line(records, shifts, moved))
    places, flat = laid_out(key, records, parts, length), flat_samples(filled_key)
    is_flat = [samples is None for samples in places]
    made = [Record(first + nth * length, flat if samples is None else samples, ())
            for nth, samples in enumerate(places)]
    notes = moved_notes(key, records, length) + gap_notes(is_flat, first, length)
    if max([made[-1].start, *(onset for onset, _, _ in notes)]) >= model.WINDOW:
        raise NotFilled("would go on after 2184")
    made[0] = replace(made[0], notes=tuple(notes))
    at = [place(length, first, record.start) for record in records]
    closed = sum(record.start > before.start + key.duration() and next_at == before_at + parts
                 for before, record, before_at, next_at in zip(records, records[1:], at, at[1:]))
    return Filled(filled_key, tuple(runs.by_onset(made)), tuple(is_flat),
                  len(gaps_of(key, records)), closed, max(shifts))


def moved_line(records: list[Record], shifts: list[int], most: int) -> str:
    """Of the first data record that would move too far."""
    record, by = next((record, by) for record, by in zip(records, shifts) if by > most)
    return (f"has a data record that would move by {model.shortest(by).decode()} s, at "
            f"{model.instant_text(record.start)}")


def check_limits(records: tuple[Record, ...]) -> None:
    """None has more annotations than a data record may have."""
    for record in records:
        if len(record.notes) > model.MOST_NOTES or \
                sum(len(words) for _, _, words in record.notes) > model.MOST_TEXT:
            raise NotFilled("would have too many annotations in a data record")


def filled_of(key: Key, records: list[Record], longest: int, moved: int) -> Filled:
    gaps = gaps_of(key, records)
    for begin, length in gaps:
        if length > longest:
            raise NotFilled(f"has a gap of {model.shortest(length).decode()} s from "
                            f"{model.instant_text(begin)}: cut it first")
    made = with_gaps(key, records, moved) if gaps else \
        Filled(key, tuple(runs.by_onset(records)), (False,) * len(records), 0, 0, 0)
    check_limits(made.records)
    return made


# The command

def told(name: str, made: Filled) -> str:
    flat = sum(made.is_flat)
    lines = [outside_line(nth, row) for nth, row in enumerate(made.key.rows, 1)] if flat else []
    return (f"{name} records={len(made.records)} flat={flat} gaps={made.gaps} "
            f"closed={made.closed} moved={model.shortest(made.moved).decode()}\n" + "".join(lines))


def continuous(key: Key, records: tuple[Record, ...]) -> bytes:
    """The canonical file of data records without a gap, marked so."""
    data = bytearray(model.canonical(key, list(records)))
    data[runs.RESERVED] = b"EDF+C"
    return bytes(data)


def fill(name: str, data: bytes, longest: str = "24", moved: str = "0.5") -> Made:
    """What `edfruns fill` makes of a file; both options count hours and seconds."""
    try:
        key, records = model.read(data)
        made = filled_of(key, records, int(Fraction(longest) * HOUR), int(Fraction(moved) * SECOND))
    except model.Refused as fault:
        return Made(b"", f"{name} refused {fault}\n", 1)
    except NotFilled as why:
        return Made(b"", f"{name} {why}\n", 1)
    return Made(continuous(made.key, made.records), told(name, made), 0)
