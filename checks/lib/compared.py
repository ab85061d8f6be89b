"""A plain model of `edfruns cut` and `edfruns compare`: it looks at each pair of data records.

    from checks.lib import compared
    compared.cut("night.edf", data, "2023-11-05T01:30", "")     what goes out, is told, the status
    compared.compare("night.edf", "card.edf", night, card)
"""
import re
from dataclasses import dataclass
from datetime import date

from . import model, printed, runs
from .filled import Made
from .model import Key, Record

INSTANT = re.compile(r"(\d{4})-(\d\d)-(\d\d)T(\d\d):(\d\d)(?::(\d\d)(?:\.(\d{1,9}))?)?\Z")
FIELDS = (("label", 16), ("transducer", 80), ("dimension", 8), ("physical minimum", 8),
          ("physical maximum", 8), ("digital minimum", 8), ("digital maximum", 8),
          ("prefiltering", 80), ("samples", 8), ("reserved", 32))


@dataclass(frozen=True)
class Stretch:
    """Neighbours of one word."""
    word: str
    records: tuple[Record, ...]

    def line(self, duration: int) -> str:
        end = min(self.records[-1].start + duration, model.WINDOW - 1)
        return (f"{self.word} records={len(self.records)} "
                f"from={model.instant_text(self.records[0].start)} to={model.instant_text(end)}\n")


# cut

def instant(text: str) -> int:
    """Nanoseconds from 1985 of an instant as it is written; -1 where it is none."""
    found = INSTANT.match(text)
    if not found:
        return -1
    year, month, day, hour, minute, second = (int(part or 0) for part in found.groups()[:6])
    if hour > 23 or minute > 59 or second > 59:
        return -1
    try:
        days = date(year, month, day).toordinal() - model.EPOCH
    except ValueError:
        return -1
    nanos = days * model.DAY + (3_600 * hour + 60 * minute + second) * model.SECOND + \
        int((found[7] or "").ljust(9, "0"))
    return nanos if 0 <= nanos < model.WINDOW else -1


def undated_run(key: Key, records: list[Record], first: Record) -> int:
    """The number of the run that has this data record, where no header of it can name its start."""
    if key.dated == b"D" or first.start // model.DAY not in model.LETTERS:
        return 0
    return int(next(run.number for run in runs.runs_of(key, records) if first in run.records))


def cut(name: str, data: bytes, begin: str, end: str) -> Made:
    """The data records that last between both instants; an empty text leaves one out."""
    low, high = instant(begin) if begin else 0, instant(end) if end else model.WINDOW
    if not begin and not end or low < 0 or high < 0 or low >= high:
        return Made(b"", "", 2)
    try:
        key, records = model.read(data)
    except model.Refused as fault:
        return Made(b"", f"{name} refused {fault}\n", 1)
    taken = [record for record in records
             if record.start + key.duration() > low and record.start < high]
    if not taken:
        return Made(b"", f"{name} has no data record of this time\n", 1)
    number = undated_run(key, records, taken[0])
    if number:
        return Made(b"", printed.undated(number), 1)
    return Made(model.canonical(key, taken), "", 0)


# compare

def overlap(one: Record, other: Record, duration: int) -> bool:
    return one.start < other.start + duration and other.start < one.start + duration


def word_of(record: Record, others: list[Record], duration: int) -> str:
    """What a data record of the second file is beside those of the first."""
    if record in others:
        return "known"
    if any(record.start == other.start for other in others):
        return "differs"
    return "overlaps" if any(overlap(record, other, duration) for other in others) else "new"


def stretches(words: list[str], records: list[Record]) -> list[Stretch]:
    """Neighbours with the same word, together."""
    made: list[Stretch] = []
    for word, record in zip(words, records):
        if made and made[-1].word == word:
            made[-1] = Stretch(word, (*made[-1].records, record))
        else:
            made.append(Stretch(word, (record,)))
    return made


def other_field(key: Key, other: Key) -> str:
    """The first field of a header by which two recordings differ."""
    for name, one, two in (("patient", key.patient, other.patient),
                           ("startdate subfield", key.dated, other.dated),
                           ("recording", key.following, other.following),
                           ("duration", key.duration_text, other.duration_text),
                           ("number of signals", len(key.rows), len(other.rows))):
        if one != two:
            return name
    for nth, (row, another) in enumerate(zip(key.rows, other.rows), 1):
        at = 0
        for name, width in FIELDS:
            if row[at:at + width] != another[at:at + width]:
                return f"{name} of signal {nth}"
            at += width
    return ""


def lines(key: Key, firsts: list[Record], seconds: list[Record]) -> tuple[str, bool]:
    """The lines of all stretches, and whether the first file has each data record of the second."""
    words = [word_of(record, firsts, key.duration()) for record in seconds]
    starts = {record.start for record in seconds}
    lacking = ["" if record.start in starts else "lacking" for record in firsts]
    made = stretches(words, seconds) + [one for one in stretches(lacking, firsts) if one.word]
    made.sort(key=lambda one: int(one.records[0].start))
    return "".join(one.line(key.duration()) for one in made), set(words) == {"known"}


def compare(name: str, other: str, first: bytes, second: bytes) -> Made:
    read = []
    for called, data in ((name, first), (other, second)):
        try:
            read.append(model.read(data))
        except model.Refused as fault:
            return Made(b"", f"{called} refused {fault}\n", 1)
    (key, firsts), (other_key, seconds) = read
    if field := other_field(key, other_key):
        return Made(b"", f"{other} is of another recording than {name}: the {field} differs\n", 1)
    text, has_all = lines(key, firsts, seconds)
    return Made(text.encode(), "", 0 if has_all else 1)
