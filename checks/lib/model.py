"""A plain model of `edfstore`, written from docs/FORMAT.md and docs/REFUSALS.md alone: what is
wrong with a file, what a store answers to a list of files and then holds, what it lists and
exports. It is short and slow on purpose; it knows no store and no transaction, and nothing of it
comes from the program.

    from checks.lib import model
    store = model.Store()
    store.take(data)        the answer of `take`, without the file's name
    store.lines()           the lines of `list`, as text
    store.export(1)         the canonical file of the recording at place 1, as bytes
"""
import re
import sys
from bisect import bisect_left
from dataclasses import dataclass
from datetime import date
from fractions import Fraction

from . import faults, printed

sys.set_int_max_str_digits(0)        # an onset may be spelled with a million zeros

SECOND = 10**9
DAY = 86_400 * SECOND
WINDOW = 73_049 * DAY                # 1985 to 2184
LETTERS = range(36_525, 73_049)      # days of 2085 to 2184: their startdates have yy for the year
EPOCH = date(1985, 1, 1).toordinal()
ANNOTATIONS = b"EDF Annotations "
UNKNOWN = b"-1      "                # the number of data records of a file without a count
MOST_RECORDS, MOST_BYTES, MOST_NOTES, MOST_TEXT = 99_999_999, 4_194_304, 10_000, 1_000_000
MONTHS = (b"JAN", b"FEB", b"MAR", b"APR", b"MAY", b"JUN", b"JUL", b"AUG", b"SEP", b"OCT", b"NOV",
          b"DEC")
WIDTHS = (16, 80, 8, 8, 8, 8, 8, 80, 8, 32)

WHOLE = re.compile(rb"([0-9]+) *\Z")
SIGNED = re.compile(rb"([+-]?[0-9]+) *\Z")
DECIMAL = re.compile(rb"([0-9]+)(?:\.([0-9]+))? *\Z")
PHYSICAL = re.compile(rb"([+-]?)([0-9]+)(?:\.([0-9]*))? *\Z")
LIST = re.compile(rb"([+-])([0-9]+)(?:\.([0-9]+))?(?:\x15([0-9]+)(?:\.([0-9]+))?)?\x14"
                  rb"((?:[^\x00\x14]*\x14)*)\x00")


class Refused(Exception):
    """The text of a refusal."""


@dataclass(frozen=True)
class Record:
    start: int                  # nanoseconds from 1985-01-01 00:00:00
    samples: bytes
    notes: tuple                # (instant, duration or None, text)


@dataclass(frozen=True)
class Key:
    patient: bytes
    dated: bytes                # b"D" or b"X"
    following: bytes
    duration_text: bytes
    rows: tuple

    def to_bytes(self) -> bytes:
        return self.patient + self.dated + self.following + self.duration_text + b"".join(self.rows)

    def duration(self) -> int:
        return decimal(self.duration_text)

    def codes(self) -> tuple:
        """Those of the patient and of the investigation."""
        return tuple(subfields(text)[0].decode() for text in (self.patient, self.following))


# Texts

def whole(text: bytes):
    found = WHOLE.match(text)
    return int(found[1]) if found else None


def signed(text: bytes):
    found = SIGNED.match(text)
    return int(found[1]) if found else None


def least_and_most(count: bytes):
    """How few and how many data records a file of this count may have; None where it is no
    count."""
    if count == UNKNOWN:
        return 1, MOST_RECORDS
    number = whole(count)
    return (number, number) if number else None


def nanoseconds(digits: bytes, decimals):
    """The value of a decimal in nanoseconds; None where it is finer than that."""
    decimals = decimals or b""
    if decimals[9:].strip(b"0"):
        return None
    return int(digits) * SECOND + int(decimals[:9].ljust(9, b"0"))


def decimal(text: bytes):
    found = DECIMAL.match(text)
    return nanoseconds(found[1], found[2]) if found else None


def physical(text: bytes):
    found = PHYSICAL.match(text)
    if not found:
        return None
    decimals = found[3] or b""
    value = Fraction(int(found[2] + decimals), 10 ** len(decimals))
    return -value if found[1] == b"-" else value


def day_of(year: int, month: int, day: int):
    """Days from 1985-01-01, in the Gregorian calendar carried backwards; None where there is no
    such day."""
    # Python's dates begin with the year 1; 400 years are 146,097 days
    cycles = 1 if year == 0 else 0
    try:
        return date(year + 400 * cycles, month, day).toordinal() - 146_097 * cycles - EPOCH
    except ValueError:
        return None


def identification_date(text: bytes):
    found = re.match(rb"([0-9]{2})-([A-Z]{3})-([0-9]{4})\Z", text)
    if not found or found[2] not in MONTHS:
        return None
    return day_of(int(found[3]), MONTHS.index(found[2]) + 1, int(found[1]))


def start_date(text: bytes):
    found = re.match(rb"([0-9]{2})\.([0-9]{2})\.([0-9]{2})\Z", text)
    if not found:
        return None
    year = int(found[3])
    return day_of(year + (1900 if year >= 85 else 2000), int(found[2]), int(found[1]))


def is_yearless(text: bytes) -> bool:
    """Whether the text is a day and a month of some year, with the letters yy for the year."""
    found = re.match(rb"([0-9]{2})\.([0-9]{2})\.yy\Z", text)
    return bool(found) and day_of(2096, int(found[2]), int(found[1])) is not None    # a leap year


def late_date(text: bytes, day: int):
    """The day that a startdate with the letters yy names beside this day in the Startdate subfield;
    None where it is not that one."""
    if day not in LETTERS:
        return None
    named = date.fromordinal(EPOCH + day)
    return day if text[:6] == b"%02d.%02d." % (named.day, named.month) else None


def start_time(text: bytes):
    found = re.match(rb"([0-9]{2})\.([0-9]{2})\.([0-9]{2})\Z", text)
    if not found:
        return None
    hour, minute, second = (int(part) for part in found.groups())
    return 3600 * hour + 60 * minute + second if hour < 24 and minute < 60 and second < 60 else None


def subfields(text: bytes) -> list:
    return [part for part in text.split(b" ") if part]


def is_patient(text: bytes) -> bool:
    parts = subfields(text)
    return len(parts) >= 4 and parts[1] in (b"F", b"M", b"X") and \
        (parts[2] == b"X" or identification_date(parts[2]) is not None)


def recording(text: bytes):
    """The day or None, the letter, and what follows the Startdate subfield as 69 bytes; None where
    it is no such field."""
    found = re.match(rb"Startdate ([^ ]+)( .*)\Z", text, re.DOTALL)
    if not found or len(subfields(found[2])) < 3:
        return None
    if found[1] == b"X":
        return None, b"X", found[2]
    day = identification_date(found[1])
    return None if day is None else (day, b"D", found[2].ljust(69))


def is_annotations(row: tuple) -> bool:
    """Whether the fields of a signal that is labelled so are those of an annotations signal."""
    low, high = physical(row[3]), physical(row[4])
    is_ranged = low is not None and high is not None and low != high
    return is_ranged and signed(row[5]) == -32768 and signed(row[6]) == 32767


def unprintable(part: bytes):
    return next((at for at, byte in enumerate(part) if not 32 <= byte <= 126), None)


# A file

class Layout:
    """What a header says of its records."""

    def __init__(self, data: bytes):
        self._fixed(data)
        self._signals(data)

    def _fixed(self, data: bytes) -> None:
        if len(data) < 256:
            raise Refused(faults.cut())
        if (at := unprintable(data[:256])) is not None:
            raise Refused(faults.unprintable(at))
        if data[:8] != b"0       ":
            raise Refused(faults.version())
        self.patient = data[8:88]
        if not is_patient(self.patient):
            raise Refused(faults.patient())
        self._fixed_start(data)
        if data[192:197] not in (b"EDF+C", b"EDF+D"):
            raise Refused(faults.not_plus())
        counts = least_and_most(data[236:244])
        if counts is None:
            raise Refused(faults.count())
        self.least, self.most = counts
        self.duration_text = data[244:252]
        self.duration = decimal(self.duration_text)
        if not self.duration:
            raise Refused(faults.duration())
        self.ns = whole(data[252:256])
        if self.ns is None or not 2 <= self.ns <= 640:
            raise Refused(faults.signals())
        if whole(data[184:192]) != 256 + 256 * self.ns:
            raise Refused(faults.header_bytes())

    def _fixed_start(self, data: bytes) -> None:
        found = recording(data[88:168])
        if found is None:
            raise Refused(faults.recording())
        day, self.dated, self.following = found
        text = data[168:176]
        startday = start_date(text)
        if startday is None and (day is None or not is_yearless(text)):
            raise Refused(faults.startdate())
        time = start_time(data[176:184])
        if time is None:
            raise Refused(faults.starttime())
        if startday is None:
            startday = late_date(text, day)
        if startday is None or (day is not None and day != startday):
            raise Refused(faults.dates_differ())
        self.start = startday * DAY + time * SECOND

    def _signals(self, data: bytes) -> None:
        part = data[256:256 + 256 * self.ns]
        if len(part) < 256 * self.ns:
            raise Refused(faults.cut_signals())
        if (at := unprintable(part)) is not None:
            raise Refused(faults.unprintable_signals(256 + at))
        rows = self._rows(part)
        noted = [row for row in rows if row[0] == ANNOTATIONS]
        ordinary = [(i, row) for i, row in enumerate(rows, 1) if row[0] != ANNOTATIONS]
        if not noted or not ordinary or not all(is_annotations(row) for row in noted):
            raise Refused(faults.annotations())
        self._check_ordinary(ordinary)
        sizes = [whole(row[8]) for row in rows]
        for i, size in enumerate(sizes, 1):
            if not size:
                raise Refused(faults.samples(i))
        self.parts = [(row[0] == ANNOTATIONS, 2 * size) for row, size in zip(rows, sizes)]
        for kind in (True, False):
            if sum(size for is_block, size in self.parts if is_block == kind) > MOST_BYTES:
                raise Refused(faults.size())
        self.record_bytes = 2 * sum(sizes)
        self.key = Key(self.patient, self.dated, self.following, self.duration_text,
                       tuple(b"".join(row) for _, row in ordinary))

    def _rows(self, part: bytes) -> list:
        """The ten fields of each signal, from their columns."""
        columns, at = [], 0
        for width in WIDTHS:
            columns.append([part[at + width * i:at + width * (i + 1)] for i in range(self.ns)])
            at += width * self.ns
        return list(zip(*columns))

    @staticmethod
    def _check_ordinary(ordinary: list) -> None:
        for i, row in ordinary:
            low, high = physical(row[3]), physical(row[4])
            if low is None or high is None or low == high:
                raise Refused(faults.physical(i))
        for i, row in ordinary:
            low, high = signed(row[5]), signed(row[6])
            if low is None or high is None or not -32768 <= low < high <= 32767:
                raise Refused(faults.digital(i))

    def parted(self, record: bytes) -> tuple:
        """The ordinary sample bytes of a data record and the list of its annotations blocks, both
        in file order."""
        samples, blocks, at = [], [], 0
        for is_block, size in self.parts:
            (blocks if is_block else samples).append(record[at:at + size])
            at += size
        return b"".join(samples), blocks


def read_lists(block: bytes, nth: int, front: int) -> list:
    """The lists of a block: onset, duration or None, and the texts with their offsets. `front` is
    how many bytes the blocks before it have, since offsets count over all blocks of a record."""
    lists, at = [], 0
    while at < len(block) and block[at]:
        found = LIST.match(block, at)
        onset = nanoseconds(found[2], found[3]) if found else None
        duration = nanoseconds(found[4], found[5]) if found and found[4] is not None else 0
        if onset is None or duration is None:
            raise Refused(faults.tal(nth, front + at))
        texts, place = [], front + found.start(6)
        for text in found[6].split(b"\x14")[:-1]:
            texts.append((place, text))
            place += len(text) + 1
        lists.append((-onset if found[1] == b"-" else onset,
                      None if found[4] is None else duration, texts))
        at = found.end()
    if block[at:].strip(b"\0"):
        raise Refused(faults.tal(nth, front + at))
    return lists


def check_texts(lists: list, nth: int) -> None:
    for _, _, texts in lists:
        for at, text in texts:
            try:
                text.decode()
            except UnicodeDecodeError:
                raise Refused(faults.text(nth, at)) from None


def read_blocks(blocks: list, nth: int, layout: Layout, before) -> tuple:
    """The start of the record, which its first block has, and its annotations, those of all blocks
    in their order; `before` is the start of the record before it, or None."""
    each, front = [], 0
    for block in blocks:
        each.append(read_lists(block, nth, front))
        front += len(block)
    first, lists = each[0], [one for part in each for one in part]
    check_texts(lists, nth)
    if not first or not first[0][2] or first[0][2][0][1]:
        raise Refused(faults.not_timed(nth))
    if before is None and not 0 <= first[0][0] < SECOND:
        raise Refused(faults.first_onset(nth))
    for onset, duration, _ in lists:
        if not 0 <= layout.start + onset < WINDOW or (duration is not None and duration >= WINDOW):
            raise Refused(faults.window(nth))
    start = layout.start + first[0][0]
    if before is not None and start < before + layout.duration:
        raise Refused(faults.order(nth))
    notes = tuple((layout.start + onset, duration, text) for onset, duration, texts in lists
                  for _, text in texts)[1:]
    if len(notes) > MOST_NOTES or sum(len(text) for _, _, text in notes) > MOST_TEXT:
        raise Refused(faults.too_many(nth))
    return start, notes


def read(data: bytes) -> tuple:
    """The key and the records of a file, or `Refused` with its first fault. Where the file has no
    count, a record after the first is there where a byte of it is."""
    layout = Layout(data)
    records, at, before = [], 256 + 256 * layout.ns, None
    while len(records) < layout.least or (at < len(data) and len(records) < layout.most):
        nth = len(records) + 1
        if len(data) - at < layout.record_bytes:
            raise Refused(faults.cut_record(nth))
        samples, blocks = layout.parted(data[at:at + layout.record_bytes])
        before, notes = read_blocks(blocks, nth, layout, before)
        records.append(Record(before, samples, notes))
        at += layout.record_bytes
    if at != len(data):
        raise Refused(faults.trailing())
    return layout.key, records


def refusal(data: bytes) -> str:
    """The first fault of a file, or nothing."""
    try:
        read(data)
    except Refused as fault:
        return str(fault)
    return ""


# What is written

def shortest(nanos: int) -> bytes:
    seconds, rest = divmod(nanos, SECOND)
    return str(seconds).encode() + ((b".%09d" % rest).rstrip(b"0") if rest else b"")


def civil(instant: int) -> tuple:
    day, rest = divmod(instant, DAY)
    seconds, fraction = divmod(rest, SECOND)
    named = date.fromordinal(EPOCH + day)
    return named, seconds // 3600, seconds // 60 % 60, seconds % 60, fraction


def instant_text(instant: int) -> str:
    day, hour, minute, second, fraction = civil(instant)
    decimals = (".%09d" % fraction).rstrip("0") if fraction else ""
    return f"{day.isoformat()}T{hour:02}:{minute:02}:{second:02}{decimals}"


def written_list(onset: int, duration, text: bytes) -> bytes:
    spelled = b"" if duration is None else b"\x15" + shortest(duration)
    sign = b"-" if onset < 0 else b"+"
    return sign + shortest(abs(onset)) + spelled + b"\x14" + text + b"\x14\0"


def written_block(record: Record, base: int) -> bytes:
    return written_list(record.start - base, None, b"") + \
        b"".join(written_list(at - base, duration, text) for at, duration, text in record.notes)


def canonical(key: Key, records: list) -> bytes:
    """The one canonical file of these records, which rise."""
    base = records[0].start // SECOND * SECOND
    day, hour, minute, second, _ = civil(base)
    named = b"%02d-%s-%04d" % (day.day, MONTHS[day.month - 1], day.year)
    dated = named if key.dated == b"D" else b"X"
    year = b"yy" if base // DAY in LETTERS else b"%02d" % (day.year % 100)
    blocks = [written_block(record, base) for record in records]
    samples = (max(len(block) for block in blocks) + 1) // 2
    notes = (ANNOTATIONS, b"", b"", b"-1", b"1", b"-32768", b"32767", b"", b"%d" % samples, b"")
    ns = len(key.rows) + 1
    fixed = b"".join((b"0       ", key.patient, (b"Startdate " + dated + key.following)[:80],
                      b"%02d.%02d.%s" % (day.day, day.month, year),
                      b"%02d.%02d.%02d" % (hour, minute, second), b"%-8d" % (256 + 256 * ns),
                      b"EDF+D".ljust(44), b"%-8d" % len(records), key.duration_text, b"%-4d" % ns))
    part, at = [], 0
    for width, text in zip(WIDTHS, notes):
        part += [row[at:at + width] for row in key.rows] + [text.ljust(width)]
        at += width
    body = [piece for record, block in zip(records, blocks)
            for piece in (record.samples, block.ljust(2 * samples, b"\0"))]
    return b"".join([fixed, *part, *body])


# A store

class Store:
    """What a list of files is answered, and what is held after it."""

    def __init__(self, cap: int = MOST_RECORDS):
        self.cap = cap
        self.held = {}          # key: (starts, records), both rising

    def take(self, data: bytes) -> str:
        try:
            key, records = read(data)
            new = self._new(key, records)
        except Refused as fault:
            return printed.refused(str(fault))
        if new:
            starts, held = self.held.setdefault(key, ([], []))
            for record in new:
                at = bisect_left(starts, record.start)
                starts.insert(at, record.start)
                held.insert(at, record)
        return printed.accepted(len(new), len(records) - len(new))

    def _new(self, key: Key, records: list) -> list:
        starts, held = self.held.get(key, ([], []))
        new = []
        for record in records:
            begin = bisect_left(starts, record.start - key.duration() + 1)
            near = held[begin:bisect_left(starts, record.start + key.duration())]
            clashing = [stored for stored in near if stored != record]
            if clashing and clashing[0].start == record.start:
                raise Refused(faults.differs(instant_text(record.start)))
            if clashing:
                raise Refused(faults.overlap(instant_text(record.start),
                                             instant_text(clashing[0].start)))
            if not near:
                new.append(record)
        if new and len(held) + len(new) > self.cap:
            raise Refused(faults.full(len(held), len(new), self.cap))
        return new

    def keys(self) -> list:
        return sorted(self.held, key=Key.to_bytes)

    def lines(self) -> str:
        lines = []
        for place, key in enumerate(self.keys(), 1):
            starts, records = self.held[key]
            lines.append(printed.recording(place, len(records), instant_text(starts[0]),
                                           *key.codes()))
        return "".join(lines)

    def export(self, place: int) -> bytes:
        key = self.keys()[place - 1]
        return canonical(key, self.held[key][1])
