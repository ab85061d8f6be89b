"""Recordings by chance, for the checks of `edfruns fill`, `cut` and `compare`: with gaps, clocks
that drift or jump, data records of 1/16 to 60 s, up to three annotations signals, physical limits
turned round, and dates after 2084.

    night = drifting.any_night(random.Random("1/7"))
    night.to_bytes()                                the file, its annotations spread by chance
    replace(night, records=some).to_bytes()         a file of some of its data records
"""
import random
from dataclasses import dataclass, replace

from . import edf, model
from .model import Record

Note = tuple[int, int | None, bytes]
DURATIONS = ("0.0625", "0.1", "0.5", "0.999", "1", "1.001", "2", "10", "30", "60", "7.2")
TEXTS = ("Snore", "Apnea", "a", "", "Lights off", "\u00e9", "\u65e5", "Not recorded", "x" * 40)
# physical minimum and maximum, digital minimum and maximum
LIMITS = (("0", "100", "-32768", "32767"), ("100", "0", "-32768", "32767"),
          ("-250", "250", "-2048", "2047"), ("250", "-250", "-2048", "2047"),
          ("-3276.8", "3276.7", "-32768", "32767"), ("5", "10", "0", "100"),
          ("-10", "-5", "0", "100"), ("10", "5", "-7", "8"), ("0.5", "-0.25", "-7", "8"),
          ("0", "-1", "-5", "5"), ("-1", "0.00003", "-100", "30000"), ("-0", "1", "3", "9"),
          ("-99999.9", "0.000001", "-32768", "32767"), ("-1", "1", "0", "1"),
          ("1.", "-1", "-1", "2"))
FOLLOWING = (" N1 T3 REC5", " X X X", " N1 T3 REC5 filled", "  A B C  d", " N1 T3 " + 44 * "y")
# with no room for ` filled`
CROWDED = (" N1  T3 R5 " + 40 * "x" + " filled", " N1 T3 " + 52 * "z")
# whole seconds from 1985 at which nights begin: a midnight, the last second of 2084, and of 2184
STARTS = (541_727_990, 541_728_000, 36_525 * 86_400 - 9, 40_000 * 86_400, 73_049 * 86_400 - 40)
SAMPLES = (1, 1, 2, 3, 4, 10, 30, 60, 100, 7)


@dataclass(frozen=True)
class Night:
    """A recording and how its files are spelled."""
    key: model.Key
    records: tuple[Record, ...]
    spelling: str               # the seed of all that a file's spelling leaves open

    def to_bytes(self) -> bytes:
        return file_of(self.key, list(self.records), random.Random(self.spelling))


def row_of(chance: random.Random) -> bytes:
    low, high, least, most = chance.choice(LIMITS)
    count = chance.choice(SAMPLES)
    label, dimension = chance.choice((("SpO2", "%"), ("EEG Fpz-Cz", "uV"), ("Pulse", "bpm"),
                                      ("Stage", "")))
    samples = chance.choice((f"{count}", f"{count:03}"))
    return edf.Signal(label, "", dimension, low, high, least, most, "", samples, "").row()


def key_of(chance: random.Random, is_late: bool) -> model.Key:
    duration = chance.choice(DURATIONS)
    text = duration + ("0" if "." in duration and chance.random() < 0.5 else "")
    dated = b"X" if chance.random() < 0.2 and not is_late else b"D"
    following = edf.filled(chance.choice(FOLLOWING if chance.random() < 0.95 else CROWDED),
                           59 if dated == b"D" else 69)
    rows = tuple(row_of(chance) for _ in range(chance.randint(1, 3)))
    if chance.random() < 0.3 and model.decimal(text.encode()) > model.SECOND:
        rows = tuple(row[:216] + edf.filled("30", 8) + row[224:] for row in rows)
    return model.Key(edf.filled("P7 F 02-MAY-1951 X", 80), dated, following.ljust(69),
                     edf.filled(text, 8), rows)


def later(duration: int, drift: int, chance: random.Random) -> int:
    """How long after the end of a data record the next one starts."""
    kind = chance.random()
    if kind < 0.08:
        return duration * chance.randint(1, 9)
    if kind < 0.14:
        return chance.randrange(1, duration + 1)
    if kind < 0.18:
        return int(chance.choice((1, 10**3, 10**6, 400_000_000, 500_000_000, 500_000_001)))
    if kind < 0.19:
        return int(chance.choice((3_600, 86_400)) * model.SECOND) if duration >= 10**10 else 0
    return drift


def starts_of(duration: int, chance: random.Random) -> list[int]:
    at = chance.choice(STARTS) * model.SECOND
    at += chance.choice((0, 0, 0, 1, 250_000_000, 999_999_999))
    drift = chance.choice((0, 0, 1, duration // 1_000, duration // 7, duration // 2))
    starts = []
    for _ in range(chance.randint(1, 40)):
        if at >= model.WINDOW:
            break
        starts.append(at)
        at += duration + later(duration, drift, chance)
        drift = 0 if chance.random() < 0.02 else drift
    return starts


def notes_of(starts: list[int], duration: int, chance: random.Random) -> list[list[Note]]:
    """The annotations that each data record has; their onsets lie anywhere, or at its edges."""
    notes: list[list[Note]] = [[] for _ in starts]
    for _ in range(chance.choice((0, 0, 3, 12))):
        start = chance.choice(starts)
        onset = chance.choice((start, start + duration - 1, start + duration, start + duration // 2,
                               start - 1, chance.randrange(starts[0] - duration,
                                                           starts[-1] + 3 * duration)))
        if 0 <= onset < model.WINDOW:
            notes[chance.randrange(len(starts))].append(
                (onset, chance.choice((None, None, 0, 1, 2 * model.SECOND)),
                 chance.choice(TEXTS).encode()))
    return notes


def any_night(chance: random.Random) -> Night:
    """A recording by chance."""
    late = chance.random() < 0.15
    key = key_of(chance, late)
    starts = starts_of(key.duration(), chance)
    if key.dated == b"X" and starts[0] // model.DAY in model.LETTERS:
        key = replace(key, dated=b"D", following=key.following[:59].ljust(69))
    size = 2 * sum(model.whole(row[216:224]) for row in key.rows)
    records = tuple(Record(start, chance.randbytes(size), tuple(notes)) for start, notes in
                    zip(starts, notes_of(starts, key.duration(), chance)))
    return Night(key, records, f"{chance.random()}")


# The file

def onset_text(nanoseconds: int) -> str:
    return ("-" if nanoseconds < 0 else "+") + model.shortest(abs(nanoseconds)).decode()


def listed(notes: list[Note], base: int) -> bytes:
    return b"".join(edf.tal(onset_text(onset - base), text,
                            duration="" if duration is None else model.shortest(duration).decode())
                    for onset, duration, text in notes)


def blocks_of(record: Record, base: int, signals: int, chance: random.Random) -> list[bytes]:
    """The annotations in as many signals, in their order."""
    edges = sorted(chance.randrange(len(record.notes) + 1) for _ in range(signals - 1))
    parts = [list(record.notes[begin:end])
             for begin, end in zip([0, *edges], [*edges, len(record.notes)])]
    return [edf.keeping(onset_text(record.start - base)) * (not nth) + listed(part, base)
            for nth, part in enumerate(parts)]


def signal_of(row: bytes) -> edf.Signal:
    fields, at = [], 0
    for width in edf.SIGNAL_WIDTHS:
        fields.append(row[at:at + width].decode().rstrip())
        at += width
    return edf.Signal(*fields)


def header_of(key: model.Key, first: int, count: int, sizes: list[int],
              chance: random.Random) -> edf.Header:
    signals = [signal_of(row) for row in key.rows]
    annotated = [edf.annotations_signal(size) for size in sizes]
    day, hour, minute, second, _ = model.civil(first)
    year = "yy" if first // model.DAY in model.LETTERS else f"{day.year % 100:02}"
    named = f"{day.day:02}-{model.MONTHS[day.month - 1].decode()}-{day.year}"
    recording = f"Startdate {named if key.dated == b'D' else 'X'}{key.following.decode()}"[:80]
    order = chance.choice((signals + annotated, annotated + signals))
    return edf.Header(tuple(order), f"{day.day:02}.{day.month:02}.{year}",
                      f"{hour:02}.{minute:02}.{second:02}", key.patient.decode(), recording,
                      count=chance.choice((str(count), "-1")), duration=key.duration_text.decode())


def file_of(key: model.Key, records: list[Record], chance: random.Random) -> bytes:
    """An EDF+D file of these data records, spelled by chance."""
    base = records[0].start // model.SECOND * model.SECOND
    signals = chance.choice((1, 1, 2, 3))
    blocks = [blocks_of(record, base, signals, chance) for record in records]
    sizes = [(max(len(block[nth]) for block in blocks) + 1) // 2 + chance.choice((0, 1, 5))
             for nth in range(signals)]
    header = header_of(key, base, len(records), [max(size, 1) for size in sizes], chance)
    return edf.fragment(header, [(record.samples, block)
                                 for record, block in zip(records, blocks)])
