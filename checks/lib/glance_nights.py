"""Nights by chance for pictures: data records of any length with gaps of any length between them, a
few signals of any rate, stages of sleep in several spellings, texts with any characters, and
annotations anywhere; each as a model and as a file in EDF+D."""
import random
from datetime import date

from . import edf
from .gapped import SECOND, decimal, onset
from .glance import Night, Note, Signal

# When the nights start: 2002-03-02 at 22:00, in nanoseconds from 1985 on
START = ((date(2002, 3, 2) - date(1985, 1, 1)).days * 24 + 22) * 3_600 * SECOND
STAGES = (("Sleep stage W", "Sleep stage N1", "Sleep stage N2", "Sleep stage N3", "Sleep stage R"),
          ("Sleep stage W", "Sleep stage 1", "Sleep stage 2", "Sleep stage 4", "Sleep stage R"),
          ("W", "N1", "N2", "N3", "R"), ("sleep stage w", "SLEEP STAGE n2", "Sleep Stage r"),
          ("Schlafstadium N2", "Wach"), ("Sleep stage ?", "Sleep stage R", "Movement time"))
TEXTS = ("Hypopnea", "Obstructive apnea", "Arousal", "<&>\"'", "\u8eab\u4f53\u306e\u52d5\u304d",
         "line\x01break\x1f", "leg\nmove", "\t", "\x7f\x85", "\ufffe\uffff", "]]>", "&amp;",
         "a" * 60, "W" * 60, "1", "2", "rem", "--><script>", "\u7761\u7720" * 15,
         "Atemaussetzer \u2013 R\u00fcckenlage", "\U0001f634", "Lights off", " ")
GAPS = (1, SECOND // 1_000, SECOND // 3, 4 * SECOND, 29 * SECOND, 30 * SECOND, 300 * SECOND,
        3_600 * SECOND)
CODES = ("P7", "X", "a<b>&'\"", "0123456789" * 5, "<!--", "]]>")


def random_starts(chance: random.Random, step: int) -> list[int]:
    """The starts of the data records after that of the night."""
    starts, at = [], 0
    is_broken = chance.choice((0, 0.02, 0.2, 0.9))
    for _ in range(chance.choice((1, 2, 5, 40, 150))):
        starts.append(at)
        at += step + (chance.choice(GAPS) if chance.random() < is_broken else 0)
    return starts


def random_signal(chance: random.Random, nth: int) -> Signal:
    low, high = chance.choice(((-32768, 32767), (0, 100), (-2048, 2047), (0, 1), (-5, 300)))
    physical = chance.choice((("0", "100"), ("-440", "510.5"), ("250", "-250"), ("-0.001", "0.001")))
    return Signal(chance.choice((f"SpO2 {nth}", f"EEG <{nth}>&", "'", "")),
                  chance.choice(("%", "uV", "", "<m>")), physical, (low, high),
                  chance.choice((1, 1, 2, 3, 7, 50)))


def random_values(chance: random.Random, signal: Signal, before: int) -> list[int]:
    """The values of a data record, near the last one before it; some at a limit of the signal."""
    low, high = signal.digital
    kind, found = chance.random(), []
    for _ in range(signal.samples):
        step = max(1, (high - low) // 50)
        before = min(high, max(low, before + chance.randint(-step, step)))
        found.append(low if kind < 0.05 else high if kind > 0.98 else before)
    return found


def random_notes(chance: random.Random, night: Night) -> list[Note]:
    """Stages from the start on, each after the one before, and other texts anywhere."""
    first, last = night.axis()
    long, notes = last - first, []
    if chance.random() < 0.7:
        names, at = chance.choice(STAGES), first - chance.choice((0, 0, SECOND))
        lasting = chance.choice((0, 1, 0.5))
        step = max(SECOND, long // chance.choice((1, 3, 30)))
        while at < last:
            duration = step if chance.random() < lasting else 0
            notes.append(Note(at, duration, chance.choice(names)))
            at += chance.choice((step, step, 2 * step, 1))
            if len(notes) > 60:
                break
    for text in chance.sample(TEXTS, chance.choice((0, 1, 5, 9, 14))):
        for _ in range(chance.choice((1, 1, 2, 7))):
            notes.append(Note(first + chance.randint(-long // 20, long + long // 20),
                              chance.choice((0, 0, SECOND, long // 7)), text))
    notes.append(Note(last, 0, "the end"))
    if chance.random() < 0.3:
        chance.shuffle(notes)
    return [note for note in notes if note.onset >= START - 10**6 * SECOND]


def random_night(chance: random.Random) -> Night:
    step = chance.choice((SECOND // 4, SECOND, SECOND, 30 * SECOND))
    starts = [START + at for at in random_starts(chance, step)]
    count = chance.choice((1, 1, 2, 3, 18))
    signals = [random_signal(chance, nth) for nth in range(count)]
    befores = [signal.digital[0] // 2 + signal.digital[1] // 2 for signal in signals]
    values = []
    for _ in starts:
        record = [random_values(chance, *pair) for pair in zip(signals, befores)]
        befores = [part[-1] for part in record]
        values.append(record)
    night = Night(step, starts, signals, values, [])
    return Night(step, starts, signals, values, random_notes(chance, night))


def samples_of(values: list[list[int]]) -> bytes:
    """The bytes of a data record's samples: each in two's complement, the lower byte first."""
    return b"".join((value % 65536).to_bytes(2, "little") for part in values for value in part)


def file_of(night: Night, patient: str, investigation: str) -> bytes:
    """The file of a night: its annotations are in its data records in turn."""
    blocks = [edf.keeping(onset(start - START)) for start in night.starts]
    for nth, note in enumerate(night.notes):
        stated = decimal(note.duration) if note.duration else ""
        blocks[nth * len(blocks) // len(night.notes)] += edf.tal(
            onset(note.onset - START), note.text, duration=stated)
    signals = [edf.Signal(label=one.label, dimension=one.dimension, samples=str(one.samples),
                          physical_minimum=one.physical[0], physical_maximum=one.physical[1],
                          digital_minimum=str(one.digital[0]), digital_maximum=str(one.digital[1]))
               for one in night.signals]
    signals.append(edf.annotations_signal(max(map(len, blocks)) // 2 + 1))
    header = edf.Header(tuple(signals), startdate="02.03.02", starttime="22.00.00",
                        patient=f"{patient} X X X",
                        recording=f"Startdate 02-MAR-2002 {investigation} X X",
                        count=str(len(blocks)), duration=decimal(night.duration))
    return edf.fragment(header, [(samples_of(values), block)
                                 for values, block in zip(night.values, blocks)])
