"""Opens filled files by EDFlib, EDFbrowser, MNE and BioSig, and compares what they read with what
the plain model has: every sample, the time of every data record, and every annotation at its time
and with its duration, the ones of gaps among them.

    /usr/bin/python3 -m checks.readers.of_filled [--edfruns PATH | --model] [--seed SEED]
                                                 [--control] [COUNT]

COUNT recordings by chance (200 if left out; checks/lib/drifting.py) have gaps, and begin before
2085; `edfruns fill` fills each, or the plain model with --model. Readers want single spaces in the
recording field, and samples within the digital limits. EDFlib and EDFbrowser must read all of it.
MNE and BioSig must where the first data record starts on a second; else all may be off by that
fraction alone. EDFbrowser tells the time of each sample too: some signals have counts of samples
that divide each other, so that all times of a file are even, and some have not, such as 7 and 10.
--control has readers open a file with a fault, each of which must be found: a sample comes later,
or an annotation does, or one is missing.

It needs Debian's python3-mne, biosig-tools, libedf-dev, edfbrowser, xvfb, xdotool, x11-utils and
cc, and so Debian's own python3.
"""
import argparse
import random
from collections import Counter
from collections.abc import Callable
from concurrent.futures import ProcessPoolExecutor
from dataclasses import replace
from functools import partial
from pathlib import Path
from typing import NoReturn

from checks.lib import arguments, drifting, edf, filled, measure, model
from checks.lib.checks import Lost, end
from checks.readers import edfbrowser, reading

numpy = reading.numpy       # type: ignore[attr-defined]

Reader = Callable[[Path, tuple[int, ...]], reading.Content]
Notes = list[tuple[float, float, str]]
Same = Callable[[list[model.Record], reading.Content, float], None]
EXACT = ("EDFlib", "EDFbrowser")        # the readers for which a start may have a fraction
BIOSIG = "BioSig"
JOBS = 4        # nights at once: EDFbrowser waits most of its time


def row_of(nth: int, row: bytes) -> bytes:
    """A signal of as many samples, as the readers here know it."""
    signal = edf.Signal(f"EEG channel {nth}", "", "uV", *reading.LIMITS, "",
                        row[216:224].decode().strip(), "")
    return signal.row()


def night_of(chance: random.Random) -> drifting.Night:
    """A recording by chance that the readers can be asked for."""
    while True:
        night = drifting.any_night(chance)
        rows = tuple(row_of(nth, row) for nth, row in enumerate(night.key.rows, 1))
        key = replace(night.key, rows=rows, following=b" N1 T3 REC5".ljust(69))
        ends = night.records[-1].start + model.DAY
        if filled.gaps_of(key, list(night.records)) and ends // model.DAY not in model.LETTERS \
                and ends < model.WINDOW:
            return replace(night, key=key)


def file_of(given: argparse.Namespace, night: drifting.Night, folder: Path) -> tuple[Path, bytes]:
    """The filled file of a recording, and the model's."""
    source, made = folder / "night.edf", folder / "filled.edf"
    source.write_bytes(night.to_bytes())
    expected = filled.fill("night.edf", source.read_bytes(), "100", "60").out
    if given.model:
        made.write_bytes(expected)
    else:
        measure.done(given.edfruns, "fill", "--longest-gap", "100", "--moved", "60", source,
                     out=made)
    return made, expected


def same_samples(key: model.Key, records: list[model.Record], content: reading.Content) -> None:
    counts = [filled.samples_of(row) for row in key.rows]
    joined = b"".join(record.samples for record in records)
    rows = numpy.frombuffer(joined, "<i2").reshape(len(records), -1)
    edges = numpy.cumsum((0, *counts))
    for n, got in enumerate(content.signals):
        expected = rows[:, edges[n]:edges[n + 1]].reshape(-1)
        if got.size != expected.size or not (got == expected).all():
            raise Lost(f"samples of signal {n + 1}: {got.size} read, {expected.size} expected")


def same_times(records: list[model.Record], content: reading.Content, late: float) -> None:
    """Each data record at its time, to the millisecond, all of them late by so much."""
    if len(content.times) != len(records):
        raise Lost(f"{len(content.times)} data records read, {len(records)} expected")
    for got, record in zip(content.times, records):
        if abs(content.start + got - late - record.start / 1e9) > 0.001:
            raise Lost(f"a data record at {content.start + got} s, expected {record.start} ns")


def same_notes(records: list[model.Record], content: reading.Content, late: float,
               has_durations: bool = True) -> None:
    """Each annotation within the file at its time, to the millisecond, all of them late by so much,
    and its duration as far as the file goes: MNE cuts it there. BioSig and MNE leave out such as
    have no text, and MNE such as lie outside of the file."""
    first = records[0].start
    length = records[1].start - first
    ends = length * len(records) / 1e9

    def counted(notes: Notes) -> Counter[tuple[float, float, str]]:
        return Counter((round(1000 * onset),
                        round(1000 * min(lasts, ends - onset)) if has_durations else 0, text)
                       for onset, lasts, text in notes if text)
    wanted = counted([((onset - first) / 1e9, (lasts or 0) / 1e9, text.decode())
                      for record in records for onset, lasts, text in record.notes
                      if 0 <= onset - first < length * len(records)])
    found = counted([(onset + content.start - first / 1e9 - late, lasts, text)
                     for onset, lasts, text in content.notes])
    for (at, lasts, text), count in wanted.items():
        near = sum(found[at + off, lasts + more, text] for off in (-1, 0, 1) for more in (-1, 0, 1))
        if near < count:
            raise Lost(f"annotation {text!r} at {at / 1000} s, of {lasts / 1000} s")


def sames(name: str) -> tuple[Same, ...]:
    """What is compared. BioSig tells no times of data records where there is no gap, and cuts a
    duration at a sample."""
    if name == BIOSIG:
        return (partial(same_notes, has_durations=False),)
    return same_times, same_notes


def is_off(records: list[model.Record], content: reading.Content, same: Same) -> bool:
    """Whether all are off by the fraction of the second of the first data record."""
    fraction = records[0].start % model.SECOND / 1e9
    try:
        same(records, content, 0.0)
        return False
    except Lost:
        for late in (fraction, -fraction):
            try:
                same(records, content, late)
                return True
            except Lost:
                pass
        raise


def read_by(reader: Reader, name: str, made: Path, key: model.Key,
            records: list[model.Record]) -> str:
    """How a file is read: whole, off by the fraction of its first second, or not."""
    try:
        content = reader(made, tuple(filled.samples_of(row) for row in key.rows))
        same_samples(key, records, content)
        off = [is_off(records, content, same) for same in sames(name)]
    except Exception as fault:      # whatever a reader does of a file is what is asked here
        return f"{name}: no: {type(fault).__name__}: {fault}"[:150]
    if any(off) and name in EXACT:
        return f"{name}: no: off by the fraction"
    return f"{name}: off by the fraction" if any(off) else f"{name}: all"


def readers_in(folder: Path, dump: Path) -> dict[str, Reader]:
    return {"EDFlib": lambda path, samples: reading.by_edflib(path, folder, samples, dump),
            "EDFbrowser": lambda path, samples: edfbrowser.alone(path, folder, samples),
            reading.MNE: reading.by_mne,
            BIOSIG: lambda path, samples: reading.by_biosig(path, folder, samples)}


# Faults of a filled file

def shifted(key: model.Key, records: list[model.Record]) -> list[model.Record]:
    """The samples of the first signal, each at the place of the next."""
    size = 2 * filled.samples_of(key.rows[0])
    samples = b"".join(record.samples[:size] for record in records)
    samples = samples[-2:] + samples[:-2]
    return [replace(record, samples=samples[nth * size:(nth + 1) * size] + record.samples[size:])
            for nth, record in enumerate(records)]


def gaps_told(records: list[model.Record]) -> list[tuple[int, int]]:
    """Where annotations of gaps are that start within the file: data record and number."""
    begins, ends = records[0].start, records[-1].start
    return [(nth, at) for nth, record in enumerate(records)
            for at, (onset, _, text) in enumerate(record.notes)
            if text == filled.NOT_RECORDED and begins <= onset < ends]


def other_note(records: list[model.Record], later: int) -> list[model.Record]:
    """The first annotation of a gap comes later; without `later` it is missing."""
    changed = list(records)
    nth, at = gaps_told(records)[0]
    onset, lasts, text = records[nth].notes[at]
    instead = ((onset + later, lasts, text),) if later else ()
    notes = records[nth].notes[:at] + instead + records[nth].notes[at + 1:]
    changed[nth] = replace(records[nth], notes=notes)
    return changed


def faulty(key: model.Key, records: list[model.Record]) -> dict[str, list[model.Record]]:
    """The same data records with a fault, by its name."""
    return {"samples a place later": shifted(key, records),
            "an annotation a hundredth of a second later": other_note(records, 10_000_000),
            "an annotation that is missing": other_note(records, 0)}


# Nights

def is_even(key: model.Key) -> bool:
    """Whether the times of all samples of a data record are even."""
    counts = [filled.samples_of(row) for row in key.rows]
    return not any(max(counts) % count for count in counts)


def answers_of(nth: int, given: argparse.Namespace, dump: Path) -> list[str]:
    """What each reader answers of a night, or with --control of its faults."""
    with measure.scratch() as name:
        folder = Path(name)
        readers = readers_in(folder, dump)
        made, expected = file_of(given, night_of(random.Random(f"{given.seed}/{nth}")), folder)
        key, records = model.read(expected)
        if not given.control:
            kind = "even" if is_even(key) else "uneven"
            return [f"samples at {kind} times", *(read_by(reader, called, made, key, records)
                                                  for called, reader in readers.items())]
        answers = []
        for what, changed in faulty(key, records).items() if gaps_told(records) else ():
            made.write_bytes(filled.continuous(key, tuple(changed)))
            for called, reader in readers.items():
                is_found = ": no: Lost: " in read_by(reader, called, made, key, records)
                answers.append(f"{called}: {'found' if is_found else 'NOT FOUND'}: {what}")
        return answers


def main() -> NoReturn:
    parser = arguments.Parser(__doc__ or "", ("edfruns",), count=200)
    parser.add_argument("--seed", default="1", help="of the recordings, 1 if left out")
    parser.add_argument("--model", action="store_true", help="the model's files")
    parser.add_argument("--control", action="store_true", help="files with faults instead")
    given = parser.parse_args()
    if not given.model:
        given.edfruns = given.edfruns or arguments.chosen("edfruns")
    measure.need("cc", "save2gdf", *edfbrowser.NEEDED)
    with measure.scratch() as name, ProcessPoolExecutor(JOBS) as pool:
        dump = measure.compiled(Path(__file__).parent / "dump.c", Path(name), "-ledf", "-lm")
        listed = pool.map(partial(answers_of, given=given, dump=dump), range(given.count))
        answers = Counter(answer for each in listed for answer in each)
    for answer, count in sorted(answers.items()):
        print(f"{count:5} {answer}")
    asked = {answer: count for answer, count in answers.items() if ": " in answer}
    end(sum(asked.values()), sum(count for answer, count in asked.items()
                                 if ": no: " in answer or "NOT FOUND" in answer))


if __name__ == "__main__":
    main()
