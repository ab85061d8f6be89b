"""Whether `examples/mne/read_edfplus_d.py` makes one Raw of MNE of a night with gaps, as it was
submitted.

    python3 -m checks.readers.one_raw [--edfruns PATH] [--control]

Of six nights with gaps is compared, by the plain model in checks/lib: each sample, at the sample of
the Raw that is nearest to its instant; that all others are zeros, or NaN; each annotation's onset,
duration and text, where it lies within the night; that BAD_ACQ_SKIP covers each gap, and no sample;
when the Raw begins; what a filter of MNE makes of each run, and which epochs it drops. The nights
have gaps of whole seconds and of parts of a sample, one in each data record, a start that is no
second, signals of several rates, and no gap.

--control has other readers, each of which must be found: MNE's own, one that cuts the fraction of
an instant, one that rounds down, one that joins the runs, one that leaves annotations in the time
of their run, one that does not annotate the gaps.

It needs Debian's python3-mne, and so Debian's own python3.
"""
import importlib.util
import math
import os
import sys
import warnings
from collections import Counter
from datetime import datetime, timedelta, timezone
from fractions import Fraction
from pathlib import Path

from checks.lib import arguments, gapped, measure, model
from checks.lib.checks import Lost, compare, end
from checks.readers import reading
from checks.readers.reading import mne, numpy

SCRIPT = arguments.TOP / "examples/mne/read_edfplus_d.py"
SECOND, SKIP = gapped.SECOND, "BAD_ACQ_SKIP"
EPOCH = datetime(1985, 1, 1, tzinfo=timezone.utc)


def night(**options) -> gapped.GappedNight:
    return gapped.GappedNight(limits=reading.LIMITS, **options)


NIGHTS = {
    "28,800 data records, three gaps": gapped.NIGHT,
    "a start and gaps that are no samples": night(
        records=300, samples=(256, 128, 1),
        gaps=((0, 123_456_789), (50, SECOND // 3), (51, 1), (120, 1_953_124), (121, 1_953_126),
              (200, 5_859_375), (290, 77 * SECOND + 999_999_999))),
    "a gap in each data record": night(
        records=200, samples=(100, 50),
        gaps=tuple((nth, 20 * SECOND // 1_000 + nth * 12_345) for nth in range(1, 200))),
    "data records of 30 s": night(records=40, seconds=30, samples=(3_000, 750),
                                  gaps=((10, 1_200 * SECOND), (30, 45 * SECOND + SECOND // 8))),
    "a rate that is no whole number": night(records=60, seconds=3, samples=(7,),
                                            gaps=((20, SECOND), (21, 100 * SECOND + SECOND // 7))),
    "no gap": night(records=120, samples=(64, 32)),
}
CONTROLS = {
    "is MNE's own": (("def read_edfplus_d(path, missing: float = 0.0) -> mne.io.RawArray:\n",
                      "def read_edfplus_d(path, missing: float = 0.0) -> mne.io.RawArray:\n"
                      "    return mne.io.read_raw_edf(path, preload=True, verbose='error')\n"),),
    "cuts the fraction of an instant": (("Fraction(rest or 0),", "0,"),),
    "rounds down": ((" + Fraction(1, 2)) // 1", ") // 1"),),
    "joins the runs": (
        ("        ends = [", "        begins = [sum(each.n_times for each in raws[:n])"
         " for n in range(len(raws))]\n        ends = ["),),
    "leaves annotations in the time of their run": (
        ("first // 1 + onset - firsts[0]", "onset"),),
    "does not annotate the gaps": (("if begin > end]", "if begin > 1e18]"),),
    "has zeros where NaN is wanted": (("ends[-1]), missing)", "ends[-1]), 0.0)"),),
    "has the annotations that MNE leaves of a run": (
        ("for file, first in zip(files, firsts) for onset, lasts, text in notes_of(file)]",
         "for file, first in zip(files, firsts) for onset, lasts, text in\n"
         "                 ((Fraction(each['onset']) + first % 1, each['duration'],\n"
         "                   each['description']) for each in mne.io.read_raw_edf(\n"
         "                       file, verbose='error').annotations)]"),),
}


class Expected:
    """What was submitted, by the plain model, on the samples of a Raw whose rate is the highest."""

    def __init__(self, made: gapped.GappedNight, data: bytes):
        _, self.records = model.read(data)
        self.samples, self.lasts = made.samples, made.seconds * SECOND
        self.most, self.rate = max(made.samples), Fraction(max(made.samples), made.seconds)
        self.begin = self.records[0].start
        self.starts = [self.nearest(record.start, 0, 1) for record in self.records]
        self.count = self.starts[-1] + self.most
        self.places = {size: numpy.array([self.nearest(record.start, nth, size)
                                          for record in self.records for nth in range(size)])
                       for size in set(made.samples)}

    def nearest(self, start: int, nth: int, size: int) -> int:
        """The sample of the Raw that is nearest to the nth of `size` of a data record."""
        after = (start - self.begin) * size + nth * self.lasts      # in parts of a nanosecond
        return (2 * after * self.most + self.lasts * size) // (2 * self.lasts * size)

    def signals(self) -> list:
        joined = b"".join(record.samples for record in self.records)
        rows = numpy.frombuffer(joined, "<i2").reshape(len(self.records), -1)
        edges = numpy.cumsum((0, *self.samples))
        return [rows[:, at:to].ravel() for at, to in zip(edges, edges[1:])]

    def is_recorded(self) -> numpy.ndarray:
        found = numpy.zeros(self.count, bool)
        for start in self.starts:
            found[start:start + self.most] = True
        return found

    def notes(self) -> tuple:
        """The annotations that lie within the night, and how many others there are."""
        lasts = self.count / self.rate
        within, others = Counter(), 0
        for onset, duration, text in (note for record in self.records for note in record.notes):
            at, length = Fraction(onset - self.begin, SECOND), Fraction(duration or 0, SECOND)
            if 0 <= at and at + length <= lasts:
                within[told(at, length, text.decode())] += 1
            else:
                others += 1
        return within, others


def told(onset, duration, text: str) -> tuple:
    """An annotation to the microsecond."""
    return round(float(onset), 6), round(float(duration), 6), text


def loaded(script: Path, edfruns: Path):
    """The function of that script."""
    os.environ["EDFRUNS"] = str(edfruns)
    spec = importlib.util.spec_from_file_location("read_edfplus_d", script)
    module = importlib.util.module_from_spec(spec)
    spec.loader.exec_module(module)
    return module.read_edfplus_d


def same_samples(raw, expected: Expected, missing: float) -> None:
    data, recorded = raw.get_data(), expected.is_recorded()
    compare("the number of samples", data.shape, (len(expected.samples), expected.count))
    compare("the rate", raw.info["sfreq"], float(expected.rate))
    for got, signal in zip(data, expected.signals()):
        size = len(signal) // len(expected.records)
        same = reading.digital(got[expected.places[size]] * 1e6) == signal
        compare(f"samples at their instants, {size} a data record", int(same.sum()), len(signal))
        gaps = got[~recorded]
        is_missing = numpy.isnan(gaps) if math.isnan(missing) else gaps == missing
        compare("what is missing in gaps", int(is_missing.sum()), int((~recorded).sum()))
        compare("NaN where something is", bool(numpy.isnan(got[recorded]).any()), False)


def same_notes(raw, expected: Expected) -> None:
    notes = [told(each["onset"], each["duration"], each["description"])
             for each in raw.annotations]
    got = Counter(note for note in notes if note[2] != SKIP)
    within, others = expected.notes()
    compare("annotations that are missing", within - got, Counter())
    compare("annotations more than submitted", (got - within).total() <= others, True)
    skipped = numpy.zeros(expected.count, bool)
    for onset, duration, text in notes:
        if text == SKIP:
            at, to = (round(each * raw.info["sfreq"]) for each in (onset, onset + duration))
            skipped[at:to] = True
    compare("the samples that are skipped", bool((skipped == ~expected.is_recorded()).all()), True)


def same_begin(raw, expected: Expected) -> None:
    begin = EPOCH + timedelta(microseconds=round(Fraction(expected.begin, 1_000)))
    compare("when it begins", raw.info["meas_date"], begin)


def same_filtered(raw, expected: Expected) -> None:
    """A filter makes of each run what it makes of it alone."""
    whole, recorded = raw.copy().filter(None, 10, verbose="error").get_data(), \
        expected.is_recorded()
    edges = numpy.flatnonzero(numpy.diff(numpy.concatenate(([0], recorded, [0]))))
    for at, to in edges.reshape(-1, 2):
        alone = mne.io.RawArray(raw.get_data()[:, at:to], raw.info, verbose="error")
        alone.set_annotations(None)
        alone = alone.filter(None, 10, verbose="error").get_data()
        compare("filtered", bool(numpy.allclose(alone, whole[:, at:to], atol=1e-12)), True)


def same_epochs(raw, expected: Expected) -> None:
    """Epochs of ten seconds are those that lie over no gap."""
    epochs = mne.make_fixed_length_epochs(raw, 10, preload=True, verbose="error")
    recorded, size = expected.is_recorded(), int(10 * expected.rate)
    whole = recorded[:len(recorded) // size * size].reshape(-1, size).all(axis=1)
    compare("epochs", list(epochs.selection), list(numpy.flatnonzero(whole)))


def same_shown(script: Path, path: Path, raw) -> None:
    shown = measure.done(sys.executable, script, path).out.decode()
    compare("what the script shows", shown, f"{raw.info}\n{raw}\n{raw.annotations}\n")


def tried(script: Path, edfruns: Path, folder: Path) -> int:
    """How many nights were as submitted, each once with zeros and once with NaN."""
    read = loaded(script, edfruns)
    for name, made in NIGHTS.items():
        path = made.whole(folder / "night.edf")
        expected = Expected(made, path.read_bytes())
        try:
            for missing in (0.0, math.nan):
                raw = read(path, missing=missing)
                same_samples(raw, expected, missing)
                same_notes(raw, expected)
                same_begin(raw, expected)
            if name.startswith("data records"):
                same_filtered(read(path), expected)
                same_epochs(read(path), expected)
                same_shown(script, path, read(path))
        except Lost as why:
            raise Lost(f"{name}: {why}") from None
        counts = sum(map(len, expected.signals())), expected.notes()[0].total()
        print("{}: {:,} samples, {:,} annotations".format(name, *counts))
    return 2 * len(NIGHTS)


def control(edfruns: Path, folder: Path) -> None:
    failed, text = 0, SCRIPT.read_text()
    for name, edits in CONTROLS.items():
        changed = text
        for old, new in edits:
            if old not in changed:
                raise SystemExit(f"the script has no {old!r} for the control that {name}")
            changed = changed.replace(old, new)
        (folder / "wrong.py").write_text(changed)
        try:
            tried(folder / "wrong.py", edfruns, folder)
            print(f"NOT FOUND: a reader that {name}")
            failed += 1
        except (Lost, ValueError) as why:
            print(f"found: a reader that {name}: {str(why):.200}")
    end(len(CONTROLS), failed)


def main() -> None:
    parser = arguments.Parser(__doc__, ("edfruns",))
    parser.add_argument("--control", action="store_true", help="run wrong ones instead")
    given = parser.read()
    warnings.simplefilter("ignore")
    with measure.scratch() as name:
        if given.control:
            control(given.edfruns, Path(name))
        try:
            count = tried(SCRIPT, given.edfruns, Path(name))
        except Lost as why:
            print(f"NOT AS SUBMITTED: {why}")
            end(1, 1)
    print(reading.MNE)
    end(count, 0)


if __name__ == "__main__":
    main()
