"""Opens the files of a night's runs by EDFlib, MNE, BioSig and EDFbrowser, and compares what they
read with what was submitted: every sample, the time of every data record, every annotation.

    python3 -m checks.readers.of_runs [--edfruns PATH | --model]

A night of 28,800 data records of 1 s and four signals has three gaps. It is split by `edfruns
split`; with --model the files come from the plain model in checks/lib/runs.py. The third run begins
at a quarter of a second, and each run has annotations that lie or reach outside of it. The script
ends with status 1 where a reader refuses a run's file, has another sample, gives a wrong time of a
data record of a run that begins with a second, or an annotation that lies within such a run is not
as submitted.

It needs Debian's python3-mne, biosig-tools, libedf-dev, edfbrowser, xvfb, xdotool, x11-utils and
cc, and so Debian's own python3.
"""
from collections import Counter
from dataclasses import dataclass
from pathlib import Path

from checks.lib import arguments, gapped, measure, model, runs
from checks.lib.checks import end
from checks.readers import edfbrowser, reading
from checks.readers.reading import numpy

NIGHT = gapped.NIGHT
PACKAGES = ("libedf1", "python3-mne", "biosig-tools", "edfbrowser")


@dataclass
class Part:
    """How many are as submitted, of how many, once all are moved by `late` seconds."""
    found: int
    count: int
    late: float = 0.0

    def is_all(self) -> bool:
        return self.found == self.count and not self.late

    def __str__(self) -> str:
        counted = f"{self.found:,} of {self.count:,}"
        if not self.late:
            return counted
        return f"{counted}, {abs(self.late):g} s {'late' if self.late > 0 else 'early'}"


@dataclass
class Found:
    """How much of a run is as submitted."""
    samples: Part
    times: Part         # data records at the right time
    within: Part        # annotations within the run, at the right time
    over: Part          # these over the samples that they were submitted over
    outside: Part       # annotations that lie or reach outside of the run, at the right time

    def is_good(self, run: runs.Run) -> bool:
        """Whether it is as it is expected: of a run that begins with a second all but what is
        outside, else the samples."""
        if run.first() % model.SECOND:
            return self.samples.is_all()
        return all(part.is_all() for part in (self.samples, self.times, self.within, self.over))


def seconds(nanoseconds: int) -> float:
    return nanoseconds / model.SECOND


def best(run: runs.Run, count: int, found_at) -> Part:
    """The most that `found_at` finds at the right time, or moved by the fraction of a second at
    which the run begins."""
    fraction = seconds(run.first() % model.SECOND)
    parts = [Part(found_at(late), count, late) for late in (0.0, fraction, -fraction)]
    return max(parts, key=lambda part: part.found)


def same_samples(run: runs.Run, content: reading.Content) -> Part:
    samples = b"".join(record.samples for record in run.records)
    rows = numpy.frombuffer(samples, "<i2").reshape(len(run.records), -1)
    edges, found = numpy.cumsum((0, *NIGHT.samples)), 0
    for n, got in enumerate(content.signals):
        expected = rows[:, edges[n]:edges[n + 1]]
        if got.size == expected.size:
            found += int((got.reshape(expected.shape) == expected).sum())
    return Part(found, rows.size)


def same_times(run: runs.Run, content: reading.Content) -> Part:
    def found_at(late: float) -> int:
        return sum(abs(content.start + got - late - seconds(record.start)) < 0.001
                   for got, record in zip(content.times, run.records))
    count = len(run.records)
    return best(run, count, found_at) if len(content.times) == count else Part(0, count)


def same_notes(run: runs.Run, expected: list, notes: list, shift: float) -> Part:
    """How many annotations are there with onset and duration, to the millisecond, and text; `shift`
    is added to the onsets that were read."""
    def counted(notes: list, shift: float) -> Counter:
        return Counter((round(onset + shift, 3), round(duration, 3), text)
                       for onset, duration, text in notes)
    return best(run, len(expected),
                lambda late: (counted(expected, 0.0) & counted(notes, shift - late)).total())


def found_in(run: runs.Run, content: reading.Content) -> Found:
    begin, within, outside = run.first(), [], []
    for onset, duration, text in (note for record in run.records for note in record.notes):
        is_within = begin <= onset and onset + (duration or 0) <= begin + run.length()
        note = (seconds(onset - begin), seconds(duration or 0), text.decode())
        (within if is_within else outside).append(note)
    shift = content.start - seconds(begin)
    return Found(same_samples(run, content), same_times(run, content),
                 same_notes(run, within, content.notes, shift),
                 same_notes(run, within, content.notes, -content.times[0]),
                 same_notes(run, outside, content.notes, shift))


def split(given, folder: Path) -> list:
    """The runs by the model, each with its file."""
    whole = NIGHT.whole(folder / "night.edf")
    listed = runs.read_runs(whole.read_bytes())
    paths = [folder / name for name in runs.split_names("night", listed)]
    if given.model:
        for run, path in zip(listed, paths):
            path.write_bytes(run.to_bytes())
    else:
        measure.done(given.edfruns or arguments.chosen("edfruns"), "split", whole, folder / "night")
    return list(zip(listed, paths))


def lines_of(name: str, read, pairs: list) -> tuple:
    """A line of the table for each run, and how many runs are not as they are expected."""
    lines, failed = [], 0
    for run, path in pairs:
        try:
            content = read(path)
        except Exception as fault:
            lines.append((name, run.number, f"no: {type(fault).__name__}: {fault}"[:100], "", "",
                          "", "", ""))
            failed += 1
            continue
        found = found_in(run, content)
        lines.append((name, run.number, "yes", found.samples, found.times, found.within, found.over,
                      found.outside))
        failed += not found.is_good(run)
        for warning in content.warned:
            print(f"{name}, run {run.number} warns: {warning}")
    return lines, failed


def read_all(pairs: list, folder: Path) -> list:
    """The lines of each reader, and how many runs it does not read as they are expected."""
    dump = measure.compiled(Path(__file__).parent / "dump.c", folder, "-ledf", "-lm")
    samples, browser = NIGHT.samples, edfbrowser.Browser(folder)
    try:
        readers = (("EDFlib", lambda path: reading.by_edflib(path, folder, samples, dump)),
                   (reading.MNE, lambda path: reading.by_mne(path, samples)),
                   ("BioSig", lambda path: reading.by_biosig(path, folder, samples)),
                   (browser.name, lambda path: edfbrowser.by_edfbrowser(path, browser, samples)))
        return [lines_of(name, read, pairs) for name, read in readers]
    finally:
        browser.end()


def main() -> None:
    parser = arguments.Parser(__doc__, ("edfruns",))
    parser.add_argument("--model", action="store_true", help="the model's files")
    given = parser.parse_args()
    measure.need("cc", "save2gdf", *edfbrowser.NEEDED)
    with measure.scratch() as name:
        pairs = split(given, Path(name))
        answers = read_all(pairs, Path(name))
    lines = [line for lines, _ in answers for line in lines]
    print(runs.lines([run for run, _ in pairs]))
    measure.table(("reader", "run", "opens", "samples submitted", "data records at the right time",
                   "annotations within the run", "the same over their samples",
                   "annotations that lie or reach outside"), lines)
    print(measure.ran("dpkg-query", "-W", *PACKAGES).out.decode())
    end(len(lines), sum(failed for _, failed in answers))


if __name__ == "__main__":
    main()
