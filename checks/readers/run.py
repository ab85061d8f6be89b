"""Opens exports of a night by MNE, BioSig and EDFlib, and compares what they read with what was
submitted, record by record.

    python3 -m checks.readers.run [--program PATH]

A night of 28,800 records of 1 s and four signals is sent without four of its 96 fragments, which
leaves a gap of twenty minutes, and exported; then the four come, and it is exported again. Of each
export is printed: whether the reader opens it, in how many records all samples are those submitted,
for how many records it has the right time, and how many annotations come with their time,
duration and text. The status is 1 where MNE or BioSig has not every sample; EDFlib opens no EDF+D
file. It needs Debian's python3-mne, biosig-tools, libedf-dev and cc, and so Debian's own python3.
"""
from collections import Counter
from pathlib import Path

from checks.lib import arguments, measure, model, night
from checks.lib.checks import end
from checks.readers import reading
from checks.readers.reading import numpy

NIGHT = night.Night(samples=(100, 100, 100, 25), limits=reading.LIMITS)
MISSING = range(40, 44)


class Submitted:
    """What was submitted, by the plain model: the start of each record in seconds, its samples, the
    annotations."""

    def __init__(self, files: list):
        records = {}
        for path in files:
            for record in model.read(path.read_bytes())[1]:
                records[record.start] = record
        rising = [records[start] for start in sorted(records)]
        self.begin = rising[0].start
        self.starts = [(record.start - self.begin) / model.SECOND for record in rising]
        joined = b"".join(record.samples for record in rising)
        samples = numpy.frombuffer(joined, "<i2").reshape(len(rising), -1)
        edges = numpy.cumsum((0, *NIGHT.samples))
        self.signals = [samples[:, edges[n]:edges[n + 1]] for n in range(len(NIGHT.samples))]
        self.notes = [
            ((at - self.begin) / model.SECOND, (duration or 0) / model.SECOND, text.decode())
            for record in rising for at, duration, text in record.notes]

    def same_records(self, digital: list) -> int:
        """Of how many records all samples are these, signal by signal in the order of the
        records."""
        good = numpy.ones(len(self.starts), bool)
        for expected, got in zip(self.signals, digital):
            if got.size != expected.size:
                return 0
            good &= (got.reshape(expected.shape) == expected).all(axis=1)
        return int(good.sum())

    def right_times(self, times: list) -> int:
        return sum(abs(got - expected) < 0.001 for got, expected in zip(times, self.starts))

    def same_notes(self, notes: list) -> int:
        """How many annotations came with time and duration, to the millisecond, and text."""
        def counted(each: list) -> Counter:
            return Counter((round(at, 3), round(duration, 3), text) for at, duration, text in each)
        return (counted(self.notes) & counted(notes)).total()


def compare(title: str, path: Path, submitted: Submitted, folder: Path, probe: Path) -> tuple:
    """A line for each reader, and how many of MNE and BioSig have not every sample."""
    lines, failed = [], 0
    records, notes = len(submitted.starts), len(submitted.notes)
    for name, read in ((reading.MNE, lambda: reading.by_mne(path, NIGHT.samples)),
                       ("BioSig", lambda: reading.by_biosig(path, folder, NIGHT.samples))):
        try:
            content = read()
        except Exception as fault:
            lines.append((title, name, f"no: {type(fault).__name__}: {fault}"[:100], "", "", ""))
            failed += 1
            continue
        same = submitted.same_records(content.signals)
        failed += same != records
        lines.append((title, name, "yes", f"{same:,} of {records:,}",
                      f"{submitted.right_times(content.times):,} of {records:,}",
                      f"{submitted.same_notes(content.notes):,} of {notes:,}"))
        for warning in content.warned:
            print(f"{title}, {name} warns: {warning}")
    answer = measure.done(probe, path).out.decode().strip()
    opens = "yes" if answer.startswith("opened") else f"no: {answer}"
    lines.append((title, "EDFlib", opens, "", "", ""))
    return lines, failed


def main() -> None:
    given = arguments.Parser(__doc__).read()
    measure.need("cc", "save2gdf")
    lines, failed = [], 0
    with measure.scratch() as name:
        folder = Path(name)
        probe = measure.compiled(Path(__file__).parent / "probe.c", folder, "-ledf", "-lm")
        parts = NIGHT.parts(folder)
        sent = [part for n, part in enumerate(parts) if n not in MISSING]
        store, export = folder / "s.db", folder / "export.edf"
        for title, files, held in (("a gap of 20 minutes", sent, sent),
                                   ("no gap", parts[MISSING[0]:MISSING[-1] + 1], parts)):
            measure.done(given.program, "take", store, *files)
            measure.done(given.program, "export", store, "1", out=export)
            read, wrong = compare(title, export, Submitted(held), folder, probe)
            lines, failed = lines + read, failed + wrong
    print()
    measure.table(("export", "reader", "opens", "records with the samples submitted",
                   "records at the right time", "annotations with time, duration, text"), lines)
    end(len(lines), failed)


if __name__ == "__main__":
    main()
