"""What EDFbrowser's tool "Convert EDF+D to EDF+C" keeps of the annotations and samples of exports,
beside `edfruns split`.

    python3 -m checks.readers.converter [--program PATH] [--edfruns PATH]

Of three nights with gaps the canonical file is given to both: of 28,800 data records of 1 s with an
annotation or two in every seventh; of 960 of 30 s with a sleep stage in each; and of these with an
event in each too. A table has how many annotations are in any of the files that were made, with
onset, duration and text, how many are there but for the end of their text, and how many of the
files keep the rules of EDF+. The status is 1 where `edfruns split` loses an annotation or breaks a
rule, or where a file of either has another sample.

It needs what `of_runs.py` needs of EDFbrowser, and so Debian's own python3.
"""
from collections import Counter
from dataclasses import dataclass, replace
from pathlib import Path

from checks.lib import arguments, gapped, measure, model
from checks.lib.checks import end
from checks.readers import edfbrowser

SECOND = gapped.SECOND
STAGES = ("W", "N1", "N2", "N3", "R")
# The tool writes an onset before its file's start with two signs, which no rule allows; these bytes
# are read as what is meant by them.
TWO_SIGNS, ONE_SIGN = b"\x14\x14\0+-", b"\x14\x14\0-0"


@dataclass(frozen=True)
class Scored(gapped.GappedNight):
    """A sleep stage in each data record, and an event or none."""
    has_events: bool = False

    def block(self, nth: int, first: int) -> bytes:
        start, stage = self.start_of(nth), STAGES[nth % len(STAGES)]
        notes = [gapped.Note(0, self.seconds * SECOND, f"Sleep stage {stage}")]
        if self.has_events:
            notes.append(gapped.Note(7 * SECOND // 2, 10 * SECOND, "Hypopnea"))
        lists = [gapped.keeping(gapped.onset(start)), *(note.to_bytes(start) for note in notes)]
        return b"".join(lists).ljust(2 * self.annotation_samples, b"\0")


SCORED = Scored(records=960, seconds=30, samples=(3000, 3000, 750), limits=gapped.NIGHT.limits,
                gaps=((300, 1200 * SECOND), (700, 45 * SECOND)))
NIGHTS = (("1 s, an annotation or two in every seventh", gapped.NIGHT),
          ("30 s, a stage in each", SCORED),
          ("30 s, a stage and an event in each", replace(SCORED, has_events=True)))


def read(path: Path) -> tuple:
    """The data records, and whether the file keeps the rules."""
    data = path.read_bytes()
    try:
        return model.read(data)[1], True
    except model.Refused:
        return model.read(data.replace(TWO_SIGNS, ONE_SIGN))[1], False


def content_of(paths: list) -> tuple:
    """The annotations of all files, each with its instant, the samples of each instant, and how
    many files keep the rules."""
    files = [read(path) for path in paths]
    records = [record for each, _ in files for record in each]
    return (Counter(note for record in records for note in record.notes),
            {record.start: record.samples for record in records}, sum(good for _, good in files))


def cut(expected: Counter, got: Counter) -> int:
    """How many of the expected ones that are not there have the front of their text there."""
    missing, others = expected - got, Counter(got - expected)
    found = 0
    for at, duration, text in missing.elements():
        front = next((note for note in others if note[:2] == (at, duration) and others[note]
                      and text.startswith(note[2])), None)
        if front:
            others[front] -= 1
            found += 1
    return found


def line(name: str, tool: str, whole: tuple, made: list) -> tuple:
    notes, samples, _ = whole
    got, got_samples, good = content_of(made)
    count = notes.total()
    kept, fronts = (notes & got).total(), cut(notes, got)
    same = sum(samples[start] == got_samples.get(start) for start in samples)
    return (name, tool, f"{good} of {len(made)}", f"{same:,} of {len(samples):,}",
            f"{kept:,} of {count:,}", f"{fronts:,}", f"{count - kept - fronts:,}")


def is_all(part: str) -> bool:
    found, count = part.split(" of ")
    return found == count


def canonical(edfstore: Path, night, folder: Path) -> Path:
    folder.mkdir()
    given = night.whole(folder / "given.edf")
    measure.done(edfstore, "convert", given, out=folder / "export.edf")
    return folder / "export.edf"


def main() -> None:
    given = arguments.Parser(__doc__, arguments.BOTH).read()
    measure.need(*edfbrowser.NEEDED)
    lines = []
    with measure.scratch() as name:
        browser = edfbrowser.Browser(Path(name))
        try:
            for number, (kind, night) in enumerate(NIGHTS):
                path = canonical(given.program, night, Path(name) / str(number))
                whole = content_of([path])
                measure.done(given.edfruns, "split", path, path.parent / "run")
                split = sorted(path.parent.glob("run-*.edf"))
                lines.append(line(kind, "edfruns split", whole, split))
                lines.append(line(kind, browser.name, whole, browser.converted(path)))
        finally:
            browser.end()
    measure.table(("data records of", "by", "files that keep the rules",
                   "data records with their samples", "annotations as submitted", "with a cut text",
                   "missing"), lines)
    print(measure.ran("dpkg-query", "-W", "edfbrowser").out.decode())
    wrong = [not is_all(one[3]) for one in lines]
    wrong += [not is_all(one[2]) or one[5:] != ("0", "0") for one in lines[::2]]
    end(len(lines), sum(wrong))


if __name__ == "__main__":
    main()
