"""A plain model of `edfruns`, beside the one of `edfstore`: the runs of a file, the line of each
and the file of each. A run is a longest stretch of data records each of which starts where the one
before ends, to the nanosecond.

    from checks.lib import runs
    made = runs.read_runs(data)         or model.Refused, with the first fault of the file
    made = runs.read_by_onset(data)     with each annotation where its onset is
    runs.canonical_by_onset(data)       what `canonical --by-onset` writes, and how many annotations
                                        lie outside of all data records
    made[0].line()                      its line, as text
    made[0].told()                      the same, with how many annotations it has
    made[0].to_bytes()                  its file
    runs.split_lines("night", made)     what `split` prints
    runs.split_names("night", made)     the files that it makes
"""
from bisect import bisect_right
from dataclasses import dataclass, replace

from . import model, printed

RESERVED = slice(192, 197)      # where a file says EDF+C or EDF+D


@dataclass(frozen=True)
class Run:
    number: int
    key: model.Key
    records: tuple
    gap: int                    # nanoseconds to the run that follows, 0 for the last

    def first(self) -> int:
        """When its first data record starts, in nanoseconds from 1985."""
        return self.records[0].start

    def length(self) -> int:
        """How many nanoseconds it has."""
        return len(self.records) * self.key.duration()

    def line(self) -> str:
        seconds, gap = (model.shortest(nanos).decode() for nanos in (self.length(), self.gap))
        return printed.run(self.number, len(self.records), model.instant_text(self.first()),
                           seconds, gap if self.gap else "", *self.key.codes())

    def counts(self) -> tuple:
        """How many annotations it has, and how many of these have an onset outside of it."""
        onsets = [onset for record in self.records for onset, _, _ in record.notes]
        end = self.first() + self.length()
        return len(onsets), sum(not self.first() <= onset < end for onset in onsets)

    def told(self) -> str:
        return printed.counted(self.line(), *self.counts())

    def to_bytes(self) -> bytes:
        """The canonical file of its data records, but that it is marked as one without a gap."""
        data = bytearray(model.canonical(self.key, list(self.records)))
        data[RESERVED] = b"EDF+C"
        return bytes(data)


def parted(key: model.Key, records: list) -> list:
    """The data records of each run."""
    stretches = [[records[0]]]
    for before, record in zip(records, records[1:]):
        if record.start == before.start + key.duration():
            stretches[-1].append(record)
        else:
            stretches.append([record])
    return stretches


def in_order(note: tuple) -> tuple:
    """What annotations of a data record are sorted by: onset, duration, none first, and the bytes
    of the text."""
    onset, duration, text = note
    return onset, -1 if duration is None else duration, text


def by_onset(records: list) -> list:
    """Each annotation in the last data record that starts at or before its onset, or in the first;
    those of one data record in order."""
    starts, lists = [record.start for record in records], [[] for _ in records]
    for note in (note for record in records for note in record.notes):
        lists[max(bisect_right(starts, note[0]) - 1, 0)].append(note)
    return [replace(record, notes=tuple(sorted(notes, key=in_order)))
            for record, notes in zip(records, lists)]


def lies_in(key: model.Key, records: list, onset: int) -> bool:
    """One of the data records has the instant."""
    return any(record.start <= onset < record.start + key.duration() for record in records)


def canonical_by_onset(data: bytes) -> tuple:
    key, records = model.read(data)
    onsets = [onset for record in records for onset, _, _ in record.notes]
    outside = sum(not lies_in(key, records, onset) for onset in onsets)
    return model.canonical(key, by_onset(records)), outside


def read_runs(data: bytes) -> list:
    return runs_of(*model.read(data))


def read_by_onset(data: bytes) -> list:
    key, records = model.read(data)
    return runs_of(key, by_onset(records))


def runs_of(key: model.Key, records: list) -> list:
    stretches = parted(key, records)
    nexts = [stretch[0].start for stretch in stretches[1:]]
    gaps = [start - stretch[-1].start - key.duration()
            for stretch, start in zip(stretches, nexts)] + [0]
    return [Run(number, key, tuple(stretch), gap)
            for number, (stretch, gap) in enumerate(zip(stretches, gaps), 1)]


def lines(runs: list) -> str:
    return "".join(run.line() for run in runs)


def split_names(prefix: str, runs: list) -> list:
    """The files' names: each number has as many digits as the last."""
    width = len(str(len(runs)))
    return [f"{prefix}-{run.number:0{width}}.edf" for run in runs]


def split_lines(prefix: str, runs: list) -> str:
    return "".join(f"{name} {run.told()}" for name, run in zip(split_names(prefix, runs), runs))
