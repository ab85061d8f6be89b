"""Pieces and cards whose annotations are spread over their data records, and what becomes of them
by onset: what `edfruns canonical --by-onset` must write and tell of each, and what a store that
takes these files must answer and export. All that is expected comes from the plain model.
"""
from dataclasses import dataclass

from . import measure, model, printed, runs
from .checks import compare


@dataclass(frozen=True)
class Programs:
    """The two programs, in one folder."""
    edfstore: measure.Program
    edfruns: measure.Program

    def folder(self):
        return self.edfruns.folder


def happened(key: model.Key, records: list, piece: list) -> list:
    """The annotations of the recording whose onsets data records of the piece have."""
    return [note for record in records for note in record.notes
            if runs.lies_in(key, piece, note[0])]


def made_by_onset(programs: Programs, name: str, data: bytes) -> tuple:
    """Has the file made anew by onset, under the same name; what is written is as by the model.
    Answers these bytes, and how many annotations were told as outside."""
    path = programs.folder() / name
    path.write_bytes(data)
    expected, outside = runs.canonical_by_onset(data)
    compare(f"{name} by onset", programs.edfruns.ran("canonical", "--by-onset", name).outcome(),
            (expected, printed.outside(name, outside).encode(), 0))
    path.write_bytes(expected)
    return expected, outside


def taken(programs: Programs, files: dict, order: list) -> list:
    """A new store takes these files in that order. Its answers and its export are those of the
    model; the answers are answered."""
    store, held = programs.folder() / "night.db", model.Store()
    measure.remove_store(store)
    answers = [held.take(files[name]) for name in order]
    lines = printed.lines(*zip(order, answers)).encode()
    status = 0 if all(map(printed.is_accepted, answers)) else 1
    compare("the answers", programs.edfstore.ran("take", store, *order).outcome(),
            (lines, b"", status))
    compare("the export", programs.edfstore.ran("export", store, "1").outcome(),
            (held.export(1), b"", 0))
    return answers


def has_each_once(exported: bytes, records: list) -> None:
    """The export has each data record of the night, with its samples; and each annotation, once, in
    the data record that has its onset."""
    key, found = model.read(exported)
    compare("starts and samples", [(record.start, record.samples) for record in found],
            [(record.start, record.samples) for record in records])
    notes = [note for record in found for note in record.notes]
    compare("the annotations", sorted(notes, key=runs.in_order),
            sorted((note for record in records for note in record.notes), key=runs.in_order))
    for record in found:
        for onset, _, _ in record.notes:
            compare("an onset in its data record", runs.lies_in(key, [record], onset), True)
