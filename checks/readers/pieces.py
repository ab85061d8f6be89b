"""Whether pieces and a card that EDFlib wrote are one recording by onset.

    python3 -m checks.readers.pieces [--program PATH] [--edfruns PATH]

EDFlib writes twenty minutes over midnight with 120 annotations as a card, and as six pieces that
reach into each other, each with the annotations that happened in it. It puts the n-th annotation
into the n-th data record, whatever its onset, so `edfstore take` refuses the card beside its
pieces, E31.
By `edfruns canonical --by-onset` each of them is accepted, the pieces first or the card, and the
export has each annotation once, in the data record that has its onset, with every sample. A piece
that has an annotation of the piece after it is told, ` outside=1`, and is E31 beside the card. All
that is expected is worked out here; what goes into each file is given to EDFlib alone.

It needs Debian's libedf-dev and cc.
"""
from pathlib import Path

from checks.lib import arguments, measure, model, printed, spread
from checks.lib.checks import Lost, compare, end

SECONDS, UNITS = 1_200, 10_000          # EDFlib counts in units of 100 microseconds
RATE = 10
BEGIN = (14_186 * 86_400 + 85_800) * model.SECOND      # 2023-11-04 23:50:00
EDGES = (0, 200, 450, 700, 900, 1_050, SECONDS)
BACK = 30       # seconds that a piece has of the one before
PACKAGES = ("libedf1", "libedf-dev")


def night() -> list:
    """Each annotation, with its onset and duration in those units; -1 is no duration. Some have one
    onset, some lie at the very start of a data record, the last at the last moment."""
    notes = [(10 * UNITS * nth + 37 * nth % UNITS, (-1, 0, 15_000)[nth % 3], f"event {nth % 7}")
             for nth in range(117)]
    return notes + [(700 * UNITS, -1, "Lights off"), (700 * UNITS, 25_000, "Arousal"),
                    (SECONDS * UNITS - 1, -1, "Schl\u00e4ft")]


def happened(notes: list, first: int, last: int) -> list:
    return [note for note in notes if first * UNITS <= note[0] < last * UNITS]


def expected(notes: list) -> list:
    """The data records of the night, each with the annotations that happened in it."""
    unit = model.SECOND // UNITS
    return [model.Record(
        BEGIN + second * model.SECOND,
        b"".join(((second * RATE + i) % 30_000).to_bytes(2, "little") for i in range(RATE)),
        tuple((BEGIN + onset * unit, None if duration < 0 else duration * unit, text.encode())
              for onset, duration, text in happened(notes, second, second + 1)))
            for second in range(SECONDS)]


class Night:
    def __init__(self, given, folder: Path):
        self.programs = spread.Programs(measure.Program(given.program, folder),
                                        measure.Program(given.edfruns, folder))
        self.writer = measure.compiled(Path(__file__).parent / "write_piece.c", folder, "-ledf",
                                       "-lm")
        self.notes, self.tried = night(), 0

    def written(self, name: str, first: int, last: int, notes: list) -> bytes:
        """A file that EDFlib wrote."""
        path = self.programs.folder() / name
        lines = "".join(f"{onset} {duration} {text}\n" for onset, duration, text in notes)
        measure.done(self.writer, path, first, last - first, given=lines.encode())
        return path.read_bytes()

    def files(self) -> dict:
        pieces = {f"piece{nth}.edf": (max(0, first - BACK), last)
                  for nth, (first, last) in enumerate(zip(EDGES, EDGES[1:]), 1)}
        return {name: self.written(name, first, last, happened(self.notes, first, last))
                for name, (first, last) in (pieces | {"card.edf": (0, SECONDS)}).items()}

    def as_they_came(self, files: dict) -> None:
        *pieces, card = spread.taken(self.programs, files, list(files))
        self.tried += 1
        print(f"as they came: {[printed.kind(one) for one in pieces]}, the card {card}")
        compare("the card beside its pieces", printed.number(card), "E31")

    def by_onset(self, files: dict) -> dict:
        made = {name: spread.made_by_onset(self.programs, name, data)
                for name, data in files.items()}
        compare("annotations outside", [outside for _, outside in made.values()], [0] * len(made))
        made = {name: data for name, (data, _) in made.items()}
        for order in (list(made), list(made)[::-1]):
            answers = spread.taken(self.programs, made, order)
            compare("all accepted", all(map(printed.is_accepted, answers)), True)
            exported = self.programs.edfstore.ran("export", "night.db", "1").out
            spread.has_each_once(exported, expected(self.notes))
            self.tried += 1
        print(f"by onset: {len(made)} of {len(made)} accepted, the card first or last")
        return made

    def with_a_stray(self, made: dict) -> None:
        """The second piece has an annotation of the third, as a scorer may add it."""
        first, last = EDGES[1] - BACK, EDGES[2]
        notes = happened(self.notes, first, last) + [((last + 60) * UNITS, -1, "Stray")]
        data = self.written("piece2.edf", first, last, notes)
        stray, outside = spread.made_by_onset(self.programs, "piece2.edf", data)
        compare("annotations outside", outside, 1)
        (self.programs.folder() / "card.edf").write_bytes(made["card.edf"])
        _, answer = spread.taken(self.programs, made | {"piece2.edf": stray},
                                 ["card.edf", "piece2.edf"])
        compare("a piece with a stray beside its card", printed.number(answer), "E31")
        self.tried += 1
        print(f"a piece with a stray: outside=1, {answer}")


def main() -> None:
    given = arguments.Parser(__doc__, arguments.BOTH).read()
    measure.need("cc")
    with measure.scratch() as name:
        one = Night(given, Path(name))
        failed = 0
        try:
            files = one.files()
            one.as_they_came(files)
            one.with_a_stray(one.by_onset(files))
        except Lost as wrong:
            failed = 1
            print(wrong)
    print(measure.ran("dpkg-query", "-W", *PACKAGES).out.decode())
    end(one.tried + failed, failed)


if __name__ == "__main__":
    main()
