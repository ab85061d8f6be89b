"""What the parts of the table share: the programs, the nights, the best of some runs, and goals."""
from dataclasses import dataclass, field
from pathlib import Path

from checks.lib import arguments, measure, night

RUNS = 3
HEAD = ("", "Time", "Processor", "Peak", "C", "/ C", "by processor", "`cat`", "/ `cat`", "Wanted")


@dataclass
class Best:
    """The least seconds of some runs, and their most memory."""
    seconds: float = float("inf")
    processor: float = float("inf")
    peak: int = 0

    def add(self, done) -> "Best":
        self.seconds = min(self.seconds, done.seconds)
        self.processor = min(self.processor, done.processor)
        self.peak = max(self.peak, done.peak)
        return self

    def less(self, other: "Best") -> "Best":
        """What it took more than another; its memory is its own."""
        return Best(self.seconds - other.seconds, self.processor - other.processor, self.peak)


def best_of(runs: int, *words, **options) -> Best:
    best = Best()
    for _ in range(runs):
        measure.settle()
        best.add(measure.timed(*words, **options))
    return best


def ratio(ours: float, theirs: float) -> str:
    return f"{ours / theirs:.2f}" if theirs else ""


def row(what: str, ours: Best, plain: Best = None, cat: float = 0, wanted: str = "") -> tuple:
    """A row under HEAD."""
    of_c = (f"{plain.seconds:.3f} s", ratio(ours.seconds, plain.seconds),
            ratio(ours.processor, plain.processor)) if plain else ("", "", "")
    of_cat = (f"{cat:.3f} s", ratio(ours.seconds, cat)) if cat else ("", "")
    return (what, f"{ours.seconds:.3f} s", f"{ours.processor:.3f} s", measure.mb(ours.peak),
            *of_c, *of_cat, wanted)


@dataclass
class Goals:
    """What is wanted, and what came of it."""
    met: list = field(default_factory=list)
    missed: list = field(default_factory=list)

    def at_most(self, what: str, got: float, most: float, unit: str = "") -> str:
        """The cell of the column Wanted."""
        line = f"{what}: {got:.2f}{unit}, at most {most:g}{unit} wanted"
        (self.met if got <= most else self.missed).append(line)
        return f"{most:g}{unit}"

    def report(self) -> None:
        for line in self.met:
            print(f"met     {line}")
        for line in self.missed:
            print(f"MISSED  {line}")
        print(f"{len(self.met)} goals are met, {len(self.missed)} missed")


class Bench:
    """The programs and a folder with nights, each made when it is first asked for."""

    def __init__(self, given, folder: Path):
        self.program, self.edfruns, self.edfserve = given.program, given.edfruns, given.edfserve
        self.folder, self.goals = folder, Goals()
        self.plain = measure.compiled(arguments.TOP / "bench/store/plain.c", folder, "-lsqlite3")
        self.commands = {"edfstore": self.program, "plain C": self.plain}
        self.made = {}

    def place(self, name: str) -> Path:
        """A folder of a part's own."""
        path = self.folder / name
        path.mkdir(exist_ok=True)
        return path

    def kept(self, name: str, make):
        """What `make` gives, made once."""
        if name not in self.made:
            self.made[name] = make()
        return self.made[name]

    def parts(self, name: str, kind: night.Night) -> list:
        """The fragments of a night as they come."""
        return self.kept(f"parts of {name}",
                         lambda: night.arrival(kind.parts(self.place(f"parts of {name}"))))

    def card(self, name: str, kind: night.Night) -> Path:
        return self.kept(f"card of {name}", lambda: kind.card(self.folder / f"{name}.edf"))

    def store(self, name: str, kind: night.Night) -> Path:
        """A store that has the night."""
        def taken() -> Path:
            path = self.folder / f"{name}.db"
            measure.done(self.program, "take", path, *self.parts(name, kind))
            return path
        return self.kept(f"store of {name}", taken)

    def ten(self) -> list:
        """The 480 files of ten nights."""
        kind, place = night.Night(fragments=48), self.folder / "ten"
        def made() -> list:
            place.mkdir()
            return [path for nth in range(10) for path in kind.next_night(nth).parts(place)]
        return self.kept("ten nights", made)
