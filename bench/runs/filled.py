"""`edfruns fill`, `cut` and `compare` against `canonical` of an earlier `edfruns`, by the processor,
with their peak memory.

    python3 -m bench.runs.filled --before PATH [--edfruns PATH] [COUNT]

Least of COUNT runs of each by turns, 3 if left out. PATH of --before is an `edfruns` to compare
with, as that of 1.3.3. The files: a night of 195 MB with three gaps; one with a gap after each of
30,000 data records; two data records of 0.01 s with 24 hours between them. `compare` has a night and
its card. It needs time, and about 2 GB in TMPDIR.
"""
import argparse
import sys
from dataclasses import dataclass
from pathlib import Path

from bench.runs import run
from checks.lib import arguments, edf, gapped, measure, night

MANY = 30_000
# The goals: how many times the processor time of `canonical` of all files that are read, and bytes
MOST = {"fill": 1.3, "fill, 30,000 gaps": 2.0, "cut": 1.3, "compare": 1.3}
PEAK_MOST = 12_000_000


@dataclass
class Line:
    """The least of a command, and of `canonical` beside it."""
    processor: float = float("inf")
    canonical: float = float("inf")
    peak: int = 0

    def ratio(self) -> float:
        return self.processor / self.canonical


def many_gaps(path: Path) -> Path:
    """A data record starts a tenth of a second after the end of the one before."""
    gaps = tuple((nth, gapped.SECOND // 10) for nth in range(1, MANY + 1))
    return gapped.GappedNight(records=MANY + 1, gaps=gaps).whole(path)


def long_gap(path: Path) -> Path:
    header = edf.Header((edf.Signal(), edf.annotations_signal(10)), count="2", duration="0.01")
    path.write_bytes(edf.fragment(header, [(bytes(4), edf.keeping("+0")),
                                           (bytes(4), edf.keeping("+86400.01"))]))
    return path


Commands = dict[str, tuple[list[str | Path], list[Path]]]


def commands(folder: Path) -> Commands:
    """Each command's words, and the files that it reads."""
    files = run.nights(folder, night.CLINIC)
    gaps, card = files["gaps"], files["card"]
    many, long = many_gaps(folder / "many.edf"), long_gap(folder / "long.edf")
    return {"fill": (["fill", gaps], [gaps]),
            "cut": (["cut", gaps, "--from", "1985-01-01T00:00"], [gaps]),
            "compare": (["compare", gaps, card], [gaps, card]),
            "fill, 30,000 gaps": (["fill", many], [many]),
            "fill, 24 hours": (["fill", long], [long])}


def one_round(given: argparse.Namespace, each: Commands, folder: Path,
              least: dict[str, Line]) -> None:
    for name, (words, files) in each.items():
        line, canonical = least.setdefault(name, Line()), 0.0
        for path in files:
            measure.settle()
            canonical += measure.timed(given.before, "canonical", path,
                                       out=folder / "canonical.edf").processor
        measure.settle()
        done = measure.ran(given.edfruns, *words, out=folder / "made.edf", is_measured=True)
        if done.status > (1 if words[0] == "compare" else 0):
            sys.exit(f"{name}: {done}")
        line.processor = min(line.processor, done.processor)
        line.canonical = min(line.canonical, canonical)
        line.peak = max(line.peak, done.peak)


def main() -> None:
    parser = arguments.Parser(__doc__ or "", ("edfruns",), count=3)
    parser.add_argument("--before", metavar="PATH", type=arguments.path, required=True,
                        help="an edfruns whose `canonical` it is compared with")
    given = parser.read()
    measure.need("/usr/bin/time")
    least: dict[str, Line] = {}
    with measure.scratch() as name:
        each = commands(Path(name))
        for _ in range(given.count):
            one_round(given, each, Path(name), least)
    measure.table(("", "processor", "`canonical`", "/ `canonical`", "goal", "peak"),
                  [(name, f"{line.processor:.3f} s", f"{line.canonical:.3f} s",
                    f"{line.ratio():.2f}" if name in MOST else "", str(MOST.get(name, "")),
                    measure.mb(line.peak)) for name, line in least.items()])
    missed = [name for name, most in MOST.items() if least[name].ratio() > most]
    missed += [name for name, line in least.items() if line.peak > PEAK_MOST]
    print(f"missed: {', '.join(missed) or 'none'}")


if __name__ == "__main__":
    main()
