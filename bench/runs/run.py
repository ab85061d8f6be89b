"""The words of `edfruns` by the clock against `cat`, with their peak memory.

    python3 -m bench.runs.run [--edfruns PATH] [--short] [COUNT]

Best of COUNT runs of each, 3 if left out; --short: a night of 12.8 MB.

A night of 195 MB: its card, which is one run, and the same night with three gaps, which is four.
`list` reads once, `canonical`, `split` and `picture` twice. Each word is run from a file, right
after a `cat` of that file: to /dev/null for `list`, and into another file for the others. From file
to file `cat` lets the kernel copy, and no byte passes through it. What is written is compared with
the plain model's, but for the picture. It needs time, and about 1.5 GB in TMPDIR.
"""
import os
import sys
from dataclasses import dataclass
from pathlib import Path

from checks.lib import arguments, gapped, measure, model, night, runs

# The goals; that of a picture is of processor time
LIST_MOST, WRITE_MOST, PICTURE_MOST, PEAK_MOST = 1.5, 3.0, 2.0, 16_000_000


@dataclass
class Line:
    """The best of a word and of the `cat` beside it."""
    word: str
    seconds: float = float("inf")
    processor: float = float("inf")
    copied: float = float("inf")
    copying: float = float("inf")       # the processor time of `cat`
    peak: int = 0

    def add(self, done: measure.Ran, copied: measure.Ran) -> None:
        self.seconds = min(self.seconds, done.seconds)
        self.copied = min(self.copied, copied.seconds)
        self.copying = min(self.copying, copied.processor)
        self.processor, self.peak = min(self.processor, done.processor), max(self.peak, done.peak)

    def cells(self) -> tuple:
        return (self.word, f"{self.seconds:.3f} s", f"{self.processor:.3f} s",
                f"{self.copied:.3f} s", f"{self.seconds / self.copied:.2f}", measure.mb(self.peak))


def words_of(name: str, path: Path, folder: Path) -> dict:
    """Each word's command without the program, and the file for its standard output."""
    return {f"list, {name}": (["list", path], folder / f"{name}.txt"),
            f"canonical, {name}": (["canonical", path], folder / f"{name}-canonical.edf"),
            f"split, {name}": (["split", path, folder / f"{name}-run"],
                               folder / f"{name}-split.txt"),
            f"picture, {name}": (["picture", path], folder / f"{name}.svg")}


def one_round(program, files: dict, folder: Path, best: dict) -> None:
    for name, path in files.items():
        for word, (words, out) in words_of(name, path, folder).items():
            for made in folder.glob(f"{name}-run-*.edf") if words[0] == "split" else ():
                made.unlink()       # it writes over no file
            measure.settle()
            copy = os.devnull if words[0] == "list" else folder / "copy"
            copied = measure.timed("cat", path, out=copy)
            measure.settle()
            done = measure.timed(program, *words, out=out)
            best.setdefault(word, Line(word)).add(done, copied)


def compared(files: dict, folder: Path) -> None:
    """What the last round wrote, against the model."""
    for name, path in files.items():
        data = path.read_bytes()
        made = runs.read_runs(data)
        expected = [run.to_bytes() for run in made]
        canonical = model.canonical(*model.read(data))
        same = ((folder / f"{name}.txt").read_text() == runs.lines(made),
                (folder / f"{name}-canonical.edf").read_bytes() == canonical,
                [(folder / part).read_bytes() for part in runs.split_names(f"{name}-run", made)] ==
                expected)
        if not all(same):
            sys.exit(f"{name}: lines, the canonical file and the files of the split are as the "
                     f"model's: {same}")


def nights(folder: Path, kind: night.Night) -> dict:
    """A night as its card and with three gaps."""
    third = kind.records // 4
    gaps = ((third, 1_200 * gapped.SECOND), (2 * third, 600 * gapped.SECOND + gapped.SECOND // 4),
            (3 * third, 7 * gapped.SECOND))
    parted = gapped.GappedNight(records=kind.records, samples=kind.samples, gaps=gaps)
    return {"card": kind.card(folder / "card.edf"), "gaps": parted.whole(folder / "gaps.edf")}


def verdict(best: dict) -> None:
    ratios = {word: line.seconds / line.copied for word, line in best.items()}
    for kind, most in (("list", LIST_MOST), ("canonical", WRITE_MOST), ("split", WRITE_MOST)):
        worst = max(ratio for word, ratio in ratios.items() if word.startswith(kind))
        print(f"`{kind}` takes at most {worst:.2f} times `cat` (goal: at most {most})")
    worst = max(line.processor / max(line.copying, 0.01) for word, line in best.items()
                if word.startswith("picture"))
    print(f"`picture` takes at most {worst:.2f} times the processor time of `cat` (goal: at most "
          f"{PICTURE_MOST})")
    peak = max(line.peak for line in best.values())
    print(f"peak memory at most {measure.mb(peak)} (goal: at most {measure.mb(PEAK_MOST)})\n")


def main() -> None:
    parser = arguments.Parser(__doc__, ("edfruns",), count=3)
    parser.add_argument("--short", action="store_true", help="a night of 12.8 MB")
    given = parser.read()
    measure.need("cat", "/usr/bin/time")
    with measure.scratch() as name:
        folder = Path(name)
        files, best = nights(folder, night.SHORT if given.short else night.CLINIC), {}
        for _ in range(given.count):
            one_round(given.edfruns, files, folder, best)
        compared(files, folder)
        print(f"a night of {measure.mb(files['card'].stat().st_size)}, best of {given.count} runs, "
              f"{measure.machine()}\n")
        measure.table(("", "`edfruns`", "processor", "`cat`", "/ `cat`", "peak"),
                      [line.cells() for line in best.values()])
        verdict(best)


if __name__ == "__main__":
    main()
