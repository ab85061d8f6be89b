"""Gives random files to `edfruns list`, `canonical` and `split` and checks each line, file and
status against a plain model.

    python3 -m checks.fuzz.split [--edfruns PATH] [--seed SEED] [COUNT]    1,000 files if left out

The files are those of fuzz/run.py (cases.py), about half of them broken. Of each, `list` and
`canonical` are what the model has; of those with runs, every eighth is split, and what
`canonical --by-onset` writes of it is split too. Then the model's store takes the runs' files in any
order, some twice, and must accept each and export the canonical file of the whole. The first that
fails is left in the folder that is named.
"""
import collections
import random
import tempfile
import time
from pathlib import Path

from checks.fuzz import cases
from checks.lib import arguments, measure, model, printed, runs
from checks.lib.checks import Lost, compare, end


def is_undated(run: runs.Run) -> bool:
    """Whether no header can name when it starts: it is after 2084, and its file has no date."""
    return run.key.dated == b"X" and run.first() // model.DAY in model.LETTERS


def was_split(program: measure.Program, name: str, made: list) -> None:
    names = runs.split_names("part", made)
    compare("split", program.ran("split", name, "part").outcome(),
            (runs.split_lines("part", made).encode(), b"", 0))
    compare("the files of split",
            {path.name: path.read_bytes() for path in program.folder.glob("part-*")},
            {name: run.to_bytes() for name, run in zip(names, made)})
    for name in names:
        (program.folder / name).unlink()


def by_onset(program: measure.Program, data: bytes) -> None:
    """What `canonical --by-onset` writes, split."""
    whole, outside = runs.canonical_by_onset(data)
    compare("canonical --by-onset", program.ran("canonical", "--by-onset", "a.edf").outcome(),
            (whole, printed.outside("a.edf", outside).encode(), 0))
    (program.folder / "sorted.edf").write_bytes(whole)
    was_split(program, "sorted.edf", runs.read_by_onset(data))
    (program.folder / "sorted.edf").unlink()


def taken_back(data: bytes, made: list, chance: random.Random) -> None:
    """Nothing is lost by splitting: of the model alone."""
    files = [run.to_bytes() for run in made]
    order = files + chance.sample(files, chance.randint(0, len(files)))
    chance.shuffle(order)
    store, whole = model.Store(), model.Store()
    whole.take(data)
    for file in order:
        compare("a run that is taken", printed.is_accepted(store.take(file)), True)
    compare("the export of the runs", store.export(1), whole.export(1))


def checked(program: measure.Program, data: bytes, chance: random.Random) -> str:
    """What the file is counted as."""
    (program.folder / "a.edf").write_bytes(data)
    try:
        made = runs.read_runs(data)
    except model.Refused as fault:
        line = printed.line("a.edf", printed.refused(str(fault))).encode()
        for words in (("list", "a.edf"), ("canonical", "a.edf"), ("split", "a.edf", "part")):
            compare(words[0], program.ran(*words).outcome(), (b"", line, 1))
        return "refused"
    compare("list", program.ran("list", "a.edf").outcome(), (runs.lines(made).encode(), b"", 0))
    compare("canonical", program.ran("canonical", "a.edf").outcome(),
            (model.canonical(*model.read(data)), b"", 0))
    if undated := [run.number for run in made if is_undated(run)]:
        compare("split", program.ran("split", "a.edf", "part").outcome(),
                (b"", printed.undated(undated[0]).encode(), 1))
        return "of a run that no header can date"
    taken_back(data, made, chance)
    if chance.random() < 0.125:
        was_split(program, "a.edf", made)
        by_onset(program, data)
    return f"of {len(made)} run{'s' * (len(made) > 1)}"


def words() -> arguments.Parser:
    parser = arguments.Parser(__doc__, ("edfruns",), count=1_000)
    parser.add_argument("--seed", default="1", help="of the files, 1 if left out")
    return parser


def main() -> None:
    given = words().read()
    kinds, begun = collections.Counter(), time.perf_counter()
    folder = Path(tempfile.mkdtemp(prefix="edfruns-fuzz-"))
    program = measure.Program(given.edfruns, folder)
    for nth, files in enumerate(cases.batches(given.seed, given.count)):
        chance = random.Random(f"{given.seed}/{nth}/runs")
        for data in files:
            try:
                kinds[checked(program, data, chance)] += 1
            except Lost as wrong:
                tried = kinds.total() + 1
                print(f"{folder}/a.edf, file {tried} of seed {given.seed}: {wrong}")
                end(tried, 1)
    (folder / "a.edf").unlink()
    folder.rmdir()
    print(f"{time.perf_counter() - begun:.0f} s, seed {given.seed}: every line and file as the "
          "model has it")
    named = sorted(kinds.items(), key=lambda each: (len(each[0]), each[0]))
    print(", ".join(f"{number} {text}" for text, number in named))
    end(kinds.total(), 0)


if __name__ == "__main__":
    main()
