"""Gives random files to `edfstore take` and checks each line, the list and every export against a
plain model.

    python3 -m checks.fuzz.run [--program PATH] [--seed SEED] [--keep FOLDER] [COUNT]

2,000 files if left out.

The files (cases.py) are fragments of a few recordings, cut and spelled at random, in any order and
with repeats, about half of them broken: fields, blocks, cuts, bytes. Half of them have no count of
their data records, or several annotations signals. 200 come to a new store in two `take`s, so that
the store is opened with rows. Checked are the line of each file, the status, the lines of `list`,
and every export byte for byte; that the whole list sent again changes nothing; and that an empty
store accepts each export and writes it again unchanged. The model (checks/lib/model.py) was written
from docs/FORMAT.md and docs/REFUSALS.md, apart from the program. Of the batch that fails first the
fewest files that still fail are looked for, and kept in FOLDER.
"""
import collections
import os
import shutil
import time
from pathlib import Path

from checks.fuzz import cases
from checks.lib import arguments, measure, model, printed
from checks.lib.checks import Lost, compare, end
from checks.lib.edf import ANNOTATIONS_LABEL
from checks.lib.fewest import fewest


def take(program: measure.Program, names: list, files: list, store: model.Store) -> list:
    answers = [store.take(data) for data in files]
    taken = program.ran("take", "s.db", *names)
    lines = taken.out.decode(errors="replace").splitlines(keepends=True)
    for name, line, answer in zip(names, lines, answers):
        compare(name, line, printed.line(name, answer))
    compare("how many lines", len(lines), len(names))
    compare("status of take", taken.status,
            1 if any(map(printed.number, answers)) else 0)
    compare("standard error of take", taken.err, b"")
    return answers


def exports(program: measure.Program, store: model.Store) -> None:
    compare("the list", program.ran("list", "s.db").out.decode(), store.lines())
    for place in range(1, len(store.held) + 1):
        compare(f"export at place {place}", program.ran("export", "s.db", place).out,
                store.export(place))


def again(program: measure.Program, store: model.Store) -> None:
    """Each export alone in an empty store is written unchanged."""
    for place in range(1, len(store.held) + 1):
        given = store.export(place)
        (program.folder / "export.edf").write_bytes(given)
        compare(f"convert of export {place}", program.ran("convert", "export.edf").out, given)


def check(program: measure.Program, files: list, is_long: bool) -> list:
    names = []
    for nth, data in enumerate(files):
        names.append(f"{nth:04}.edf")
        (program.folder / names[-1]).write_bytes(data)
    store, half = model.Store(), len(files) // 2
    answers = []
    for part in filter(None, (range(half), range(half, len(files)))):
        answers += take(program, [names[nth] for nth in part], [files[nth] for nth in part], store)
    exports(program, store)
    if is_long:
        held = {key: list(records) for key, (_, records) in store.held.items()}
        take(program, names, files, store)
        compare("holdings after all was sent again",
                {key: list(records) for key, (_, records) in store.held.items()}, held)
        exports(program, store)
        again(program, store)
    return answers


def emptied(folder: Path) -> None:
    for path in folder.iterdir():
        path.unlink()


def kind(data: bytes) -> str:
    """What the file is counted as, by its header."""
    signals = data[252:256].strip()
    ends = 256 + 16 * int(signals) if signals.isdigit() else 0
    several = sum(data[at:at + 16] == ANNOTATIONS_LABEL.encode() for at in range(256, ends, 16)) > 1
    return " and ".join(["of unknown count"] * (data[236:244] == b"-1      ") +
                        ["with several annotations signals"] * several)


def fault_of(program: measure.Program, files: list, is_long: bool) -> str:
    """Why these files fail alone; nothing where they don't."""
    emptied(program.folder)
    try:
        if files:
            check(program, files, is_long)
    except Lost as wrong:
        return str(wrong)
    return ""


def tell(program: measure.Program, files: list, is_long: bool, keep: str) -> None:
    """Tells of the fewest files that fail, and keeps them."""
    least = fewest(files, lambda some: bool(fault_of(program, some, is_long)))
    print(f"{len(least)} of its {len(files)} files fail: {fault_of(program, least, is_long)}")
    if keep:
        shutil.copytree(program.folder, keep, dirs_exist_ok=True)


def words() -> arguments.Parser:
    parser = arguments.Parser(__doc__, count=2_000)
    parser.add_argument("--seed", default="1", help="of the files, 1 if left out")
    parser.add_argument("--keep", metavar="FOLDER", help="where files that fail go")
    return parser


def report(answers: list) -> None:
    """How many were accepted, and how many refused with each number."""
    faults = collections.Counter(filter(None, map(printed.number, answers)))
    accepted = len(answers) - faults.total()
    print(f"accepted {accepted} ({accepted / len(answers):.0%}); refused:",
          ", ".join(f"{number} {faults[number]}"
                    for number in sorted(faults, key=lambda number: int(number[1:]))))


def main() -> None:
    given = words().read()
    if "TMPDIR" not in os.environ and Path("/dev/shm").is_dir():
        os.environ["TMPDIR"] = "/dev/shm"       # a sync a file costs nothing there
    answers, kinds, begun = [], collections.Counter(), time.perf_counter()
    with measure.scratch() as name:
        folder = Path(name)
        program = measure.Program(given.program, folder)
        for nth, files in enumerate(cases.batches(given.seed, given.count)):
            emptied(folder)
            try:
                answers += check(program, files, nth % 4 == 0)
            except Lost as wrong:
                print(f"batch {nth} of seed {given.seed}: {wrong}", flush=True)
                tell(program, files, nth % 4 == 0, given.keep)
                end(len(answers) + 1, 1)
            kinds.update(map(kind, files))
    print(f"{time.perf_counter() - begun:.0f} s, seed {given.seed}: every line, list and export as "
          "the model has it")
    print(", ".join(f"{number} {text}" for text, number in sorted(kinds.items()) if text))
    report(answers)
    end(len(answers), 0)


if __name__ == "__main__":
    main()
