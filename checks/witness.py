"""Whether examples/witness.py, which is for people who believe none of our programs, says that a
right export is right, and of a wrong one what is wrong.

    python3 -m checks.witness [--program PATH] [--seed SEED] [COUNT]    200 nights if left out

A night with gaps comes in pieces, shuffled and resent, and as a card; beside it come a recording of
another patient and files that are refused (lib/wrong_exports.py). Its export is right, and so are
those of a recorder's night and of one whose clock drifts. Of the first come exports that are wrong
in one place; the line that tells each is written by hand. So is what can't be told, with status 2.
Then come COUNT nights by chance, as fuzz.run has them, whose exports are right, and are made wrong
by chance: what must be named is the plain model's. The commands of GUIDE are run as printed.
"""
import random
import shutil
import sys
from pathlib import Path

from checks.fuzz import cases
from checks.lib import arguments, faults, measure, model, printed, sessions, wrong_exports
from checks.lib.checks import Checks
from checks.lib.named import patched
from checks.lib.night import Night, arrival, resent
from checks.lib.wrong_exports import ANSWERS, EXPORT, FILES, ORDER, Parts

WITNESS = arguments.TOP / "examples/witness.py"
RECORDER = Night(records=90, seconds=2, samples=(8, 8, 3), fragments=18, annotation_samples=20)
DRIFTING = [wrong_exports.record(1_001 * nth, nth) for nth in range(60)]


def said(records: int, files: int, others: int = 0, refused: int = 0) -> str:
    """What is said of a right export."""
    return (f"{EXPORT} has the {records} data records of {files} accepted files, each once, and "
            f"nothing else\nnot in it: {others} accepted files of other recordings, {refused} "
            "refused files\n")


def asked(checks: Checks, names) -> measure.Ran:
    return measure.ran(sys.executable, "-I", WITNESS, "--answers", "answers", "--export", EXPORT,
                       *names, folder=checks.folder)


def witness(checks: Checks, what: str, names, out: str = "", err: str = "") -> None:
    status = 2 if err else 0 if out.startswith(f"{EXPORT} has the ") else 1
    checks.compare(what, asked(checks, names), out, err, status)


def taken(checks: Checks, what: str, files: dict, order) -> bytes:
    """A new case, in which these files were taken in that order; the export of place 1."""
    checks.begin(what)
    for name, data in files.items():
        checks.file(name, data)
    checks.file("answers", checks.program.ran("take", "night.db", *order).out)
    return exported(checks, 1)


def exported(checks: Checks, place: int) -> bytes:
    export = checks.program.ran("export", "night.db", str(place)).out
    checks.file(EXPORT, export)
    return export


def by_hand(checks: Checks) -> None:
    """The night and its wrong exports."""
    export = taken(checks, "a night", FILES, ORDER)
    lines = printed.lines(*zip(ORDER, map(printed.answer, ANSWERS)))
    checks.same("the answers", checks.content("answers"), lines.encode())
    witness(checks, "the export", FILES, said(8, 4, 1, 2))
    witness(checks, "fewer refused files", ORDER[3:] + ORDER[:2], said(8, 4, 1, 1))
    for what, made, line in wrong_exports.wrong(export):
        checks.file(EXPORT, made)
        witness(checks, what, FILES, line)
    exported(checks, 2)
    witness(checks, "the other recording", FILES, said(1, 1, 4, 2))


def untold(checks: Checks) -> None:
    """What can't be told, and files that are not as they were answered."""
    taken(checks, "what can't be told", FILES, ORDER)
    answers, one = checks.content("answers"), FILES["part1.edf"]
    unheld = printed.fault("late.edf", faults.store())
    for what, added in ("no answer", ""), ("E42", unheld):
        checks.file("answers", answers + added.encode())
        witness(checks, what, [*FILES, "late.edf"],
                err="late.edf: answers does not say whether it was accepted\n")
    checks.file("answers", answers + unheld.replace("late", "card").encode() + b"status 3\n")
    witness(checks, "E42 of a known one", FILES, said(8, 4, 1, 2))
    witness(checks, "not given", ORDER[1:], err="part3.edf: it was accepted, and is not among the "
            "given files\n")
    for what, data, out, err in (
            ("cut", one[:-1], "", "part1.edf, header: number of data records is '4'; there are 3 "
             f"and {Parts(one).size - 1} bytes more\n"),
            ("no list", Parts(one).noted(1, b"+1.5", b"1.5"), "", "part1.edf, data record 2: its "
             "annotations are no lists of EDF+ from '1.5\\x152\\x14Arousal\\x14' on\n"),
            ("no start", Parts(one).noted(0, b"+0\x14\x14", b"+0\x14a\x14"), "", "part1.edf, data "
             "record 1: its first annotation is none that keeps time\n"),
            ("another", FILES["card.edf"], "part1.edf: it was accepted with 4 data records, and "
             "has 8\n", "")):
        checks.file("part1.edf", data)
        witness(checks, what, FILES, out, err)
    for name in ("part1.edf", EXPORT, "answers"):
        (checks.folder / name).unlink()
        witness(checks, "missing", FILES,
                err=f"[Errno 2] No such file or directory: '{name}'\n")
        checks.file(name, b"")


def right(checks: Checks, chance: random.Random) -> None:
    """A recorder's night, and one whose clock drifts, each with its card."""
    with measure.scratch() as folder:
        parts, card = RECORDER.parts(Path(folder)), RECORDER.card(Path(folder, "card.edf"))
        order = [path.name for path in (*arrival(parts), *resent(parts), card)]
        files = {path.name: path.read_bytes() for path in (*parts, card)}
    taken(checks, "a recorder's night", files, order)
    witness(checks, "the export", files, said(90, 19))
    files = {f"{at}.edf": wrong_exports.file_of(DRIFTING[at:at + 9]) for at in range(0, 60, 6)}
    files["card.edf"] = wrong_exports.file_of(DRIFTING)
    taken(checks, "a clock that drifts", files, chance.sample(sorted(files), len(files)))
    witness(checks, "the export", files, said(60, 11))


def wrong_by_chance(data: bytes, records: list, place, chance: random.Random) -> tuple:
    """An export that is wrong, and the beginning of the line; `place` has that of a data record."""
    it = Parts(data)
    nth, kind = chance.randrange(len(records)), chance.randrange(7)
    time = model.instant_text(records[nth].start)
    if kind == 0 and nth:
        return it.changed(nth), f"{place(nth)}{EXPORT} has no data record of this start"
    if kind == 1 and nth > 1:
        return (it.file(*it.each[:nth - 1], it.each[nth], it.each[nth - 1], *it.each[nth + 1:]),
                f"{EXPORT}, data record {nth + 1}, {model.instant_text(records[nth - 1].start)}: ")
    if kind == 2:
        return (it.changed(nth, it.each[nth], it.each[nth]),
                f"{EXPORT}, data record {nth + 2}, {time}: it starts at the start of ")
    if kind == 3 and records[nth].notes:
        block = it.each[nth][it.samples:].rstrip(b"\0")
        less = block[:block.rindex(b"\0") + 1]
        return (it.changed(nth, it.filled(it.each[nth][:it.samples], less)),
                f"{place(nth)}annotation {len(records[nth].notes)} is ")
    if kind == 4:
        return patched(data, 8, b"~"), f"{EXPORT}, header: patient field is '~"
    if kind == 5:
        return data + bytes(chance.choice((1, it.size))), f"{EXPORT}, header: number of data re"
    at = chance.randrange(it.samples)
    byte = bytes([it.each[nth][at] ^ 1 << chance.randrange(8)])
    return it.changed(nth, patched(it.each[nth], at, byte)), f"{place(nth)}sample "


def by_chance(checks: Checks, seed: str) -> None:
    chance, held = random.Random(seed), model.Store()
    recordings = [cases.Recording(chance) for _ in range(chance.randint(1, 3))]
    files = {f"{nth}.edf": cases.case(chance.choice(recordings), chance)
             for nth in range(chance.randint(2, 14))}
    order = chance.sample(sorted(files), len(files)) + chance.choices(sorted(files), k=3)
    accepted = {name for name in order if printed.is_accepted(held.take(files[name]))}
    read = {name: model.read(files[name]) for name in files if name in accepted}
    taken(checks, seed, files, order)
    for nth, key in enumerate(held.keys(), 1):
        records, names = held.held[key][1], [name for name in read if read[name][0] == key]
        export = exported(checks, nth)
        counts = len(records), len(names), len(read) - len(names), len(files) - len(read)
        witness(checks, f"export {nth}", files, said(*counts))

        def place(number: int) -> str:
            """The data record of the first file that has it."""
            start = records[number].start
            return next(f"{name}, data record {at}, {model.instant_text(start)}: " for name in names
                        for at, one in enumerate(read[name][1], 1) if one.start == start)

        made, line = wrong_by_chance(export, records, place, chance)
        checks.file(EXPORT, made)
        ran = asked(checks, files)
        checks.same(f"a wrong export {nth}", (ran.out.decode()[:len(line)], ran.status), (line, 1))


def of_guide(checks: Checks) -> None:
    shown = next(block for block in sessions.blocks(arguments.TOP / "docs/GUIDE.md")
                 if WITNESS.name in block)
    checks.begin("GUIDE's commands")
    for path in (*WITNESS.parent.glob("oximeter/*.edf"), WITNESS):
        shutil.copy(path, checks.folder)
    checks.shell(f"set -e\n{shown}", out=said(960, 7))


def main() -> None:
    parser = arguments.Parser(__doc__, count=200)
    parser.add_argument("--seed", default="night", help="of the nights by chance")
    given = parser.read()
    with measure.scratch() as name:
        checks = Checks(given.program, Path(name))
        by_hand(checks)
        untold(checks)
        right(checks, random.Random(given.seed))
        for nth in range(given.count):
            by_chance(checks, f"{given.seed}/{nth}")
        of_guide(checks)
    checks.end()


if __name__ == "__main__":
    main()
