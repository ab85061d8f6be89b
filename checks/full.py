"""Small disks that a night fills: what is accepted there is in the database file alone, or a line
and the status tell that it is not.

    python3 -m checks.full [--program PATH] [--edfserve PATH] [--control] [COUNT]

The night of examples/oximeter, its parts and then its card, comes by `edfstore take` and by a
session of `edfserve` onto COUNT disks (38 if left out, 3 at least) of 360 to 1,100 kB. The least
have no room for the log of all files, others none for the copy of it in the database file, the
greatest for both. It needs root, who may mount them. Each file is answered as by the plain model,
or E42. With its log the database file holds what was accepted, as a second store lists and exports
it. The line `store not closed E42 Store` stands on standard error just where the database file,
copied without its log, does not hold it. The status is 3 where that line stands or a file was
answered E42, else 0. The same is so of `edfstore list` after it, on the same disk.

--control runs other programs instead, each of which must fail: one says nothing of a close that
failed, as 1.2.0 did, one leaves its line out, one prints it and ends well, one prints it always,
one cuts the database file, one tells files as accepted for which there was no room.
"""
import shutil
import sys
from collections import Counter
from pathlib import Path

from checks.lib import arguments, disks, faults, measure, model, printed
from checks.lib.checks import Lost, compare, end

LEAST, MOST = 360, 1_100        # kB of a disk
NIGHT = arguments.TOP / "examples/oximeter"
FILES = (*sorted(NIGHT.glob("part*.edf")), NIGHT / "card.edf")
NAMES = [f"../{path.name}" for path in FILES]
STORE, LOG = "night.db", "night.db-wal"
NO_ROOM = printed.refused(faults.store())
# What disks had room for
ROOMS = FULL, NO_COPY, ENOUGH = ("no room for all files", "none for the copy of the log",
                                 "room for both")
CONTROLS = {
    "says nothing of a close that failed": "> err; grep -q E42 out || status=0",
    "leaves its line out": "> err",
    "prints its line and ends well": "grep -q E42 out || status=0",
    "prints its line always": "echo 'store not closed E42 Store' > err; status=3",
    "cuts the database file": 'truncate -s -4096 "$OLDPWD/night.db"',
    "tells files as accepted that had no room":
        "sed -i 's/refused E42 Store/accepted new=160 known=0/' out",
}
WRONG_PROGRAM = """#!/bin/bash
made=$(mktemp -d)
trap 'rm -r "$made"' EXIT
"{program}" "$@" > "$made/out" 2> "$made/err"
status=$?
cd "$made"
{turn}
cat out
cat err >&2
exit $status
"""


def sizes(count: int) -> list:
    return [LEAST + (MOST - LEAST) * nth // (count - 1) for nth in range(count)]


def answers_of(lines: list, names: list) -> list:
    """The answers to the files, by their lines."""
    compare("the files that have a line", [line.split(" ")[0] for line in lines], names)
    return [line.split(" ", 1)[1] for line in lines]


def taken(program: Path, disk: Path) -> tuple:
    """How a `take` of the night ends, and the answers to its files."""
    ran = measure.ran(program, "take", STORE, *NAMES, folder=disk)
    return ran, answers_of(ran.out.decode().splitlines(), NAMES)


def served(program: Path, disk: Path) -> tuple:
    """The same of a session, which ends where there is no room for a file."""
    asked = "".join(f"take {name}\n" for name in NAMES).encode()
    ran = measure.ran(program, STORE, given=asked, folder=disk)
    lines = ran.out.decode().splitlines()
    said = [line.split(" ", 1)[1] for line in lines[::2]]
    count = said.index(NO_ROOM) + 1 if NO_ROOM in said else len(NAMES)
    answers = answers_of(lines[::2], NAMES[:count])
    compare("the status after each answer", lines[1::2],
            [f"status {3 if answer == NO_ROOM else 0}" for answer in answers])
    return ran, answers


def holdings(answers: list) -> model.Store:
    """What is held after these answers, which must be those of the model, or E42."""
    held = model.Store()
    compare("the answers", answers, [
        answer if answer == NO_ROOM else held.take(path.read_bytes())
        for path, answer in zip(FILES, answers)])
    return held


class Bench:
    """The programs, the disk that they fill, and the one that opens a second store where there is
    room."""

    def __init__(self, programs: dict, second: Path, folder: Path):
        self.programs, self.second, self.folder = programs, second, folder
        self.told, self.wrong = [], []

    def found(self, disk: Path, *names: str) -> tuple:
        """The list and the export of a copy of these files."""
        room = self.folder / "room"
        room.mkdir()
        for name in names:
            if (disk / name).exists():
                shutil.copy(disk / name, room)
        listed, exported = (measure.ran(self.second, *words, folder=room)
                            for words in (("list", STORE), ("export", STORE, 1)))
        shutil.rmtree(room)
        return listed.out.decode(), exported.out

    def is_closed(self, disk: Path, held: model.Store, ran: measure.Ran, is_full: bool) -> bool:
        """Compares how a program ended with what it left; whether the file alone has all."""
        expected = held.lines(), held.export(1) if held.held else b""
        compare("what the file and its log hold", self.found(disk, STORE, LOG), expected)
        is_alone = self.found(disk, STORE) == expected
        told = {line for line in ran.err.decode().splitlines(keepends=True)
                if not line.startswith(f"{STORE}: ")}       # causes
        compare(f"standard error, where the file alone has {'all' if is_alone else 'not all'}",
                told, set() if is_alone else {printed.NOT_CLOSED})
        compare("the status", ran.status, 0 if is_alone and not is_full else 3)
        return is_alone

    def try_night(self, name: str, way, disk: Path) -> str:
        """Brings the night onto a disk, and lists it there; what that had room for."""
        ran, answers = way(self.programs[name], disk)
        held, is_full = holdings(answers), NO_ROOM in answers
        is_closed = self.is_closed(disk, held, ran, is_full)
        listed = measure.ran(self.programs["edfstore"], "list", STORE, folder=disk)
        compare("the list on that disk", listed.out.decode(), held.lines())
        self.is_closed(disk, held, listed, False)
        return FULL if is_full else ENOUGH if is_closed else NO_COPY

    def try_disks(self, name: str, way, count: int) -> None:
        """Tries so many disks, each of which has room for less or more."""
        rooms = Counter()
        for size in sizes(count):
            try:
                with disks.Disk(self.folder / "disk", size) as disk:
                    rooms[self.try_night(name, way, disk.place)] += 1
            except Lost as why:
                self.wrong.append(f"{name}, on a disk of {size} kB: {why}")
        if sum(rooms.values()) < count:
            return
        self.told.append(f"{name}: of {count} disks " +
                         ", ".join(f"{rooms[room]} had {room}" for room in ROOMS))
        if len(rooms) < len(ROOMS):
            self.wrong.append(f"{self.told[-1]}: one of each kind must be there")

    def try_all(self, count: int) -> "Bench":
        self.try_disks("edfstore", taken, count)
        self.try_disks("edfserve", served, count)
        return self


def wrong_programs(programs: dict, turn: str, folder: Path) -> dict:
    """Programs that do this after they ran."""
    made = {}
    for name, program in programs.items():
        made[name] = folder / f"wrong-{name}"
        made[name].write_text(WRONG_PROGRAM.format(program=program, turn=turn))
        made[name].chmod(0o755)
    return made


def control(programs: dict, folder: Path, count: int) -> None:
    missed = 0
    for what, turn in CONTROLS.items():
        made = wrong_programs(programs, turn, folder)
        found = len(Bench(made, programs["edfstore"], folder).try_all(count).wrong)
        missed += not found
        print(f"{f'found {found} times' if found else 'NOT FOUND'}: a program that {what}")
    end(len(CONTROLS), missed)


def main() -> None:
    parser = arguments.Parser(__doc__, programs=("edfstore", "edfserve"), count=38)
    parser.add_argument("--control", action="store_true", help="run wrong ones instead")
    given = parser.read()
    if given.count < 3:
        parser.error("three disks at least")
    if not disks.may_mount():
        sys.exit("this needs root, or another user who may mount a tmpfs")
    programs = {"edfstore": given.program, "edfserve": given.edfserve}
    with measure.scratch() as name:
        folder = Path(name)
        for path in FILES:
            shutil.copy(path, folder)
        if given.control:
            control(programs, folder, given.count)
        bench = Bench(programs, given.program, folder).try_all(given.count)
    print(*bench.told, *bench.wrong, sep="\n")
    end(2 * given.count, len(bench.wrong))


if __name__ == "__main__":
    main()
