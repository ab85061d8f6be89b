"""Runs the arm64 programs under qemu, beside those for x86-64 and by the other checks.

    python3 -m checks.arm64.run [--program PATH] [--edfruns PATH] [--edfserve PATH]
                                [--edfmend PATH] [--only NAME]...

PATH is a program for x86-64; those for arm64 are the ones of ports/arm64/out, or the released ones.
It needs qemu-aarch64 and a C compiler for arm64, which on Debian are the packages qemu-user and
gcc-aarch64-linux-gnu, and no root.

- The stored runs of the four programs' crates.
- A night with its card, by both: what each command writes, the files that it makes, and the bytes
  of the store.
- Stores that go from one machine to the other and back, which are what each alone makes of the same
  commands; and a store that a program of the one has open is refused to the other, with its cause.
- The arm64 package, made here: it has the files of the x86-64 one, but for the programs, and the
  commands of README run from it as printed.
- The checks of this folder that CHECKS below names, with its few counts. --only takes those of that
  name alone, and by `arm64` all that is none of them.

In the end each of six C functions answers wrongly, in a program that is else the same, and must be
found by the stored runs or by the store that is open.
"""
import itertools
import os
import random
import shutil
import sys
from pathlib import Path

from checks import package
from checks.arm64 import guest
from checks.lib import arguments, checks, measure, model, night, printed, sessions
from checks.lib.checks import Checks
from checks.lib.serving import Client

SHARED = "usr/share/doc/edfstore"
NIGHT = night.Night(records=1_440, samples=(256, 128, 64), fragments=12)
SECONDS = 3_600     # that another check may take
IN_USE = (b"", (printed.NO_STORE + printed.cause("s.db", printed.BUSY)).encode(), 3)
# Each other check, with its programs and counts.
CHECKS = (
    ("lines.run", ("edfstore",), ()),
    ("lines.stored", ("edfstore", "edfruns", "edfmend"), ()),
    ("lines.shell", ("edfstore",), ()),
    ("lines.causes", arguments.PROGRAMS, ()),
    ("fuzz.run", ("edfstore",), (100,)),
    ("fuzz.split", ("edfruns",), (100,)),
    ("split", ("edfstore", "edfruns"), ()),
    ("fill", ("edfruns",), (30,)),
    ("refused.run", ("edfstore",), (40,)),
    ("powercut.run", ("edfstore", "edfserve"), (6,)),
    ("kill.run", ("edfstore",), (5,)),
    ("rot", ("edfstore",), (5,)),
    ("picture", ("edfruns",), (5, "--seconds=30")),    # qemu takes ten times as long
    ("serve", ("edfstore", "edfserve"), (3,)),
    ("mend.run", ("edfstore", "edfmend"), ()),
    ("mend.fuzz", ("edfmend",), (100,)),
)


# The stored runs

def lines_of(path: Path) -> list:
    return path.read_text().splitlines() if path.exists() else []


def is_as_stored(name: str, program: Path) -> bool:
    """Whether the stored run of that crate is as stored, by this program."""
    crate = arguments.TOP / "crates" / name
    stdin = crate / "stdin"
    wanted = (crate / "stdout").read_bytes(), int(*lines_of(crate / "status") or ["0"])
    with measure.scratch() as folder:
        if (crate / "data").exists():
            shutil.copytree(crate / "data", folder, dirs_exist_ok=True)
        ran = measure.ran(program, *lines_of(crate / "args"), folder=Path(folder),
                          given=stdin if stdin.exists() else b"", most=checks.SECONDS)
    return (ran.out, ran.status) == wanted


def stored_runs(found: Checks, guests: dict) -> None:
    found.begin("the stored runs")
    for name, program in guests.items():
        found.same(name, is_as_stored(name, program), True)


# A night

def commands(parts: list, card: Path) -> list:
    """Commands in their order: pieces, of which some come twice and some are lost, and the card;
    and a piece that is plain EDF, which is mended."""
    order, plain = random.Random(1).sample(parts, len(parts)), card.with_name("plain.edf")
    whole = order[0].read_bytes()
    plain.write_bytes(whole[:192] + b" " * 44 + whole[236:])
    return [("edfstore", "take", "night.db", *order[:8], *order[5:8]),
            ("edfstore", "list", "night.db"),
            ("edfstore", "take", "night.db", card),
            ("edfstore", "export", "night.db", "1"),
            ("edfstore", "convert", card),
            ("edfruns", "list", *parts),
            ("edfruns", "split", order[0], "night"),
            ("edfruns", "picture", card),
            ("edfmend", plain, "mended.edf", "--set-patient", "S-0118"),
            ("edfstore", "take", "night.db", "mended.edf"),
            ("edfstore", "export", "night.db", "2")]


def played(programs, given: list, folder: Path) -> tuple:
    """What each command writes, by the programs of each turn, and the files that are there then."""
    folder.mkdir()
    wrote = [measure.ran(turn[words[0]], *words[1:], folder=folder).outcome()
             for turn, words in zip(programs, given)]
    return wrote, {path.name: path.read_bytes() for path in sorted(folder.iterdir())
                   if not path.name.endswith("-wal")}


def a_night(found: Checks, ours: dict, guests: dict, folder: Path) -> None:
    """The same commands by either alone, and by each other one in its turn."""
    found.begin("a night")
    folder.mkdir()
    parts, card = NIGHT.parts(folder), NIGHT.card(folder / "card.edf")
    given = commands(parts, card)
    wrote, left = played(itertools.repeat(ours), given, folder / "x86-64")
    found.same("the statuses", {status for _, _, status in wrote}, {0})
    held = model.Store()
    held.take(card.read_bytes())
    found.same("the night's export", wrote[3][0] == held.export(1), True)
    turns = {"arm64": itertools.repeat(guests), "from x86-64 on": itertools.cycle((ours, guests)),
             "from arm64 on": itertools.cycle((guests, ours))}
    for what, programs in turns.items():
        others, there = played(programs, given, folder / what)
        differ = [words[:2] for words, one, other in zip(given, wrote, others) if other != one]
        found.same(f"{what}: the commands that write something else", differ, [])
        differ = [name for name in {**left, **there} if left.get(name) != there.get(name)]
        found.same(f"{what}: the files that differ", differ, [])


def beside_a_session(one: dict, other: dict, folder: Path) -> tuple:
    """What the other is answered of a store that a session of the one has open, with the cause that
    it asks for."""
    client = Client(one["edfserve"], folder)
    client.ask("list")
    ran = measure.ran(other["edfstore"], "list", "s.db", folder=folder,
                      added={"EDFSTORE_CAUSES": "1"}, most=checks.SECONDS)
    client.end()
    return ran.outcome()


def held_store(found: Checks, ours: dict, guests: dict) -> None:
    """A store that a session of the one has is refused to the other, and then is not."""
    for what, one, other in (("x86-64", ours, guests), ("arm64", guests, ours)):
        found.begin(f"a store that {what} has open")
        found.same("the other", beside_a_session(one, other, found.folder), IN_USE)
        after = measure.ran(other["edfstore"], "list", "s.db", folder=found.folder)
        found.same("after it", after.outcome(), (b"", b"", 0))


# The package

def packed(programs: dict, folder: Path) -> Path:
    """The package of these programs."""
    given = folder / "programs"
    given.mkdir(parents=True)
    for name, program in programs.items():
        shutil.copy(program, given / name)
    told = measure.done(arguments.TOP / "bin/package", given, folder).out
    made = Path(told.decode().strip())
    released = arguments.TOP / "release" / made.name
    same = released.is_file() and released.read_bytes() == made.read_bytes()
    print(f"release/{released.name} {'has' if same else 'does NOT have'} the bytes of the one "
          "made here")
    return made


def unpacked(made: Path) -> Path:
    root = made.parent / "root"
    measure.done("dpkg-deb", "-x", made, root)
    return root


def contents(root: Path) -> dict:
    return {str(path.relative_to(root)): path.read_bytes() for path in sorted(root.rglob("*"))
            if path.is_file()}


def the_package(found: Checks, ours: dict, guests: dict, folder: Path) -> None:
    found.begin("the package")
    for_it = {name: guest.chosen(name) for name in arguments.PROGRAMS}
    made = packed(for_it, folder / "arm64")
    kind = measure.done("dpkg-deb", "-f", made, "Architecture").out
    found.same("the architecture", kind, b"arm64\n")
    if shutil.which("lintian"):
        found.same("lintian's errors", package.errors(package.tags(made)), [])
    root = unpacked(made)
    there, beside = contents(root), contents(unpacked(packed(ours, folder / "amd64")))
    others = [name for name in sorted({*there, *beside}) if there.get(name) != beside.get(name)]
    found.same("the files that differ from those for x86-64", others,
               sorted(f"usr/bin/{name}" for name in for_it))
    for name, program in for_it.items():
        found.same(name, there[f"usr/bin/{name}"] == program.read_bytes(), True)
        found.same(f"{name}: the machine", guest.machine_of(program), guest.ARM64)
    ten_minutes(found, root, guests, folder)


def ten_minutes(found: Checks, root: Path, guests: dict, folder: Path) -> None:
    """README's commands, as printed, by the package's programs."""
    place = folder / "tmp"
    place.mkdir()
    path = f"{guests['edfstore'].parent}:{os.environ['PATH']}"
    for shown in sessions.sessions(root / SHARED / "README.md"):
        ran = measure.ran("bash", "-c", shown.script, folder=root / SHARED,
                          added={"PATH": path, "TMPDIR": str(place)})
        found.same("README: the commands", len(shown.steps) > 5, True)
        found.same("README: what is printed", shown.differences(ran.out.decode()), [])


# The other checks, and the control

def other_checks(found: Checks, guests: dict, added: dict, named: list) -> None:
    for name, programs, counts in CHECKS:
        if named and name not in named:
            continue
        found.begin(f"the check {name}")
        words = [f"--{arguments.OPTIONS[it]}={guests[it]}" for it in programs]
        ran = measure.ran(sys.executable, "-m", f"checks.{name}", *words, *counts,
                          folder=arguments.TOP, added=added, most=SECONDS)
        count = checks.tried(ran.out.decode(errors="replace"))
        print(f"{name}: {count:,} in {ran.seconds:.0f} s", flush=True)
        found.same(f"{name}: {ran}", (ran.status, count > 0), (0, True))


def is_found(name: str, ours: dict, folder: Path) -> bool:
    """Whether a program with another function of that name is found."""
    guests = {}
    for program in arguments.PROGRAMS:
        wrong = guest.with_a_wrong_function(guest.chosen(program), name, folder)
        guests[program] = guest.launcher(wrong, folder, program)
    if not all(is_as_stored(*each) for each in guests.items()):
        return True
    return beside_a_session(ours, guests, folder) != IN_USE


def control(found: Checks, ours: dict) -> None:
    found.begin("the control")
    for name in guest.WRONG:
        with measure.scratch() as folder:
            found.same(f"{name} that answers wrongly is found", is_found(name, ours, Path(folder)),
                       True)


def main() -> None:
    parser = arguments.Parser(__doc__, programs=arguments.PROGRAMS)
    parser.add_argument("--only", action="append", default=[], metavar="NAME",
                        help="of the other checks this one, and nothing else; or arm64, all else")
    given = parser.read()
    guest.need()
    ours = {name: getattr(given, option) for name, option in arguments.OPTIONS.items()}
    with measure.scratch() as name:
        folder, cases = Path(name), Path(name) / "cases"
        cases.mkdir()
        guests = guest.launchers(folder)
        found = Checks(guests["edfstore"], cases)
        if not given.only or "arm64" in given.only:
            stored_runs(found, guests)
            a_night(found, ours, guests, folder / "night")
            held_store(found, ours, guests)
            the_package(found, ours, guests, folder / "packages")
            control(found, ours)
        other_checks(found, guests, guest.libraries_for_it(folder), given.only)
    found.end()


if __name__ == "__main__":
    main()
