"""Whether a store of the released 1.3.3 opens as it is, and one of these programs by 1.3.3.

    python3 -m checks.upgrade [--program PATH] [--edfserve PATH] [--before FOLDER] [--control]

One version takes the first files of a night: README's pieces; an hour that came in 18 files; most
of it by a `take` that is killed in the midst of a file, so that its log has what came; files of the
examples; and there is a store of 1.1.1, without page sums. Copies of each go on by both versions,
and by a session of `edfserve`: each lists the recordings, exports every one, takes the rest and a
card, and lists and exports again. Lines and bytes must be the same, and the night is that of the
card. FOLDER has the programs of 1.3.3; without it they are those of the archive that git has.
--control has programs that lose the log or take nothing: each must be found. It needs git, tar, xz.
"""
import itertools
import shutil
from dataclasses import dataclass
from pathlib import Path
from subprocess import PIPE

from checks.lib import arguments, edf, measure, night
from checks.lib.arguments import TOP
from checks.lib.checks import Checks

ARCHIVE = "release/edfstore-1.3.3-2-x86_64-linux.tar.xz"
EXAMPLES, WITHOUT_SUMS = TOP / "examples", TOP / "checks/data/released_1_1_1.db"
NIGHT = night.Night(records=3_600, samples=(256, 256, 128, 128, 64), fragments=18)
STORE = "s.db"
# The first words of programs that go on wrongly
WRONG = {"loses the log": 'rm -f "$2-wal"',
         "takes nothing": '[ "$1" = take ] && cp s.db a && shift 2 && set -- take a "$@"'}


@dataclass(frozen=True)
class Case:
    """What one version takes, and what comes afterwards; a card with all of it comes last."""
    name: str
    first: list[Path]
    rest: list[Path]
    is_killed: bool = False     # in the midst of the last of the first files
    has_sums: bool = True


def cases(folder: Path) -> list[Case]:
    pieces = [EXAMPLES / f"oximeter/part{number}.edf" for number in range(1, 7)]
    others, whole = [*EXAMPLES.glob("*.edf")], EXAMPLES / "oximeter/card.edf"
    parts, card, cut = NIGHT.parts(folder), NIGHT.card(folder / "card.edf"), folder / "cut.edf"
    small = {folder / f"{name}.edf": data for name, data in edf.small_files().items()}
    for path, data in (*small.items(), (cut, pieces[2].read_bytes()[:10_000])):
        path.write_bytes(data)
    return [Case("README's night", [pieces[1], pieces[0], cut, pieces[5], pieces[1]],
                 [*pieces[2:5], whole]),
            Case("an hour", parts[::2], [*parts[1::2], card]),
            Case("a take that is killed", parts[:16], [*parts[14:], card], is_killed=True),
            Case("the examples", others, [*pieces, *others, whole]),
            Case("a store of 1.1.1", [], list(small), has_sums=False)]


def killed(edfstore: measure.Program, files: list[Path]) -> None:
    """Is killed while it reads the last file, of which it gets more than a pipe holds."""
    child = edfstore.started("take", STORE, *files[:-1], "-", stdin=PIPE, stdout=PIPE)
    assert child.stdin
    child.stdin.write(files[-1].read_bytes()[:200_000])
    child.kill()
    child.communicate()


def held(edfstore: measure.Program) -> list[object]:
    """What a version says of the store, and each of its recordings."""
    listed = edfstore.ran("list", STORE)
    places = range(1, listed.out.count(b"\n") + 1)
    return [listed.outcome(), *[edfstore.ran("export", STORE, nth).outcome() for nth in places]]


@dataclass(frozen=True)
class Upgrade:
    checks: Checks
    edfserve: Path
    before: Path    # edfstore of 1.3.3
    now: Path

    def made(self, case: Case, edfstore: measure.Program) -> None:
        """The store as this version leaves it."""
        if case.is_killed:
            killed(edfstore, case.first)
            log = edfstore.folder / f"{STORE}-wal"
            self.checks.same("a log", log.exists() and log.stat().st_size > 1_000_000, True)
        elif case.has_sums:
            edfstore.ran("take", STORE, *case.first)
        else:
            shutil.copy(WITHOUT_SUMS, edfstore.folder / STORE)

    def goes_on(self, case: Case, edfstore: Path, is_session: bool = False) -> list[object]:
        """What a version says and exports of a copy of the store, before and after the rest."""
        folder = self.checks.folder / f"copy{len(self.checks.names())}"
        shutil.copytree(self.checks.folder / "made", folder)
        program = measure.Program(edfstore, folder)
        first, lines = held(program), "".join(f"take {name}\n" for name in case.rest)
        took = measure.Program(self.edfserve, folder).ran(STORE, given=lines.encode()) \
            if is_session else program.ran("take", STORE, *case.rest)
        said = [line for line in took.out.splitlines() if not line.startswith(b"status ")]
        return [*first, said, took.err, took.status, *held(program)]

    def tried(self, listed: list[Case]) -> None:
        """A store that one version made goes on by the other as by the one."""
        ways = (("1.3.3", self.before, self.now), ("these programs", self.now, self.before))
        for case, (name, makes, other) in itertools.product(listed, ways):
            self.checks.begin(f"{case.name}, by {name}")
            folder = self.checks.folder / "made"
            folder.mkdir()
            self.made(case, measure.Program(makes, folder))
            expected = self.goes_on(case, makes)
            self.checks.same("by the other", self.goes_on(case, other) == expected, True)
            self.checks.same("by a session", self.goes_on(case, self.now, True) == expected, True)
            if case.has_sums:
                whole = measure.Program(self.before).ran("convert", case.rest[-1]).outcome()
                self.checks.same("the night is its card's", whole in expected, True)


def released(folder: Path) -> Path:
    """The folder, with the programs of 1.3.3 as the last commit has them that has their archive."""
    measure.done("bash", "-c", 'set -o pipefail; git show "$(git log -1 --diff-filter=AM '
                 '--format=%H -- "$0"):$0" | tar -xJC "$1" --strip-components=1', ARCHIVE, folder,
                 folder=TOP)
    return folder


def main() -> None:
    parser = arguments.Parser(__doc__ or "", ("edfstore", "edfserve"))
    parser.add_argument("--before", metavar="FOLDER", type=arguments.path,
                        help="that has the programs of 1.3.3; those of git if left out")
    parser.add_argument("--control", action="store_true", help="programs that go on wrongly")
    given = parser.read()
    with measure.scratch() as scratch:
        folder, files, programs = (Path(scratch, name) for name in ("cases", "files", "1.3.3"))
        for path in (folder, files, programs):
            path.mkdir()
        checks, listed = Checks(given.program, folder), cases(files)
        before = (given.before or released(programs)) / "edfstore"
        if not given.control:
            Upgrade(checks, given.edfserve, before, given.program).tried(listed)
        for what, words in WRONG.items() if given.control else ():
            wrong, found = files / "wrong", Checks(given.program, folder)
            wrong.write_text(f'#!/bin/sh\n{words}\nexec {given.program} "$@"\n')
            wrong.chmod(0o755)
            Upgrade(found, given.edfserve, before, wrong).tried(listed)
            checks.same(f"{what}: found", found.failed > 0, True)
    checks.end()


if __name__ == "__main__":
    main()
