"""Causes that EDFSTORE_CAUSES asks for where standard error is no terminal, and files that would go
to a terminal.

    python3 -m checks.lines.causes [--program PATH] [--edfruns PATH] [--edfserve PATH]
                                   [--edfmend PATH]

With 1 in that variable a log gets the causes that a terminal gets of E40, E42, E43 and E45, and no
other line; without it, or with another value, none. A device is E40 for `edfmend`. Where a new file
was named, but could be neither finished nor removed, a line names it. It needs `cc`, `sqlite3`.
"""
import os
import pty
import tty
from collections.abc import Callable
from pathlib import Path

from checks.lib import arguments, by_hand, faults, measure, printed, runs, screens
from checks.lib.checks import Checks
from checks.lib.printed import FOREIGN, KNOWN, NEW, NO_STORE, UNREAD, UNWRITTEN, cause

CAUSES = "EDFSTORE_CAUSES"
TO_TERMINAL = ("error: standard output is a terminal: write the EDF+ file to a new one, as by "
               "'> NEW.edf'\n")
READING = "reading an EDF+ file from standard input; edfstore --help lists the commands\n"
NO_REGULAR = "no regular file, but a pipe, a device or a socket"
FAILED = "Input/output error (os error 5)"


def logged(checks: Checks, words: str, out: str, err: str, causes: str, status: int,
           into: Path | None = None, others: tuple[str, ...] = ("0", "", "11")) -> None:
    """Runs words that have no spaces, without the variable, with 1, and with other values. `err`
    has `{}` where the causes stand."""
    for value, said in ((None, ""), *((other, "") for other in others), ("1", causes)):
        added = {} if value is None else {CAUSES: value}
        ran = checks.program.ran(*words.split(" "), added=added, out=into)
        checks.compare(f"{CAUSES}={value} {checks.name} {words}", ran, out, err.format(said),
                       status)


def begun(checks: Checks, case: str) -> None:
    """A folder with a.edf, and with a store of it."""
    checks.begin(case)
    checks.file("a.edf", by_hand.Q)
    checks.take("s.db", ("a.edf", NEW))


def stores(checks: Checks) -> None:
    begun(checks, "why a store is refused, in a log")
    (checks.folder / "folder").mkdir()
    checks.file("text", b"no database\n" * 100)
    for path, why in (("folder", printed.NO_PLAIN_FILE), ("file:s.db", printed.NO_PATH),
                      ("none/s.db", printed.NO_FOLDER), ("", printed.NO_NAME),
                      ("text", printed.NO_DATABASE)):
        for words in (f"list {path}", f"export {path} 1", f"take {path} a.edf"):
            logged(checks, words, "", NO_STORE + "{}", cause(path, why), 3)
    checks.shell("sqlite3 other.db 'CREATE TABLE night (a)'")
    logged(checks, "list other.db", "", FOREIGN + "{}", cause("other.db", printed.OTHER_TABLES), 3)
    checks.shell("cp s.db cut.db; truncate -s 9000 cut.db")
    logged(checks, "list cut.db", "", NO_STORE + "{}", cause("cut.db", printed.DAMAGED), 3)
    logged(checks, "list typo.db", "", "{}", "", 0)


def files(checks: Checks) -> None:
    begun(checks, "why a file can't be read or written, in a log")
    (checks.folder / "folder").mkdir()
    for path, why in (("none.edf", printed.NO_FILE), ("folder", printed.DIRECTORY),
                      ("a.edf/b.edf", printed.FILE_ON_PATH)):
        unread = printed.line(path, UNREAD)
        logged(checks, f"convert {path}", "", "{}" + unread, cause(path, why), 3)
        logged(checks, f"take s.db {path} a.edf", unread + printed.line("a.edf", KNOWN), "{}",
               cause(path, why), 3)
    logged(checks, "export s.db 1", "", "{}" + printed.fault("export", faults.write()),
           cause("/dev/full", printed.FULL), 3, Path("/dev/full"))
    checks.file("plain", by_hand.field(by_hand.Q, by_hand.RESERVED, ""))
    logged(checks, "convert plain", "", printed.fault("plain", faults.not_plus()) + "{}", "", 1)


def sessions(checks: Checks) -> None:
    checks.begin("why a file of a session can't be read, in a log")
    for value, said in ((None, ""), ("1", cause("none.edf", printed.NO_FILE))):
        added = {} if value is None else {CAUSES: value}
        ran = checks.program.ran("s.db", given=b"take none.edf\n", added=added)
        checks.compare(f"{CAUSES}={value} edfserve", ran,
                       printed.line("none.edf", UNREAD) + "status 3\n", said, 3)


def devices(checks: Checks) -> None:
    checks.begin("edfmend reads regular files alone")
    os.mkfifo(checks.folder / "pipe")
    for path in ("/dev/zero", "pipe"):
        for words in (f"{path} --dry-run", f"{path} new.edf"):
            logged(checks, words, "", "{}" + printed.line(path, UNREAD), cause(path, NO_REGULAR), 3,
                   others=())
    checks.same("the files", checks.names(), ["pipe"])


def part_there(checks: Checks, words: str, name: str) -> None:
    """A part that a stopped run left is named, where causes are asked for."""
    checks.begin(f"a part that is there is named: {checks.name}")
    checks.file("a.edf", by_hand.field(by_hand.Q, by_hand.COUNT, "-1"))
    checks.file(f"{name}.part", b"mine")
    logged(checks, words, "", "{}" + printed.line(name, UNWRITTEN),
           cause(f"{name}.part", printed.THERE), 3)
    checks.same("the files", checks.names(), ["a.edf", f"{name}.part"])


def part_of_split(checks: Checks) -> None:
    part_there(checks, "split a.edf part", "part-1.edf")


def part_of_mended(checks: Checks) -> None:
    part_there(checks, "a.edf new.edf", "new.edf")


def left(checks: Checks, words: str, name: str) -> None:
    """A file that has its name already, and can't be removed."""
    library = measure.library(Path(__file__).with_name("unremoved.c"), checks.folder)
    said = printed.line(name, UNWRITTEN)
    for value, causes in ((None, ""), ("1", cause(name, FAILED) * 2)):
        checks.shell(f"rm -f {name}")
        added = {"LD_PRELOAD": str(library)} | ({} if value is None else {CAUSES: value})
        ran = checks.program.ran(*words.split(" "), added=added)
        checks.same(f"{CAUSES}={value} {checks.name} {words}: status", ran.status, 3)
        lines = ran.err.decode().splitlines(keepends=True)
        for line in (said + causes).splitlines(keepends=True):
            checks.same(f"its line {line!r}", line in lines, True)
        checks.same("the file is there", name in checks.names(), True)


def names_left(checks: Checks) -> None:
    checks.begin("a file that is left under its name is named")
    checks.file("a.edf", by_hand.Q)
    left(checks, "split a.edf part", "part-1.edf")


def on_terminal(checks: Checks, words: list[str], status: int, err: str = "",
                given: bytes = b"") -> None:
    """A command whose standard output is a terminal, which gets nothing."""
    program = checks.program.path
    got = screens.seen(program, [word.encode() for word in words], checks.folder, given,
                       (True, False))
    checks.same(f"{checks.name} {words} for a terminal", (got.status, got.out, got.err.decode()),
                (status, b"", err))


def no_file_for_a_terminal(checks: Checks) -> None:
    begun(checks, "no file goes to a terminal")
    empty: list[str] = []
    for words in (["export", "s.db", "1"], ["convert", "a.edf"], ["convert", "-"],
                  ["convert", "none.edf"], empty):
        on_terminal(checks, words, 2, TO_TERMINAL, by_hand.Q)


def no_canonical_for_a_terminal(checks: Checks) -> None:
    checks.begin("no canonical file goes to a terminal")
    checks.file("a.edf", by_hand.R9)
    for words in (["canonical", "a.edf"], ["canonical", "--by-onset", "a.edf"]):
        on_terminal(checks, words, 2, TO_TERMINAL)
    checks.run("canonical", "a.edf", out=runs.canonical_by_onset(by_hand.R9)[0])


def waits(checks: Checks) -> None:
    """Without words, where standard input and standard error are terminals."""
    checks.begin("no words on a terminal")
    terminal, inside = pty.openpty()
    ours, theirs = pty.openpty()
    tty.setraw(theirs)
    os.write(terminal, b"\x04")         # the end of the input, as a person gives it
    ran = checks.program.ran(given=inside, err=theirs)
    os.close(theirs)
    said = screens.read_all([ours])[0].decode()
    expected = READING + printed.fault("-", faults.cut()) + cause("-", printed.TOO_SHORT)
    checks.same("what is printed", (said, ran.out, ran.status), (expected, b"", 1))
    for number in (terminal, inside, ours):
        os.close(number)


def main() -> None:
    given = arguments.Parser(__doc__, arguments.PROGRAMS).read()
    measure.need("cc", "sqlite3")
    with measure.scratch() as name:
        checks = Checks(given.program, Path(name))
        parts: tuple[tuple[str, Path, tuple[Callable[[Checks], None], ...]], ...] = (
            ("edfstore", given.program, (stores, files, no_file_for_a_terminal, waits)),
            ("edfruns", given.edfruns, (no_canonical_for_a_terminal, names_left,
                                              part_of_split)),
            ("edfserve", given.edfserve, (sessions,)),
            ("edfmend", given.edfmend, (devices, part_of_mended)))
        for checks.name, path, cases in parts:
            checks.program = measure.Program(path, Path(name), most=20)
            for case in cases:
                case(checks)
    checks.end()


if __name__ == "__main__":
    main()
