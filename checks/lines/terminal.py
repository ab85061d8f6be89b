"""What the programs print for a person, where standard error is a terminal: causes, what to do
after a refusal, new stores and how far a reading is.

    python3 -m checks.lines.terminal [--program PATH] [--edfruns PATH] [--edfserve PATH]
        [--edfmend PATH]

Standard error is a terminal here and standard output is none. It needs sqlite3 (the command) and
cc.
"""
import os
import pty
import subprocess
import tty
from dataclasses import replace
from pathlib import Path

from checks.lib import arguments, by_hand, edf, faults, measure, printed, runs
from checks.lib.by_hand import (COUNT, PATIENT, RECORDING, RESERVED, STARTDATE, STARTTIME, VERSION,
                                column, field)
from checks.lib.checks import Checks
from checks.lib.printed import (FOREIGN, KNOWN, NEW, NO_STORE, UNREAD, UNWRITTEN, WIPED, cause,
                                of_field, step)
from checks.mend.run import ALMOST, GOOD, PLAIN, in_block

Q, R9 = (edf.small_files()[name] for name in ("Q", "R9"))


def written_to(terminal: int) -> bytes:
    """What was written to a terminal that nobody writes to any more."""
    pieces = []
    while True:
        try:
            pieces.append(os.read(terminal, 4096))
        except OSError:
            return b"".join(pieces)


def on_terminal(checks: Checks, words: str, out="", err="", status: int = 0,
                given: Path = Path(os.devnull), into: Path = None) -> None:
    """Runs words that have no spaces with a terminal for standard error, this file or folder for
    standard input, and this file, if there is one, for standard output."""
    terminal, inside = pty.openpty()
    tty.setraw(inside)
    source = os.open(given, os.O_RDONLY)
    ran = checks.program.ran(*words.split(" "), given=source, err=inside, out=into)
    os.close(source)
    os.close(inside)
    ran = replace(ran, err=written_to(terminal))
    os.close(terminal)
    checks.compare(f"{checks.name} {words}", ran, out, err, status)


def begun(checks: Checks, case: str) -> None:
    """A folder with a.edf, and with a store of it."""
    checks.begin(case)
    checks.file("a.edf", Q)
    checks.take("s.db", ("a.edf", NEW))


def new_stores(checks: Checks) -> None:
    begun(checks, "a path that is not there makes a store for take alone")
    on_terminal(checks, "list typo.db", err=cause("typo.db", printed.MISSING))
    on_terminal(checks, "list typo.db", err=cause("typo.db", printed.MISSING))
    on_terminal(checks, "export other.db 1", status=1,
                err=cause("other.db", printed.MISSING) + printed.no_recording(1))
    on_terminal(checks, "take third.db a.edf", printed.line("a.edf", NEW),
                cause("third.db", printed.MADE) + step(1, 1, 0, 1) + WIPED)
    checks.shell(": > fourth.db")
    on_terminal(checks, "list fourth.db", err=cause("fourth.db", printed.EMPTY))
    on_terminal(checks, "export fourth.db 1", status=1,
                err=cause("fourth.db", printed.EMPTY) + printed.no_recording(1))
    on_terminal(checks, "take fourth.db a.edf", printed.line("a.edf", NEW),
                cause("fourth.db", printed.MADE_IN) + step(1, 1, 0, 1) + WIPED)
    on_terminal(checks, "take :memory: a.edf", printed.line("a.edf", NEW), step(1, 1, 0, 1) + WIPED)
    on_terminal(checks, "convert a.edf", Q)
    on_terminal(checks, "export s.db 1", Q)


def stores_of_sessions(checks: Checks) -> None:
    checks.begin("a session says once that it made a store, and to a person alone")
    on_terminal(checks, "typo.db", err=cause("typo.db", printed.MADE))
    on_terminal(checks, "typo.db")
    checks.run("other.db")
    checks.same("the stores", checks.names(), ["other.db", "other.db-wal", "typo.db",
                                               "typo.db-wal"])
    on_terminal(checks, "none/typo.db", status=3,
                err=NO_STORE + cause("none/typo.db", printed.NO_FOLDER))


def help_is_help(checks: Checks) -> None:
    checks.begin(f"{checks.name} help is help, and makes no file")
    text = checks.program.ran("--help").out
    checks.same("the usage in it", text.count(f"\nUsage: {checks.name} ".encode()), 1)
    on_terminal(checks, "help", text)
    checks.same("the files", checks.names(), [])


def how_far(checks: Checks) -> None:
    begun(checks, "take prints how far it is, at each file and each megabyte of it")
    header = edf.Header((edf.Signal(samples="100000"), edf.annotations_signal(8)),
                        starttime="02.00.00", count="12")
    checks.file("large.edf",
                edf.fragment(header, [(bytes(200_000), edf.keeping(f"+{n}")) for n in range(12)]))
    answers = (("a.edf", KNOWN), ("large.edf", printed.accepted(12)), ("none.edf", UNREAD))
    steps = (step(1, 3, 0, 1), WIPED, step(2, 3, 0, 3), step(2, 3, 1, 3), step(2, 3, 2, 3), WIPED,
             step(3, 3), WIPED)
    on_terminal(checks, "take s.db a.edf large.edf none.edf", printed.lines(*answers),
                "".join(steps) + cause("none.edf", printed.NO_FILE), status=3)


def causes(checks: Checks) -> None:
    begun(checks, "why a store is refused")
    (checks.folder / "folder").mkdir()
    checks.shell("cp s.db one.db; ln one.db two.db; ln -s later.db link.db; ln -s none dead")
    for path, why in (("a.edf/s.db", printed.FILE_ON_PATH), ("folder", printed.NO_PLAIN_FILE),
                      ("/dev/full", printed.NO_PLAIN_FILE), ("two.db", printed.NO_PLAIN_FILE),
                      ("a.edf", printed.NO_DATABASE), ("file:s.db", printed.NO_PATH),
                      ("none/s.db", printed.NO_FOLDER), ("dead/s.db", printed.NO_FOLDER),
                      ("link.db", printed.DEAD_LINK), ("", printed.NO_NAME),
                      ("new.db/", printed.NO_NAME)):
        for words in (f"list {path}", f"export {path} 1", f"take {path} a.edf"):
            on_terminal(checks, words, err=NO_STORE + cause(path, why), status=3)
    checks.shell("sqlite3 other.db 'CREATE TABLE night (a)'")
    on_terminal(checks, "list other.db", err=FOREIGN + cause("other.db", printed.OTHER_TABLES),
                status=3)
    checks.shell("sqlite3 -safe s.db .dump | sqlite3 -safe rows.db; "
                 "sqlite3 rows.db 'UPDATE record SET start = start + 1'")
    on_terminal(checks, "list rows.db", err=FOREIGN + cause("rows.db", printed.OTHER_ROWS),
                status=3)
    for name, change in (("cut.db", "truncate -s 9000"), ("vacuum.db", "echo VACUUM | sqlite3"),
                         ("analyze.db", "echo ANALYZE | sqlite3")):
        checks.shell(f"cp s.db {name}; {change} {name}")
        on_terminal(checks, f"list {name}", err=NO_STORE + cause(name, printed.DAMAGED), status=3)
    checks.shell("sqlite3 -safe vacuum.db .dump | sqlite3 -safe again.db")
    on_terminal(checks, "export again.db 1", Q)
    if os.geteuid() != 0:
        (checks.folder / "rows.db").chmod(0o400)
        on_terminal(checks, "list rows.db", err=NO_STORE + cause("rows.db", printed.NOT_PERMITTED),
                    status=3)
    os.mkfifo(checks.folder / "slow")
    with checks.program.started("take", "s.db", "slow", stdout=subprocess.DEVNULL) as other:
        with open(checks.folder / "slow", "wb"):
            on_terminal(checks, "list s.db", err=NO_STORE + cause("s.db", printed.BUSY), status=3)
        other.wait()


def unmade_files(checks: Checks) -> None:
    """Where a file of a store could not be made, none is made to find out why. The files that are
    opened so are the store's and its log, in turn; each is refused once."""
    begun(checks, "the cause makes no file")
    edfstore, why = checks.program, printed.UNMADE
    checks.program = replace(edfstore, path=Path("/usr/bin/env"))
    checks.shell("rm s.db-wal")
    with measure.scratch() as aside:
        library = measure.library(arguments.TOP / "checks/refused/refused.c", Path(aside))
        before = f"LD_PRELOAD={library} MET={aside}/met REFUSE=new:{{}} {edfstore.path} {{}}"
        for nth, words in ((1, "list s.db"), (2, "export s.db 1"), (2, "take s.db a.edf"),
                           (1, "take new.db a.edf")):
            err = NO_STORE + cause(words.split(" ")[1], why)
            on_terminal(checks, before.format(nth, words), err=err, status=3)
            checks.same(f"the files after {words}", checks.names(), ["a.edf", "s.db"])
    checks.program = edfstore


def unread_files(checks: Checks) -> None:
    begun(checks, "why a file can't be read")
    (checks.folder / "folder").mkdir()
    files = [("none.edf", printed.NO_FILE), ("none/a.edf", printed.NO_FILE), ("", printed.NO_FILE),
             ("a.edf/b.edf", printed.FILE_ON_PATH), ("folder", printed.DIRECTORY)]
    if os.geteuid() != 0:
        checks.file("secret.edf", Q)
        (checks.folder / "secret.edf").chmod(0)
        files.append(("secret.edf", printed.UNREADABLE))
    for path, why in files:
        unread = printed.line(path, UNREAD)
        on_terminal(checks, f"convert {path}", err=cause(path, why) + unread, status=3)
        size = 1 if why == printed.UNREADABLE else 0
        on_terminal(checks, f"take s.db {path} a.edf", unread + printed.line("a.edf", KNOWN),
                    step(1, 2, 0, size) + WIPED + cause(path, why) + step(2, 2, 0, 1) + WIPED,
                    status=3)
        checks.run("convert", path, err=unread, status=3)
    directory = cause("-", printed.DIRECTORY)
    on_terminal(checks, "take s.db -", printed.line("-", UNREAD), step(1, 1) + WIPED + directory,
                status=3, given=checks.folder)
    on_terminal(checks, "convert -", err=directory + printed.line("-", UNREAD), status=3,
                given=checks.folder)


REFUSED = (
    ("cut", Q[:100], faults.cut(), printed.TOO_SHORT),
    ("plain", field(Q, RESERVED, ""), faults.not_plus(), printed.PLAIN),
    ("short", Q[:-1], faults.cut_record(1), printed.CUT),
    ("bdf", field(Q, VERSION, b"\xffBIOSEMI"), faults.unprintable(0), printed.IS_BDF),
    ("letters", field(Q, PATIENT, "P7 F 02-MAY-1951 J\xfcrg"), faults.unprintable(26),
     printed.OTHER_LETTERS),
    ("sex", field(Q, PATIENT, "P7 W 02-MAY-1951 X"), faults.patient(), of_field(printed.NO_SEX)),
    ("birthdate", field(Q, PATIENT, "P7 F 02-May-1951 X"), faults.patient(),
     of_field(printed.NO_BIRTHDATE)),
    ("name", field(Q, PATIENT, "P7 F 02-MAY-1951"), faults.patient(),
     of_field(printed.FEW_OF_PATIENT)),
    ("code", field(Q, PATIENT, ""), faults.patient(), of_field(printed.FEW_OF_PATIENT)),
    ("startdate", field(Q, RECORDING, "N1 T3 REC5"), faults.recording(),
     of_field(printed.NO_STARTDATE)),
    ("month", field(Q, RECORDING, "Startdate 02-Mar-2002 N1 T3 REC5"), faults.recording(),
     of_field(printed.NO_DATE)),
    ("equipment", field(Q, RECORDING, "Startdate X N1 T3"), faults.recording(),
     of_field(printed.FEW_OF_RECORDING)),
)


def what_to_do(checks: Checks) -> None:
    begun(checks, "what to do after a refusal")
    for name, data, fault, words in REFUSED:
        checks.file(name, data)
        on_terminal(checks, f"convert {name}", err=printed.fault(name, fault) + cause(name, words),
                    status=1)
        checks.run("convert", name, err=printed.fault(name, fault), status=1)
    checks.file("plain2", field(Q, RESERVED, ""))
    checks.file("other.edf", Q.replace(b"\x01\x00\xff\xff", b"\x02\x00\xff\xff"))
    checks.file("half.edf", by_hand.HALF)
    files = (("plain", faults.not_plus()), ("sex", faults.patient()), ("plain2", faults.not_plus()),
             ("other.edf", by_hand.DIFFERS), ("half.edf", by_hand.OVERLAPS))
    steps = [step(nth, len(files), 0, 1) for nth in range(1, len(files) + 1)]
    on_terminal(checks, f"take s.db {' '.join(name for name, _ in files)}",
                "".join(printed.fault(*one) for one in files), WIPED.join(steps) + WIPED
                + cause("plain", printed.PLAIN) + cause("sex", of_field(printed.NO_SEX))
                + cause("other.edf", printed.STORED_OTHERWISE)
                + cause("half.edf", printed.OVERLAPS), status=1)
    on_terminal(checks, "export s.db 1", status=3, into=Path("/dev/full"),
                err=cause("/dev/full", printed.FULL) + printed.fault("export", faults.write())
                + cause("export", printed.NOT_WHOLE))


def files_of_runs(checks: Checks) -> None:
    """What edfruns prints of files that it makes, and why it can't make one."""
    made = runs.read_runs(R9)
    first, second = (step(nth, 2, 0, 1, "reading") for nth in (1, 2))
    checks.begin("split prints how far it is, and why it can't make a file")
    checks.file("a.edf", R9)
    on_terminal(checks, "split a.edf part", runs.split_lines("part", made), first + WIPED + second
                + WIPED)
    checks.same("the files", checks.names(), sorted(["a.edf", *runs.split_names("part", made)]))
    checks.begin("a file of that name is there")
    checks.file("a.edf", R9)
    checks.file("part-1.edf", b"mine")
    on_terminal(checks, "split a.edf part", status=1, err=first + WIPED
                + printed.is_there("part-1.edf") + cause("part-1.edf", printed.TAKEN))
    checks.begin("a part is there")
    checks.file("a.edf", R9)
    checks.file("part-2.edf.part", b"mine")
    unwritten = printed.line("part-2.edf", UNWRITTEN) + cause("part-2.edf", printed.STAY)
    told = runs.split_lines("part", made).splitlines(keepends=True)[0]
    on_terminal(checks, "split a.edf part", told, status=3, err=first + WIPED + second + WIPED
                + cause("part-2.edf.part", printed.THERE) + unwritten)
    checks.same("the files", checks.names(), ["a.edf", "part-1.edf", "part-2.edf.part"])
    checks.same("the part", checks.content("part-2.edf.part"), b"mine")
    on_terminal(checks, "split a.edf none/part", status=3, err=first + WIPED + second + WIPED
                + cause("none/part-1.edf.part", printed.NO_FILE)
                + printed.line("none/part-1.edf", UNWRITTEN)
                + cause("none/part-1.edf", printed.NOTHING_LEFT))
    unwritten = (cause("/dev/full", printed.FULL) + printed.UNWRITTEN_OUTPUT
                 + cause("standard output", printed.NOT_WHOLE))
    for words, below in (("canonical a.edf", ""),
                         ("split a.edf whole", cause("standard output", printed.STAY))):
        on_terminal(checks, words, status=3, into=Path("/dev/full"),
                    err=first + WIPED + second + WIPED + unwritten + below)


# An annotation in the first data record whose onset lies in the second, which is another run.
STRAY = edf.fragment(edf.Header((edf.Signal(), edf.annotations_signal(12)), count="2"),
                     [(b"\1\0\2\0", edf.keeping("+0") + edf.tal("+9", "Apnea")),
                      (b"\3\0\4\0", edf.keeping("+9"))])


def outside_of_runs(checks: Checks) -> None:
    """What edfruns prints once below a line that tells of annotations outside of their run."""
    made, by_onset = runs.read_runs(STRAY), runs.read_by_onset(STRAY)
    above = step(1, 2, 0, 1, "reading") + WIPED + step(2, 2, 0, 1, "reading") + WIPED
    checks.begin("annotations outside of their run")
    checks.file("a.edf", STRAY)
    checks.same("the model's counts", [run.counts() for run in made + by_onset],
                [(1, 1), (0, 0), (0, 0), (1, 0)])
    on_terminal(checks, "split a.edf part", runs.split_lines("part", made),
                above + cause("part-1.edf", printed.LEFT_OUT))
    checks.file("sorted.edf", runs.canonical_by_onset(STRAY)[0])
    on_terminal(checks, "split sorted.edf to-view", runs.split_lines("to-view", by_onset), above)


def read_again(checks: Checks) -> None:
    """What edfruns prints of a pipe, and of a file that changed."""
    fed = (("a pipe that is read twice", "cat a.edf > f; sleep 0.5; : > f", printed.A_PIPE, 0),
           ("a file that changes", "exec 3> f; cat a.edf >&3; mv b.edf f", printed.CHANGED, 1))
    shell = measure.Program(Path("/bin/sh"), checks.folder)
    for case, feeding, words, size in fed:
        first, second = step(1, 2, unit="reading"), step(2, 2, 0, size, "reading")
        above = first + WIPED + cause("f", words) + second + WIPED + printed.changed("f")
        below = first + WIPED + second + WIPED + printed.changed("f")
        for command in ("split f part", "canonical f"):
            checks.begin(f"{case}: {command}")
            checks.file("a.edf", R9)
            checks.file("b.edf", Q)
            os.mkfifo(checks.folder / "f")
            with shell.started("-c", feeding):
                on_terminal(checks, command, status=3, err=below if size else above)


def mend_steps(count: int) -> str:
    """How far edfmend is, which reads a good file twice, and any other once more."""
    return "".join(step(nth, 3, 0, 1, "reading") + WIPED for nth in range(1, count + 1))


# Files that edfmend does not mend
UNMENDED = (
    ("bdf", field(GOOD, VERSION, b"\xffBIOSEMI"), faults.unprintable(0), printed.IS_BDF),
    ("time", field(GOOD, STARTTIME, b"23.59.5\xb0"), faults.unprintable(183), printed.KEPT_TIMES),
    ("hour", field(GOOD, STARTTIME, "24.00.00"), faults.starttime(), printed.NO_TIME_GIVEN),
    ("startdate", field(field(GOOD, RECORDING, "Night 1"), STARTDATE, "32.13.02"),
     faults.recording(), of_field(printed.NO_STARTDATE, printed.NO_DATE_OR_ROOM)),
    ("none", field(GOOD, by_hand.SIGNALS, "0"), faults.signals(), printed.NONE_ADDED),
    ("label", ALMOST, faults.annotations(), printed.NO_LABEL),
    ("physical", column(GOOD, by_hand.LOW, 1, "-1e-12"), faults.physical(1), printed.NO_PHYSICAL),
    ("digital", column(GOOD, by_hand.DIGITAL_LOW, 2, "-8388608"), faults.digital(2),
     printed.NO_DIGITAL),
    ("cut", GOOD[:1030], faults.cut_record(1), printed.NONE_WHOLE),
    ("list", in_block(0, b"Snore\x14", b"Snore")(GOOD), faults.tal(1, 5), printed.NO_LISTS),
    ("order", in_block(1, b"+1\x14", b"+0.5\x14")(GOOD), faults.order(2), printed.SET_BACK),
    ("piece", PLAIN + b"abc", faults.trailing(), printed.UNCOUNTED),
)


def why_not_mended(checks: Checks) -> None:
    """What edfmend prints below a refusal: never that edfmend mends it."""
    checks.begin("why a file is not mended")
    for name, data, fault, words in UNMENDED:
        checks.file(name, data)
        on_terminal(checks, f"{name} --dry-run", status=1,
                    err=mend_steps(2) + printed.fault(name, fault) + cause(name, words))


def mended_files(checks: Checks) -> None:
    """What edfmend prints of a file that it makes, of one that needs nothing, and why it can't make
    one."""
    checks.begin("a file without a fault")
    checks.file("a.edf", GOOD)
    on_terminal(checks, "a.edf --dry-run", printed.needs_nothing("a.edf"), mend_steps(2))
    checks.begin("a file with a fault")
    checks.file("a.edf", field(GOOD, COUNT, "7"))
    ledger = checks.program.ran("a.edf", "--dry-run").out
    on_terminal(checks, "a.edf --dry-run", ledger, mend_steps(3))
    on_terminal(checks, "a.edf b.edf", ledger, mend_steps(3))
    on_terminal(checks, "a.edf b.edf", status=1,
                err=printed.is_there("b.edf") + cause("b.edf", printed.TAKEN))
    checks.file("c.edf.part", b"mine")
    for name, why, below in (
            ("c.edf", printed.THERE, ""),
            ("none/export", printed.NO_FILE, cause("none/export", printed.NOTHING_LEFT))):
        on_terminal(checks, f"a.edf {name}", status=3,
                    err=mend_steps(2) + cause(f"{name}.part", why)
                    + printed.line(name, UNWRITTEN) + below)
    checks.same("the files", checks.names(), ["a.edf", "b.edf", "c.edf.part"])


def main() -> None:
    given = arguments.Parser(__doc__, arguments.PROGRAMS).read()
    measure.need("bash", "cc", "sqlite3")
    of_program = {"edfstore": (new_stores, how_far, causes, unmade_files, unread_files,
                                what_to_do),
                  "edfruns": (files_of_runs, outside_of_runs, read_again),
                  "edfserve": (stores_of_sessions,), "edfmend": (why_not_mended, mended_files)}
    with measure.scratch() as name:
        checks = Checks(given.program, Path(name))
        for program, cases in of_program.items():
            path = getattr(given, arguments.OPTIONS[program])
            checks.program, checks.name = replace(checks.program, path=path), program
            for case in (help_is_help, *cases):
                case(checks)
    checks.end()


if __name__ == "__main__":
    main()
