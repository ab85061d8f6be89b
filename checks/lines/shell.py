"""What a person may type: names, streams and stores that are not as they should be, with the lines
and statuses that follow.

    python3 -m checks.lines.shell [--program PATH]

It needs bash and sqlite3 (the command).
"""
import fcntl
import threading
from contextlib import contextmanager
from pathlib import Path

from checks.lib import arguments, edf, faults, measure, model, printed
from checks.lib.checks import Checks
from checks.lib.printed import KNOWN, NEW, NO_STORE, UNREAD

FILES = edf.small_files()
Q, P5 = FILES["Q"], FILES["P5"]
ONE, TWO = (printed.recording(1, records, "2002-03-02T23:59:50", "P7", "N1") for records in (1, 2))
UNWRITTEN = printed.fault("export", faults.write())
LOCKED = 512, 1 << 30   # how many bytes of a file SQLite locks, and from where on
WAITED = 2.0            # seconds for which a store is tried again that another program has


def begun(checks: Checks, case: str, held: bool = False) -> None:
    """A folder with a.edf and p.edf, and with a store of a.edf where it is to be held."""
    checks.begin(case)
    checks.file("a.edf", Q)
    checks.file("p.edf", P5)
    if held:
        checks.shell("edfstore take s.db a.edf", printed.line("a.edf", NEW))


def names(checks: Checks) -> None:
    begun(checks, "names")
    checks.shell("edfstore take s.db a.edf a.edf", printed.lines(("a.edf", NEW), ("a.edf", KNOWN)))
    checks.shell("cp a.edf 'a night.edf'; edfstore take s.db 'a night.edf'",
                 printed.line("a night.edf", KNOWN))
    checks.shell("cp a.edf 'n\u00e4cht.edf'; edfstore take s.db 'n\u00e4cht.edf'",
                 printed.line("n\u00e4cht.edf", KNOWN))
    checks.shell("edfstore take s.db ./a.edf", printed.line("./a.edf", KNOWN))
    checks.shell("mkdir d; edfstore take s.db d p.edf",
                 printed.lines(("d", UNREAD), ("p.edf", NEW)), status=3)
    checks.shell("edfstore take s.db ''", printed.line("", UNREAD), status=3)
    checks.shell("cp a.edf 'more files.db'; edfstore take 'a store.db' 'more files.db'; "
                 "edfstore list 'a store.db'", printed.line("more files.db", NEW) + ONE)
    checks.shell("edfstore list $'s\\xff.db'", err=printed.NOT_UTF_8, status=2)
    checks.shell("edfstore take t.db a.edf $'b\\xff.edf'; test ! -e t.db",
                 err=printed.NOT_UTF_8)


def streams(checks: Checks) -> None:
    begun(checks, "standard input")
    checks.shell("edfstore take s.db - < a.edf", printed.line("-", NEW))
    checks.shell("edfstore take s.db - - < a.edf",
                 printed.lines(("-", KNOWN), ("-", printed.refused(faults.cut()))), status=1)
    checks.shell("cat a.edf | edfstore take s.db p.edf -",
                 printed.lines(("p.edf", NEW), ("-", KNOWN)))
    checks.shell("edfstore take s.db - <&-", printed.line("-", UNREAD), status=3)
    checks.shell("edfstore convert - < a.edf | cmp - a.edf")
    begun(checks, "standard output that can't be written", held=True)
    checks.shell("edfstore list s.db > /dev/full", status=3)
    checks.shell("edfstore export s.db 1 > /dev/full", err=UNWRITTEN, status=3)
    checks.shell("edfstore convert a.edf > /dev/full", err=UNWRITTEN, status=3)
    checks.shell("edfstore take s.db p.edf a.edf > /dev/full", status=3)
    checks.shell("edfstore take s.db p.edf", printed.line("p.edf", KNOWN))
    checks.shell("edfstore list s.db >&-", status=3)
    checks.shell("edfstore export s.db 9 2> /dev/full", status=3)
    checks.shell("edfstore export s.db 9 2>&-", status=3)
    checks.shell("edfstore take s.db a.edf 2>&-", printed.line("a.edf", KNOWN))
    checks.shell("edfstore take s.db a.edf <&- >&- 2>&-", status=3)
    checks.shell("edfstore list s.db", TWO)
    checks.shell("sqlite3 s.db 'PRAGMA integrity_check; SELECT count(*) FROM record'", "ok\n2\n")


def pipes(checks: Checks) -> None:
    """An export that nobody reads to its end: some trouble, and never a silent success."""
    begun(checks, "a pipe that closes early")
    header = edf.Header((edf.Signal(samples="200000"), edf.annotations_signal(8)), count="40")
    checks.file("large.edf",
                edf.fragment(header, [(bytes(400_000), edf.keeping(f"+{n}")) for n in range(40)]))
    checks.shell("edfstore take s.db large.edf", printed.line("large.edf", printed.accepted(40)))
    checks.shell("set -o pipefail; edfstore export s.db 1 | head -c 10 > front; "
                 "head -c 10 large.edf | cmp - front", err=UNWRITTEN)
    checks.shell("(edfstore export s.db 1; echo $? > status) 2> /dev/null | head -c 10 > front; "
                 "cat status", "3\n")


def stores(checks: Checks) -> None:
    begun(checks, "stores", held=True)
    checks.shell("mkdir folder; edfstore take folder a.edf", err=NO_STORE, status=3)
    checks.shell("cp a.edf before.edf; edfstore list a.edf", err=NO_STORE, status=3)
    checks.shell("cmp before.edf a.edf")
    checks.shell("cp s.db copy.db; edfstore list copy.db", ONE)
    checks.shell("edfstore take :memory: a.edf p.edf a.edf",
                 printed.lines(("a.edf", NEW), ("p.edf", NEW), ("a.edf", KNOWN)))
    checks.shell("edfstore export s.db 1 | edfstore take other.db -; "
                 "edfstore export other.db 1 | cmp - a.edf", printed.line("-", NEW))


def paths(checks: Checks) -> None:
    """A path that names no file is new in a folder that is there, and nowhere else."""
    begun(checks, "paths without a file", held=True)
    checks.shell("mkdir there; ln -s none/s.db away.db; ln -s later.db link.db; ln -s none dead")
    before = checks.names()
    for path in ("new.db", "./new.db", "there/new.db", "there/../new.db", '"$PWD/new.db"'):
        checks.shell(f"edfstore list {path}")
        checks.shell(f"edfstore export {path} 1", err=printed.no_recording(1), status=1)
    for path in ("none/s.db", "there/none/s.db", "none/../s.db", "/none/s.db", "dead/s.db",
                 "away.db", "link.db", "./link.db", "''", "new.db/", "none/", "dead/"):
        for words in (f"list {path}", f"export {path} 1", f"take {path} a.edf"):
            checks.shell(f"edfstore {words}", err=NO_STORE, status=3)
    checks.same("nothing was made", (checks.names(), list(checks.folder.glob("there/*"))),
                (before, []))
    checks.shell("mkdir gone; cd gone; rmdir ../gone; edfstore list s.db", err=NO_STORE, status=3)
    checks.shell("edfstore take there/new.db a.edf; edfstore list there/new.db",
                 printed.line("a.edf", NEW) + ONE)
    checks.shell("edfstore take later.db a.edf; edfstore export link.db 1 | cmp - a.edf",
                 printed.line("a.edf", NEW))


@contextmanager
def held(store: Path, seconds: float = None):
    """The lock of a store's file is held, and after so many seconds given back."""
    with open(store, "r+b") as file:
        fcntl.lockf(file, fcntl.LOCK_EX, *LOCKED)
        ending = threading.Timer(seconds or 0, fcntl.lockf, (file, fcntl.LOCK_UN, *LOCKED))
        if seconds is not None:
            ending.start()
        yield
        ending.cancel()


def at_once(checks: Checks) -> None:
    """A store that another program has open."""
    begun(checks, "a store that is open elsewhere", held=True)
    checks.shell("mkfifo f; edfstore take s.db f > lines & sleep 0.5; edfstore list s.db; s=$?; "
                 "edfstore take s.db p.edf; cat p.edf > f; wait; cat lines; exit $s",
                 printed.line("f", NEW), 2 * NO_STORE, status=3)
    checks.shell("edfstore list s.db", TWO)
    checks.shell("\"$PROGRAM\" take s.db f & p=$!; sleep 0.5; kill -9 $p; wait $p 2> /dev/null; "
                 "edfstore list s.db", TWO)
    checks.shell("edfstore take s.db f > lines & sleep 0.5; (sleep 0.5; cat a.edf > f) & "
                 "edfstore list s.db; wait; cat lines", TWO + printed.line("f", KNOWN))


def waited(checks: Checks) -> None:
    """How long a store is waited for, and that nothing is done to it meanwhile."""
    begun(checks, "how long a store is waited for", held=True)
    for path in checks.folder.glob("s.db-*"):
        path.unlink()
    store, names, bytes_held = checks.folder / "s.db", checks.names(), checks.content("s.db")
    for words, out in (("list s.db", ONE), ("export s.db 1", Q),
                       ("take s.db p.edf", printed.line("p.edf", NEW))):
        with held(store):
            ran = checks.program.ran(*words.split())
        checks.compare(f"{words}, the lock held", ran, err=NO_STORE, out="", status=3)
        checks.same(f"{words}: it waits", WAITED <= ran.seconds < 3 * WAITED, True)
        checks.same(f"{words}: the store", (checks.names(), checks.content("s.db")),
                    (names, bytes_held))
        with held(store, WAITED / 4):
            ran = checks.program.ran(*words.split())
        checks.compare(f"{words}, the lock held for a while", ran, out, "", 0)
        for path in checks.folder.glob("s.db-*"):
            path.unlink()
    checks.shell("head -c 9000 s.db > cut.db; sqlite3 other.db 'CREATE TABLE night (a)'; "
                 "cp s.db one.db; ln one.db two.db; mkdir folder")
    for path in ("cut.db", "other.db", "two.db", "folder", "a.edf", "none/s.db", "/dev/full"):
        ran = checks.program.ran("list", path)
        checks.same(f"{path}: no wait", (ran.status, ran.seconds < WAITED), (3, True))


def one_after_another(checks: Checks) -> None:
    """Exports in a loop over the lines of a list, which may still have the store."""
    begun(checks, "exports of a list's lines")
    store = model.Store()
    for name, data in (("a.edf", Q), ("x.edf", FILES["X"]), ("u.edf", FILES["U"])):
        checks.file(name, data)
        checks.take("s.db", (name, store.take(data)))
    checks.shell("for i in {1..40}; do edfstore list s.db | while read -r place rest; do "
                 "edfstore export s.db $place > $place.edf || echo refused; done; done")
    checks.same("the exports", [checks.content(f"{place}.edf") for place in (1, 2, 3)],
                [store.export(place) for place in (1, 2, 3)])
    checks.shell("for i in {1..3}; do \"$PROGRAM\" take s.db p.edf & done | sort",
                 2 * printed.line("p.edf", KNOWN) + printed.line("p.edf", NEW))


def main() -> None:
    given = arguments.Parser(__doc__).read()
    measure.need("bash", "sqlite3")
    with measure.scratch() as name:
        checks = Checks(given.program, Path(name))
        for case in (names, streams, pipes, stores, paths, at_once, waited, one_after_another):
            case(checks)
    checks.end()


if __name__ == "__main__":
    main()
