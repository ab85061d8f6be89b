"""Files that are no stores, our tables made in other ways, foreign rows, and a store of a million
rows, as the program meets them.

    python3 -m checks.odd [--program PATH]

Each file is made by the system's SQLite or by hand, given to `list`, and must be answered with the
number that stands beside it and left as it was, byte for byte. Beside a file that is no database
nothing is made, nor is anything in an empty one by what only reads. Beside the tables of a store
that the released 1.1.1 made (data/released_1_1_1.db, the file Q) other tools may write as they
please; what they may do to a store with page sums is tried too, and the lines of `man edfstore`
that bring such a store back, which run nothing that somebody wrote into it. Where rows are in the
log alone and the store is refused, they stay there. Then `list` of stores of 250,000, 500,000 and
1,000,000 rows: time and peak memory. It needs sqlite3 and time.
"""
import os
import shutil
import sqlite3
from pathlib import Path

from checks.lib import arguments, edf, faults, measure, model, printed, sessions
from checks.lib.checks import end

RELEASED = arguments.TOP / "checks/data/released_1_1_1.db"
E42, E45 = faults.store.number, faults.foreign.number
TABLES = ("CREATE TABLE IF NOT EXISTS recording (\n"
          "  id INTEGER PRIMARY KEY, identity BLOB NOT NULL UNIQUE) STRICT",
          "CREATE TABLE IF NOT EXISTS record (\n"
          "  recording INTEGER NOT NULL, start INTEGER NOT NULL,\n"
          "  samples BLOB NOT NULL, block BLOB NOT NULL,\n"
          "  PRIMARY KEY (recording, start)) STRICT")
INSERT = "INSERT INTO record (recording, start, samples, block) VALUES (?, ?, ?, ?)"

# What another program may have done to a store of one record, and no list of files does
FOREIGN = (
    "INSERT INTO recording (identity) VALUES (x'00')",
    "DELETE FROM record",
    "DELETE FROM recording",
    "UPDATE record SET start = -1",
    "UPDATE record SET start = start + 1",
    "UPDATE record SET samples = x'0000'",
    "UPDATE record SET block = x'00'",
    "UPDATE record SET block = x'2B3534313732373939302E30141400'",
    "UPDATE record SET block = CAST(block || x'00' AS BLOB)",
    "UPDATE record SET recording = recording + 1",
    "UPDATE recording SET identity = CAST(identity || x'20' AS BLOB)",
    "INSERT INTO record SELECT recording, 541727990500000000, samples, "
    "x'2B3534313732373939302E35141400' FROM record",
)

# Two data records of a recording without a date, on both sides of the end of 2084
OVER_2084 = edf.fragment(
    edf.Header((edf.Signal(), edf.annotations_signal(3)), "31.12.84", "23.59.59",
               recording="Startdate X N1 T3 REC5", count="2"),
    [(b"\1\0\2\0", edf.keeping("+0")), (b"\3\0\4\0", edf.keeping("+1"))])

# How another program may have made our two tables, and what is answered then
MADE = (
    ("our tables", TABLES, ""),
    ("the first of our tables alone", TABLES[:1], ""),
    ("our tables after one that was dropped before they were made",
     ("CREATE TABLE t (x)", "DROP TABLE t", *TABLES), ""),
    ("the second of our tables alone", TABLES[1:], E45),
    ("our tables in the other order", TABLES[::-1], E45),
    ("our tables after one that was dropped later",
     ("CREATE TABLE t (x)", *TABLES, "DROP TABLE t"), E45),
    ("the first of our tables, and another", (TABLES[0], "CREATE TABLE t (x)"), E45),
    ("a view alone", ("CREATE VIEW v AS SELECT 1",), E45),
    ("ANALYZE of nothing", ("ANALYZE",), E45),
    ("a virtual table after ours", (*TABLES, "CREATE VIRTUAL TABLE t USING fts5 (x)"), E42),
    ("a table after ours with a foreign key and a trigger",
     (*TABLES, "CREATE TABLE t (x REFERENCES recording (id))",
      "CREATE TRIGGER kept AFTER DELETE ON t BEGIN SELECT 1; END"), E42),
)

# What another tool may do beside our tables, and on them
LAB = ("CREATE TABLE lab (id INTEGER PRIMARY KEY, text TEXT UNIQUE, "
       "of INTEGER REFERENCES recording (id))")
FILLED = "INSERT INTO lab VALUES (1, 'seen by a nurse', 1), (2, 'for the report', NULL)"
BESIDE = (
    ("ANALYZE", ("ANALYZE",)),
    ("a view", ("CREATE VIEW starts AS SELECT start FROM record",)),
    ("a table with an index, a foreign key and rows",
     (LAB, FILLED, "CREATE INDEX by_of ON lab (of)")),
    ("a table WITHOUT ROWID",
     ("CREATE TABLE lab (k TEXT PRIMARY KEY, v) WITHOUT ROWID", "INSERT INTO lab VALUES ('a', 1)")),
    ("a table with a trigger of its own",
     ("CREATE TABLE lab (x)", "INSERT INTO lab VALUES (1)",
      "CREATE TRIGGER kept AFTER DELETE ON lab BEGIN SELECT 1; END")),
    ("a table, a view, ANALYZE and VACUUM",
     (LAB, FILLED, "CREATE VIEW v AS SELECT text FROM lab", "ANALYZE", "VACUUM")),
    ("VACUUM", ("VACUUM",)),
    ("journal_mode=delete", ("PRAGMA journal_mode=delete",)),
)
# The man page's lines, over s.db
BACK = next(block for block in sessions.of_manual(arguments.TOP / "docs/edfstore.1")
            if " .dump" in block).replace("night.db", "s.db") + "mv $new/new.db .; rm -r $new"
# Lines that sqlite3 would run: of a table's text, which .dump writes as it is
WICKED = ("shell touch ran", "trace ran", "testcase ran", "output ran")
WITH_SUMS = (
    ("a query", "sqlite3 s.db 'SELECT count(*) FROM record'", ""),
    ("cp", "cp s.db new.db", ""),
    ("the way back", BACK, ""),
    ("the way back from ANALYZE", f"sqlite3 s.db ANALYZE; {BACK}", ""),
    ("ANALYZE", "sqlite3 s.db ANALYZE", E42),
    ("VACUUM", "sqlite3 s.db VACUUM", E42),
    ("a view", "sqlite3 s.db 'CREATE VIEW starts AS SELECT start FROM record'", E42),
    (".backup", "sqlite3 s.db '.backup new.db'", E42),
)
ON_OURS = (
    "CREATE INDEX by_block ON record (block)",
    "CREATE TRIGGER kept BEFORE DELETE ON record BEGIN SELECT RAISE(ABORT, 'kept'); END",
    "CREATE TRIGGER Kept AFTER INSERT ON Recording BEGIN SELECT 1; END",
    "ALTER TABLE recording RENAME COLUMN identity TO name",
)


def changed(store: Path, *statements: str) -> None:
    connection = sqlite3.connect(store, isolation_level=None)
    for statement in statements:
        connection.executescript(statement)
    connection.close()


def others_of(store: Path) -> list:
    """All that is not in our two tables: the list of objects, and each other table's rows."""
    connection = sqlite3.connect(store)
    objects = connection.execute(
        "SELECT type, name, tbl_name, sql FROM sqlite_schema ORDER BY rowid").fetchall()
    names = [name for kind, name, _, _ in objects
             if kind == "table" and name not in ("recording", "record")]
    found = [objects] + [connection.execute(f"SELECT * FROM {name}").fetchall() for name in names]
    connection.close()
    return found


def bytes_of(path: Path) -> bytes:
    return path.read_bytes() if path.is_file() else b""


class Odd:
    def __init__(self, program: Path, folder: Path):
        self.program, self.folder, self.done, self.failed = program, folder, 0, 0
        self.store = folder / "s.db"

    def clean(self) -> None:
        for path in self.folder.iterdir():
            shutil.rmtree(path) if path.is_dir() else path.unlink()

    def released(self) -> Path:
        """The store that the released 1.1.1 made of the file Q."""
        self.clean()
        shutil.copy(RELEASED, self.store)
        return self.store

    def held(self, data: bytes = b"", has_sums: bool = False) -> Path:
        """A store that holds this file, or one record. Where its tables are there before it has no
        page sums."""
        self.clean()
        if not has_sums:
            changed(self.store, *TABLES)
        (self.folder / "a.edf").write_bytes(data or edf.small_files()["Q"])
        measure.done(self.program, "take", self.store, self.folder / "a.edf")
        return self.store

    def check(self, what: str, *expected: str) -> None:
        """`list` answers one of these numbers, or lists where the text is empty, and leaves the
        file."""
        before = bytes_of(self.store)
        ran = measure.ran(self.program, "list", self.store)
        said = ran.err.decode().strip()
        number = printed.number(said) if printed.is_store_refused(ran.err) else said
        is_kept = bytes_of(self.store) == before
        self.done += 1
        if number not in expected or ran.status != (3 if number else 0) or (number and not is_kept):
            self.failed += 1
            print(f"{what}: {ran}, file {'kept' if is_kept else 'CHANGED'}; "
                  f"expected {' or '.join(expected)}")

    def makes_nothing(self, what: str, words: tuple, status: int) -> None:
        """A command ends so, and every file is as it was, and alone."""
        before = {path.name: bytes_of(path) for path in self.folder.iterdir()}
        ran = measure.ran(self.program, *words)
        after = {path.name: bytes_of(path) for path in self.folder.iterdir()}
        self.done += 1
        if (ran.status, ran.out) != (status, b"") or after != before:
            self.failed += 1
            print(f"{what}, {words[0]}: {ran}, expected status {status}; files {sorted(after)}, "
                  f"{'kept' if after == before else 'CHANGED'}")


# What is no database, and has no log
NO_DATABASES = (("a text", b"This is no database.\n" * 100), ("a byte", b"S"),
                ("all but the last byte of what a database begins with", b"SQLite format 3"),
                ("a file of zeros", bytes(8192)), ("an EDF file", edf.small_files()["Q"]))


def no_stores(odd: Odd) -> None:
    data = bytes_of(odd.held(has_sums=True))
    odd.check("a store", "")
    odd.clean()
    odd.check("no file", "")
    odd.clean()
    odd.store.write_bytes(b"")
    odd.check("an empty file", "")
    odd.makes_nothing("an empty file", ("list", odd.store), 0)
    odd.makes_nothing("an empty file", ("export", odd.store, "1"), 1)
    for what, given in (("a text", b"This is no database.\n" * 100),
                        ("a file of zeros", bytes(8192)), ("an EDF file", edf.small_files()["Q"]),
                        ("a store cut in its middle", data[:len(data) // 2]),
                        ("a store cut by a byte", data[:-1]),
                        ("a store whose first page is gone", bytes(4096) + data[4096:])):
        odd.clean()
        odd.store.write_bytes(given)
        odd.check(what, E42, E45)
    for what, given in NO_DATABASES:
        for words in (("list", odd.store), ("export", odd.store, "1"),
                      ("take", odd.store, RELEASED)):
            odd.clean()
            odd.store.write_bytes(given)
            odd.makes_nothing(what, words, 3)
    odd.clean()
    odd.store.write_bytes(data + b"\0")
    odd.check("a store with a byte more, as SQLite takes it too", "")
    odd.clean()
    odd.store.mkdir()
    odd.check("a directory", E42)
    odd.clean()
    changed(odd.store, "CREATE TABLE other (a)", "INSERT INTO other VALUES (1)")
    odd.check("a database of another program", E45)
    odd.clean()
    changed(odd.store, "CREATE TABLE recording (id INTEGER PRIMARY KEY, name TEXT)",
            "CREATE TABLE record (a, b)", "INSERT INTO record VALUES (1, 2)")
    odd.check("our tables' names with other columns", E45)
    odd.held(has_sums=True)
    os.link(odd.store, odd.folder / "second.db")
    odd.check("a store with a second name", E42)
    if os.geteuid():
        odd.held().chmod(0)
        odd.check("a store without leave to read", E42)


def made(odd: Odd) -> None:
    for what, statements, expected in MADE:
        odd.clean()
        changed(odd.store, *statements)
        odd.check(what, expected)


def foreign(odd: Odd) -> None:
    for statement in FOREIGN:
        changed(odd.held(), statement)
        odd.check(statement, E45)
    odd.held(OVER_2084)
    odd.check("a recording without a date that goes on after 2084", "")
    changed(odd.held(OVER_2084), "DELETE FROM record WHERE start < 3155760000000000000")
    odd.check("a recording without a date that begins after 2084", E45)


def goes_on(odd: Odd, what: str) -> None:
    """The store opens, takes a file and exports, and what is beside its tables stays."""
    before, files, given = others_of(odd.store), edf.small_files(), odd.folder / "b.edf"
    given.write_bytes(files["P5"])
    plain = model.Store()
    plain.take(files["Q"])
    expected = printed.line(given, plain.take(files["P5"]))
    odd.check(what, "")
    took = measure.ran(odd.program, "take", odd.store, given)
    places = range(1, len(plain.keys()) + 1)
    same = (took.out.decode() == expected, others_of(odd.store) == before,
            *(measure.ran(odd.program, "export", odd.store, place).out == plain.export(place)
              for place in places))
    odd.done += 1
    if not all(same):
        odd.failed += 1
        print(f"{what}: {took}; the line, the others and the exports are as expected: {same}")


def moved_in(odd: Odd) -> None:
    """The file new.db in place of the store's."""
    for name in ("s.db-wal", "s.db-shm"):
        (odd.folder / name).unlink(missing_ok=True)
    (odd.folder / "new.db").replace(odd.store)


def beside(odd: Odd) -> None:
    odd.released()
    goes_on(odd, "a store of the released 1.1.1")
    for what, statements in BESIDE:
        changed(odd.released(), *statements)
        goes_on(odd, what)
    for what, command in (("the way back", BACK), (".backup", "sqlite3 s.db '.backup new.db'")):
        changed(odd.released(), LAB, FILLED, "ANALYZE")
        measure.done("bash", "-c", command, folder=odd.folder)
        moved_in(odd)
        goes_on(odd, what)
    for statement in ON_OURS:
        changed(odd.held(), statement)
        odd.check(statement, E45)


def with_sums(odd: Odd) -> None:
    """What sqlite3, which writes no page sums, and `cp` do to a store that has them."""
    for what, command, expected in WITH_SUMS:
        odd.held(has_sums=True)
        measure.done("bash", "-c", command, folder=odd.folder)
        if (odd.folder / "new.db").exists():
            moved_in(odd)
        if expected:
            odd.check(f"{what}, with sums", expected)
        else:
            goes_on(odd, f"{what}, with sums")


def wicked(odd: Odd) -> None:
    """The way back runs nothing that stands in a store, which would run without its words."""
    harmful = BACK.replace(" -safe", "").replace("grep -av '^[.]'", "cat")
    for line in WICKED:
        for what, command, expected in (("the way back", BACK, 1), ("another", harmful, 2)):
            changed(odd.held(has_sums=True), "CREATE TABLE other (a)",
                    "PRAGMA writable_schema = ON; "
                    f"UPDATE sqlite_schema SET sql = sql || ';\n.{line}\n' "
                    "WHERE name = 'other'")
            before = set(odd.folder.iterdir())
            measure.ran("bash", "-c", command, folder=odd.folder)
            files = {path.name for path in set(odd.folder.iterdir()) - before}
            odd.done += 1
            if len(files) != expected or "new.db" not in files:
                odd.failed += 1
                print(f"{what}, of a store with .{line}: {sorted(files)}")


def logged(odd: Odd) -> None:
    """What is in the log alone, as a program that was killed leaves it, stays there where the store
    is refused."""
    log = odd.folder / "s.db-wal"
    for what, tables, change, expected in (
            ("a foreign row in the log", TABLES, FOREIGN[0], E45),
            ("a row of another program in the log", ("CREATE TABLE t (x)",),
             "INSERT INTO t VALUES (1)", E45),
            ("a view in the log", TABLES, "CREATE VIEW v AS SELECT start FROM record", "")):
        odd.clean()
        writer = sqlite3.connect(odd.folder / "w.db", isolation_level=None)
        for statement in ("PRAGMA journal_mode=wal", *tables, "PRAGMA wal_checkpoint(TRUNCATE)",
                          change):
            writer.execute(statement)
        for suffix in ("", "-wal"):
            shutil.copy(odd.folder / f"w.db{suffix}", odd.folder / f"s.db{suffix}")
        writer.close()
        before = bytes_of(log)
        odd.check(what, expected)
        if expected and not bytes_of(log).startswith(before):
            odd.failed += 1
            print(f"{what}: the log has lost some of it")


def fill(store: Path, count: int) -> None:
    """A store of so many rows, a data record a second."""
    rows = ((1, second * 10**9, b"\1\0\2\0", b"+%d\x14\x14\0" % second)
            for second in range(count))
    connection = sqlite3.connect(store)
    for table in TABLES:
        connection.execute(table)
    key = model.read(edf.small_files()["Q"])[0].to_bytes()
    connection.execute("INSERT INTO recording VALUES (1, ?)", (key,))
    connection.executemany(INSERT, rows)
    connection.commit()
    connection.close()


def many_rows(odd: Odd) -> None:
    lines = []
    for count in (250_000, 500_000, 1_000_000):
        odd.clean()
        fill(odd.store, count)
        size = odd.store.stat().st_size
        listed = measure.timed(odd.program, "list", odd.store)
        if listed.out.decode() != printed.recording(1, count, "1985-01-01T00:00:00", "P7", "N1"):
            odd.failed += 1
            print(f"{count} rows: {listed}")
        lines.append((f"{count:,} rows", measure.mb(size), f"{listed.seconds:.2f} s",
                      measure.mb(listed.peak), f"{listed.peak / size:.2f}"))
    changed(odd.store,
            "UPDATE record SET samples = x'00' WHERE start = (SELECT max(start) FROM record)")
    odd.check("a million rows, the last of them foreign", E45)
    print("list of a store of many rows")
    measure.table(("", "store", "list", "peak", "peak / store"), lines)


def main() -> None:
    given = arguments.Parser(__doc__).read()
    measure.need("/usr/bin/time", "sqlite3")
    with measure.scratch() as name:
        odd = Odd(given.program, Path(name))
        for case in (no_stores, made, foreign, beside, with_sums, wicked, logged,
                     many_rows):
            case(odd)
    end(odd.done, odd.failed)


if __name__ == "__main__":
    main()
