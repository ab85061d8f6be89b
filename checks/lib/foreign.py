"""Stores that another tool made or changed, for the stored run edfstore_stored_run: SQLite files
without page sums, made here row by row, what is done to each, and what is answered then.

Their names are NAME.db in the folder foreign.
"""
import sqlite3
import tempfile
from dataclasses import dataclass
from pathlib import Path

from . import edf, model, printed, stories
from .edf import keeping, tal

FILES = edf.small_files()
# The rows of the data records of Q, and of P5; and those of two on both sides of the end of 2084
Q = (541_727_990_000_000_000, b"\1\0\xff\xff", keeping("+541727990"))
P5 = (541_728_005_000_000_000, b"\2\0\xfe\xff",
      keeping("+541728005") + tal("+541728005.5", "Snore") + tal("+541728005.5", "Turn"))
LAST_SECOND = (3_155_759_999_000_000_000, b"\1\0\xff\xff", keeping("+3155759999"))
NEXT_SECOND = (3_155_760_000_000_000_000, b"\2\0\xfe\xff", keeping("+3155760000"))
TABLES = ("CREATE TABLE recording (id INTEGER PRIMARY KEY, identity BLOB NOT NULL UNIQUE) STRICT",
          "CREATE TABLE record (recording INTEGER NOT NULL, start INTEGER NOT NULL, "
          "samples BLOB NOT NULL, block BLOB NOT NULL, PRIMARY KEY (recording, start)) STRICT")


FIRST = TABLES[:1]


@dataclass(frozen=True)
class Made:
    """A store: rows, what is done to it then, whether its recording has a date, and its tables.
    Where it is opened, it holds what this file has, and lists this line."""
    rows: tuple
    done: str
    held: str = ""
    line: str = ""
    is_dated: bool = True
    tables: tuple = TABLES


def of_q(done: str, held: str = "", line: str = "") -> Made:
    return Made((Q,), done, held, line)


def other(*tables: str) -> Made:
    """A file of these tables, which are not those of a store."""
    return Made((), "", tables=tables)


def with_columns(columns: str, kind: str = " STRICT") -> Made:
    """A file of the first of our tables alone, with other columns than ours."""
    return other(f"CREATE TABLE recording ({columns}){kind}")


def over_2084(done: str, held: str = "", line: str = "", is_dated: bool = False) -> Made:
    return Made((LAST_SECOND, NEXT_SECOND), done, held, line, is_dated)


def listed(records: int, first: str) -> str:
    return stories.listed(1, records, first)


ON_Q = ("q.edf", listed(1, stories.Q_START))
MADE = {
    "q": of_q("", *ON_Q),
    "another_table": of_q("CREATE TABLE another (x)", *ON_Q),
    "a_view": of_q("CREATE VIEW starts AS SELECT start FROM record", *ON_Q),
    "a_reference": of_q("CREATE TABLE note (of INTEGER REFERENCES recording (id))", *ON_Q),
    "two_tables": of_q("CREATE TABLE another (x UNIQUE); CREATE INDEX by_x ON another (x); "
                       "CREATE TABLE third (y)", *ON_Q),
    "an_index": of_q("CREATE INDEX by_block ON record (block)"),
    "an_index_of_ids": of_q("CREATE UNIQUE INDEX by_id ON recording (id)"),
    "record_alone": other("CREATE TABLE record (x)"),
    "other_record": other(*FIRST, "CREATE TABLE record (x)"),
    "other_second": other(*FIRST, "CREATE TABLE another (x)"),
    "view_second": other(*FIRST, "CREATE VIEW ids AS SELECT id FROM recording"),
    "other_first": other("CREATE TABLE another (x)", *TABLES),
    "view_alone": other("CREATE VIEW one AS SELECT 1"),
    "not_strict": with_columns("id INTEGER PRIMARY KEY, identity BLOB NOT NULL UNIQUE", ""),
    "text": with_columns("id INTEGER PRIMARY KEY, identity TEXT NOT NULL UNIQUE"),
    "column_more": with_columns("id INTEGER PRIMARY KEY, identity BLOB NOT NULL UNIQUE, sex TEXT"),
    "may_be_null": with_columns("id INTEGER PRIMARY KEY, identity BLOB UNIQUE"),
    "not_unique": with_columns("id INTEGER PRIMARY KEY, identity BLOB NOT NULL"),
    "no_identity": of_q("INSERT INTO recording (identity) VALUES (x'00')"),
    "no_record": of_q("DELETE FROM record"),
    "no_recording": of_q("DELETE FROM recording"),
    "start_before_1985": of_q("UPDATE record SET start = -1"),
    "another_start": of_q("UPDATE record SET start = start + 1"),
    "few_samples": of_q("UPDATE record SET samples = x'0000'"),
    "no_block": of_q("UPDATE record SET block = x'00'"),
    "longer_onset": of_q("UPDATE record SET block = x'2B3534313732373939302E30141400'"),
    "overlap": of_q("INSERT INTO record SELECT recording, 541727990500000000, x'0100FFFF', "
                    "x'2B3534313732373939302E35141400' FROM record"),
    "undated": over_2084("", "undated_into_2085.edf", listed(2, "2084-12-31T23:59:59")),
    "undated_to_2084": over_2084("DELETE FROM record WHERE start >= 3155760000000000000",
                                 "undated_last_second.edf", listed(1, "2084-12-31T23:59:59")),
    "undated_after_2084": over_2084("DELETE FROM record WHERE start < 3155760000000000000"),
    "dated_after_2084": over_2084("DELETE FROM record WHERE start < 3155760000000000000",
                                  "first_second_of_2085.edf", listed(1, "2085-01-01T00:00:00"),
                                  is_dated=True),
}


# A table of another tool, which may refer to ours, with an index, a view and rows
BESIDE = ("CREATE TABLE note (id INTEGER PRIMARY KEY, text TEXT NOT NULL UNIQUE, "
          "of INTEGER REFERENCES recording (id)); CREATE INDEX by_recording ON note (of); "
          "CREATE VIEW starts AS SELECT start FROM record; "
          "INSERT INTO note (text, of) VALUES ('seen by a nurse', 1), ('for the report', NULL)")


def database(is_dated: bool, rows: tuple, done: str = "", tables: tuple = TABLES) -> bytes:
    """The SQLite file of Q's recording, or of the same without a date; of no rows that of tables
    alone."""
    with tempfile.TemporaryDirectory() as folder:
        path = Path(folder) / "made.db"
        connection = sqlite3.connect(path, isolation_level=None)
        connection.execute("PRAGMA page_size=512")
        for statement in tables:
            connection.execute(statement)
        if rows:
            key = model.Layout(FILES["Q" if is_dated else "X"]).key.to_bytes()
            connection.execute("INSERT INTO recording (identity) VALUES (?)", (key,))
            connection.executemany("INSERT INTO record VALUES (1, ?, ?, ?)", rows)
        connection.executescript(done)
        connection.close()
        return path.read_bytes()


def dump(data: bytes) -> str:
    """All that a SQLite file has, as statements."""
    with tempfile.TemporaryDirectory() as folder:
        path = Path(folder) / "read.db"
        path.write_bytes(data)
        connection = sqlite3.connect(path)
        text = "\n".join(connection.iterdump())
        connection.close()
        return text


def files() -> dict:
    """Every such store by its name, and a second time under the name of one that stays."""
    made = {name: database(one.is_dated, one.rows, one.done, one.tables)
            for name, one in MADE.items()}
    made["both"], made["first_table"] = database(True, (Q, P5)), database(True, (), tables=FIRST)
    made["beside"] = database(True, (Q,), BESIDE)
    refused = [name for name, one in MADE.items() if not one.held] + ["both"]
    return {name_of(name): data for name, data in made.items()} | {
        before(name): made[name] for name in refused}


def name_of(name: str) -> str:
    return f"foreign/{name}.db"


def before(name: str) -> str:
    return f"foreign/{name}_before.db"


def is_refused(script: stories.Script, name: str, cap: int = stories.MOST) -> None:
    """The store can't be opened, and its file stays as it was."""
    script.over_files(name_of(name), cap)
    script.is_refused(printed.FOREIGN)
    script.line(f"cat {name_of(name)} = {before(name)}",
                stories.just(before(name), len(script.files[before(name)])))


def is_opened(script: stories.Script, name: str, held: str, line: str, cap: int = stories.MOST):
    """The store holds what this file has."""
    script.over_files(name_of(name), cap)
    script.hold(held)
    script.list(line)
    script.export(held)


def play(script: stories.Script) -> None:
    script.title("a store with rows that no files leave is refused and stays, and so is a file of "
                 "other tables; one with others after its own is taken as it is")
    for name, one in MADE.items():
        if one.held:
            is_opened(script, name, one.held, one.line)
        else:
            is_refused(script, name)
    script.title("files are taken where the second table is missing, and beside the tables of "
                 "another tool")
    script.over_files(name_of("first_table"))
    script.list()
    script.take("q.edf 1 0")
    script.export("q.edf")
    script.over_files(name_of("beside"))
    script.hold("q.edf")
    script.take("p5.edf 1 0")
    script.export("q_and_p5.edf")
    script.title("a recording of more data records than the cap is refused and stays")
    is_refused(script, "both", 1)
    is_opened(script, "both", "q_and_p5.edf", listed(2, stories.Q_START), 2)
