"""Rows of what `edfmend` must do where it could guess whose a file is, when it starts, what a
sample means or what is a data record: each a file, the words, and what is wanted of them.

    python3 -m checks.mend.table [--edfmend PATH] [--list]

What a row wants stands there by hand; the plain model of `checks.lib.mending` says it too, and the
new file is the model's byte for byte. `--list` prints of each row that fails its name alone.
"""
import contextlib
import io
import tempfile
from pathlib import Path

from checks.lib import arguments, by_hand, mended, model
from checks.lib.checks import Checks
from checks.lib.edf import SIGNAL_WIDTHS
from checks.lib.mending import Made
from checks.mend.rows import TABLE, Row
from checks.mend.run import GOOD, by_model, in_block


def text_at(data: bytes, at: int, width: int) -> str:
    return data[at:at + width].decode("latin-1").rstrip(" ")


def of_first_signal(data: bytes, which: int) -> str:
    at = 256 + int(data[252:256]) * sum(SIGNAL_WIDTHS[:which])
    return text_at(data, at, SIGNAL_WIDTHS[which])


def looked_at(row: Row, made: bytes) -> tuple[object, ...]:
    """What a row says of a new file, as that file has it."""
    return (text_at(made, 8, 80), text_at(made, 88, 80),
            tuple((which, of_first_signal(made, which)) for which, _ in row.signal),
            int(made[236:244]))


def look(checks: Checks, mender: mended.Mender, row: Row) -> None:
    """A row by the model, and by the program."""
    name = f"{row.what}: edfmend in.edf out.edf{row.words}"
    expected = (row.patient, row.recording, row.signal, row.records)
    wanted = by_model(row.data, tuple(row.words.split()))
    checks.same(f"{row.what}: whether the model makes a file", isinstance(wanted, Made),
                not row.error)
    if isinstance(wanted, Made) and not row.error:
        checks.same(f"{row.what}: the model", looked_at(row, wanted.out), expected)
    ran = mender.mend(row.data, *row.words.split())
    if row.error:
        line = row.error.replace("IN", "in.edf")
        line = line if "in.edf" in line else f"in.edf {line}"
        checks.same(name, (ran.outcome(), mender.left()), ((b"", f"{line}\n".encode(), 1), []))
        return
    made = mender.look(row.data, ran)
    checks.same(name, made and looked_at(row, made), expected)
    if isinstance(wanted, Made):
        checks.same(f"{name}: by the model", (made == wanted.out, ran.out),
                    (True, wanted.printed()))


def one_night(checks: Checks, mender: mended.Mender) -> None:
    """A mended piece is taken into the recording of its night, by the plain model."""
    latin = in_block(0, b"Snore", b"Sn\xf6re")(GOOD)
    mender.mend(by_hand.field(latin, by_hand.STARTTIME, "23.59.53"))
    store = model.Store()
    answers = [store.take(GOOD), store.take(mender.made.read_bytes())]
    checks.same("a piece of a night that was mended, taken beside another",
                (answers, len(store.keys())), (["accepted new=3 known=0"] * 2, 1))


def look_at(checks: Checks, mender: mended.Mender, title: str, row: Row, is_listed: bool) -> None:
    """What a row that fails shows: all, or its name."""
    failed, shown = checks.failed, io.StringIO()
    with contextlib.redirect_stdout(shown):
        look(checks, mender, row)
    if is_listed and checks.failed > failed:
        print(f"{title}: {row.what} [{row.words.strip()}]")
    elif not is_listed:
        print(shown.getvalue(), end="")


def main() -> None:
    parser = arguments.Parser(__doc__, programs=("edfmend",))
    parser.add_argument("--list", action="store_true", help="the rows that fail, and no more")
    given = parser.read()
    with tempfile.TemporaryDirectory(prefix="edfmend-table-") as name:
        folder = Path(name) / "mending"
        folder.mkdir()
        mender = mended.Mender(given.edfmend, folder)
        checks = Checks(given.edfmend, Path(name) / "none", "edfmend")
        checks.folder.mkdir()
        for title, rows in TABLE:
            checks.begin(title)
            for row in rows:
                look_at(checks, mender, title, row, given.list)
        checks.begin("stores")
        one_night(checks, mender)
    checks.end()


if __name__ == "__main__":
    main()
