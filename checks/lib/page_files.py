"""Files for the page: lists of them that are taken together, each file as (name, bytes)."""
import random
import sqlite3
import tempfile
from pathlib import Path

from checks.fuzz import cases

from . import arguments, by_hand, edf, named
from .edf import Header, Signal, annotations_signal, fragment, keeping

ODD_NAMES = ("'quoted' \"twice\".edf", "睡眠-記録 2.edf", "\ufeffmarked.edf", "-.edf", "--help",
             "two\nlines.edf", "tab\tand space .edf", "é.edf", "e\u0301.edf", "<b>&amp;.edf",
             "%2e%2e.edf", "back\\slash.edf", "no ending", "😴.edf", "a" * 200 + ".edf",
             " accepted new=1 known=0")


def seconds(count: int, start: str = "23.59.50", signals: int = 1, code: str = "P7",
            first: int = 0) -> bytes:
    """So many data records of a second, with so many ordinary signals."""
    ordinary = [Signal(f"EEG channel {n + 1}") for n in range(signals)]
    header = Header((*ordinary, annotations_signal(8)), count=str(count), starttime=start,
                    patient=f"{code} F 02-MAY-1951 X")
    samples = b"".join(it.samples.encode() and bytes(2 * int(it.samples)) for it in ordinary)
    return fragment(header, [(samples, keeping(f"+{first + n}")) for n in range(count)])


def odd() -> list:
    """Files under odd names: some join one recording, and every third is of another."""
    return [(name, seconds(2, f"01.{nth:02}.00", code=f"P{nth % 3}"))
            for nth, name in enumerate(ODD_NAMES)]


def same_name() -> list:
    """Several files of one name: other bytes, the same bytes, and bytes that contradict."""
    one, two = seconds(3, "02.00.00"), seconds(3, "02.10.00")
    other = one[:-len(two) // 8] + bytes(len(two) // 8)
    return [("night.edf", data) for data in (one, two, one, other, b"", two)]


def foreign() -> list:
    """Files of other programs, and such as are no recordings."""
    found = sorted(arguments.TOP.glob("examples/**/*.edf"))
    with tempfile.NamedTemporaryFile(suffix=".db") as made:
        database = sqlite3.connect(made.name)
        database.execute("CREATE TABLE t (x)")
        database.commit()
        database.close()
        data = Path(made.name).read_bytes()
    others = [("store.db", data), ("picture.svg", (arguments.TOP / "docs/night.svg").read_bytes()),
              ("text.txt", b"no recording\n" * 100), ("zeros.edf", bytes(5000)),
              ("random.edf", random.Random(7).randbytes(70_000)), ("\0.edf".strip("\0"), b"\xff")]
    return [(path.name, path.read_bytes()) for path in found] + others


def small() -> list:
    """The small files of the stories."""
    files = {**named.fitting(), **named.refused(), **named.expected()}
    letters = {f"{name}.edf": data for name, data in edf.small_files().items()}
    no_samples = by_hand.column(named.Q, by_hand.SIZE, 1, "0")
    return [*files.items(), *letters.items(), ("no_samples.edf", no_samples)]


def wide() -> list:
    """As many signals as a file may have, one fewer, and one more."""
    return [(f"{count}.edf", seconds(3, signals=count - 1, code=f"S{count}"))
            for count in (638, 639, 640, 641)]


def by_chance(count: int) -> list:
    """Lists of random files, about half of them broken."""
    return [[(f"{nth:03}.edf", data) for nth, data in enumerate(batch)]
            for batch in cases.batches("page", count)]


def corpus(count: int) -> dict:
    """The lists by what they are; those by chance have so many files in all."""
    lists = {"odd names": odd(), "one name": same_name(), "foreign files": foreign(),
             "files of stories": small(), "639 signals": wide(),
             "one file": [("one.edf", seconds(5))], "an empty file": [("empty.edf", b"")]}
    return lists | {f"files by chance, {nth}": files
                    for nth, files in enumerate(by_chance(count))}
