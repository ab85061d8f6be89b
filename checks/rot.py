"""What is noticed of a store's files that change between two runs of the program.

    python3 -m checks.rot [--program PATH] [COUNT]   100 bits of each file if left out

Of a store of two recordings, whose data records fill a page and nearly two, single bits and bytes
change, pages are zeroed, written over by others, exchanged, and the file is cut: each must be
refused, or the exports are as before. Ends of long rows are exchanged in a case of their own, since
there is no page after them that would tell it: the start that a row ends with does. Then bits of
the log that a killed `take` leaves: the exports must be those of some first files. The control is a
store without page sums, in which many a bit must give another export.
"""
import random
import sqlite3
import subprocess
import time
from collections import Counter
from collections.abc import Iterator
from datetime import datetime, timedelta
from pathlib import Path

from checks.lib import arguments, edf, measure, model, printed
from checks.lib.checks import Checks
from checks.lib.edf import Header, Signal, keeping
from checks.lib.printed import accepted
from checks.odd import TABLES

BEGUN = datetime(2002, 10, 27, 1, 0)
PAGE = 4096
COUNT_AT, RESERVED_AT = 28, 20      # the number of pages, and the bytes that each keeps for a sum
FIRST_OF_LOG = 100      # a byte of a log's first page, after its header and that page's own
SAME, OTHER = "exports as before", "ANOTHER export, without a word"
IN_FULL, IN_TWO = 4000, 6700        # bytes of samples: a row in a page, and one with a further page


def flipped(data: bytes, at: int, bit: int) -> bytes:
    return data[:at] + bytes([data[at] ^ 1 << bit]) + data[at + 1:]


def night(size: int, minute: int, count: int, duration: str = "1") -> bytes:
    """A file of data records with so many bytes of samples."""
    clock = BEGUN + timedelta(minutes=minute)
    signals = (Signal(samples=str(size // 4)), Signal("ECG", samples=str(size // 4)),
               edf.annotations_signal(30))
    head = Header(signals, clock.strftime("%d.%m.%y"), clock.strftime("%H.%M.%S"),
                  recording=f"Startdate {clock.strftime('%d-%b-%Y').upper()} N1 T3 REC5",
                  reserved="EDF+C", count=str(count), duration=duration)
    chosen = random.Random(1_000 * minute + size)
    return edf.fragment(head, [(chosen.randbytes(size), keeping(f"+{n}") +
                                edf.tal(f"+{n}.25", "Spindle")) for n in range(count)])


class Rot:
    def __init__(self, program: Path, folder: Path, count: int):
        self.checks, self.count = Checks(program, folder), count
        self.chosen = random.Random(11)

    def exports(self, store: str) -> list:
        """The exports of both recordings, or the number of the first refusal."""
        found = []
        for place in ("1", "2"):
            ran = self.checks.program.ran("export", store, place)
            if ran.status:
                return [printed.number(ran.err.decode()) or f"status {ran.status}"]
            found.append(ran.out)
        return found

    def begin(self, case: str, has_sums: bool) -> tuple:
        """A store of two recordings, and its exports; without sums where its tables are there
        before."""
        self.checks.begin(case)
        if not has_sums:
            with sqlite3.connect(self.checks.folder / "night.db") as made:
                for table in TABLES:
                    made.execute(table)
            made.close()
        pairs = []
        for name, size in (("full.edf", IN_FULL), ("two.edf", IN_TWO)):
            self.checks.file(name, night(size, 0, 30))
            pairs.append((name, accepted(30)))
        self.checks.take("night.db", *pairs)
        store = self.checks.content("night.db")
        self.checks.same("bytes for sums in a page", store[RESERVED_AT], 8 if has_sums else 0)
        self.checks.same("pages", len(store), PAGE * int.from_bytes(store[COUNT_AT:COUNT_AT + 4]))
        return store, self.exports("night.db")

    def outcome(self, data: bytes, before: list) -> str:
        self.checks.file("other.db", data)
        self.checks.file("other.db-wal", self.checks.content("night.db-wal"))
        found = self.exports("other.db")
        return found[0] if isinstance(found[0], str) else SAME if found == before else OTHER

    def tried(self, what: str, changes: Iterator, before: list) -> Counter:
        found = Counter(self.outcome(data, before) for data in changes)
        self.checks.done += found.total()
        print(f"{what}: " + "; ".join(f"{times} {answer}" for answer, times in found.most_common()))
        return found

    def bits(self, data: bytes, count: int) -> Iterator:
        for _ in range(count):
            yield flipped(data, self.chosen.randrange(len(data)), self.chosen.randrange(8))

    def bytes(self, data: bytes, count: int) -> Iterator:
        for _ in range(count):
            at = self.chosen.randrange(len(data))
            other = data[at] ^ self.chosen.randrange(1, 256)
            yield data[:at] + bytes([other]) + data[at + 1:]

    def zeroed(self, pages: list) -> Iterator:
        for at in range(len(pages)):
            yield b"".join(pages[:at] + [bytes(PAGE)] + pages[at + 1:])

    def moved(self, pages: list) -> Iterator:
        """Each page written over another one."""
        for at, page in enumerate(pages):
            to = self.chosen.choice([n for n in range(len(pages)) if n != at])
            yield b"".join(pages[:to] + [page] + pages[to + 1:])

    def swapped(self, pages: list, of: list, count: int) -> Iterator:
        """Two of these pages, by their numbers, exchanged."""
        for _ in range(count):
            one, other = sorted(self.chosen.sample(of, 2))
            changed = list(pages)
            changed[one], changed[other] = pages[other], pages[one]
            yield b"".join(changed)

    def cut(self, data: bytes, count: int) -> Iterator:
        for nth in range(count):
            size = self.chosen.randrange(1, len(data))
            yield data[:size - size % PAGE if nth % 2 else size]

    def half_lost(self, pages: list) -> Iterator:
        """Each page with zeros in its second half."""
        for at, page in enumerate(pages):
            yield b"".join(pages[:at] + [page[:PAGE // 2] + bytes(PAGE // 2)] + pages[at + 1:])


def is_end_of_row(page: bytes) -> bool:
    """Whether the page is the last of a row's further pages: no page follows it, and it is none of
    a tree."""
    return page[:4] == bytes(4)


def damage(rot: Rot) -> None:
    store, before = rot.begin("a store with sums", True)
    pages = [store[at:at + PAGE] for at in range(0, len(store), PAGE)]
    ends = [n for n, page in enumerate(pages) if n and is_end_of_row(page)]
    others = [n for n in range(len(pages)) if n not in ends]
    some = max(10, rot.count // 5)
    for what, changes in (
            ("bits", rot.bits(store, rot.count)), ("bytes", rot.bytes(store, some)),
            ("pages zeroed", rot.zeroed(pages)), ("pages half lost", rot.half_lost(pages)),
            ("pages over others", rot.moved(pages)),
            ("pages exchanged", rot.swapped(pages, others, some)),
            ("ends of long rows exchanged", rot.swapped(pages, ends, some)),
            ("cuts", rot.cut(store, some))):
        found = rot.tried(what, changes, before)
        rot.checks.same(f"{what}: other exports", found[OTHER], 0)
    rot.checks.same("a long row has a page for its end", len(ends), 30)


def control(rot: Rot) -> None:
    store, before = rot.begin("a store without sums", False)
    found = rot.tried("bits of a store without sums", rot.bits(store, rot.count), before)
    rot.checks.same("more than half are other exports", found[OTHER] > rot.count // 2, True)


def killed(rot: Rot) -> None:
    """A store of four files, whose `take` is killed while it waits for a fifth."""
    names = [f"{n}.edf" for n in range(4)]
    for n, name in enumerate(names):
        rot.checks.file(name, night(IN_FULL, n, 10))
    log = rot.checks.folder / "night.db-wal"
    with rot.checks.program.started("take", "night.db", *names, "-", stdin=subprocess.PIPE,
                                    stdout=subprocess.DEVNULL) as taking:
        before = 0
        while not before or log.stat().st_size != before:
            before = log.stat().st_size if log.exists() else 0
            time.sleep(1)
        taking.kill()


def put_log(checks: Checks, log: bytes) -> None:
    checks.file("other.db", checks.content("night.db"))
    checks.file("other.db-wal", log)


def outcome_of_log(checks: Checks, log: bytes, export: bytes) -> str:
    put_log(checks, log)
    ran = checks.program.ran("export", "other.db", "1")
    if ran.out == export:
        return SAME
    if ran.status == 3:
        return printed.number(ran.err.decode())
    fewer = model.read(ran.out)[1] if ran.out else []
    fits = len(fewer) % 10 == 0 and fewer == model.read(export)[1][:len(fewer)]
    return f"the first {len(fewer) // 10} files, without a word" if fits else OTHER


def log(rot: Rot) -> None:
    checks = rot.checks
    checks.begin("the log of a take that was killed")
    killed(rot)
    data = checks.content("night.db-wal")
    put_log(checks, data)
    export = checks.program.ran("export", "other.db", "1").out
    checks.same("the data records held", len(model.read(export)[1]), 40)
    changes = rot.bits(data, rot.count)
    found = Counter(outcome_of_log(checks, changed, export) for changed in changes)
    checks.done += found.total()
    checks.same("other exports", found[OTHER], 0)
    put_log(checks, flipped(data, FIRST_OF_LOG, 0))
    checks.take("other.db", *((f"{n}.edf", accepted(10)) for n in range(4)))
    checks.run("export", "other.db", "1", out=export)
    print(f"bits of a log of {len(data)} bytes: "
          + "; ".join(f"{times} {answer}" for answer, times in found.most_common()))


def main() -> None:
    given = arguments.Parser(__doc__, count=100).read()
    with measure.scratch() as name:
        rot = Rot(given.program, Path(name), given.count)
        for case in (damage, control, log):
            case(rot)
    rot.checks.end()


if __name__ == "__main__":
    main()
