"""What the program can't notice, or answers by a refusal that stays: the things that docs/GUIDE.md
warns of, as they are.

    python3 -m checks.warned [--program PATH] [COUNT]   100 bits if left out

A file of count -1 that is still being written; a recorder's clock that is set while it records, by
two seconds or an hour; a bit that flips in an export. Answers to the first two are worked out by
hand. Of the bits it prints how many were noticed, and by what; that a flipped sample is not
noticed, and what a user can do about it, is compared. Bits of a store are tried by checks.rot.
"""
import random
import shutil
from collections import Counter
from datetime import datetime, timedelta
from pathlib import Path

from checks.lib import arguments, edf, faults, measure, printed, runs
from checks.lib.checks import Checks
from checks.lib.edf import Header, Signal, keeping
from checks.lib.printed import accepted, refused

BEGUN = datetime(2002, 10, 27, 1, 0)
SIGNALS = (Signal(samples="20"), edf.annotations_signal(20))
WIDE = (Signal(samples="1000"), Signal("ECG", samples="1000"), edf.annotations_signal(30))


def header(clock: datetime, count: int, duration: int = 1, signals=SIGNALS) -> Header:
    day = clock.strftime("%d-%b-%Y").upper()
    return Header(signals, clock.strftime("%d.%m.%y"), clock.strftime("%H.%M.%S"),
                  recording=f"Startdate {day} N1 T3 REC5", reserved="EDF+C", count=str(count),
                  duration=str(duration))


def records(first: int, count: int, duration: int = 1) -> list:
    """Data records of other samples each, by their number since the recording began."""
    return [(random.Random(first + n).randbytes(40), keeping(f"+{n * duration}"))
            for n in range(count)]


def still_written(checks: Checks) -> None:
    checks.begin("a file of count -1 that is still being written")
    head = header(BEGUN, -1)
    whole = edf.fragment(head, records(0, 10))
    record = len(edf.data_record(head, *records(0, 1)[0]))
    front = len(head.to_bytes())
    checks.file("now.edf", whole[:front + 4 * record])
    checks.take("a.db", ("now.edf", accepted(4)))
    checks.file("now.edf", whole[:front + 6 * record + 1])
    checks.take("a.db", ("now.edf", refused(faults.cut_record(7))), status=1)
    checks.file("now.edf", whole)
    checks.take("a.db", ("now.edf", accepted(6, 4)))


def files(checks: Checks, count: int, duration: int, back: timedelta, before: int) -> list:
    """Files of ten minutes each; from the file after `before` on the clock is set back."""
    names = [f"{n + 1}.edf" for n in range(count)]
    each = 600 // duration
    for n, name in enumerate(names):
        clock = BEGUN + timedelta(minutes=10 * n) - (back if n >= before else timedelta())
        head = header(clock, each, duration)
        checks.file(name, edf.fragment(head, records(n * each, each, duration)))
    return names


def answers(names: list, each: int, refusals: dict) -> str:
    return printed.lines(*((name, refused(refusals[name]) if name in refusals else accepted(each))
                           for name in names))


def stored(checks: Checks, *lines: str) -> None:
    """Compares the runs of the export, by the model, with these lines of `edfruns list`."""
    export = checks.program.ran("export", "a.db", "1").out
    checks.same("the runs", runs.lines(runs.read_runs(export)), "".join(lines))


def run(number: int, records: int, time: str, seconds: str, gap: str = "") -> str:
    """The line of a run that starts at this time of the day of all files."""
    return printed.run(number, records, f"2002-10-27T{time}", seconds, gap)


def two_seconds_back(checks: Checks) -> None:
    checks.begin("two seconds back after the third of six files")
    names = files(checks, 6, 1, timedelta(seconds=2), 3)
    refusals = {"4.edf": faults.differs("2002-10-27T01:29:58")}
    checks.run("take", "a.db", *names, out=answers(names, 600, refusals), status=1)
    checks.run("take", "a.db", "4.edf", out=answers(["4.edf"], 600, refusals), status=1)
    stored(checks, run(1, 1_800, "01:00:00", "1800", "598"), run(2, 1_200, "01:39:58", "1200"))
    checks.take("other.db", ("4.edf", accepted(600)))
    checks.file("card.edf", edf.fragment(header(BEGUN, 3600), records(0, 3600)))
    card = {"card.edf": faults.differs("2002-10-27T01:39:58")}
    checks.run("take", "a.db", "card.edf", out=answers(["card.edf"], 3600, card), status=1)
    late = {"3.edf": faults.differs("2002-10-27T01:29:58")}
    checks.run("take", "late.db", "4.edf", "3.edf", out=answers(["4.edf", "3.edf"], 600, late),
               status=1)
    checks.begin("the same of data records of 30 s")
    names = files(checks, 6, 30, timedelta(seconds=2), 3)
    refusals = {"4.edf": faults.overlap("2002-10-27T01:29:58", "2002-10-27T01:29:30")}
    checks.run("take", "a.db", *names, out=answers(names, 20, refusals), status=1)
    stored(checks, run(1, 60, "01:00:00", "1800", "598"), run(2, 40, "01:39:58", "1200"))


def other_changes(checks: Checks) -> None:
    checks.begin("an hour back after the twelfth of 24 files")
    names = files(checks, 24, 1, timedelta(hours=1), 12)
    refusals = {f"{13 + n}.edf": faults.differs(f"2002-10-27T02:{n}0:00") for n in range(6)}
    checks.run("take", "a.db", *names, out=answers(names, 600, refusals), status=1)
    stored(checks, run(1, 10_800, "01:00:00", "10800"))
    checks.begin("two seconds forward after the first of two files")
    names = files(checks, 2, 1, timedelta(seconds=-2), 1)
    checks.run("take", "a.db", *names, out=answers(names, 600, {}))
    stored(checks, run(1, 600, "01:00:00", "600", "2"), run(2, 600, "01:10:02", "600"))
    checks.begin("two seconds back inside a file, its onsets by the clock")
    rows = [(samples, keeping(f"+{n if n < 5 else n - 2}"))
            for n, (samples, _) in enumerate(records(0, 10))]
    checks.file("night.edf", edf.fragment(header(BEGUN, 10), rows))
    checks.take("a.db", ("night.edf", refused(faults.order(6))), status=1)


def flipped(data: bytes, at: int, bit: int) -> bytes:
    return data[:at] + bytes([data[at] ^ 1 << bit]) + data[at + 1:]


def wide_night(checks: Checks) -> tuple:
    """A store of 60 data records, its bytes and its export."""
    head = header(BEGUN, 60, signals=WIDE)
    rows = [(random.Random(n).randbytes(4000), keeping(f"+{n}") + edf.tal(f"+{n}.25", "Spindle"))
            for n in range(60)]
    checks.file("night.edf", edf.fragment(head, rows))
    checks.take("night.db", ("night.edf", accepted(60)))
    export = checks.program.ran("export", "night.db", "1").out
    checks.file("export.edf", export)
    return checks.content("night.db"), export


def put_store(checks: Checks, data: bytes) -> None:
    checks.file("other.db", data)
    shutil.copy(checks.folder / "night.db-wal", checks.folder / "other.db-wal")


def one_sample(checks: Checks, store: bytes, export: bytes) -> None:
    """A sample's bit, in the export and in the store, whose page sum tells it."""
    samples = random.Random(0).randbytes(4000)
    changed = flipped(export, export.index(samples[:64]) + 10, 2)
    put_store(checks, flipped(store, store.index(samples[:64]) + 10, 2))
    checks.run("export", "other.db", "1", err=printed.NO_STORE, status=3)
    checks.file("changed.edf", changed)
    checks.run("convert", "changed.edf", out=changed)
    start = faults.differs("2002-10-27T01:00:00")
    checks.take("night.db", ("changed.edf", refused(start)), status=1)


def outcome_of_export(checks: Checks, store: bytes) -> tuple:
    converted = checks.program.ran("convert", "other.edf")
    put_store(checks, store)
    line = checks.program.ran("take", "other.db", "other.edf").out.decode()
    answer = line.strip().partition(" ")[2]
    number = printed.number(answer)
    return ("convert: " + ("taken, without a word" if converted.status == 0 else "refused"),
            "take into its store: " + (refused(number) if number else answer))


def bits(checks: Checks, count: int) -> None:
    checks.begin("a bit that flips")
    store, export = wide_night(checks)
    one_sample(checks, store, export)
    chosen, found = random.Random(11), Counter()
    for _ in range(count):
        at, bit = chosen.randrange(len(export)), chosen.randrange(8)
        checks.file("other.edf", flipped(export, at, bit))
        found.update(outcome_of_export(checks, store))
    report(f"{count} bits of an export of {len(export)} bytes", found)


def report(what: str, found: Counter) -> None:
    print(f"{what}, one at a time: "
          + "; ".join(f"{times} {answer}" for answer, times in found.most_common() if times))


def main() -> None:
    given = arguments.Parser(__doc__, count=100).read()
    with measure.scratch() as name:
        checks = Checks(given.program, Path(name))
        still_written(checks)
        two_seconds_back(checks)
        other_changes(checks)
        bits(checks, given.count)
    checks.end()


if __name__ == "__main__":
    main()
