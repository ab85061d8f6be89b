"""A clinic by chance: what its recorders record, its mornings, and what must be so after each."""
import json
import os
import random
import re
import signal
from collections import Counter
from datetime import timedelta
from functools import partial
from pathlib import Path
from typing import Any, TypeVar

from checks.clinic.clinic import Clinic
from checks.clinic.faults import CARDS, CODES, FAULTS, Fault
from checks.clinic.recordings import Recording
from checks.clinic.running import MARK, START, Bed, Running, Writer
from checks.clinic.truth import PERHAPS, Truth, quoted_away
from checks.lib.arguments import TOP

STILL, UNCLOSED, REFUSE = 10, 120, 600
TIMES = {"still": f"{STILL} s", "unclosed": f"{UNCLOSED} s", "refuse": f"{REFUSE} s",
         "silent": "4 h", "watch": "22:00-06:00"}
PAUSES = (3, 20, 150, 700)
OPEN = 86_400       # seconds for which what was taken is looked at, at least
CLEAR = re.compile("nothing that came [^\n]*is missing|may be erased")
Drawn = TypeVar("Drawn")


class Week(Running):
    """`wanted` has what is not by chance, by the names of what is drawn. Such a week is short, and
    has its faults each day."""

    def __init__(self, seed: int, folder: Path, programs: Path, source: Path = TOP / "clinic",
                 wanted: dict[str, Any] | None = None):
        self.chance = random.Random(seed)
        self.wanted: dict[str, Any] = {"fails": True, "beds": 1, "days": 2, **wanted} \
            if wanted else {}
        names = ("r01", "r02")[:self.draw("beds", 1, 2)]
        mend = self.draw("mend", True, False, False, False)
        tables = {it: {"mend": mend, "by_onset": self.draw("by onset", True, False, False, False)}
                  for it in names}
        super().__init__(Clinic(folder, programs, source, names, tables, **TIMES), programs)
        self.truth = Truth(self.clinic)
        count = self.chance.choice((0, 1, 1, 2, 3))
        self.faults = self.wanted.get("faults", self.chance.sample([*FAULTS, *CARDS], count))
        self.days = self.draw("days", 2, 3, 4)
        self.codes = self.chance.sample(CODES, self.chance.choice((2, 3, 4)))
        self.say(f"{self.days} days of {names}, {tables}, {self.codes}: {self.faults}")

    def draw(self, what: str, *options: Drawn) -> Drawn:
        drawn: Drawn = self.wanted.get(what, self.chance.choice(options))
        return drawn

    # What recorders do.

    def flipped(self, night: Recording, nth: int) -> bytes:
        raw = night.samples_of(nth)
        return bytes([raw[0] ^ 1 << self.chance.randrange(8)]) + raw[1:]

    def put(self, bed: Bed, name: str, data: bytes) -> Path:
        path = self.clinic.inboxes / bed.name / name
        if path.exists():       # written over by its uploader, maybe before anybody could see it
            seen = max(bed.since, path.stat().st_mtime - START.timestamp())
            before = self.truth.known(path).records
            path.unlink()
            if not bed.receiving or self.clock - seen <= UNCLOSED + STILL:
                self.lose(bed, before)
        self.clinic.put(name, data, bed.name)
        self.stamp(path)
        piece = self.truth.known(path)
        self.truth.came[bed.name] |= piece.records
        self.say(f"{bed.name} gets {name}: {piece.code}, {len(piece.records)} data records")
        return path

    def lose(self, bed: Bed, gone: set[bytes] | frozenset[bytes]) -> None:
        """What nobody has kept, and nobody can see any more."""
        self.truth.came[bed.name] -= gone - self.truth.pending() - self.truth.put_away()

    def stamp(self, path: Path | int) -> None:
        at = int(START.timestamp() + self.clock)
        os.utime(path, (at, at))

    def open_writer(self, bed: Bed, name: str, numbers: list[int], count: str) -> Writer:
        path = self.clinic.inboxes / bed.name / name
        fd = os.open(path, os.O_RDWR | os.O_CREAT | os.O_EXCL, 0o640)
        os.fchown(fd, self.clinic.uploader(bed.name), self.clinic.uploader(bed.name))
        os.fchmod(fd, 0o640)
        bed.writers.append(Writer(fd, path, bed.night, numbers, count, self.clock))
        return bed.writers[-1]

    def write(self, bed: Bed, it: Writer, count: int, is_end: bool = False) -> None:
        """So many data records more; in the end the count is what is there."""
        it.written = min(len(it.numbers), it.written + count)
        there = it.numbers[:it.written]
        told = it.written if is_end or it.count == "right" else {
            "all": len(it.numbers), "open": -1}[it.count]
        os.pwrite(it.fd, self.truth.file(it.night, there, count=str(told)), 0)
        self.stamp(it.fd)
        is_seen = not it.is_away or self.clock - it.opened <= OPEN
        if is_seen and not it.is_part:
            self.truth.came[bed.name] |= {it.night.samples_of(nth) for nth in there}
        self.say(f"{bed.name} writes {it.path.name}: {it.written} of {len(it.numbers)}, count "
                 f"{told}{', which was taken' * it.is_away}")
        self.advance(2)

    def end_writers(self, bed: Bed) -> None:
        for it in list(bed.writers):
            self.write(bed, it, len(it.numbers), True)
            if it.is_part:
                it.path.rename(it.path.with_suffix(""))
                self.truth.came[bed.name] |= it.records
            self.drop(bed, it)

    def drop(self, bed: Bed, it: Writer) -> None:
        bed.writers.remove(it)
        os.close(it.fd)

    def end(self, bed: Bed, number: int = signal.SIGTERM) -> None:
        """What was taken out of the inbox and is written to is nobody's to see from now on."""
        super().end(bed, number)
        for it in [it for it in bed.writers if it.is_away]:
            self.lose(bed, it.records)
            self.drop(bed, it)

    # An evening and its morning.

    def play(self) -> None:
        for bed in self.beds:
            self.begin(bed)
        for day in range(self.days):
            self.until(21.5)
            for bed in self.beds:
                self.evening(bed, day)
            self.until(7)
            for bed in self.beds:
                self.one_morning(bed)
            self.until(12.5)
            self.status()
            self.nights()
        for bed in self.beds:
            self.end_writers(bed)
            self.advance(REFUSE + UNCLOSED)
            self.morning(bed, bed.late)
        self.nights()
        for bed in self.beds:
            self.end(bed)
        self.forget_and_recode()

    def fail(self, bed: Bed, faults: dict[str, Fault]) -> None:
        for name in [it for it in self.faults if it in faults]:
            if self.draw("fails", True, True, False):
                self.say(f"fault of {bed.name}: {name}")
                faults[name](self, bed)

    def evening(self, bed: Bed, day: int) -> None:
        chance, records = self.chance, self.chance.randrange(12, 60)
        self.end_writers(bed)
        start = START + timedelta(days=day, hours=22, minutes=chance.randrange(90))
        bed.night = Recording(start, records, 60, f"{chance.choice(self.codes)} X X X", f"N{day}",
                              (4,), f"{bed.name} {day}")
        bed.nights.append(bed.night)
        size = -(-records // chance.choice((2, 3, 4, 6)))
        bed.parts = [list(range(at, min(records, at + size))) for at in range(0, records, size)]
        chance.shuffle(bed.parts)
        if self.draw("one never comes", True, False, False):
            bed.parts.pop()
        bed.steps = [partial(self.send, bed, part) for part in bed.parts]
        bed.steps += chance.sample(bed.steps, chance.choice((0, 0, 1)))
        self.fail(bed, FAULTS)
        for step in bed.steps:
            step()
            self.advance(self.draw("pause", *PAUSES))
            if chance.random() < 0.2:
                self.status()
            for it in list(bed.writers):
                self.write(bed, it, chance.choice((0, 1, 3)))

    def send(self, bed: Bed, part: list[int]) -> None:
        count = self.chance.choice(("", "", "", "-1"))
        name = f"{bed.night.start:%d%H%M}-{part[0]:02}.edf"
        self.put(bed, name, self.truth.file(bed.night, part, count=count))

    def one_morning(self, bed: Bed) -> None:
        bed.cards = [self.card(bed, self.truth.file(bed.night))] * self.draw("cards", 0, 1)
        bed.is_called = True
        self.fail(bed, CARDS)
        if bed.is_called:
            self.advance(self.chance.choice(PAUSES))
            status = self.morning(bed, bed.cards)
            if self.chance.random() < 0.2:
                assert self.morning(bed, bed.cards) <= status, "a second call finds more"

    def card(self, bed: Bed, data: bytes) -> Path:
        return self.clinic.card(data, f"{bed.name}-{self.chance.randrange(10**6)}.edf")

    # What must be so.

    def morning(self, bed: Bed, cards: list[Path]) -> int:
        truth, before = self.truth, self.truth.folders()
        came, given = truth.came[bed.name], truth.records(cards)
        came |= given
        taken = truth.records([*self.clinic.data.glob(f"{bed.name}/*/taken/*.edf")])
        status, said = self.run("morning", bed.name, *(word for it in cards
                                                       for word in ("--card", it)))
        missing = came - truth.held()
        is_clear = status == 0 or bool(CLEAR.search(quoted_away(said)))
        assert not (is_clear and missing), \
            f"{len(missing)} data records came, are in no night, and all is said to be right"
        assert status or bed.receiving, "receive does not run, and it is not said"
        assert self.faults or not status, "all is right, and it is not said"
        at = [truth.recorded[it][1] for it in taken]
        for card in cards:
            own = [truth.recorded[it][1] for it in truth.known(card).records]
            assert status or not at or not own or min(at) <= max(own) and min(own) <= max(at), \
                "a card of another night was given, and nothing said"
        truth.assert_exports(before)
        truth.assert_owners()
        waits = truth.pending().union(*(it.records for it in bed.writers if not it.is_part))
        nowhere = missing - given - truth.put_away() - waits    # a card's owner keeps it
        assert not nowhere, f"{len(nowhere)} data records came, and are nowhere"
        truth.came[bed.name] = missing & waits
        for path in [it for folder in truth.folders() for it in folder.glob("report.txt")]:
            assert MARK not in quoted_away(path.read_text()), f"{path} has words of an uploader"
        return status

    def status(self) -> None:
        status, _ = self.run("status")
        somewhere = self.truth.held() | self.truth.pending("taken", "cards")
        missing = {it for bed in self.beds for it in self.truth.came[bed.name]} - somewhere
        assert status or not missing, \
            f"{len(missing)} data records came, are in no night, and status is 0"
        assert self.faults or not status, "all is right, and status is 1"

    def nights(self) -> None:
        status, _ = self.run("nights")
        missing = self.truth.put_away() - self.truth.held()
        assert status or not missing, f"nights is 0, and lacks {len(missing)} data records"
        has = {it: {of for _, of in self.truth.export(it / "night.edf")}
               for it in self.truth.folders(False)}
        for one in has:
            told = json.dumps(self.truth.facts(one).get("same_night"))
            for other in [it for it in has if it != one and it.parent == one.parent]:
                assert not has[one] & has[other] or other.name in told, \
                    f"{one} does not name {other}, which has the same"

    def forget_and_recode(self) -> None:
        for _ in range(self.draw("recodes", 0, 1, 2)):
            if there := self.truth.folders(False):
                self.recode(self.chance.choice(there))
        owners = {owner for owner, _ in self.truth.belongings().values()}
        codes = sorted(owners & {*CODES}) + [self.chance.choice(CODES)]
        for code in self.chance.sample(codes, len(codes)):
            if code != "X":
                self.forget(code)
        assert self.run("verify")[0] == 0, "forget or recode leaves files without their sums"

    def recode(self, folder: Path) -> None:
        truth, code = self.truth, self.chance.choice([it for it in CODES if it != "X"])
        if code == truth.facts(folder)["patient"]:
            return
        before = sorted(truth.export(folder / "night.edf"))
        self.run("recode", f"{folder.parent.name}/{folder.name}", "--patient", code)
        made = next((it for it in truth.folders(False) if truth.facts(it)["patient"] == code
                     and it.parent == folder.parent
                     and sorted(truth.export(it / "night.edf")) == before), None)
        assert made and not folder.exists(), "recode made no such night"
        truth.recoded(folder, made, code)
        truth.assert_owners()

    def forget(self, code: str) -> None:
        """All of a person goes, and nothing of others."""
        before = self.truth.belongings()
        self.run("forget", code, "--yes")
        after = self.truth.belongings()
        stays = [path for path, (owner, _) in after.items() if owner == code]
        assert not stays, f"forget {code} leaves {stays}, which is of this patient"
        others = Counter(data for owner, data in before.values()
                         if owner not in ("", code, f"{PERHAPS}{code}"))
        lost = others - Counter(data for _, data in after.values())
        assert not lost, f"forget {code} removed what is of others: " + ", ".join(
            f"{path} of {owner}" for path, (owner, data) in before.items() if data in lost)
