"""Stops `edfstore take` at random moments, fills its disk and cuts its files while they are read,
and looks at what is held.

    python3 -m checks.kill.run [--program PATH] [--seed SEED] [COUNT]       1,000 stops if left out

A short night of two hours comes in 40 fragments, or for one of four stops a longer one, in the
middle of which the log is copied. Its `take` is killed (SIGKILL) at a random moment, and run again
from the front, until all of it is held; then a new store begins. After each stop `list` opens the
store, and its export is that of the first p files: p is at least what was held before, and at least
the files whose `accepted` was read. A whole store's export is that of a run without stops. Then the
short night is taken onto a tmpfs that is too small for it (as root; left out
otherwise), from a card that shrinks while it is read, and by two `take`s on one store at once. What
is expected comes from the plain model. It stops with status 1 at the first loss.
"""
import collections
import hashlib
import os
import random
import threading
import time
from pathlib import Path
from subprocess import PIPE

from checks.lib import arguments, disks, faults, measure, model, night, printed
from checks.lib.checks import Lost, end

NIGHT = night.Night(records=7_200, samples=(256, 256), fragments=40)
# Two pages a data record: after about two thirds of the files the log has 8,000, and is copied.
LONG = night.Night(records=5_760, samples=(1600, 1600), fragments=40)
EACH = 4        # of so many stops one is of the long night
CUT = {fault.number for fault in (faults.cut, faults.cut_signals, faults.cut_record)}


def digest(data: bytes) -> str:
    return hashlib.sha256(data).hexdigest()


def export_of(held: model.Store) -> bytes:
    """The export of the night; nothing where nothing is held."""
    return held.export(1) if held.held else b""


class Bench:
    def __init__(self, program: Path, folder: Path, rng: random.Random, kind: night.Night):
        self.program, self.folder, self.rng = measure.Program(program), folder, rng
        folder.mkdir()
        self.parts = kind.parts(folder)
        self.stops, self.refusals = 0, collections.Counter()
        held = model.Store()
        self.fronts = [digest(b"")]         # of the export of the first p files
        for part in self.parts:
            held.take(part.read_bytes())
            self.fronts.append(digest(held.export(1)))

    def count(self, lines: bytes) -> None:
        """Counts the refusals in these lines, by number."""
        for line in lines.decode(errors="replace").splitlines():
            if number := printed.number(line):
                self.refusals[number] += 1

    def read(self, *words, is_full: bool) -> bytes:
        """What a program prints of a store, which on a full disk it may be unable to close."""
        ran = self.program.ran(*words)
        self.count(ran.err)
        is_open = is_full and (ran.status, ran.err.decode()) == (3, printed.NOT_CLOSED)
        if not is_open and (ran.status or ran.err):
            raise Lost(f"{words[0]} ended with status {ran.status}: {ran.err!r}")
        return ran.out

    def exported(self, store: Path, is_full: bool = False) -> bytes:
        """The export, after the list; nothing where nothing is held."""
        listed = self.read("list", store, is_full=is_full)
        if not listed:
            return b""
        export = self.read("export", store, 1, is_full=is_full)
        counts = [(1, int(export[236:244]))]        # as the header of the export has it
        if printed.counts_listed(listed.decode()) != counts:
            raise Lost(f"the list is {listed!r}, and of the export {counts}")
        return export

    def front(self, store: Path) -> int:
        """How many files from the front the store holds; the bench ends where it holds anything
        else."""
        found = digest(self.exported(store))
        if found not in self.fronts:
            raise Lost("the export is not that of a front of the list")
        return self.fronts.index(found)


def stopped(bench: Bench, store: Path, delay: float) -> tuple:
    """Starts a take and kills it; whether it was killed in time, and how many `accepted` were
    read."""
    child = bench.program.started("take", store, *bench.parts, stdout=PIPE, stderr=PIPE)
    time.sleep(delay)
    child.kill()
    out, err = child.communicate()
    bench.count(out + err)
    return child.returncode == -9, printed.count_accepted(out)


def stops(bench: Bench, expected: int) -> None:
    whole_store = bench.folder / "whole.db"
    taken = bench.program.ran("take", whole_store, *bench.parts)
    if taken.status or bench.front(whole_store) != len(bench.parts):
        raise Lost("a run without stops isn't whole")
    store, fronts = bench.folder / "s.db", collections.Counter()
    rounds = before = again = 0
    while bench.stops < expected:
        delay = bench.rng.uniform(0, taken.seconds * bench.rng.choice((0.1, 0.5, 1.1)))
        killed, accepted = stopped(bench, store, delay)
        front = bench.front(store)
        if front < max(before, accepted):
            raise Lost(f"{front} files are held, {before} were before and {accepted} were accepted")
        bench.stops += killed
        fronts[front] += killed
        again += killed and front == before
        before = front
        if front == len(bench.parts):
            measure.remove_store(store)
            rounds, before = rounds + 1, 0
    print(f"{bench.stops} stops of a run of {taken.seconds:.2f} s; {rounds} stores were filled in "
          f"the end, each with the export of a run without stops; after a stop {len(fronts)} "
          f"different fronts of the list were held, {again} times the one before")


def filled(bench: Bench, store: Path, answers: collections.Counter) -> None:
    """Takes the night onto a full disk, which holds what was accepted."""
    taken = bench.program.ran("take", store, *bench.parts)
    bench.count(taken.out + taken.err)
    held, lines = model.Store(), taken.out.decode().splitlines()
    for part, line in zip(bench.parts, lines):
        answer = line.split(" ", 1)[1]
        answers[printed.kind(answer)] += 1
        if printed.is_accepted(answer):
            held.take(part.read_bytes())
    refused = map(printed.is_store_refused, (taken.err, bench.program.ran("list", store).err))
    if not lines or any(refused):
        return
    if bench.exported(store, is_full=True) != export_of(held):
        raise Lost("on a full disk the export is not that of the accepted files")


def full_disk(bench: Bench, megabytes: int) -> None:
    """The night onto a file system that is too small for it, which then grows."""
    with disks.Disk(bench.folder / "small", 1_024 * megabytes) as disk:
        if not disk.is_mounted:
            print("a full disk: left out, since this user may not mount a tmpfs")
            return
        store, answers = disk.place / "s.db", collections.Counter()
        for _ in range(3):
            filled(bench, store, answers)
        disk.grow(1_024 * (20 * megabytes + 200))
        taken = bench.program.ran("take", store, *bench.parts)
        if taken.status or bench.front(store) != len(bench.parts):
            raise Lost(f"after room was made: {taken.out[-300:]!r} {taken.err!r}")
        print(f"a disk of {megabytes} MB, taken 3 times: {dict(answers)}; each file whole or not "
              "at all, and all of them once there was room")


def shrinking(bench: Bench, times: int) -> None:
    """A card that loses its end while it is read: accepted whole, or refused as cut."""
    card, given = NIGHT.card(bench.folder / "card.edf"), bench.folder / "given.edf"
    data, answers, store = card.read_bytes(), collections.Counter(), bench.folder / "s.db"
    measure.remove_store(store)
    whole = bench.program.ran("take", store, card).seconds
    for _ in range(times):
        given.write_bytes(data)
        measure.remove_store(store)
        size = bench.rng.randrange(len(data))
        cut = threading.Timer(bench.rng.uniform(0, whole) * bench.rng.random(), os.truncate,
                              (given, size))
        cut.start()
        taken = bench.program.ran("take", store, given)
        cut.join()
        bench.count(taken.out + taken.err)
        answer = taken.out.decode().partition(" ")[2]
        is_accepted, number = printed.is_accepted(answer), printed.number(answer)
        if not is_accepted and number not in CUT:
            raise Lost(f"a file that shrank was answered {taken.out!r} {taken.err!r}")
        answers[number or "accepted"] += 1
        if bench.front(store) != (len(bench.parts) if is_accepted else 0):
            raise Lost("a file that shrank is held in part")
    print(f"a file that shrank while it was read, {times} times: {dict(answers)}, nothing in part")


def both_at_once(bench: Bench, store: Path, answers: collections.Counter) -> model.Store:
    """Two takes of half of the files each, and what they accepted."""
    children = [bench.program.started("take", store, *half, stdout=PIPE, stderr=PIPE)
                for half in (bench.parts[::2], bench.parts[1::2])]
    held = model.Store()
    for child in children:
        out, err = child.communicate()
        bench.count(out + err)
        for line in out.decode().splitlines():
            name, answer = line.split(" ", 1)
            answers[printed.kind(answer)] += 1
            if printed.is_accepted(answer):
                held.take(Path(name).read_bytes())
        answers.update(err.decode().splitlines())
    return held


def at_once(bench: Bench, times: int) -> None:
    """Two takes on one store: each file whole or refused, and all of them at the next take."""
    store, answers = bench.folder / "s.db", collections.Counter()
    for _ in range(times):
        measure.remove_store(store)
        held = both_at_once(bench, store, answers)
        if bench.exported(store) != export_of(held):
            raise Lost("two takes at once: the export is not that of the accepted files")
        taken = bench.program.ran("take", store, *bench.parts)
        if taken.status or bench.front(store) != len(bench.parts):
            raise Lost("two takes at once: the list taken again isn't whole")
    print(f"two takes on one store at once, {times} times: {dict(answers)}; what was accepted is "
          "held, and all of it after one more take")


def main() -> None:
    parser = arguments.Parser(__doc__, count=1_000)
    parser.add_argument("--seed", type=int, default=1, help="of the moments, 1 if left out")
    given = parser.read()
    with measure.scratch() as name:
        rng, few = random.Random(given.seed), given.count // EACH
        bench = Bench(given.program, Path(name) / "short", rng, NIGHT)
        print(f"seed {given.seed}, {measure.machine()}")
        try:
            longer = Bench(given.program, Path(name) / "long", rng, LONG)
            stops(longer, few)
            bench.refusals.update(longer.refusals)
            stops(bench, given.count - few)
            measure.remove_store(bench.folder / "s.db")
            full_disk(bench, 4)
            shrinking(bench, max(5, given.count // 5))
            at_once(bench, max(2, given.count // 20))
        except Lost as why:
            print(f"LOST OR IN PART: {why}")
            end(bench.stops + 1, 1)
    print("refusals in all of it:", dict(bench.refusals) or "none")
    end(given.count, 0)


if __name__ == "__main__":
    main()
