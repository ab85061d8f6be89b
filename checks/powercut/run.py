"""Cuts the power of `edfstore take` and of sessions of `edfserve`, by the calls that they make, and
looks at what is held.

    python3 -m checks.powercut.run [--program PATH] [--edfserve PATH] [--seed SEED] [--only N]
                                   [COUNT]

1,000 states if left out, half of them of each; needs `cc`. A night of thirty files is taken by a
`take`, and by a session that gets a line for each file once it has answered the one before. In one
of four states it is a longer one, in the middle of which the log is copied, and not at the end
alone. Their writes, syncs and changes of length are written down, and what they print (`calls.c`,
loaded before the C library): into no store, over stores of either that was killed, and over stores
that a cut of power left. At random moments, in the opening, while the log is copied and at the end
too, the two files are laid out as a disk may leave them (`disk.py`). Each such pair is opened by
`list` and `export`, and must hold what a front of the list leaves, byte for byte by the plain
model. It holds no less than where all is lost that was not synced, than the files that the program
had gone past, and than those that it had printed as accepted, as a session does after each; and no
more than those that it had opened. Then the rest of the list, or all of it, is given in the same
way: each file is answered as it must be, and the export is the night's.

Three controls must fail, for a `take` and for a session: a synced sector of the log, of a file that
is held, is zeroed or as it was before; and a disk does not carry out the syncs of the log, or those
of the store's file. The status is 1 where a state is wrong, or where two thirds of a control's
states are right. A wrong state's files are kept, and `--only N` with the same seed lays it out
again.
"""
import collections
import functools
import hashlib
import itertools
import multiprocessing
import os
import random
import tempfile
from dataclasses import dataclass, replace
from pathlib import Path

from checks.lib import arguments, measure, model, night, printed, serving
from checks.lib.checks import end
from checks.powercut import disk

SHORT = night.Night(records=900, samples=(1600, 1600), fragments=30)
# Two pages a data record: after about two thirds of the files the log has 8,000, and is copied.
LONG = replace(SHORT, records=5_760)
EACH = 4            # of so many states one is of the long night
WAYS = TAKE, SESSION = "take", "session"
# Runs of each way over a store of a killed one, and as many over one of a cut, for each night
AGAIN = {SHORT: 8, LONG: 2}
CONTROLLED = {SHORT: 40, LONG: 16}  # states of each control, for each way
SECONDS = 120       # that a run of the program may take
PARTS = ("the opening", "the taking", "the end")


class Unfit(Exception):
    """What a run without cuts did that no state can be made of."""


@dataclass
class Found:
    """What two files came to: how many files of the list are held, and what is wrong."""
    front: int
    wrong: str = ""

    def is_short(self) -> bool:
        return self.wrong.startswith("fewer files")


class Bench:
    def __init__(self, given, folder: Path, kind: night.Night):
        self.program, self.edfserve = measure.Program(given.program, most=SECONDS), given.edfserve
        self.folder, self.seed, self.kind = folder, given.seed, kind
        folder.mkdir()
        self.library = measure.library(Path(__file__).resolve().parent / "calls.c", folder)
        self.parts = kind.parts(folder)
        held, nothing = model.Store(), hashlib.sha256(b"").digest()
        self.lists, self.exports = [b""], [nothing]     # of each front
        for part in self.parts:
            held.take(part.read_bytes())
            self.lists.append(held.lines().encode())
            self.exports.append(hashlib.sha256(held.export(1)).digest())
        self.runs = []          # a take and a session into no store, then the others

    def chance(self, *words) -> random.Random:
        return random.Random(":".join(map(str, (self.seed, *words))))

    def own_folder(self) -> Path:
        """The folder of this process."""
        folder = self.folder / f"process-{os.getpid()}"
        folder.mkdir(exist_ok=True)
        return folder

    def laid(self, pair) -> Path:
        """A store with these two files; None is no file."""
        write_pair(self.own_folder(), pair)
        return self.own_folder() / "s.db"

    def given(self, way: str, store: Path, parts: list, added: dict = None) -> measure.Ran:
        """Gives files to a store, one after the other. Of what a session answers it leaves out the
        statuses of accepted files, so that it is what `take` prints."""
        if way == TAKE:
            return self.program.ran("take", store, *parts, added=added)
        client = serving.Client(self.edfserve, store.parent, added=added)
        told = "".join(client.try_to_ask(f"take {part}") for part in parts)
        status, out, err = client.end()
        told = (told + out).replace(serving.status(0), "")
        return measure.Ran(status, told.encode(), err.encode(), seconds=0)

    def recorded(self, way: str, over: str, pair) -> disk.Run:
        """The calls while the whole list is given to such a store."""
        what, store, calls = f"{way} {over}", self.laid(pair), self.own_folder() / "calls"
        added = {"LD_PRELOAD": str(self.library), "STORE": str(store), "CALLS": str(calls),
                 "ENTROPY": str(self.chance("entropy", what).getrandbits(63))}
        ran = self.given(way, store, self.parts, added)
        if ran.status or printed.count_accepted(ran.out) != len(self.parts):
            raise Unfit(f"{what}: {ran}")
        run = disk.Run(what, way, tuple(pair), disk.read_calls(calls))
        if run.seen(len(run.calls)) != read_pair(store):
            raise Unfit(f"{what}: the calls that were written down do not make the files there")
        if self.done(run, len(run.calls)) != (len(self.parts),) * 3:
            raise Unfit(f"{what}: not all files were written down as opened and accepted")
        return run

    def done(self, run: disk.Run, moment: int) -> tuple:
        """How many files the run had gone past by then, printed as accepted, and opened."""
        calls = run.calls[run.first:moment]
        names = {str(part).encode() for part in self.parts}
        opened = sum(call.letter == "i" and call.data in names for call in calls)
        known = printed.count_accepted(b"".join(call.data for call in calls if call.letter == "o"))
        return max(run.least, opened - 1, known), known, max(run.most, opened)

    def front(self, store: Path, *orders: str) -> Found:
        """Which front `list` and `export` print, run in this order."""
        fronts = set()
        for order in orders:
            ran = self.program.ran(order, store, *(["1"] if order == "export" else []))
            found, known, status = ran.out, self.lists, 0
            if order == "export":
                found, known, status = hashlib.sha256(found).digest(), self.exports, int(not found)
            if ran.status != status or found not in known or (ran.err and not status):
                return Found(-1, f"no front: {order} ended with status {ran.status}, "
                             f"{ran.out[:100]!r}, {ran.err[-300:]!r}")
            fronts.add(known.index(found))
        if len(fronts) > 1:
            return Found(-1, f"no front: list and export print {fronts}")
        return Found(fronts.pop())

    def first_held(self, pair) -> Found:
        return self.front(self.laid(pair), "list")

    def given_again(self, way: str, store: Path, front: int, begin: int) -> str:
        """What is wrong where the list is given from a place that is not after the held front."""
        ran = self.given(way, store, self.parts[begin:])
        records = self.kind.records // self.kind.fragments
        answers = (printed.accepted(*((0, records) if nth < front else (records, 0)))
                   for nth in range(begin, len(self.parts)))
        expected = printed.lines(*zip(self.parts[begin:], answers))
        if ran.status or ran.err or ran.out.decode() != expected:
            return f"given again to a {way}: {ran}"
        found = self.front(store, "export", "list")
        if found.wrong or found.front == len(self.parts):
            return found.wrong
        return f"given again to a {way}: {found.front} files are held"

    def judged(self, way: str, pair, least: int, most: int, rng: random.Random) -> Found:
        """What two files come to that must hold so many files, at least and at most, and are then
        given the others in that way."""
        store = self.laid(pair)
        found = self.front(store, *rng.choice((("list", "export"), ("export", "list"))))
        if found.wrong:
            return found
        if found.front < least:
            return Found(found.front, f"fewer files: {found.front} are held, and {least} must be")
        if found.front > most:
            return Found(found.front, f"more files: {found.front} are held, and {most} were opened")
        begin = rng.choice((0, found.front)) if found.front < len(self.parts) else 0
        return Found(found.front, self.given_again(way, store, found.front, begin))


def write_pair(folder: Path, pair) -> None:
    measure.remove_store(folder / "s.db")
    for name, content in zip(("s.db", "s.db-wal"), pair):
        if content is not None:
            (folder / name).write_bytes(content)


def read_pair(store: Path) -> list:
    paths = (store, store.with_name(store.name + "-wal"))
    return [path.read_bytes() if path.exists() else None for path in paths]


def kept(name, pair) -> Path:
    """The folder where the two files of a wrong state stay."""
    folder = Path(tempfile.gettempdir()) / f"edfstore-powercut-{BENCH.seed}-{name}"
    folder.mkdir(exist_ok=True)
    write_pair(folder, pair)
    return folder


BENCH: Bench = None     # of this check, and of the processes that are forked from it


@functools.lru_cache(maxsize=None)
def least_left(which: int, synced: int) -> Found:
    """What is held where all is lost that was not synced after so many calls."""
    return BENCH.first_held([file.lasting() for file in BENCH.runs[which].files(synced)])


def some_moment(run: disk.Run, rng: random.Random) -> tuple:
    """After how many calls the power is cut, and in which part of the run; if ten tries find it,
    when something is not synced."""
    for _ in range(10):
        moment, part = any_moment(run, rng)
        if run.has_unsynced(moment):
            break
    return moment, part


def any_moment(run: disk.Run, rng: random.Random) -> tuple:
    """The same at any call, somewhere between two syncs, just before a sync, or just after
    something was printed."""
    part, how = rng.choices(PARTS, (1, 3, 1))[0], rng.choice(("any", "between", "before", "after"))
    begin, end = run.bounds()[PARTS.index(part):][:2]
    syncs, printings = ([at for at in range(begin, end) if run.calls[at].letter in letters]
                        for letters in ("ds", "o"))
    if how == "after" and printings:
        return rng.choice(printings) + 1, part
    if how == "any" or not syncs:
        return rng.randint(begin, end), part
    at = rng.randrange(len(syncs))
    before = syncs[at - 1] + 1 if at else begin
    return (syncs[at] if how == "before" else rng.randint(before, syncs[at])), part


def some_run(number: int, rng: random.Random) -> int:
    """Which run the power of this state is cut in: a take and a session in turn, half of the times
    the one into no store."""
    first = number % len(WAYS)
    alike = [nth for nth, run in enumerate(BENCH.runs) if run.way == WAYS[first]]
    return first if rng.random() < 0.5 else rng.choice(alike)


def state(number: int) -> tuple:
    """Lays a state out and judges it: what is to be counted, and what is wrong."""
    rng = BENCH.chance("state", number)
    which = some_run(number, rng)
    run = BENCH.runs[which]
    moment, part = some_moment(run, rng)
    files = run.files(moment)
    pair = [file.torn(rng) for file in files]
    past, accepted, opened = BENCH.done(run, moment)
    lost = least_left(which, run.last_sync(moment))
    least = max(past, lost.front)
    found = lost if lost.wrong else BENCH.judged(run.way, pair, least, opened, rng)
    if found.wrong:
        place = f"{run.what}, {moment} of {len(run.calls)} calls, {part}"
        return None, (f"state {number}, {place}: {found.wrong}; {lost.front} files with all lost, "
                      f"{past} gone past, {accepted} accepted, {opened} opened; "
                      f"{kept(number, pair)} has the two files")
    is_copied = part != "the opening" and bool(files[disk.STORE].versions)
    return {"run": run.what.split(",")[0], "part": part, "front": found.front,
            "copied": is_copied, "lost": pair != [file.now for file in files],
            "missing": None in pair, "more": found.front > lost.front,
            "told": accepted > 0}, ""


def sector_lost(which: int, number: int) -> Found:
    """A control: after a sync of the log that made a file last, a sector which that sync wrote is
    zeroed, or as it was before."""
    run = BENCH.runs[which]
    rng = BENCH.chance("sector", run.way, number)
    syncs = [at for at in range(*run.bounds()[1:3])
             if run.calls[at].letter == "s" and run.calls[at].file == disk.LOG]
    rng.shuffle(syncs)
    for at in syncs:
        held = least_left(which, at + 1).front
        if held > least_left(which, run.last_sync(at)).front:
            break
    store, was = run.files(at)
    changed = [sector for sector, versions in was.versions.items()
               if any(versions[-1]) and versions[-1] != disk.padded(was.synced, sector)]
    sector, left = rng.choice(changed), bytearray(was.now)
    begin = sector * disk.SECTOR
    lost = rng.choice((bytes(disk.SECTOR), disk.padded(was.synced, sector)))
    left[begin:begin + disk.SECTOR] = lost[:len(left) - begin]
    pair = [store.lasting(), bytes(left)]
    return BENCH.judged(run.way, pair, held, len(BENCH.parts), rng)


def needed_from(run: disk.Run, file: int, sync: int) -> int:
    """After how many calls a file's first sync matters. The log has all that was copied of it, which
    ends with the length of the store's file, until it is written anew."""
    if file == disk.LOG:
        return sync
    copied = next(at for at, call in enumerate(run.calls)
                  if call.letter == "t" and call.file == disk.STORE)
    return 1 + next(at for at, call in enumerate(run.calls)
                    if at > copied and call.letter in "wt" and call.file == disk.LOG)


def syncs_lost(file: int, which: int, number: int) -> Found:
    """A control: from the first of the files on, the disk does not carry out a file's syncs."""
    run = BENCH.runs[which]
    rng = BENCH.chance("syncs", file, run.way, number)
    calls, lost = list(run.calls), []
    for at in range(run.bounds()[1], len(calls)):
        if calls[at].letter == "s" and calls[at].file == file:
            lost.append(at)
            calls[at] = replace(calls[at], letter="not done")
    moment = rng.randint(needed_from(run, file, lost[0]), lost[-1] + 1)
    past, _, opened = BENCH.done(run, moment)
    files = replace(run, calls=calls).files(moment)
    return BENCH.judged(run.way, [file.torn(rng) for file in files], past, opened, rng)


# The store's file must be synced before the log is written anew from its start, as after a copy.
CONTROLS = {
    SHORT: (("a sector of the log lost", sector_lost),
            ("the syncs of the log not done", functools.partial(syncs_lost, disk.LOG))),
    LONG: (("the syncs of the store's file not done", functools.partial(syncs_lost, disk.STORE)),),
}


def recorded_again(number: int) -> list:
    """A run over the store of a killed one, and a run over the store that a cut of power left."""
    way, first = WAYS[number % 2], BENCH.runs[number // 2 % 2]
    rng = BENCH.chance("again", number)
    moment, _ = some_moment(first, rng)
    past, _, opened = BENCH.done(first, moment)
    killed = BENCH.recorded(way, f"over a killed {first.way}, {number}", first.seen(moment))
    calls = [call for call in first.calls[:moment] if call.letter not in "io"]
    killed = replace(killed, begun=first.begun, calls=calls + killed.calls, first=len(calls),
                     least=past, most=opened)
    left = tuple(file.torn(rng) for file in first.files(some_moment(first, rng)[0]))
    over = f"over a cut {first.way}, {number}"
    found = BENCH.first_held(left)
    if found.wrong:
        raise Unfit(f"{way} {over}: {found.wrong}; "
                    f"{kept(f'cut-{number}', left)} has the two files")
    cut = BENCH.recorded(way, over, left)
    return [killed, replace(cut, least=found.front, most=found.front)]


def report(counts: list) -> None:
    """Prints what the states were that are not wrong."""
    for key, word in (("run", "of a "), ("part", "in ")):
        counted = collections.Counter(count[key] for count in counts)
        print(", ".join(f"{number} {word}{name}" for name, number in sorted(counted.items())))
    many = {key: sum(count[key] for count in counts)
            for key in ("copied", "lost", "missing", "more", "told")}
    print(f"{many['copied']} while the log was copied, {many['told']} after a file was printed as "
          f"accepted, {many['lost']} with something lost, {many['missing']} of them a file")
    print(f"{len({count['front'] for count in counts})} different fronts were held, "
          f"{many['more']} times more files than with all lost that was not synced")


def controlled(pool) -> int:
    """How many controls are found to be wrong in a third of their states at most."""
    missed, count = 0, CONTROLLED[BENCH.kind]
    for (which, way), (what, control) in itertools.product(enumerate(WAYS), CONTROLS[BENCH.kind]):
        found = pool.map(functools.partial(control, which), range(count))
        short, wrong = sum(it.is_short() for it in found), sum(bool(it.wrong) for it in found)
        print(f"control, {way}, {what}: of {count} states {short} hold fewer files than they must, "
              f"and {wrong - short} no front", flush=True)
        missed += 3 * wrong <= count
    return missed


def words() -> arguments.Parser:
    parser = arguments.Parser(__doc__, programs=("edfstore", "edfserve"), count=1_000)
    parser.add_argument("--seed", type=int, default=1, help="of the states, 1 if left out")
    parser.add_argument("--only", type=int, metavar="N", help="this state alone")
    return parser


def runs(forking) -> list:
    """The runs whose power is cut."""
    first = [BENCH.recorded(way, "into no store", (None, None)) for way in WAYS]
    BENCH.runs = first
    with forking.Pool() as pool:
        again = pool.map(recorded_again, range(len(WAYS) * AGAIN[BENCH.kind]))
    made = first + list(itertools.chain(*again))
    print(f"{len(made)} runs with {len(BENCH.parts)} files; into no store", end="")
    for run in first:
        print(f", a {run.way} of {sum(call.letter in 'wt' for call in run.calls)} writes and "
              f"changes of length and {sum(call.letter in 'ds' for call in run.calls)} syncs",
              end="")
    print(flush=True)
    return made


def judged(pool, numbers) -> int:
    """Judges these states; how many are wrong."""
    counts, wrong = [], 0
    for count, why in pool.imap_unordered(state, numbers):
        if why:
            wrong += 1
            print(f"WRONG: {why}", flush=True)
        else:
            counts.append(count)
    report(counts)
    return wrong


def cut(given, folder: Path, kind: night.Night, numbers: list) -> int:
    """Judges these states of a night, and those of its controls; how many are wrong, and how many
    controls were missed."""
    global BENCH
    if not numbers:
        return 0
    BENCH = Bench(given, folder, kind)
    forking = multiprocessing.get_context("fork")
    BENCH.runs = runs(forking)
    with forking.Pool() as pool:
        return judged(pool, numbers) + controlled(pool)


def main() -> None:
    given = words().read()
    measure.need("cc")
    numbers = range(given.count) if given.only is None else [given.only]
    wrong = 0
    with measure.scratch() as name:
        print(f"seed {given.seed}, {measure.machine()}", flush=True)
        try:
            for kind in (LONG, SHORT):
                states = [number for number in numbers
                          if (number // len(WAYS) % EACH == 0) == (kind == LONG)]
                wrong += cut(given, Path(name).resolve() / str(kind.records), kind, states)
        except Unfit as why:
            print(why)
            end(1, 1)
    print(f"{len(numbers)} states, {wrong} wrong or missed by a control")
    end(len(numbers), wrong)


if __name__ == "__main__":
    main()
