"""Refuses each allocation of `edfstore` in turn, and then each read, write and sync, and looks at
what is answered and held.

    python3 -m checks.refused.run [--program PATH] [COUNT]

A library that is loaded before the C library refuses the first call, the second and so on, or
every COUNTth from the first on, alone or with all that follow, until a run meets no refusal: of a
`take` of two files into a new store, of `list` and `export` of a store of both, and of a
`convert`. The first of the files, which `convert` is given too, is of unknown count and has two
annotations signals. A run ends with status 0 and all that is expected, or with status 3 and a front
of it, in whole lines where no write was refused; what was accepted is held, by the database file
alone where the status is 0, and what could not be read is not; and without refusals both files are
then taken or known, and the export is that of the plain model. It stops with status 1 at the first
loss.
"""
import collections
import re
import shutil
from dataclasses import dataclass
from pathlib import Path

from checks.lib import arguments, edf, faults, measure, model, printed
from checks.lib.checks import Lost, end
from checks.lib.printed import KNOWN, NEW


def in_two_blocks() -> bytes:
    """The record of P5, its annotations in two signals, in a file of unknown count."""
    header = edf.Header((edf.annotations_signal(9), edf.Signal(), edf.annotations_signal(6)),
                        "03.03.02", "00.00.05", recording="Startdate 03-MAR-2002 N1 T3 REC5",
                        count="-1")
    blocks = [edf.keeping("+0") + edf.tal("+0.50", "Snore"), edf.tal("+0.5", "Turn")]
    return edf.fragment(header, [(bytes.fromhex("0200FEFF"), blocks)])


SECONDS = 60        # that a run of the program may take
FILES = {"p5.edf": in_two_blocks(), "q.edf": edf.small_files()["Q"]}
# Want of memory for a file's buffer is a failed read of it.
ANSWERED = {"memory": (faults.read(), faults.memory()), "disk": (faults.read(), faults.store())}
REFUSALS = {kind: {*map(printed.refused, given)} for kind, given in ANSWERED.items()}


def on_error(names: tuple, given: tuple, not_closed: str) -> re.Pattern:
    """The line of one of these names and refusals, or nothing; and the line of a store that was not
    closed for that reason, or nothing."""
    one_of = (f"({'|'.join(words)})" for words in (names, given))
    last = printed.not_closed(not_closed)
    return re.compile(f"({printed.fault(*one_of)})?({last})?\\Z".encode())


# What may stand on standard error of a run that was refused something.
SAID = {
    "memory": on_error(("command", "take", "list", "store", "export", "-"), ANSWERED["memory"],
                       faults.memory()),
    "disk": on_error(("list", "store", "export", "-"), (*ANSWERED["disk"], faults.write()),
                     faults.store()),
}


@dataclass(frozen=True)
class Refusal:
    """The call that is refused, and whether all later ones of its kind are too."""
    kind: str
    nth: int
    every: bool

    def variables(self, library: Path, met: Path) -> dict:
        added = {"LD_PRELOAD": str(library), "REFUSE": f"{self.kind}:{self.nth}", "MET": str(met)}
        return {**added, "EVERY": "1"} if self.every else added


class Bench:
    def __init__(self, program: Path, folder: Path):
        self.program, self.folder = measure.Program(program, folder, SECONDS), folder
        self.library = measure.library(Path(__file__).resolve().parent / "refused.c", folder)
        for name, data in FILES.items():
            (folder / name).write_bytes(data)
        whole = model.Store()
        for data in FILES.values():
            whole.take(data)
        self.export, self.lines = whole.export(1), whole.lines().encode()
        alone = model.Store()
        alone.take(FILES["p5.edf"])
        self.converted = alone.export(1)
        self.tried, self.answers = 0, collections.Counter()

    def under(self, *words, refusal: Refusal = None, given: bytes = b"") -> tuple:
        """The run, and whether a call of it was refused."""
        met = self.folder / "met"
        met.unlink(missing_ok=True)
        added = refusal.variables(self.library, met) if refusal else None
        ran = self.program.ran(*words, added=added, given=given)
        if ran.status not in (0, 1, 2, 3):
            raise Lost(f"{words} under {refusal}: {ran}")
        return ran, met.exists()

    def whole(self, words: tuple, expected: bytes, given: bytes = b"") -> None:
        ran, _ = self.under(*words, given=given)
        if ran.status or ran.out != expected or ran.err:
            raise Lost(f"{words} without refusals: {ran}")

    def ends(self, words: tuple, ran: measure.Ran, refusal: Refusal, expected: bytes) -> None:
        """The run wrote all that is expected, or a front of it and ended with status 3."""
        fits = ran.status == 0 and ran.out == expected and not ran.err
        is_said = SAID[refusal.kind].match(ran.err)
        front = ran.status == 3 and expected.startswith(ran.out) and is_said
        if words[:1] == ("list",) and refusal.kind == "memory":
            front = front and (not ran.out or ran.out.endswith(b"\n"))
        if not fits and not front:
            raise Lost(f"{words} under {refusal}: {ran}")
        self.answers[(refusal.kind, words[0] if words else "convert", ran.status)] += 1


def answered(bench: Bench, ran: measure.Ran, refusal: Refusal) -> dict:
    """What the lines of a `take` answer to each file that they name; a last line may be cut where a
    write was refused."""
    lines = ran.out.decode().split("\n")
    if lines.pop() and refusal.kind == "memory":
        raise Lost(f"take under {refusal} wrote a part of a line: {ran}")
    answers = dict(line.split(" ", 1) for line in lines)
    if list(answers) != list(FILES)[:len(answers)]:
        raise Lost(f"take under {refusal} named {list(answers)}")
    for answer in answers.values():
        if answer != NEW and answer not in REFUSALS[refusal.kind]:
            raise Lost(f"take under {refusal} answered {answer!r}")
    all_new = list(answers.values()) == [NEW] * len(FILES)
    if ran.status not in ((0, 3) if all_new and not ran.err else (3,)):
        raise Lost(f"take under {refusal}: {ran}")
    if not SAID[refusal.kind].match(ran.err):
        raise Lost(f"take under {refusal} said {ran.err!r}")
    bench.answers.update((refusal.kind, "take", answer) for answer in answers.values())
    return answers


def in_one_file(bench: Bench, store: Path) -> None:
    """The database file alone holds both files."""
    alone = bench.folder / "alone.db"
    measure.remove_store(alone)
    shutil.copy(store, alone)
    bench.whole(("list", alone), bench.lines)
    bench.whole(("export", alone, "1"), bench.export)


def take(bench: Bench, refusal: Refusal) -> bool:
    """Whether a call was refused of a `take` into a new store, which is then taken again without
    refusals."""
    store = bench.folder / "s.db"
    measure.remove_store(store)
    ran, met = bench.under("take", store, *FILES, refusal=refusal)
    answers = answered(bench, ran, refusal)
    if ran.status == 0:
        in_one_file(bench, store)
    again, _ = bench.under("take", store, *FILES)
    for line, name in zip(again.out.decode().splitlines(keepends=True), FILES):
        may = {NEW: {KNOWN}, printed.UNREAD: {NEW}}.get(answers.get(name), {NEW, KNOWN})
        if line not in {printed.line(name, it) for it in may}:
            raise Lost(f"take under {refusal} answered {name} {answers.get(name)!r}, "
                       f"and the next take {line!r}")
    if again.status or again.out.count(b"\n") != len(FILES):
        raise Lost(f"the take after {refusal}: {again}")
    bench.whole(("export", store, "1"), bench.export)
    return met


def read(bench: Bench, words: tuple, expected: bytes, refusal: Refusal, given: bytes = b"") -> bool:
    """Whether a call was refused of a command that changes nothing, which is then done without
    refusals."""
    ran, met = bench.under(*words, refusal=refusal, given=given)
    bench.ends(words, ran, refusal, expected)
    bench.whole(words, expected, given)
    return met


def orders(bench: Bench) -> dict:
    """Each command by its name, as a function that does it under a refusal and says whether a call
    was refused."""
    full = bench.folder / "full.db"
    if bench.under("take", full, *FILES)[0].status:
        raise Lost("a take without refusals")
    return {
        "take": lambda refusal: take(bench, refusal),
        "list": lambda refusal: read(bench, ("list", full), bench.lines, refusal),
        "export": lambda refusal: read(bench, ("export", full, "1"), bench.export, refusal),
        "convert": lambda refusal: read(bench, (), bench.converted, refusal, FILES["p5.edf"]),
    }


def refused(bench: Bench, kind: str, step: int) -> None:
    """Each order with calls of this kind refused, each in turn."""
    for order, tried in orders(bench).items():
        counts = []
        for every in (False, True):
            met = 0
            while tried(Refusal(kind, 1 + met * step, every)):
                met += 1
                bench.tried += 1
            counts.append(met)
        print(f"{kind}, {order}: {counts[0]} calls refused alone, {counts[1]} with all that follow",
              flush=True)


def main() -> None:
    given = arguments.Parser(__doc__, count=1).read()
    measure.need("cc")
    with measure.scratch() as name:
        bench = Bench(given.program, Path(name))
        try:
            for kind in REFUSALS:
                refused(bench, kind, given.count)
        except Lost as why:
            print(f"LOST OR IN PART: {why}")
            end(bench.tried + 1, 1)
    for (kind, order, answer), count in sorted(bench.answers.items(), key=str):
        print(f"{kind}, {order}: {answer} {count} times")
    end(bench.tried, 0)


if __name__ == "__main__":
    main()
