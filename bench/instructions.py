"""Counts the instructions that each command of the four programs takes, and compares them with a
table.

    python3 -m bench.instructions [--program PATH] [--edfruns PATH] [--edfserve PATH]
                                  [--edfmend PATH] [--of-release RATIO]

The inputs are a small night, sent in six fragments, one of 24 minutes with two gaps, and one in
plain EDF. callgrind counts, with the C library's plainest copying, so the count is the same on a
busy machine and on another host; a C library of another version allocates otherwise, by a little.

bench/instructions.txt has a line for each command: its count in 1.3.3, a later count where it
changed, and why. A command that takes over MOST times its last count fails. A change that is worth
what it costs writes the new count there, with the reason. --of-release fails where a command takes
over RATIO times what it took in 1.3.3, say 1.02, whatever was written since.

callgrind sees no page faults. So the last line of the table has bytes: the most memory that `take`
of one small file into a new store may have.

What `edfstore` and `edfruns` write is compared with the plain model, so that a command that does
less is not taken for a fast one. It needs valgrind and GNU time, on x86-64.
"""
import sys
from dataclasses import dataclass
from pathlib import Path
from typing import NamedTuple

from checks.lib import arguments, checks, edf, gapped, measure, model, night, printed, runs

TABLE = arguments.TOP / "bench/instructions.txt"
SMALL = arguments.TOP / "examples/oximeter/part1.edf"
MEMORY = "memory of a small take"   # the line of the table that has bytes
MOST, LEAST = 1.10, 0.90
LENGTH = 150        # of the path of the folder: a longer one takes more instructions
NIGHT = night.Night(records=1_440, samples=(256, 256, 128, 128, 64), fragments=6)
GAPS = gapped.GappedNight(
    records=1_440, samples=(100, 100, 100, 25), limits=("-3276.8", "3276.7", "-32768", "32767"),
    gaps=((480, 1_200 * gapped.SECOND), (960, 600 * gapped.SECOND + gapped.SECOND // 4)))


@dataclass(frozen=True)
class Command:
    """Words as the table names them, what follows them, and what they write, where the model says
    it."""
    name: str
    rest: tuple[str, ...]
    given: bytes = b""
    out: "bytes | None" = None


class Line(NamedTuple):
    """A line of the table."""
    of_release: int
    later: "int | None"
    reason: str

    def wanted(self) -> int:
        return self.later or self.of_release


def plain_night() -> bytes:
    """The night in plain EDF: without annotations, and without a word on gaps."""
    signals = tuple(edf.Signal(f"EEG channel {number}", samples=str(size))
                    for number, size in enumerate(NIGHT.samples, 1))
    pool, size, step = NIGHT.pool(), NIGHT.record_bytes, 104_729
    samples = (pool[nth * step % night.POOL_BYTES:][:size] for nth in range(NIGHT.records))
    return edf.Header(signals, reserved="", count=str(NIGHT.records)).to_bytes() + b"".join(samples)


def of_store(parts: list[Path], card: Path) -> list[Command]:
    """The commands of `edfstore` and of a session, in the order in which they build on each other."""
    held, names = model.Store(), tuple(part.name for part in parts)
    taken = printed.lines(*((part.name, held.take(part.read_bytes())) for part in parts))
    listed, canonical = held.lines().encode(), held.export(1)
    again = printed.lines((card.name, held.take(card.read_bytes())))
    lines = "".join(f"take {name}\n" for name in names) + "list\n"
    return [Command("edfstore take", ("night.db", *names), out=taken.encode()),
            Command("edfstore list", ("night.db",), out=listed),
            Command("edfstore export", ("night.db", "1"), out=canonical),
            Command("edfstore take of what is there", ("night.db", card.name), out=again.encode()),
            Command("edfstore convert", (card.name,), out=canonical),
            Command("edfserve", ("session.db",), given=lines.encode())]


def of_runs(whole: Path) -> list[Command]:
    data, name = whole.read_bytes(), whole.name
    made = runs.read_runs(data)
    return [Command("edfruns list", (name,), out=runs.lines(made).encode()),
            Command("edfruns canonical", (name,), out=model.canonical(*model.read(data))),
            Command("edfruns canonical --by-onset", (name,), out=runs.canonical_by_onset(data)[0]),
            Command("edfruns split", (name, "run"), out=runs.split_lines("run", made).encode()),
            Command("edfruns picture", (name,))]


def of_mend(plain: Path) -> list[Command]:
    return [Command("edfmend", (plain.name, "mended.edf")),
            Command("edfmend --dry-run", (plain.name,))]


def commands(folder: Path) -> list[Command]:
    """All of them, with their files made."""
    plain = folder / "plain.edf"
    plain.write_bytes(plain_night())
    card, whole = NIGHT.card(folder / "card.edf"), GAPS.whole(folder / "gaps.edf")
    return [*of_store(NIGHT.parts(folder), card), *of_runs(whole), *of_mend(plain)]


def words_of(command: Command, programs: dict[str, Path]) -> list[object]:
    """The path of its program, and its words; what stands behind ` of ` in a name is for readers."""
    name, *words = command.name.partition(" of ")[0].split()
    return [programs[arguments.OPTIONS[name]], *words, *command.rest]


def read_table() -> dict[str, Line]:
    found = {}
    for line in TABLE.read_text().splitlines():
        if line.strip() and not line.startswith("#"):
            name, of_release, later, reason = (cell.strip() for cell in line.split("|"))
            if bool(later) != bool(reason):
                sys.exit(f"{TABLE.name}: {name}: a later count has a reason, and a reason a count")
            found[name] = Line(int(of_release.replace(",", "")),
                               int(later.replace(",", "")) if later else None, reason)
    return found


def fault(command: Command, it: measure.Ran, ratio: float, most: float) -> str:
    """What is wrong with a run, if anything is."""
    if it.status:
        return f"it ended with {it}"
    if command.out is not None and it.out != command.out:
        return f"it wrote {it.out[:100]!r}, and the model writes {command.out[:100]!r}"
    return f"over {most} times" if ratio > most else ""


def main() -> None:
    parser = arguments.Parser(__doc__ or "", programs=arguments.PROGRAMS)
    parser.add_argument("--of-release", type=float, metavar="RATIO",
                        help="at most so many times what 1.3.3 took")
    given = parser.read()
    measure.need("valgrind", "/usr/bin/time")
    table, rows, faults, less = read_table(), [], [], []
    most = table.pop(MEMORY).wanted()
    with measure.scratch() as scratch:
        folder, named = Path(scratch, "n" * max(1, LENGTH - len(scratch))), set(table)
        folder.mkdir()
        for command in commands(folder):
            line = table.get(command.name)
            it, count = measure.counted(*words_of(command, vars(given)), given=command.given,
                                        folder=folder)
            if not line:
                faults.append(f"{command.name}: {count:,}, and {TABLE.name} has no line for it")
                continue
            named.discard(command.name)
            ratio = count / (line.of_release if given.of_release else line.wanted())
            rows.append((command.name, f"{count:,}", f"{ratio:.3f}"))
            wrong = fault(command, it, ratio, given.of_release or MOST)
            faults += [f"{command.name}: {wrong}"] if wrong else []
            less += [command.name] if ratio < LEAST else []
        peak = measure.timed(given.program, "take", "small.db", SMALL, folder=folder).peak
    faults += [f"{MEMORY}: {peak:,} bytes, over {most:,}"] if peak > most else []
    faults += [f"{name}: a line of {TABLE.name}, and no command here" for name in sorted(named)]
    measure.table(("command", "instructions", "of 1.3.3's" if given.of_release else "of the last"),
                  rows)
    print(f"{MEMORY}: {measure.mb(peak)}, of {measure.mb(most)}")
    for name in less:
        print(f"{name}: less than {LEAST} times; the smaller count may stand in {TABLE.name}")
    for text in faults:
        print(text)
    checks.end(len(rows) + 1, len(faults))


if __name__ == "__main__":
    main()
