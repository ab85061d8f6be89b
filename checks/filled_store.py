"""Whether a store keeps a filled file apart from its night: pieces of a night with a gap, the file
that `edfruns fill` makes of them and the card, in every order.

    python3 -m checks.filled_store [--program PATH] [--edfruns PATH]

Each file is accepted, with as many new data records as a plain count of those that came before
gives, and the exports are the canonical files of the card and of the filled file.
"""
import itertools
import re
from pathlib import Path

from checks.lib import arguments, measure
from checks.lib.checks import Checks

NIGHT = arguments.TOP / "examples" / "oximeter"
# the files of a night with a gap, and the data records of it that each has
PIECES = {"part1.edf": range(0, 160), "part6.edf": range(800, 960), "card.edf": range(0, 960)}
FILLED = "viewer.edf"


def answers_to(order: tuple[str, ...], filled: int) -> bytes:
    """What a store says of them, by the data records that each has and that came before."""
    held: set[int] = set()
    said = []
    for name in order:
        records = set(PIECES.get(name, ()))
        new = filled if name == FILLED else len(records - held)
        held |= records
        said.append(f"{name} accepted new={new} known={len(records) - new if records else 0}\n")
    return "".join(said).encode()


def numbers(listed: bytes) -> list[tuple[int, int]]:
    """Of each recording that a store lists its number, and how many data records it has."""
    found = re.findall(rb"^(\d+) records=(\d+) ", listed, re.MULTILINE)
    return [(int(number), int(records)) for number, records in found]


def tried(checks: Checks, edfstore: measure.Program, order: tuple[str, ...], filled: int,
          exact: dict[int, bytes]) -> None:
    store = checks.folder / "order.db"
    measure.remove_store(store)
    took = edfstore.ran("take", store, *order)
    checks.same(" ".join(order), took.outcome(), (answers_to(order, filled), b"", 0))
    listed = numbers(edfstore.ran("list", store).out)
    checks.same("recordings", sorted(records for _, records in listed), sorted(exact))
    for number, records in listed:
        out = edfstore.ran("export", store, str(number)).out
        checks.same(f"export of {records}", out, exact[records])


def main() -> None:
    given = arguments.Parser(__doc__ or "", arguments.BOTH).read()
    with measure.scratch() as name:
        checks = Checks(given.edfruns, Path(name), "edfruns")
        edfstore = measure.Program(given.program, checks.folder)
        for piece in PIECES:
            (checks.folder / piece).write_bytes((NIGHT / piece).read_bytes())
        edfstore.ran("take", "first.db", "part1.edf", "part6.edf")
        (checks.folder / "night.edf").write_bytes(edfstore.ran("export", "first.db", "1").out)
        made = checks.program.ran("fill", "night.edf")
        (checks.folder / FILLED).write_bytes(made.out)
        count = int(made.out[236:244])
        exact = {len(PIECES["card.edf"]): edfstore.ran("convert", "card.edf").out,
                 count: edfstore.ran("convert", FILLED).out}
        for order in itertools.permutations((*PIECES, FILLED)):
            tried(checks, edfstore, order, count, exact)
    checks.end()


if __name__ == "__main__":
    main()
