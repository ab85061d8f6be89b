"""What a night costs in a store that has many: nights of 15 MB, each a recording of its own."""
from dataclasses import replace
from pathlib import Path

from bench.serve.run import Served
from bench.table.given import Bench, best_of
from checks.lib import measure, night
from checks.lib.serving import Client

LOOKED_AT = (1, 3, 10, 30)


def files_of(place: Path, nth: int) -> list:
    patient = f"P{nth} F 02-MAY-1951 X"
    return replace(night.SHORT.next_night(nth - 1), patient=patient).parts(place)


def by_calls(bench: Bench, place: Path, lines: dict) -> None:
    """A `take` of the nights in between, then one of the night that is looked at, and `list`."""
    store, before = place / "calls.db", 0
    for nth in LOOKED_AT:
        between = [path for number in range(before + 1, nth) for path in files_of(place, number)]
        if between:
            measure.done(bench.program, "take", store, *between)
        taken = best_of(1, bench.program, "take", store, *files_of(place, nth))
        listed = best_of(1, bench.program, "list", store)
        lines[nth] += [f"{taken.processor:.2f} s", measure.mb(taken.peak),
                       f"{listed.processor:.2f} s", measure.mb(listed.peak)]
        before = nth
    measure.remove_store(store)


def by_session(bench: Bench, place: Path, lines: dict) -> None:
    served = Served(Client(bench.edfserve, place))
    for nth in range(1, LOOKED_AT[-1] + 1):
        begun = served.used()
        for path in files_of(place, nth):
            served.ask(f"take {path}")
            path.unlink()
        if nth in LOOKED_AT:
            lines[nth] += [f"{served.used() - begun:.2f} s", measure.mb(served.client.held())]
    if served.client.end()[0]:
        raise SystemExit("the session did not end with status 0")


def table(bench: Bench) -> None:
    place, lines = bench.place("growth"), {nth: [] for nth in LOOKED_AT}
    by_calls(bench, place, lines)
    by_session(bench, place, lines)
    print("nights of 15 MB, each a recording, in one store; seconds of processor")
    measure.table(("which night", "`take` of it", "peak", "`list` then", "peak", "by `edfserve`",
                   "its memory then"), [(str(nth), *cells) for nth, cells in lines.items()])
