"""What a session of `edfserve` answers in, and the memory that it keeps."""
import statistics

from bench.serve import run as serve_run
from bench.table.calls import in_order
from bench.table.given import Bench
from checks.lib import measure, night

MOST = 40_000_000


def answers(bench: Bench) -> None:
    folder, parts = bench.place("a session"), in_order(bench)
    served = serve_run.by_session(bench, folder, parts)[3]
    print(f"answers: median {1000 * statistics.median(served.seconds):.1f} ms, at most "
          f"{1000 * max(served.seconds):.1f} ms")
    measure.remove_store(folder / "s.db")
    print("`list` in the middle of the night: "
          f"{serve_run.in_the_middle(bench, folder, parts):.3f} s")
    measure.remove_store(folder / "s.db")


def ten_in_one(bench: Bench, folder) -> int:
    """The most memory of a session of ten nights."""
    served = serve_run.nights_in_one(bench.edfserve, folder, 10)
    peak = served.client.peak()
    if served.client.end() != (0, "", ""):
        raise SystemExit("the session did not end with status 0")
    return peak


def sessions(bench: Bench) -> None:
    answers(bench)
    night_of, ten = bench.store("a night", night.CLINIC), bench.place("ten in one")
    rows = []
    for what, held in (
            ("begun again over a night",
             serve_run.begun_again(bench.edfserve, bench.place("again"), night_of)[0]),
            ("in which ten nights came, at most", ten_in_one(bench, ten)),
            ("begun again over ten nights", serve_run.begun_again(bench.edfserve, ten)[0])):
        wanted = bench.goals.at_most(f"memory of a session {what}", held / 1e6, MOST / 1e6, " MB")
        rows.append((what, measure.mb(held), wanted))
    measure.table(("A session, a second after its first answer", "Memory", "Wanted"), rows)
