"""The instructions of `list` and `export`, which no other work on the machine changes."""
from bench.table.given import Bench
from checks.lib import measure, night

MOST = {"list": 480, "export": 640}     # million


def instructions(bench: Bench) -> None:
    """Of a night of 7,200 data records in 18 arrivals."""
    store, rows = bench.store("a short night", night.SHORT), []
    for word, most in MOST.items():
        words = (word, store, "1") if word == "export" else (word, store)
        count = measure.instructions(bench.program, *words, out=bench.folder / "counted") / 1e6
        rows.append((f"`{word}`", f"{count:.0f} million",
                     bench.goals.at_most(f"instructions of `{word}`", count, most, " million")))
    measure.table(("A night of 7,200 data records", "Instructions", "Wanted"), rows)
