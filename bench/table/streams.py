"""`convert` by pipes, and the words of `edfruns` on a night's card."""
from bench.runs import run as runs_run
from bench.table.given import HEAD, RUNS, Bench, Best, row
from checks.lib import measure, night

RUNS_MOST = 16_000_000
LEAST = {"list": 1.5, "canonical": 3.0, "split": 3.0}


def between_pipes(runs: int, *words, source) -> Best:
    """Its seconds between two `cat`, its processor and memory alone."""
    best = Best()
    for _ in range(runs):
        measure.settle()
        best.seconds = min(best.seconds, measure.piped(*words, source=source))
    alone = measure.timed(*words, given=source, out="/dev/null")
    best.processor, best.peak = alone.processor, alone.peak
    return best


def convert(bench: Bench) -> None:
    card = bench.card("a night", night.CLINIC)
    ours = between_pipes(RUNS, bench.program, "convert", "-", source=card)
    plain = between_pipes(RUNS, bench.plain, "convert", source=card)
    cat = between_pipes(RUNS, "cat", source=card).seconds
    wanted = bench.goals.at_most("`convert` by pipes", ours.seconds / cat, 6, " cat")
    measure.table(HEAD, [row("`convert` of the card, by pipes", ours, plain, cat, wanted)])


def runs(bench: Bench) -> None:
    """Each word from a file, right after a `cat` of it."""
    card, best = bench.card("a night", night.CLINIC), {}
    for _ in range(RUNS):
        runs_run.one_round(bench.edfruns, {"card": card}, bench.place("runs"), best)
    rows = []
    for word, line in best.items():
        kind, most = word.split()[0].rstrip(","), ""
        if kind in LEAST:
            most = bench.goals.at_most(f"`edfruns` {word}", line.seconds / line.copied,
                                       LEAST[kind], " cat")
            bench.goals.at_most(f"`edfruns` {word}, peak", line.peak / 1e6, RUNS_MOST / 1e6, " MB")
        rows.append((*line.cells(), most))
    measure.table(("`edfruns`", "Time", "Processor", "`cat`", "/ `cat`", "Peak", "Wanted"), rows)
