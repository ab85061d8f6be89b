"""`take`, the opening of a store and `export`: of a night, of long records, of ten nights."""
import os
from pathlib import Path

from bench.table.given import HEAD, RUNS, Bench, Best, best_of, row
from checks.lib import measure, night
from checks.odd import fill

TAKE_MOST, MORE_FOR_EXPORT = 64_000_000, 40_000_000
GROUP = 512 << 20
ROWS = 1_000_000


def taken(command, store: Path, files: list) -> measure.Ran:
    measure.remove_store(store)
    measure.settle()
    return measure.timed(command, "take", store, *files)


def of_kind(bench: Bench, name: str, kind: night.Night) -> list:
    """The rows of a night in fragments and of its card, whose data records are known then."""
    parts, card, copy = bench.parts(name, kind), bench.card(name, kind), bench.folder / "copy"
    first, both = ({name: Best() for name in bench.commands} for _ in range(2))
    cat = {"parts": float("inf"), "card": float("inf")}
    for _ in range(RUNS):
        for who, command in bench.commands.items():
            store = bench.folder / f"{who}.db"
            first[who].add(taken(command, store, parts))
            both[who].add(taken(command, store, [*parts, card]))
            measure.remove_store(store)
        measure.settle()
        cat["parts"] = min(cat["parts"], measure.copy_synced(parts, copy))
        cat["card"] = min(cat["card"], measure.copy_synced([card], copy))
    copy.unlink()
    then = {who: both[who].less(first[who]) for who in bench.commands}
    rows = []
    for what, runs, copied, most in ((f"`take` of {name}", first, cat["parts"], 1.3),
                                     (f"then the card of {name}", then, cat["card"], 1.0)):
        ours, plain = runs["edfstore"], runs["plain C"]
        wanted = bench.goals.at_most(what, ours.seconds / plain.seconds, most, " C")
        bench.goals.at_most(f"{what}, peak", ours.peak / 1e6, TAKE_MOST / 1e6, " MB")
        rows.append(row(what, ours, plain, copied, wanted))
    return rows


def of_ten(bench: Bench) -> tuple:
    """The row of ten nights in one call, and the store that they leave."""
    files, best = bench.ten(), {}
    for who, command in bench.commands.items():
        store = bench.folder / f"ten by {who}.db"
        best[who] = Best().add(taken(command, store, files))
        if who != "edfstore":
            measure.remove_store(store)
    return (row("`take` of ten nights, 480 files", best["edfstore"], best["plain C"]),
            bench.folder / "ten by edfstore.db")


def ten_of(bench: Bench) -> tuple:
    return bench.kept("store of ten nights", lambda: of_ten(bench))


def take(bench: Bench) -> None:
    rows = [*of_kind(bench, "a night", night.CLINIC),
            *of_kind(bench, "long records", night.LONG_RECORDS), ten_of(bench)[0]]
    measure.table(HEAD, rows)


def of_rows(bench: Bench) -> tuple:
    """The row of a store of very many rows."""
    store = bench.folder / "rows.db"
    fill(store, ROWS)
    best = best_of(1, bench.program, "list", store)
    measure.remove_store(store)
    return row(f"opening of {ROWS:,} rows of 4 bytes", best)


def group() -> Path:
    """A group of processes below this one's, that may have a limit of its own; nothing where none
    can be made."""
    found = [line.split(":", 2) for line in Path("/proc/self/cgroup").read_text().splitlines()]
    first = [path for _, kinds, path in found if "memory" in kinds.split(",")]
    top = Path(f"/sys/fs/cgroup/memory{first[0]}" if first else f"/sys/fs/cgroup{found[-1][2]}")
    made = top / f"edfstore-bench-{os.getpid()}"
    try:
        made.mkdir()
        limit = "memory.limit_in_bytes" if first else "memory.max"
        (made / limit).write_text(str(GROUP))
    except OSError:
        if made.exists():
            made.rmdir()
        return None
    return made


def in_group(bench: Bench, store: Path) -> None:
    """Lists a night in a group of 512 MB."""
    made = group()
    if made is None:
        print("left out: a group of 512 MB, which this user or system does not make\n")
        return
    inside = 'echo $$ > "$1/cgroup.procs" && shift && exec "$@"'
    ran = measure.ran("sh", "-c", inside, "sh", made, bench.program, "list", store,
                      is_measured=True)
    made.rmdir()
    is_listed = ran.status == 0 and ran.out.decode().startswith("1 records=28800 ")
    bench.goals.at_most("lists of a night in a group of 512 MB that failed", not is_listed, 0)
    print(f"in a group of 512 MB: status {ran.status}, {ran.processor:.2f} s of processor, "
          f"{measure.mb(ran.peak)}\n")


def opening(bench: Bench) -> None:
    store, rows = bench.store("a night", night.CLINIC), []
    rows.append(row("opening of a night", best_of(RUNS, bench.program, "list", store),
                    best_of(RUNS, bench.plain, "open", store)))
    ten = ten_of(bench)[1]
    rows.append(row("opening of ten nights", best_of(1, bench.program, "list", ten),
                    best_of(1, bench.plain, "open", ten)))
    rows.append(of_rows(bench))
    measure.table(HEAD, rows)
    in_group(bench, store)


def export(bench: Bench) -> None:
    """Less the opening of the store, which `list` alone does."""
    store, out = bench.store("a night", night.CLINIC), bench.folder / "out.edf"
    runs = RUNS + 2
    listed = best_of(runs, bench.program, "list", store)
    ours = best_of(runs, bench.program, "export", store, "1", out=out)
    plain = best_of(runs, bench.plain, "export", store, out=bench.folder / "plain.edf")
    if out.read_bytes() != (bench.folder / "plain.edf").read_bytes():
        raise SystemExit("the two exports differ")
    cat = best_of(runs, "cat", out, out=bench.folder / "copy").seconds
    less = ours.less(listed)
    less.peak = ours.peak - listed.peak
    wanted = bench.goals.at_most("export less its opening, by processor",
                                 less.processor / plain.processor, 1.0, " C")
    bench.goals.at_most("export, more memory than its opening", less.peak / 1e6,
                        MORE_FOR_EXPORT / 1e6, " MB")
    measure.table(HEAD, [row("`export` of a night, less its opening", less, plain, cat, wanted)])
