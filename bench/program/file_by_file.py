"""A night that comes file by file: a `take` for each of its 96 files, against one `take` of all.

    python3 -m bench.program.file_by_file [--program PATH]

A night of 195 MB in 96 files of 300 data records of 1 s, in the order of time. They are taken into
a new store one a call, then four, twelve and all 96 a call, and copied by `cat` with a sync a file.
The tables have seconds of processor, the system's among them, and by the clock; the store's size at
each opening, summed; what the calls asked the system to read, the night's own files among it; the
most memory of a call; the store in the end. Each call opens the store, which reads all of it, so
each quarter of the calls has a line. Before and after stands what twenty million additions take in
Python: it tells a fast hour of the host from a slow one. It needs /usr/bin/time and 650 MB in
TMPDIR, and takes a few minutes.
"""
import filecmp
import resource
import sys
import time
from dataclasses import dataclass
from pathlib import Path

from checks.lib import arguments, measure, night, printed

FILES_A_CALL = (1, 4, 12, 96)
QUARTERS = 4


@dataclass
class Cost:
    """What calls have cost; all but the seconds are of this script's children, sizes in bytes."""
    seconds: float
    processor: float
    read: int
    opened: int = 0     # the stores that were opened
    peak: int = 0

    def since(self, begun: "Cost", opened: int = 0, peak: int = 0) -> "Cost":
        return Cost(self.seconds - begun.seconds, self.processor - begun.processor,
                    self.read - begun.read, opened, peak)


def so_far() -> Cost:
    """A process that was waited for adds what it read to what this one did."""
    used = resource.getrusage(resource.RUSAGE_CHILDREN)
    io = dict(line.split(": ") for line in Path("/proc/self/io").read_text("ascii").splitlines())
    return Cost(time.perf_counter(), used.ru_utime + used.ru_stime, int(io["rchar"]))


def taken(program, store: Path, parts: list) -> Cost:
    """One call, which must accept all that it is given."""
    opened, begun = size(store), so_far()
    done = measure.timed(program, "take", store, *parts)
    if done.out.decode() != printed.lines(*((part, printed.accepted(300)) for part in parts)):
        sys.exit("a file was not accepted with 300 new data records")
    return so_far().since(begun, opened, done.peak)


def total(costs: list) -> Cost:
    return Cost(sum(one.seconds for one in costs), sum(one.processor for one in costs),
                sum(one.read for one in costs), sum(one.opened for one in costs),
                max(one.peak for one in costs))


def copied(parts: list, target: Path) -> Cost:
    measure.settle()
    begun = so_far()
    measure.copy_synced(parts, target)
    return so_far().since(begun)


def size(store: Path) -> int:
    return sum(path.stat().st_size for path in store.parent.glob(store.name + "*"))


def row(name: str, calls: int, cost: Cost, one: Cost, by_cat: Cost, stored: str = "") -> tuple:
    of_store = (measure.mb(cost.opened), measure.mb(cost.read), measure.mb(cost.peak))
    return (name, calls, f"{cost.processor:.2f} s", f"{cost.processor / one.processor:.1f}",
            f"{cost.processor / by_cat.processor:.1f}", f"{cost.seconds:.2f} s",
            *(of_store if cost.peak else ("", measure.mb(cost.read), "")), stored)


def each_way(program, parts: list, folder: Path) -> tuple:
    """The costs of the calls by how many files each has, and the stores' sizes; exports are one."""
    costs, sizes, exports = {}, {}, []
    for files in FILES_A_CALL:
        store = folder / f"by-{files}.db"
        measure.settle()
        calls = [parts[at:at + files] for at in range(0, len(parts), files)]
        costs[files] = [taken(program, store, given) for given in calls]
        sizes[files] = size(store)
        exports.append(folder / f"by-{files}.edf")
        measure.done(program, "export", store, "1", out=exports[-1])
        if not filecmp.cmp(exports[0], exports[-1], shallow=False):
            sys.exit("the exports differ")
        measure.remove_store(store)
        if len(exports) > 1:
            exports.pop().unlink()
    return costs, sizes


def report(parts: list, costs: dict, sizes: dict, by_cat: Cost) -> None:
    one = total(costs[len(parts)])
    lines = [row(f"{files} a call" if files < len(parts) else "all in one call", len(costs[files]),
                 total(costs[files]), one, by_cat, measure.mb(sizes[files]))
             for files in FILES_A_CALL]
    head = ("calls", "processor", "/ one call", "/ cat", "by the clock", "stores opened", "read",
            "peak", "store in the end")
    measure.table(("files", *head), [*lines, row("`cat`", len(parts), by_cat, one, by_cat)])
    step = len(parts) // QUARTERS
    measure.table(("of 1 a call", *head),
                  [row(f"{at + 1} to {at + step}", step, total(costs[1][at:at + step]), one, by_cat)
                   for at in range(0, len(parts), step)])
    last = costs[1][-1]
    print(f"the last call alone: {last.processor:.2f} s of processor, {measure.mb(last.read)} read")


def main() -> None:
    given = arguments.Parser(__doc__).read()
    measure.need("cat", "/usr/bin/time")
    with measure.scratch() as name:
        folder = Path(name)
        parts = night.CLINIC.parts(folder)
        before = measure.loop()
        by_cat = copied(parts, folder / "copy")
        (folder / "copy").unlink()
        costs, sizes = each_way(given.program, parts, folder)
        night_bytes = sum(path.stat().st_size for path in parts)
        print(f"a night of {measure.mb(night_bytes)} in {len(parts)} files, {measure.machine()}, "
              f"the loop {before:.1f} and {measure.loop():.1f} s\n")
        report(parts, costs, sizes, by_cat)


if __name__ == "__main__":
    main()
