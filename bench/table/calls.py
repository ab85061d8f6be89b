"""A night that comes file by file, by calls of `take` and in a session of `edfserve`."""
from bench.program import file_by_file
from bench.serve import run as serve_run
from bench.table.given import Bench
from checks.lib import measure, night


def in_order(bench: Bench) -> list:
    """The files of a night in the order of time, as a recorder sends them."""
    return sorted(bench.parts("a night", night.CLINIC))


def each_way(bench: Bench) -> None:
    parts, place = in_order(bench), bench.place("calls")
    by_cat = file_by_file.copied(parts, place / "copy")
    (place / "copy").unlink()
    costs, _ = file_by_file.each_way(bench.program, parts, place)
    one = file_by_file.total(costs[len(parts)])
    rows = []
    for files, each in costs.items():
        all_of = file_by_file.total(each)
        rows.append((f"{files} a call, {len(each)} in all", f"{all_of.processor:.2f} s",
                     f"{all_of.processor / one.processor:.1f}", f"{all_of.seconds:.2f} s",
                     measure.mb(all_of.read), measure.mb(all_of.peak)))
    folder = bench.place("a session of a night")
    processor, clock, peak, _ = serve_run.by_session(bench, folder, parts)
    rows.append(("a session, a file a line", f"{processor:.2f} s",
                 f"{processor / one.processor:.1f}", f"{clock:.2f} s", "", measure.mb(peak)))
    rows.append(("`cat`, a sync each", f"{by_cat.processor:.2f} s",
                 f"{by_cat.processor / one.processor:.1f}", f"{by_cat.seconds:.2f} s",
                 measure.mb(by_cat.read), ""))
    measure.table(("A night, files", "Processor", "/ one call", "Time", "Read", "Peak"), rows)
