"""Checks `edfruns list`, `canonical` and `split`: lines, files and statuses on small files and on a
night with three gaps.

    python3 -m checks.split [--program PATH] [--edfruns PATH]

Without words it runs bin/edfstore and bin/edfruns. Small files are compared with lines written by
hand; every file of a run with the plain model in checks/lib/runs.py, byte for byte. The files of a
split go to `edfstore take` in several orders and with repeats, and the export is compared with
`edfstore convert` of what was split, and so is what `canonical` writes.
"""
import os
import random
from dataclasses import dataclass
from pathlib import Path

from checks.lib import arguments, edf, faults, gapped, measure, model, printed, run_stories, runs
from checks.lib.by_hand import COUNT, DURATION, field, unknown
from checks.lib.checks import Checks

FILES = edf.small_files()
DAY = 86_400
BLOCK = 24      # samples of the annotations signal of a small file


@dataclass
class Programs:
    checks: Checks
    edfstore: measure.Program       # in the case's folder

    def takes(self, name: str, order: list, converted: bytes) -> None:
        """A new store takes these files in this order, each whole, and its export is the conversion
        of the file that was split."""
        store = self.checks.folder / "order.db"
        measure.remove_store(store)
        took = self.edfstore.ran("take", store, *order)
        self.checks.same(f"{name}: take", (printed.count_accepted(took.out), took.status, took.err),
                         (len(order), 0, b""))
        self.checks.same(f"{name}: export", self.edfstore.ran("export", store, "1").out, converted)

    def converted(self, name: str) -> bytes:
        return self.edfstore.ran("convert", name).out


def small(*onsets: str, starttime: str = "22.00.00", **fields) -> bytes:
    """A file of a data record at each onset, with samples of its own."""
    header = edf.Header((edf.Signal(), edf.annotations_signal(BLOCK)), starttime=starttime,
                        count=str(len(onsets)), **fields)
    return edf.fragment(header, [(nth.to_bytes(4, "little"), edf.keeping(onset))
                                 for nth, onset in enumerate(onsets, 1)])


def noted(*records, **fields) -> bytes:
    """A file of data records, each an onset and its annotations."""
    header = edf.Header((edf.Signal(), edf.annotations_signal(BLOCK)), starttime="22.00.00",
                        count=str(len(records)), **fields)
    return edf.fragment(header, [(nth.to_bytes(4, "little"), edf.keeping(onset) + b"".join(notes))
                                 for nth, (onset, *notes) in enumerate(records, 1)])


def line(number: int, records: int, first: str, seconds: str, gap: str = "") -> str:
    """What `list` says of a run that starts on this day and time of March 2002."""
    return printed.run(number, records, f"2002-03-{first}", seconds, gap)


def split_line(name: str, of_run: str, annotations: int, outside: int) -> str:
    """What `split` says of a file, by the line of its run."""
    return f"{name} {printed.counted(of_run, annotations, outside)}"


OVER_2084 = (printed.run(1, 1, "2084-12-31T23:59:50", "1", "14") +
             printed.run(2, 1, "2085-01-01T00:00:05", "1"))

# A name, a file, and what `list` says of it, by hand.
CASES = (
    ("one data record", FILES["Q"], line(1, 1, "02T23:59:50", "1")),
    ("records that touch", FILES["K"], line(1, 3, "03T01:00:00", "3")),
    ("another order of signals, and a gap", FILES["R9"],
     line(1, 1, "03T00:00:00", "1", "4") + line(2, 1, "03T00:00:05", "1")),
    ("an unknown count", unknown(FILES["U"]),
     printed.run(1, 2, "2002-03-02T22:00:00", "2", patient="X", investigation="X")),
    ("several annotations signals", FILES["V"], line(1, 1, "02T23:59:50", "1")),
    ("EDF+C with a gap", small("+0", "+2", reserved="EDF+C"),
     line(1, 1, "02T22:00:00", "1", "1") + line(2, 1, "02T22:00:02", "1")),
    ("a gap of a nanosecond", small("+0", "+1.000000001"),
     line(1, 1, "02T22:00:00", "1", "0.000000001") + line(2, 1, "02T22:00:01.000000001", "1")),
    ("a gap of a nanosecond that goes on", small("+0", "+1", "+2.000000001", "+3.000000001"),
     line(1, 2, "02T22:00:00", "2", "0.000000001") + line(2, 2, "02T22:00:02.000000001", "2")),
    ("a gap of a day", small("+0", f"+{1 + DAY}", f"+{2 + DAY}"),
     line(1, 1, "02T22:00:00", "1", "86400") + line(2, 2, "03T22:00:01", "2")),
    ("a gap over midnight", small("+0", "+1", "+7200.5"),
     line(1, 2, "02T22:00:00", "2", "7198.5") + line(2, 1, "03T00:00:00.5", "1")),
    ("a first onset of a quarter of a second", small("+0.25", "+1.25", "+2.25"),
     line(1, 3, "02T22:00:00.25", "3")),
    ("a first onset and a gap", small("+0.25", "+1.25", "+2.5"),
     line(1, 2, "02T22:00:00.25", "2", "0.25") + line(2, 1, "02T22:00:02.5", "1")),
    ("a duration that is no whole number", small("+0", "+0.1", "+0.2", "+0.301", duration="0.1"),
     line(1, 3, "02T22:00:00", "0.3", "0.001") + line(2, 1, "02T22:00:00.301", "0.1")),
    ("a duration with zeros", small("+0", "+30", "+61", duration="30.000"),
     line(1, 2, "02T22:00:00", "60", "1") + line(2, 1, "02T22:01:01", "30")),
    ("onsets with zeros", small("+0.00", "+1.0", "+0002.5000"),
     line(1, 2, "02T22:00:00", "2", "0.5") + line(2, 1, "02T22:00:02.5", "1")),
    ("annotations whose onset lies outside of their data record",
     noted(("+0", edf.tal("-30", "Before", duration="5")), ("+1", edf.tal("+90.5", "After")),
           ("+60", edf.tal("+0.5", "Earlier")),
           ("+61", edf.tal("+61", "At it"), edf.tal("+62", "At the end"))),
     line(1, 2, "02T22:00:00", "2", "58") + line(2, 2, "02T22:01:00", "2")),
    ("longest blocks that differ",
     noted(("+0",), ("+1", edf.tal("+1", "A longer text")), ("+9",),
           ("+19", edf.tal("+19", "Short"))),
     line(1, 2, "02T22:00:00", "2", "7") + line(2, 1, "02T22:00:09", "1", "9") +
     line(3, 1, "02T22:00:19", "1")),
    ("the window's last year",
     small("+0", "+5", startdate="31.12.yy", starttime="23.59.50",
           recording="Startdate 31-DEC-2184 N1 T3 REC5"),
     printed.run(1, 1, "2184-12-31T23:59:50", "1", "4") +
     printed.run(2, 1, "2184-12-31T23:59:55", "1")),
    ("a gap over the end of 2084",
     small("+0", "+15", startdate="31.12.84", starttime="23.59.50",
           recording="Startdate 31-DEC-2084 N1 T3 REC5"), OVER_2084),
)

# A name, a file, and its refusal, by hand.
REFUSED = (
    ("nothing", b"", faults.cut()),
    ("a cut header", FILES["R9"][:500], faults.cut_signals()),
    ("a cut first data record", FILES["R9"][:769], faults.cut_record(1)),
    ("a cut second data record", FILES["R9"][:-1], faults.cut_record(2)),
    ("a missing data record", FILES["K"][:-10], faults.cut_record(3)),
    ("an unknown count, cut", unknown(FILES["U"])[:-1], faults.cut_record(2)),
    ("a byte after the last", FILES["K"] + b"\0", faults.trailing()),
    ("no count", field(FILES["K"], COUNT, "0"), faults.count()),
    ("no duration", field(FILES["K"], DURATION, "0"), faults.duration()),
    ("records that overlap", small("+0", "+0.5"), faults.order(2)),
    ("records in another order", small("+0", "+5", "+3"), faults.order(3)),
)


def files_of_each(programs: Programs, name: str, data: bytes, listed: str) -> None:
    """`list` and `split` of a file, and the runs taken back in two orders."""
    checks, made = programs.checks, runs.read_runs(data)
    checks.begin(name)
    checks.file("a.edf", data)
    checks.same("the model's lines", runs.lines(made), listed)
    checks.run("list", "a.edf", out=listed)
    checks.run("list", "a.edf", "a.edf",
               out=2 * "".join(f"a.edf {line}\n" for line in listed.splitlines()))
    names = runs.split_names("part", made)
    checks.run("split", "a.edf", "part", out=runs.split_lines("part", made))
    for part, run in zip(names, made):
        checks.same(part, checks.content(part), run.to_bytes())
    checks.same("the files", checks.names(), sorted(["a.edf", *names]))
    converted = programs.converted("a.edf")
    checks.run("canonical", "a.edf", out=converted)
    programs.takes("in order", names, converted)
    programs.takes("backwards, and again", names[::-1] + names, converted)
    for part, run in zip(names, made):      # a run's file has one run, itself
        (alone,) = runs.read_runs(run.to_bytes())
        checks.run("list", part, out=alone.line())
    by_onset_of_each(programs, data, runs.read_by_onset(data))


def by_onset_of_each(programs: Programs, data: bytes, made: list) -> None:
    """`split` of what `canonical --by-onset` writes; and the files, taken back, have the annotations
    of the whole, each once."""
    checks = programs.checks
    whole, outside = runs.canonical_by_onset(data)
    checks.run("canonical", "--by-onset", "a.edf", out=whole, err=printed.outside("a.edf", outside))
    checks.file("sorted.edf", whole)
    checks.run("split", "sorted.edf", "onset", out=runs.split_lines("onset", made))
    names = runs.split_names("onset", made)
    for part, run in zip(names, made):
        checks.same(part, checks.content(part), run.to_bytes())
    again = [note for name in names for record in model.read(checks.content(name))[1]
             for note in record.notes]
    of_all = [note for record in model.read(data)[1] for note in record.notes]
    checks.same("the annotations of all files", sorted(again, key=repr), sorted(of_all, key=repr))


def where_annotations_happened(programs: Programs) -> None:
    """Lines and files by hand: annotations before the first data record, at the end of a run, at
    the start of the next, in a gap and after the last."""
    checks = programs.checks
    before, within = edf.tal("-30", "Before", duration="5"), edf.tal("+0.5", "Earlier")
    at_end, in_gap = edf.tal("+2", "At the end"), edf.tal("+59.999999999", "In the gap")
    at_start, after = edf.tal("+60", "At the start"), edf.tal("+90.5", "After")
    of_runs = (line(1, 2, "02T22:00:00", "2", "58"), line(2, 2, "02T22:01:00", "2"))
    checks.begin("where annotations happened")
    checks.file("a.edf", noted(("+0", after, at_start), ("+1", before), ("+60", at_end, within),
                               ("+61", in_gap)))
    checks.run("split", "a.edf", "part", out=split_line("part-1.edf", of_runs[0], 3, 3) +
               split_line("part-2.edf", of_runs[1], 3, 3))
    checks.file("sorted.edf", runs.canonical_by_onset(checks.content("a.edf"))[0])
    checks.run("canonical", "a.edf", "--by-onset", out=checks.content("sorted.edf"),
               err=printed.outside("a.edf", 4))
    checks.run("split", "sorted.edf", "onset",
               out=split_line("onset-1.edf", of_runs[0], 4, 3) +
               split_line("onset-2.edf", of_runs[1], 2, 1))
    checks.file("b.edf", noted(("+0", before, within), ("+1", at_end, in_gap), ("+60", at_start),
                               ("+61", after)))
    checks.run("split", "b.edf", "by-hand", out=split_line("by-hand-1.edf", of_runs[0], 4, 3) +
               split_line("by-hand-2.edf", of_runs[1], 2, 1))
    for number in "12":
        checks.same(f"onset-{number}.edf", checks.content(f"onset-{number}.edf"),
                    checks.content(f"by-hand-{number}.edf"))


def too_many_in_a_data_record(programs: Programs) -> None:
    """6,000 annotations in each of two data records, all with an onset in the second: a data record
    may have 10,000."""
    checks, notes = programs.checks, 6_000 * edf.tal("+5", "x")
    header = edf.Header((edf.Signal(), edf.annotations_signal(20_000)), count="2")
    checks.begin("too many annotations in a data record by onset")
    checks.file("a.edf", edf.fragment(header, [(b"\0\0\0\0", edf.keeping(onset) + notes)
                                               for onset in ("+0", "+5")]))
    checks.run("canonical", "a.edf", "--by-onset", err=printed.crowded(2), status=1)
    checks.same("the files", checks.names(), ["a.edf"])
    checks.run("split", "a.edf", "part", out=runs.split_lines("part", runs.read_runs(
        checks.content("a.edf"))))


def each_case(programs: Programs) -> None:
    for name, data, listed in CASES:
        files_of_each(programs, name, data, listed)


def refused_files(programs: Programs) -> None:
    """Each command prints the refusal as `convert` does, and nothing is written."""
    checks = programs.checks
    for name, data, fault in REFUSED:
        checks.begin(f"refused: {name}")
        checks.file("a.edf", data)
        line = printed.fault("a.edf", fault)
        convert = programs.edfstore.ran("convert", "a.edf")
        checks.same("edfstore convert", (convert.err, convert.status), (line.encode(), 1))
        for words in (("list", "a.edf"), ("canonical", "a.edf"),
                      ("canonical", "--by-onset", "a.edf"), ("split", "a.edf", "part"),
                      ("picture", "a.edf")):
            checks.run(*words, err=line, status=1)
        checks.same("the files", checks.names(), ["a.edf"])


def words_that_ask_for_nothing(programs: Programs) -> None:
    checks = programs.checks
    checks.begin("words that ask for nothing")
    checks.file("a.edf", FILES["R9"])
    for words in ((), ("split", "-", "part"), ("list",), ("list", "-"), ("list", "a.edf", "-"),
                  ("canonical",), ("canonical", "a.edf", "more"), ("canonical", "-"),
                  ("canonical", "--by-onset", "-"), ("picture", "-"), ("split", "a.edf"),
                  ("frob", "a.edf"),
                  ("list", "-x"), ("list", "--by-onset", "a.edf"),
                  ("canonical", "--by-onset=yes", "a.edf")):
        checks.run(*words, given=FILES["R9"], err=None, status=2)
    for line, why in run_stories.GONE:
        checks.run(*line.split(), err=printed.usage(why, "edfruns <COMMAND>"), status=2)
    checks.same("the files", checks.names(), ["a.edf"])


def trouble(programs: Programs) -> None:
    """What is not there or can't be written."""
    checks = programs.checks
    checks.begin("trouble")
    for words in (("list", "none.edf"), ("canonical", "none.edf"), ("split", "none.edf", "part"),
                  ("list", ".")):
        checks.run(*words, err=printed.line(words[1], printed.UNREAD), status=3)
    checks.file("a.edf", FILES["R9"])
    listed = runs.lines(runs.read_runs(FILES["R9"])).splitlines()
    checks.run("list", "a.edf", "none.edf", "a.edf",
               out="".join(f"a.edf {line}\n" for line in 2 * listed),
               err=printed.line("none.edf", printed.UNREAD), status=3)
    for names in ("a.edf", "a.edf none.edf"):       # the second is not read
        checks.shell(f"edfruns list {names} > /dev/full", err=printed.UNWRITTEN_OUTPUT, status=3)
    checks.shell("edfruns canonical a.edf > /dev/full", err=printed.UNWRITTEN_OUTPUT, status=3)
    checks.shell("edfruns split a.edf none/part",
                 err=printed.line("none/part-1.edf", printed.UNWRITTEN), status=3)
    checks.same("the files", checks.names(), ["a.edf"])
    checks.shell("edfruns split a.edf part > /dev/full", err=printed.UNWRITTEN_OUTPUT, status=3)
    whole_files(checks, "part", runs.read_runs(FILES["R9"]), 1)


def split_told(prefix: str, made: list[runs.Run]) -> list[str]:
    """The lines of `split`."""
    return runs.split_lines(prefix, made).splitlines(keepends=True)


def whole_files(checks: Checks, prefix: str, made: list[runs.Run], count: int,
                *others: str) -> None:
    """Of a split there are the files of the first runs, so many, and these."""
    names = runs.split_names(prefix, made)[:count]
    checks.same("the files", checks.names(), sorted(["a.edf", *names, *others]))
    for name, run in zip(names, made):
        checks.same(name, checks.content(name), run.to_bytes())


def files_that_are_there(programs: Programs) -> None:
    """No file that is there is written over, or that comes to be there."""
    checks, made = programs.checks, runs.read_runs(FILES["R9"])
    for taken in ("part-1.edf", "part-2.edf"):
        checks.begin(f"{taken} is there")
        checks.file("a.edf", FILES["R9"])
        checks.file(taken, b"mine")
        checks.run("split", "a.edf", "part", err=printed.is_there(taken), status=1)
        checks.same(taken, checks.content(taken), b"mine")
        checks.same("the files", checks.names(), sorted(["a.edf", taken]))
        checks.run("split", "a.edf", "other", out=runs.split_lines("other", made))
        checks.run("split", "a.edf", "other", err=printed.is_there("other-1.edf"), status=1)
        for name, run in zip(runs.split_names("other", made), made):
            checks.same(name, checks.content(name), run.to_bytes())
    checks.begin("a link that leads nowhere is there")
    checks.file("a.edf", FILES["R9"])
    (checks.folder / "part-2.edf").symlink_to("elsewhere")
    checks.run("split", "a.edf", "part", err=printed.is_there("part-2.edf"), status=1)
    checks.same("the files", checks.names(), ["a.edf", "part-2.edf"])
    checks.begin("a file that another program has begun, or left, is there")
    checks.file("a.edf", FILES["R9"])
    checks.file("part-2.edf.part", b"mine")
    checks.run("split", "a.edf", "part", out=split_told("part", made)[0],
               err=printed.line("part-2.edf", printed.UNWRITTEN), status=3)
    whole_files(checks, "part", made, 1, "part-2.edf.part")
    checks.same("the begun file", checks.content("part-2.edf.part"), b"mine")
    checks.begin("a file of that name is made meanwhile")
    checks.file("a.edf", FILES["R9"])
    os.mkfifo(checks.folder / "f")
    feed = ("(cat a.edf > f; sleep 0.5; (head -c 770 a.edf; sleep 0.5; printf mine > part-1.edf; "
            "tail -c +771 a.edf) > f) &")
    checks.shell(f"{feed} edfruns split f part; s=$?; kill %1 2> /dev/null; exit $s",
                 err=printed.line("part-1.edf", printed.UNWRITTEN), status=3)
    checks.same("the files", checks.names(), ["a.edf", "f", "part-1.edf"])
    checks.same("the other's file", checks.content("part-1.edf"), b"mine")


def a_file_that_changes(programs: Programs) -> None:
    """A named pipe that gives another file when it is read again: the run that was listed does not
    come next. Of `split` there are the files of those that did."""
    checks, data = programs.checks, FILES["R9"]
    cut, later, longer = data[:-20], small("+0", "+9"), small("+0", "+1", "+5")
    for name, second, count in (("cut", cut, 1), ("with another start", later, 1),
                                ("with a longer run", longer, 1), ("empty", b"", 0)):
        checks.begin(f"a file that is {name} when it is read again")
        checks.file("a.edf", data if second in (cut, b"") else small("+0", "+5"))
        checks.file("b.edf", second)
        os.mkfifo(checks.folder / "f")
        feed = "(cat a.edf > f; sleep 0.5; cat b.edf > f) &"
        made = runs.read_runs(checks.content("a.edf"))
        checks.shell(f"{feed} edfruns split f part; s=$?; kill %1 2> /dev/null; exit $s",
                     out="".join(split_told("part", made)[:count]), err=printed.changed("f"),
                     status=3)
        if second != later:     # its first start, its number and its sizes are the same
            for words in ("canonical f > out", "picture f > out"):
                checks.shell(f"{feed} edfruns {words}; s=$?; kill %1 2> /dev/null; exit $s",
                             err=printed.changed("f"), status=3)
        whole_files(checks, "part", made, count, "b.edf", "f", *["out"] * (second != later))


def a_thousand_runs(programs: Programs) -> None:
    """A thousand runs of a data record, whose numbers have four digits, taken back in two orders as
    if by chance."""
    checks, data = programs.checks, small(*(f"+{3 * nth}" for nth in range(1_000)))
    made = runs.read_runs(data)
    checks.begin("a thousand runs")
    checks.file("a.edf", data)
    checks.same("how many", (len(made), made[-1].line()),
                (1_000, line(1_000, 1, "02T22:49:57", "1")))
    checks.run("list", "a.edf", out=runs.lines(made))
    checks.run("split", "a.edf", "part", out=runs.split_lines("part", made))
    names = runs.split_names("part", made)
    checks.same("the first and the last", (names[0], names[-1]), ("part-0001.edf", "part-1000.edf"))
    checks.same("the files", checks.names(), sorted(["a.edf", *names]))
    checks.same("each file", [checks.content(name) for name in names],
                [run.to_bytes() for run in made])
    converted, chance = programs.converted("a.edf"), random.Random(1)
    for nth in range(2):
        chance.shuffle(names)
        programs.takes(f"order {nth + 1}", names + names[:100], converted)


def a_run_that_no_header_can_date(programs: Programs) -> None:
    """A file without a date goes on after 2084, where the two digits of a year name no year: the
    run is listed, and not written."""
    checks = programs.checks
    data = small("+0", "+15", startdate="31.12.84", starttime="23.59.50",
                 recording="Startdate X N1 T3 REC5")
    checks.begin("a run after 2084 in a file without a date")
    checks.file("a.edf", data)
    checks.run("list", "a.edf", out=OVER_2084)
    checks.run("split", "a.edf", "part", err=printed.undated(2), status=1)
    checks.same("the files", checks.names(), ["a.edf"])


def digits_of_the_names(programs: Programs) -> None:
    checks = programs.checks
    for count, first in ((9, "part-1.edf"), (10, "part-01.edf"), (99, "part-01.edf"),
                         (100, "part-001.edf")):
        made = runs.read_runs(data := small(*(f"+{2 * nth}" for nth in range(count))))
        checks.begin(f"{count} runs")
        checks.file("a.edf", data)
        checks.run("split", "a.edf", "part", out=runs.split_lines("part", made))
        checks.same("the first", checks.names()[1], first)
        checks.same("the files", checks.names(), sorted(["a.edf", *runs.split_names("part", made)]))


def a_night_with_three_gaps(programs: Programs) -> None:
    checks = programs.checks
    checks.begin("a night with three gaps")
    data = gapped.NIGHT.whole(checks.folder / "night.edf").read_bytes()
    made = runs.read_runs(data)
    listed = (line(1, 9_121, "02T22:30:00", "9121", "1200") +
              line(2, 9_135, "03T01:22:01", "9135", "600.25") +
              line(3, 7_070, "03T04:04:16.25", "7070", "7.75") +
              line(4, 3_474, "03T06:02:14", "3474"))
    checks.same("the model's lines", runs.lines(made), listed)
    converted = programs.converted("night.edf")
    checks.file("export.edf", converted)
    for name in ("night.edf", "export.edf"):
        checks.run("list", name, out=listed)
        checks.run("canonical", name, out=converted)
        checks.run("split", name, f"{name}-run", out=runs.split_lines(f"{name}-run", made))
        for run, part in zip(made, runs.split_names(f"{name}-run", made)):
            checks.same(part, checks.content(part), run.to_bytes())
    one, two, three, four = runs.split_names("night.edf-run", made)
    for order in ([one, two, three, four], [four, three, two, one], [three, one, four, two],
                  [two, two, four, one, two, three, one], [one, "night.edf", three],
                  [four, two, "export.edf", one, three]):
        programs.takes(" ".join(order), order, converted)


def main() -> None:
    given = arguments.Parser(__doc__, arguments.BOTH).read()
    with measure.scratch() as name:
        checks = Checks(given.edfruns, Path(name), "edfruns")
        programs = Programs(checks, measure.Program(given.program, checks.folder))
        for case in (each_case, where_annotations_happened, too_many_in_a_data_record,
                     refused_files, words_that_ask_for_nothing, trouble, files_that_are_there,
                     a_file_that_changes, a_run_that_no_header_can_date, digits_of_the_names,
                     a_thousand_runs, a_night_with_three_gaps):
            case(programs)
    checks.end()


if __name__ == "__main__":
    main()
