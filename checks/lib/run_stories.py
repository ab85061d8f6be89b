"""The stories of `edfruns` in the stored run edfstore_stored_run: its files, its commands, and what
each must write.

All of that is spelled by hand; lines and files are compared with the plain model of runs as well.
The files are of Q's recording, which begins on 2002-03-02 at 23:59:50, with data records of a
second, unless it is said otherwise. A data record is its number, the first sample, and its
annotations block.
"""
from dataclasses import replace

from . import arguments, compared, faults, filled, model, named, printed, runs, stories
from .by_hand import MARCH_3
from .edf import Header, Signal, annotations_signal, fragment, keeping, tal

FIRST, NEXT, LAST = "2002-03-02T23:59:50", "2002-03-03T00:00:00", "2002-03-03T01:00:00"
THOUSAND = 1_000
CUT = faults.cut_record(3)


# Files

def night(samples: int, *records, **fields) -> bytes:
    """EDF+D, unless another is named, with so many annotations samples."""
    header = Header((Signal(), annotations_signal(samples)),
                    count=fields.pop("count", str(len(records))), **fields)
    return fragment(header, [(bytes([number, 0, 1, 0]), block) for number, block in records])


def run(samples: int, *records, **fields) -> bytes:
    """The file of a run."""
    return night(samples, *records, reserved="EDF+C", **fields)


def at_midnight(starttime: str = "00.00.00") -> dict:
    """The fields of a start on the next day."""
    return MARCH_3 | {"starttime": starttime}


SNORE = tal("+1.5", "Snore")
LOOSE = [(1, keeping("+0.25")), (2, keeping("+1.25") + SNORE), (3, keeping("+2.25"))]


def two_gaps() -> bytes:
    """Gaps of 7.5 seconds and of nearly an hour."""
    late = tal("+3", "Early") + tal("+20.5", "Late", duration="0.5")
    return night(18, *LOOSE, (4, keeping("+10.75")), (5, keeping("+11.75") + late),
                 (6, keeping("+3610")))


def second_run() -> bytes:
    """Two annotations lie outside of their data record: before the file's start, after its end."""
    late = tal("-7", "Early") + tal("+10.5", "Late", duration="0.5")
    return run(17, (4, keeping("+0.75")), (5, keeping("+1.75") + late), **at_midnight())


BEFORE_AND_FIRST = keeping("+0.5") + tal("-3", "Before") + tal("+0.5", "First")
LATER = keeping("+1.5") + tal("+2.5", "End") + tal("+11.25", "Later")


SHORT_TO_GAP = tal("+2.499999999", "Short") + tal("+2.5", "End") + tal("+5", "Gap")


def strays() -> bytes:
    """A gap of 8 seconds, and annotations outside of their data records: before the first run, in
    it and a nanosecond before its end, at its end, in the gap, at the start of the second run, in
    it, at its end, and long after it."""
    return night(24, (1, BEFORE_AND_FIRST), (2, LATER),
                 (3, keeping("+10.5") + tal("+5", "Gap") + tal("+2.499999999", "Short")),
                 (4, keeping("+11.5") + tal("+10.5", "Moved") + tal("+12.5", "Past") +
                  tal("+99", "Far")))


def of_strays() -> dict:
    """The files of their two runs, as they are and by onset."""
    gap = tal("-5", "Gap") + tal("-7.500000001", "Short")
    far = tal("+2.5", "Past") + tal("+89", "Far")
    moved = tal("+0.5", "Moved")
    return {
        "first_strays.edf": run(16, (1, BEFORE_AND_FIRST), (2, LATER)),
        "second_strays.edf": run(20, (3, keeping("+0.5") + gap), (4, keeping("+1.5") + moved + far),
                                 **at_midnight()),
        "first_by_onset.edf": run(23, (1, BEFORE_AND_FIRST),
                                  (2, keeping("+1.5") + SHORT_TO_GAP)),
        "second_by_onset.edf": run(16, (3, keeping("+0.5") + moved + tal("+1.25", "Later")),
                                   (4, keeping("+1.5") + far), **at_midnight()),
        "strays_by_onset.edf": night(23, (1, BEFORE_AND_FIRST), (2, keeping("+1.5") + SHORT_TO_GAP),
                                     (3, keeping("+10.5") + tal("+10.5", "Moved") +
                                      tal("+11.25", "Later")),
                                     (4, keeping("+11.5") + tal("+12.5", "Past") +
                                      tal("+99", "Far"))),
    }


def ties() -> dict:
    """Annotations of one onset, of which two are the same, and one at the end of a data record, in
    three orders and spreads; and in order, with each where its onset is."""
    none = [tal("+0.5", text) for text in ("B", "a", "a", "é")]
    lengths = [tal("+0.5", "z", duration="0"), tal("+0.5", "B", duration="0.000000001"),
               tal("+0.5", "B", duration="2"), tal("+0.5", "a", duration="2")]
    end = tal("+1", "End")
    first = b"".join(none + lengths)
    last = b"".join(reversed(none + lengths))
    at = keeping("+0"), keeping("+1"), keeping("+5")
    return {
        "ties.edf": night(60, (1, at[0] + end + first), (2, at[1]), (3, at[2])),
        "turned.edf": night(60, (1, at[0]), (2, at[1] + last), (3, at[2] + end)),
        "joined.edf": night(60, (1, at[0] + tal("+0.5", "é", "a", "B", "a")),
                            (2, at[1] + end + b"".join(lengths[2:])),
                            (3, at[2] + b"".join(lengths[:2]))),
        "ties_by_onset.edf": night(44, (1, at[0] + first), (2, at[1] + end), (3, at[2])),
    }


def crowded(count: int) -> bytes:
    """Two data records without a gap, each of which has so many annotations, all with the onset of
    the first."""
    lists = [tal("+0", *(text * count)) for text in "ab"]
    return night(5_008, (1, keeping("+0") + lists[0]), (2, keeping("+1") + lists[1]))


def full_by_onset() -> bytes:
    """The same, 5,000 in each, by onset: all in the first, each in a list of its own."""
    return night(30_003, (1, keeping("+0") + 5_000 * tal("+0", "a") + 5_000 * tal("+0", "b")),
                 (2, keeping("+1")))


# Of Q's signal the digital value -151 is nearest to 0; of the oximeter's, -32768 stands for 30.
FLAT, THIRTY = b"\x69\xff", b"\x00\x80"
MARKED = "Startdate 02-MAR-2002 N1 T3 REC5 filled"
OXIMETER = Signal("Pulse", "", "bpm", "30", "230", "-32768", "32767", "", "4", "")


def with_a_gap() -> bytes:
    """A second that begins 1.4 s after the first one ends, with an annotation in it and one in the
    gap before it."""
    notes = tal("+2.6", "Late") + tal("+1.7", "Gap", duration="0.25")
    return night(24, (1, keeping("+0")), (2, keeping("+2.4") + notes))


def without_a_gap() -> bytes:
    """It filled: the second one starts at 2 s."""
    header = Header((Signal(), annotations_signal(20)), reserved="EDF+C", count="3",
                    recording=MARKED)
    gap = tal("+1", "Not recorded", duration="1") + tal("+1.7", "Gap", duration="0.25")
    return fragment(header, [(bytes([1, 0, 1, 0]), keeping("+0")), (2 * FLAT, keeping("+1") + gap),
                             (bytes([2, 0, 1, 0]), keeping("+2") + tal("+2.2", "Late"))])


def oximeter() -> bytes:
    """Data records of 2 s with a gap of 3 s."""
    header = Header((OXIMETER, annotations_signal(10)), count="2", duration="2")
    return fragment(header, [(bytes(range(8)), keeping("+0")),
                             (bytes(range(8, 16)), keeping("+5"))])


def oximeter_filled() -> bytes:
    """Each of them divided into two."""
    header = Header((replace(OXIMETER, samples="2"), annotations_signal(12)), reserved="EDF+C",
                    count="7", recording=MARKED)
    records = [(bytes(range(4)), keeping("+0")), (bytes(range(4, 8)), keeping("+1")),
               (2 * THIRTY, keeping("+2") + tal("+2", "Not recorded", duration="3")),
               (2 * THIRTY, keeping("+3")), (2 * THIRTY, keeping("+4")),
               (bytes(range(8, 12)), keeping("+5")), (bytes(range(12, 16)), keeping("+6"))]
    return fragment(header, records)


def cut_of_two() -> bytes:
    """The data records of two.edf from the second one to the fourth."""
    return night(10, (2, keeping("+0.25") + tal("+0.5", "Snore")), (3, keeping("+1.25")),
                 (4, keeping("+9.75")), starttime="23.59.51")


def thousand() -> bytes:
    """Data records from midnight on, each a second after the end of the one before."""
    return night(4, *((7, keeping(f"+{2 * nth}")) for nth in range(THOUSAND)), **at_midnight())


def files() -> dict:
    """The files by their names."""
    start = (1, keeping("+0"))
    cut = night(18, start, (2, keeping("+2")), count="3")
    tenths = [(nth, keeping(onset)) for nth, onset in enumerate(("+0", "+0.1", "+0.2", "+0.3"), 1)]
    loose = [(1, keeping("+0.250")), (2, keeping("+01.25") + tal("+1.50", "Snore")), LOOSE[2]]
    there = {name: named.Q for name in (
        "third-3.edf", "early-01.edf", "wide-00000001.edf", "spared-4.edf", "spared-02.edf",
        "spared-000000001.edf", "spared1.edf")}
    return of_strays() | ties() | there | {
        "two.edf": two_gaps(), "strays.edf": strays(), "thousand.edf": thousand(),
        "crowded.edf": crowded(5_001), "full.edf": crowded(5_000), "cut_night.edf": cut,
        "full_by_onset.edf": full_by_onset(),
        "tenths.edf": night(4, *tenths, duration="0.1"),
        "one.edf": night(18, start, (2, keeping("+1"))),
        "nanosecond.edf": night(18, start, (2, keeping("+1.000000001"))),
        "day.edf": night(18, start, (2, keeping("+86401"))),
        "overlap.edf": night(18, start, (2, keeping("+0.5"))),
        "loose.edf": run(18, *loose, count="-1"),
        "canonical_loose.edf": night(10, *LOOSE),
        "canonical_one.edf": night(3, start, (2, keeping("+1"))),
        "first_run.edf": run(10, *LOOSE),
        "second_run.edf": second_run(),
        "third_run.edf": run(3, (6, keeping("+0")), **at_midnight("01.00.00")),
        "gap.edf": with_a_gap(), "gap_filled.edf": without_a_gap(),
        "oximeter.edf": oximeter(), "oximeter_filled.edf": oximeter_filled(),
        "cut_of_two.edf": cut_of_two(),
        "full_field.edf": night(18, start, (2, keeping("+3")),
                                recording="Startdate 02-MAR-2002 N1 T3 REC5 ".ljust(74, "x")),
        "first_run.svg": drawn("Patient P7"),
        "first_run_without_code.svg": drawn("Patient code left out"),
    }


def drawn(patient: str) -> bytes:
    """The picture of first_run.edf, as it was looked at, with such words for the patient."""
    picture = (arguments.TOP / "checks/data/first_run.svg").read_text()
    return picture.replace("Patient P7", patient).encode()


# Lines

def made_of(name: str, line: str) -> str:
    return f"{name} {line}"


ONE = printed.run(1, 2, FIRST, "2")
TENTHS = printed.run(1, 4, FIRST, "0.4")
DAY = printed.run(1, 1, FIRST, "1", "86400"), printed.run(2, 1, "2002-03-03T23:59:51", "1")
NANOSECOND = (printed.run(1, 1, FIRST, "1", "0.000000001"),
              printed.run(2, 1, "2002-03-02T23:59:51.000000001", "1"))
TWO = (printed.run(1, 3, f"{FIRST}.25", "3", "7.5"),
       printed.run(2, 2, f"{NEXT}.75", "2", "3597.25"), printed.run(3, 1, LAST, "1"))
TWO_AS_THEY_ARE = [printed.counted(line, *counts)
                   for line, counts in zip(TWO, ((1, 0), (2, 2), (0, 0)))]
STRAYS = printed.run(1, 2, f"{FIRST}.5", "2", "8"), printed.run(2, 2, f"{NEXT}.5", "2")


def thousand_lines() -> list:
    """The lines of `list`."""
    firsts = (f"2002-03-03T00:{2 * nth // 60:02}:{2 * nth % 60:02}" for nth in range(THOUSAND))
    return [printed.run(number, 1, first, "1", "1" if number < THOUSAND else "")
            for number, first in enumerate(firsts, 1)]


# Stories

class RunScript(stories.OverFiles):
    """Commands of `edfruns`."""
    program = "edfruns"

    def refused(self, words: str, name: str, fault: str) -> None:
        """A command over one file, which is refused."""
        self.writes(words, error=printed.fault(name, fault), status=stories.status_of([fault]))
        if name in self.files:
            self.same(model.refusal(self.files[name]), fault)

    def misspelled(self, words: str, why: str, usage: str) -> None:
        """Words that ask for nothing."""
        self.writes(words, error=printed.usage(why, f"edfruns {usage}"), status=2)

    def listed(self, name: str, *lines) -> None:
        self.writes(f"list {name}", *lines)
        self.same("".join(lines), runs.lines(runs.read_runs(self.files[name])))

    def by_onset(self, words: str, given: str, name: str, outside: int) -> None:
        """The canonical file by onset."""
        self.writes(words, error=printed.outside(given, outside), name=name)
        self.same((self.files[name], outside), runs.canonical_by_onset(self.files[given]))

    def makes(self, words: str, made: filled.Made, told: str, name: str = "") -> None:
        """A command that writes this file, or none, and what it prints; it is the model's."""
        self.writes(words, error=told, status=made.status, name=name)
        self.same((self.files[name] if name else b"", told), (made.out, made.err))

    def compares(self, one: str, other: str, *lines: str, error: str = "") -> None:
        """What the first file has of the second."""
        made = compared.compare(one, other, self.files[one], self.files[other])
        self.writes(f"compare {one} {other}", *lines, error=error, status=made.status)
        self.same(("".join(lines).encode(), error), (made.out, made.err))

    def split(self, given: str, prefix: str, lines) -> None:
        """The lines of `split`, before each of which stands the name of the file."""
        found = runs.read_runs(self.files[given])
        told = [made_of(name, line) for name, line in zip(runs.split_names(prefix, found), lines)]
        self.writes(f"split {given} {prefix}", *told)
        self.same("".join(told), runs.split_lines(prefix, found))


def listed(script: RunScript) -> None:
    script.title("a line for each run of a file, with the gap after it")
    script.listed("one.edf", ONE)
    script.listed("nanosecond.edf", *NANOSECOND)
    script.listed("day.edf", *DAY)
    script.listed("tenths.edf", TENTHS)
    script.listed("two.edf", *TWO)
    script.listed("thousand.edf", *thousand_lines())
    script.title("the runs of several files, each with its name, and those that are refused")
    ones, days = made_of("one.edf", ONE), [made_of("day.edf", line) for line in DAY]
    cut, unread = printed.fault("cut_night.edf", CUT), printed.fault("none.edf", stories.MISSING)
    script.writes("list one.edf tenths.edf", ones, made_of("tenths.edf", TENTHS))
    script.writes("list one.edf cut_night.edf none.edf day.edf", ones, *days, error=cut + unread,
                  status=3)
    script.writes("list cut_night.edf one.edf", ones, error=cut, status=1)


def written(script: RunScript) -> None:
    script.title("the canonical file")
    for name, expected in (("loose.edf", "canonical_loose.edf"), ("one.edf", "canonical_one.edf"),
                           ("two.edf", "two.edf")):
        script.writes(f"canonical {name}", name=expected)
        key, records = model.read(script.files[name])
        script.same(model.canonical(key, records), script.files[expected])
    script.title("the canonical file by onset, and how many annotations lie outside")
    script.by_onset("canonical --by-onset strays.edf", "strays.edf", "strays_by_onset.edf", 5)
    script.by_onset("canonical strays_by_onset.edf --by-onset", "strays_by_onset.edf",
                    "strays_by_onset.edf", 5)
    for name in ("ties.edf", "turned.edf", "joined.edf"):
        script.by_onset(f"canonical --by-onset {name}", name, "ties_by_onset.edf", 0)
    script.by_onset("canonical --by-onset loose.edf", "loose.edf", "canonical_loose.edf", 0)


def split(script: RunScript) -> None:
    script.title("a file for each run, and none is written over")
    script.split("two.edf", "night", TWO_AS_THEY_ARE)
    three = ("first_run.edf", "second_run.edf", "third_run.edf")
    for number, name in enumerate(three, 1):
        script.has(f"night-{number}.edf", name)
    script.writes("split two.edf night", error=printed.is_there("night-1.edf"), status=1)
    script.has("night-1.edf", "first_run.edf")
    script.title("annotations outside of their run, and each in the run of its onset")
    for given, prefix, counts, names in (
            ("strays.edf", "strays", ((4, 3), (5, 4)), ("first_strays.edf", "second_strays.edf")),
            ("strays_by_onset.edf", "onset", ((5, 3), (4, 2)),
             ("first_by_onset.edf", "second_by_onset.edf"))):
        script.split(given, prefix, [printed.counted(line, *count)
                                     for line, count in zip(STRAYS, counts)])
        for number, name in enumerate(names, 1):
            script.has(f"{prefix}-{number}.edf", name)
    script.title("names have as many digits as the last")
    script.split("thousand.edf", "n", [printed.counted(line, 0, 0) for line in thousand_lines()])
    script.title("the first file of an earlier split with other digits is found")
    for name in ("third-3.edf", "early-01.edf", "wide-00000001.edf"):
        script.writes(f"split two.edf {name.split('-')[0]}", error=printed.is_there(name), status=1)
    script.title("other files of the prefix are left alone")
    script.split("two.edf", "spared", TWO_AS_THEY_ARE)
    for name in ("spared-4.edf", "spared-02.edf", "spared-000000001.edf", "spared1.edf"):
        script.has(name, "q.edf")
    script.title("a data record has ten thousand annotations at most")
    script.by_onset("canonical --by-onset full.edf", "full.edf", "full_by_onset.edf", 0)
    script.writes("canonical crowded.edf --by-onset", error=printed.crowded(1), status=1)


def made_whole(script: RunScript) -> None:
    script.title("one file of the whole night, flat where nobody recorded")
    script.makes("fill gap.edf", filled.fill("gap.edf", script.files["gap.edf"]),
                 "gap.edf records=3 flat=1 gaps=1 closed=0 moved=0.4\n", name="gap_filled.edf")
    script.makes("fill oximeter.edf", filled.fill("oximeter.edf", script.files["oximeter.edf"]),
                 "oximeter.edf records=7 flat=3 gaps=1 closed=0 moved=0\n"
                 "signal 1 Pulse is flat at 30 bpm: 0 is outside its limits\n",
                 name="oximeter_filled.edf")
    script.title("a recording that has no filled file")
    for words, name, longest, moved, line in (
            ("day.edf --longest-gap 23.9", "day.edf", "23.9", "0.5",
             "has a gap of 86400 s from 2002-03-02T23:59:51: cut it first"),
            ("gap.edf --moved 0.3", "gap.edf", "24", "0.3",
             "has a data record that would move by 0.4 s, at 2002-03-02T23:59:52.4"),
            ("full_field.edf", "full_field.edf", "24", "0.5",
             "has no room for the word 'filled' in its recording field")):
        script.makes(f"fill {words}", filled.fill(name, script.files[name], longest, moved),
                     f"{name} {line}\n")


def of_a_time(script: RunScript) -> None:
    script.title("the data records of a time")
    for given, begin, end, name, line in (
            ("two.edf", "2002-03-02T23:59:52", "2002-03-03T00:00:01", "cut_of_two.edf", ""),
            ("two.edf", "2002-03-03T00:00:12.75", "2002-03-03T01:00", "",
             "two.edf has no data record of this time\n"),
            ("undated_into_2085.edf", "2085-01-01T00:00", "", "", printed.undated(1))):
        made = compared.cut(given, script.files[given], begin, end)
        words = f"cut {given} --from {begin}" + (f" --to {end}" if end else "")
        script.makes(words, made, line, name=name)


def compared_files(script: RunScript) -> None:
    script.title("what a night has of a card")
    second = "2002-03-02T23:59:51"
    script.compares("one.edf", "one.edf", f"known records=2 from={FIRST} to=2002-03-02T23:59:52\n")
    script.compares("one.edf", "nanosecond.edf", f"known records=1 from={FIRST} to={second}\n",
                    f"lacking records=1 from={second} to=2002-03-02T23:59:52\n",
                    f"overlaps records=1 from={second}.000000001 "
                    "to=2002-03-02T23:59:52.000000001\n")
    script.title("files that are not compared")
    script.compares("one.edf", "tenths.edf",
                    error="tenths.edf is of another recording than one.edf: the duration differs\n")
    script.compares("one.edf", "cut_night.edf", error=printed.fault("cut_night.edf", CUT))


def pictured(script: RunScript) -> None:
    script.title("a picture names the patient, or says that the code is left out")
    script.writes("picture first_run.edf", name="first_run.svg")
    script.writes("picture --without-code first_run.edf", name="first_run_without_code.svg")


def refused(script: RunScript) -> None:
    script.title("a file with a fault is refused, and nothing is written or made of it")
    for words in ("list cut_night.edf", "split cut_night.edf cut", "canonical cut_night.edf",
                  "canonical --by-onset cut_night.edf", "picture cut_night.edf",
                  "picture --without-code cut_night.edf"):
        script.refused(words, "cut_night.edf", CUT)
    for words in ("split overlap.edf cut", "canonical --by-onset overlap.edf"):
        script.refused(words, "overlap.edf", faults.order(2))
    script.refused("canonical --by-onset empty.edf", "empty.edf", faults.cut())
    script.refused("picture none.edf", "none.edf", stories.MISSING)


NO_INSTANTS = ("2002-03-02", "2002-03-02T23", "2002-03-02T23:5", "2002-03-02T24:00",
               "2002-03-02T23:60", "2002-03-02T23:59:60", "2002-03-02T23:59:5",
               "2002-03-02T23:59:50.", "2002-03-02T23:59:50.0000000000", "2002-03-02T23:59:50,5",
               "2002-03-02T23:59.5", "2002-03-02T23:59:50Z", "2002-03-02t23:59", "202-03-02T23:59",
               "2002-3-02T23:59", "2002-13-02T23:59", "2002-02-29T23:59", "2100-02-29T23:59",
               "1984-12-31T23:59", "2185-01-01T00:00", "+2002-03-02T23:59")


NO_WRITE = "'write' is gone: 'edfruns split FILE PREFIX' writes each run to a file"
NO_SHIFT = "--tolerance and --shift are gone: 'edfruns fill FILE' makes one file, also where a " \
    "clock drifts"
NO_ONSET = "--by-onset is of 'edfruns canonical' alone: split the file that it writes"
GONE = (("write one.edf 1", NO_WRITE), ("help write", NO_WRITE),
        ("list --tolerance 1 one.edf", NO_SHIFT), ("split --shift=1 one.edf gone", NO_SHIFT),
        ("split --by-onset one.edf gone", NO_ONSET))


def misspelled(script: RunScript) -> None:
    script.title("words that ask for nothing")
    twice = "FILE is read twice, which standard input can't be: write it to a file first"
    script.misspelled("split - night", twice, "split <FILE> <PREFIX>")
    script.misspelled("canonical --by-onset -", twice, "canonical [OPTIONS] <FILE>")
    script.misspelled("picture -", twice, "picture [OPTIONS] <FILE>")
    script.misspelled("fill gap.edf --moved 1h",
                      "--longest-gap wants hours and --moved seconds, as 24 or 0.5",
                      "fill [OPTIONS] <FILE>")
    instants = "--from and --to want instants such as 2023-11-05T01:30:00.25, the first before the " \
        "second"
    for words in ("", f"--from {LAST} --to {FIRST}", f"--from {FIRST} --to {FIRST}",
                  *(f"--from {word}" for word in NO_INSTANTS)):
        script.misspelled(f"cut two.edf {words}".rstrip(), instants, "cut [OPTIONS] <FILE>")
    script.misspelled("compare one.edf -", "FILE and OTHER can't be standard input: write it to a "
                      "file first", "compare <FILE> <OTHER>")
    script.misspelled("list one.edf -", "FILE can't be standard input: write it to a file first",
                      "list <FILE>...")
    script.title("words that earlier versions had, and what to do instead")
    for words, why in GONE:
        script.misspelled(words, why, "<COMMAND>")


def play(script: stories.Script) -> None:
    """All stories of `edfruns`."""
    made = RunScript(script)
    for one in (listed, written, split, made_whole, of_a_time, compared_files, pictured, refused,
                misspelled):
        one(made)
