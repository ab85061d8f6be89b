"""The stories of the stored run edfstore_stored_run: commands over small named files, and what each
must write.

What they must write is worked out by hand; each answer, list and export is compared with the plain
model as well. After a file's name stands its answer: the number of new data records and of known
ones, or a refusal.
"""
from itertools import permutations

from . import faults, model, named, printed
from .by_hand import DIFFERS, OVERLAPS

MOST = model.MOST_RECORDS       # data records of a recording
NIGHT = "night.db"
Q_START, OF_2102 = "2002-03-02T23:59:50", "2102-03-02T23:59:50"
MISSING = faults.read()
# Files that each store refuses
CUT = f"cut.edf {faults.cut_record(1)}"
CUT_SECOND = f"cut_second.edf {faults.cut_record(2)}"
CUT_THIRD = f"cut_third.edf {faults.cut_record(3)}"
PAST = f"past.edf {faults.window(2)}"
NANOSECOND_PAST = f"nanosecond_past.edf {faults.window(2)}"
SPOILT = f"spoilt.edf {faults.tal(1, 5)}"
TRAILING = f"trailing.edf {faults.trailing()}"
LATE = f"late.edf {faults.first_onset(1)}"
UNDATED = f"undated_of_2102.edf {faults.startdate()}"
NEXT_DAY = f"next_day.edf {faults.dates_differ()}"
DIGITS = f"digits_of_2102.edf {faults.dates_differ()}"
V_SPOILT = f"v_spoilt.edf {faults.tal(1, 18)}"
V_UNTIMED = f"v_untimed.edf {faults.not_timed(1)}"


class Other(Exception):
    """The model answers otherwise than what is written by hand."""


def is_refusal(answer: str) -> bool:
    return answer.startswith("E")


def answered(answer: str) -> str:
    """What `take` answers to a file."""
    return printed.answer(answer if is_refusal(answer) else tuple(map(int, answer.split())))


def at_one(second: int) -> str:
    """A start in K, which begins at one o'clock."""
    return f"2002-03-03T01:00:0{second}"


def listed(place: int, records: int, first: str, *codes: str) -> str:
    """A line of `list`, of Q's recording unless other codes are given."""
    return printed.recording(place, records, first, *(codes or ("P7", "N1"))).rstrip("\n")


# What the stored run writes beside the lines of the program

def ended(status: int) -> str:
    """The last line of a command."""
    return f"status {status}"


def just(name: str, size: int, is_that: bool = True) -> str:
    """The line for standard output that has just the bytes of a file, or not."""
    return f"{'just' if is_that else 'not'} {name}, {size} bytes"


def on_error(line: str) -> str:
    """A line of standard error."""
    return f"err: {line}".rstrip("\n")


def status_of(answers) -> int:
    """How `take` ends."""
    if MISSING in answers:
        return 3
    return 1 if any(map(is_refusal, answers)) else 0


class Script:
    """The lines of `orders`, each with the lines that must be written after it, and the model's
    store beside them."""

    def __init__(self, files: dict):
        self.files, self.store, self.lines = files, model.Store(), []
        self.begin, self.name = "", NIGHT

    def line(self, order: str, *lines) -> None:
        self.lines.append((order, lines))

    def same(self, got, expected) -> None:
        if got != expected:
            raise Other(f"{self.lines[-1][0]}: {got!r:.200}, and by hand {expected!r:.200}")

    def title(self, text: str) -> None:
        self.line(f"# {text}")

    def empty(self, cap: int = MOST) -> None:
        self.store, self.begin, self.name = model.Store(cap), "", NIGHT
        self.line(f"store {cap}")

    def over_files(self, name: str, cap: int = MOST) -> None:
        """The commands that follow are runs of their own over the store of this name, which is a
        file and holds nothing, unless `hold` says what."""
        self.store, self.begin, self.name = model.Store(cap), f"files {cap} ", name

    def hold(self, name: str) -> None:
        """The store has the data records of a file."""
        self.store.take(self.files[name])

    def command(self, words: str, *lines) -> None:
        self.line(f"{self.begin}{words}", *lines)

    def is_refused(self, on_errors: str) -> None:
        """The store can't be opened."""
        self.command(f"list {self.name}", on_error(on_errors), ended(3))

    def take(self, *given) -> None:
        """Files in turn, each with its answer after its name."""
        names, answers = zip(*(text.split(" ", 1) for text in given))
        lines = [f"{name} {answered(answer)}" for name, answer in zip(names, answers)]
        self.command(f"take {self.name} {' '.join(names)}", *lines, ended(status_of(answers)))
        self.same([f"{name} {self.answer(name)}" for name in names], lines)

    def answer(self, name: str) -> str:
        return self.store.take(self.files[name]) if name in self.files else printed.refused(MISSING)

    def list(self, *lines) -> None:
        self.command(f"list {self.name}", *lines, ended(0))
        self.same(self.store.lines().splitlines(), list(lines))

    def export(self, *names) -> None:
        """The recordings at all places, each the file of this name; there is none at the next
        place."""
        for place, name in enumerate(names, 1):
            data = self.files[name]
            self.command(f"export {self.name} {place} = {name}", just(name, len(data)), ended(0))
            self.same(self.store.export(place), data)
        after = len(names) + 1
        self.command(f"export {self.name} {after}", on_error(printed.no_recording(after)),
                     ended(1))
        self.same(len(self.store.held), len(names))

    def over(self, *given, cap: int = MOST, lists=None, exports=None) -> None:
        """An empty store is given files in turn, each with its answer; what it lists and exports
        then."""
        self.empty(cap)
        self.take(*given)
        if lists is not None:
            self.list(*lists)
        if exports is not None:
            self.export(*exports)

    def refused(self, *given, before: str = "q.edf") -> None:
        """Files that are refused by a store of another, which it has then alone."""
        self.over(f"{before} 1 0", *given, exports=[before])

    def convert(self, name: str, expected: str) -> None:
        """A file is written as the file `expected`, or refused by the refusal `expected`."""
        self.empty()
        if not is_refusal(expected):
            data = self.files[expected]
            self.line(f"convert {name} = {expected}", just(expected, len(data)), ended(0))
            self.same((printed.is_accepted(self.answer(name)), self.store.export(1)), (True, data))
        else:
            self.line(f"convert {name}", on_error(printed.fault(name, expected)),
                      ended(status_of([expected])))
            self.same(self.answer(name), printed.refused(expected))


class OverFiles:
    """Commands of a program that knows no store, over the files of a script."""
    program = ""

    def __init__(self, script: Script):
        self.script, self.files = script, script.files

    def title(self, text: str) -> None:
        self.script.title(text)

    def same(self, got, expected) -> None:
        self.script.same(got, expected)

    def writes(self, words: str, *lines, error: str = "", status: int = 0, name: str = "") -> None:
        """A command with what it writes: lines or the bytes of a file, and to standard error."""
        out = [just(name, len(self.files[name]))] if name else "".join(lines).splitlines()
        err = on_error(error).splitlines() if error else []
        self.script.line(f"{self.program} {words}{f' = {name}' if name else ''}", *out, *err,
                         ended(status))

    def has(self, name: str, expected: str) -> None:
        """A file that was made or is there has the bytes of another."""
        self.script.line(f"cat {name} = {expected}", just(expected, len(self.files[expected])))


def that_fit(script: Script) -> None:
    script.title("files that fit are accepted with what they add, and exported once and by their "
                 "starts")
    script.over("q.edf 1 0", lists=[listed(1, 1, Q_START)], exports=["q.edf"])
    script.over("q.edf 1 0", "q.edf 0 1", exports=["q.edf"])
    script.over("p5.edf 1 0", "q.edf 1 0", exports=["q_and_p5.edf"])
    script.over("p5.edf 1 0", "q.edf 1 0", "r9.edf 1 1", exports=["q_r9_and_p5.edf"])
    script.over("q.edf 1 0", "after.edf 1 0", "before.edf 1 0", exports=["before_q_and_after.edf"])
    script.over("n1.edf 1 0", "n2.edf 1 0", "k.edf 1 2", "n3.edf 0 1", exports=["canonical_k.edf"])
    script.over("u.edf 2 0", exports=["canonical_u.edf"])
    script.over("spare.edf 1 0", exports=["q.edf"])
    script.title("a recording without a date stands beside a dated one, in whatever order they "
                 "came")
    both = (listed(1, 2, Q_START), listed(2, 1, Q_START))
    script.over("q.edf 1 0", "undated.edf 1 0", exports=["q.edf", "undated.edf"])
    script.over("q.edf 1 0", "after.edf 1 0", "undated.edf 1 0", lists=both)
    script.over("undated.edf 1 0", "q.edf 1 0", "after.edf 1 0", lists=both)
    script.over("q_and_p5.edf 2 0", "undated.edf 1 0", "last.edf 1 0", "u.edf 2 0")
    script.title("onsets are told and exported to the nanosecond and up to the end of the window")
    script.over("u.edf 2 0", "fraction.edf 1 0",
                lists=[listed(1, 1, f"{Q_START}.999999999"),
                       listed(2, 2, "2002-03-02T22:00:00", "X", "X")],
                exports=["fraction.edf", "canonical_u.edf"])
    script.over(PAST, "last.edf 1 0", exports=["last.edf"])
    script.title("a thousand data records are exported as they came")
    script.over("long.edf 1000 0", exports=["long.edf"])


def of_bad_form(script: Script) -> None:
    script.title("a file with a fault of form is refused with its place and leaves nothing")
    for given in (f"empty.edf {faults.cut()}", CUT, TRAILING, SPOILT, LATE, PAST, CUT_SECOND,
                  CUT_THIRD, f"no_such_hour.edf {faults.starttime()}"):
        script.over(given, lists=[], exports=[])
    script.over(CUT, CUT_SECOND, PAST, lists=[])
    script.title("beside other files it leaves them alone")
    script.over(CUT, TRAILING, SPOILT, LATE, "q.edf 1 0", exports=["q.edf"])
    script.refused(SPOILT)
    script.refused(TRAILING)
    script.refused(CUT)
    script.title("a header that promises more than there is is refused")
    script.refused(f"count_2.edf {faults.cut_record(2)}",
                   f"count_99999999.edf {faults.cut_record(2)}",
                   f"samples_2097152.edf {faults.cut_record(1)}",
                   f"signals_3.edf {faults.header_bytes()}",
                   f"signals_640.edf {faults.cut_signals()}", f"signals_641.edf {faults.signals()}",
                   f"two_large_signals.edf {faults.size()}")


def that_clash(script: Script) -> None:
    script.title("a file that clashes is refused with the starts, each time that it comes")
    script.refused(f"half.edf {OVERLAPS}")
    script.refused(f"half_alone.edf {OVERLAPS}")
    script.over("q.edf 1 0", "after.edf 1 0", f"half_alone.edf {OVERLAPS}")
    script.refused(f"other.edf {DIFFERS}")
    script.refused(f"half.edf {OVERLAPS}", "q.edf 0 1", f"half.edf {OVERLAPS}")
    script.title("a file that clashes and is cut behind that is refused for the cut")
    script.refused(CUT_THIRD)
    script.title("the commands of a night, one after another")
    script.empty()
    script.take("q.edf 1 0", f"half.edf {OVERLAPS}")
    script.list(listed(1, 1, Q_START))
    script.export("q.edf")


def of_a_full_recording(script: Script) -> None:
    script.title("a full recording refuses what it has no room for, takes what it has, and is "
                 "exported as it was")
    script.over("n1.edf 1 0", f"k.edf {faults.full(1, 2, 2)}", cap=2,
                lists=[listed(1, 1, at_one(0))], exports=["n1.edf"])
    script.over("n1.edf 1 0", "n2.edf 1 0", f"n3.edf {faults.full(2, 1, 2)}", "n1.edf 0 1",
                cap=2, exports=["n1_and_n2.edf"])
    script.over("n3.edf 1 0", "n2.edf 1 0", f"n1.edf {faults.full(2, 1, 2)}", "n3.edf 0 1",
                cap=2, lists=[listed(1, 2, at_one(1))], exports=["n2_and_n3.edf"])
    script.title("a full recording tells other samples at a start before that it is full")
    script.over("n1.edf 1 0", "n3.edf 1 0", f"other_third.edf {faults.differs(at_one(2))}", cap=2,
                lists=[listed(1, 2, at_one(0))])


def that_are_missing(script: Script) -> None:
    script.title("a missing file is a failed read, and the next is taken")
    script.over(f"missing.edf {MISSING}", "q.edf 1 0", exports=["q.edf"])
    script.over(CUT, f"missing.edf {MISSING}", "q.edf 1 0")
    script.title("an empty store lists and exports nothing")
    script.empty()
    script.list()
    script.export()


def converted(script: Script) -> None:
    script.title("a file is converted to its canonical form")
    for name, expected in (("q.edf", "q.edf"), ("spare.edf", "q.edf"), ("u.edf", "canonical_u.edf"),
                           ("k.edf", "canonical_k.edf"), ("q_and_p5.edf", "q_and_p5.edf"),
                           ("of_2102.edf", "of_2102.edf"), ("uncounted_k.edf", "canonical_k.edf"),
                           ("v.edf", "canonical_v.edf")):
        script.convert(name, expected)
    script.title("or refused, and nothing of it is written")
    for name, fault in (("missing.edf", MISSING), ("cut.edf", faults.cut_record(1)),
                        ("trailing.edf", faults.trailing()), ("empty.edf", faults.cut()),
                        ("no_such_hour.edf", faults.starttime()),
                        ("digits_of_2102.edf", faults.dates_differ()),
                        ("undated_of_2102.edf", faults.startdate()),
                        ("without_time.edf", faults.starttime())):
        script.convert(name, fault)


def new_of(names) -> list:
    """N1, N2, N3 and K in some order, each with its answer: how many of its seconds did not come
    before, and how many did."""
    seconds = {"n1.edf": {1}, "n2.edf": {2}, "n3.edf": {3}, "k.edf": {1, 2, 3}}
    seen, given = set(), []
    for name in names:
        given.append(f"{name} {len(seconds[name] - seen)} {len(seconds[name] & seen)}")
        seen |= seconds[name]
    return given


def in_all_orders(script: Script) -> None:
    script.title("four files end alike in each of their orders, and when they are sent again")
    for names in permutations(("n1.edf", "n2.edf", "n3.edf", "k.edf")):
        script.over(*new_of(names), exports=["canonical_k.edf"])
        script.take(*(f"{name} {'0 3' if name == 'k.edf' else '0 1'}" for name in names))
        script.export("canonical_k.edf")
    script.title("three files of a second each end as the file of all three")
    script.over("n1.edf 1 0", "n2.edf 1 0", "n3.edf 1 0", exports=["canonical_k.edf"])
    script.over("k.edf 3 0", exports=["canonical_k.edf"])
    script.title("a list with a conflict and a refusal, and the same night cut anew, export the "
                 "same file")
    script.over("n3.edf 1 0", f"other_third.edf {faults.differs(at_one(2))}", CUT, "n1.edf 1 0",
                "n2.edf 1 0", exports=["canonical_k.edf"])
    script.over("k.edf 3 0", "n2.edf 0 1", exports=["canonical_k.edf"])


def sent_again(script: Script) -> None:
    script.title("an exported file that an empty store takes is exported alike")
    for name, count in (("q_and_p5", 2), ("q_r9_and_p5", 3), ("before_q_and_after", 3),
                        ("canonical_k", 3), ("canonical_u", 2), ("canonical_v", 1), ("n1", 1),
                        ("n1_and_n2", 2), ("n2_and_n3", 2), ("undated", 1), ("fraction", 1),
                        ("last", 1), ("of_2102", 1), ("leap_day", 1), ("last_nanosecond", 1),
                        ("into_2085", 2), ("undated_end_of_2084", 1), ("q_and_2102", 2),
                        ("first_of_2085", 1), ("end_and_first", 2)):
        script.over(f"{name}.edf {count} 0", exports=[f"{name}.edf"])
    script.title("one without a date goes on after 2084 then too")
    script.over("undated_spelled_otherwise.edf 2 0", exports=["undated_into_2085.edf"])
    script.over("undated_into_2085.edf 2 0", "undated_spelled_otherwise.edf 0 2",
                exports=["undated_into_2085.edf"])
    script.title("two files without a date, of which the second goes on after 2084, are exported "
                 "as one, which an empty store takes whole and exports alike")
    script.over("undated_evening.edf 2 0", "undated_new_year.edf 3 0",
                exports=["undated_night.edf"])
    script.over("undated_night.edf 5 0", "undated_new_year.edf 0 3",
                lists=[listed(1, 5, "2084-12-31T23:59:57")],
                exports=["undated_night.edf"])


def of_other_years(script: Script) -> None:
    last_nanosecond = "12-31T23:59:59.999999999"
    script.title("files of all years to 2184 are taken and listed")
    script.over("of_2102.edf 1 0", "of_2102.edf 0 1", lists=[listed(1, 1, OF_2102)],
                exports=["of_2102.edf"])
    script.over("first_of_2085.edf 1 0", "end_of_2084.edf 1 0", "first_of_2085.edf 0 1",
                lists=[listed(1, 2, "2084-12-31T23:59:50")], exports=["end_and_first.edf"])
    script.over("end_of_2084.edf 1 0", "first_of_2085.edf 1 0", "end_of_2084.edf 0 1",
                exports=["end_and_first.edf"])
    script.over("into_2085.edf 2 0", "undated_into_2085.edf 2 0",
                lists=[listed(1, 2, "2084-12-31T23:59:59.5"), listed(2, 2, "2084-12-31T23:59:59")],
                exports=["into_2085.edf", "undated_into_2085.edf"])
    script.over("leap_day.edf 1 0", "last_nanosecond.edf 1 0", "q.edf 1 0",
                lists=[listed(1, 3, Q_START)])
    script.over("q.edf 1 0", "of_2102.edf 1 0", "q.edf 0 1", exports=["q_and_2102.edf"])
    script.over("of_2102.edf 1 0", "q.edf 1 0", exports=["q_and_2102.edf"])
    script.over("undated_end_of_2084.edf 1 0", "undated.edf 1 0", "undated_end_of_2084.edf 0 1")
    script.title("a nanosecond past 2184 is refused with its record")
    script.over("last_nanosecond.edf 1 0", NANOSECOND_PAST,
                lists=[listed(1, 1, f"2184-{last_nanosecond}")], exports=["last_nanosecond.edf"])
    script.refused(NANOSECOND_PAST, f"annotation_past.edf {faults.window(1)}", PAST)
    script.title("a startdate that names no day beside its subfield is refused")
    script.over("undated_end_of_2084.edf 1 0", UNDATED,
                lists=[listed(1, 1, f"2084-{last_nanosecond}")],
                exports=["undated_end_of_2084.edf"])
    script.refused(UNDATED, f"undated_without_time.edf {faults.startdate()}",
                   f"capitals.edf {faults.startdate()}", f"one_capital.edf {faults.startdate()}",
                   f"without_time.edf {faults.starttime()}", NEXT_DAY,
                   f"next_month.edf {faults.dates_differ()}",
                   f"subfield_of_2084.edf {faults.dates_differ()}",
                   f"subfield_of_2185.edf {faults.dates_differ()}", DIGITS,
                   f"no_leap_day.edf {faults.dates_differ()}")
    script.over(UNDATED, NEXT_DAY, DIGITS, "of_2102.edf 1 0", exports=["of_2102.edf"])
    script.title("an overlap after 2084 tells both starts")
    overlaps = faults.overlap(f"{OF_2102}.5", OF_2102)
    script.refused(f"half_of_2102.edf {overlaps}", before="of_2102.edf")


def without_a_count(script: Script) -> None:
    script.title("of a file without a count as many data records are taken as follow, and an "
                 "export counts them")
    script.over("uncounted_q.edf 1 0", "q.edf 0 1", exports=["q.edf"])
    script.over("q.edf 1 0", "uncounted_q.edf 0 1", exports=["q.edf"])
    script.over("uncounted_u.edf 2 0", exports=["canonical_u.edf"])
    script.over("uncounted_k.edf 3 0", exports=["canonical_k.edf"])
    script.over("uncounted_k_two.edf 2 0", exports=["n1_and_n2.edf"])
    script.over("uncounted_k_two.edf 2 0", "k.edf 1 2", exports=["canonical_k.edf"])
    script.over("q.edf 1 0", "uncounted_half_one.edf 1 0")
    script.title("one that is cut in a data record is refused for that, and one that is cut "
                 "between them for a clash")
    script.over(f"uncounted_q_header.edf {faults.cut_record(1)}",
                f"uncounted_q_more.edf {faults.cut_record(2)}",
                f"uncounted_u_cut.edf {faults.cut_record(2)}", lists=[], exports=[])
    script.over("n2.edf 1 0", f"other_second_two.edf {faults.differs(at_one(1))}",
                exports=["n2.edf"])
    script.over("n1.edf 1 0", f"other_first_cut.edf {faults.cut_record(3)}",
                f"other_first_two.edf {faults.differs(at_one(0))}")
    script.over("q.edf 1 0", f"uncounted_half.edf {OVERLAPS}", lists=[listed(1, 1, Q_START)],
                exports=["q.edf"])
    script.title("a full recording tells what it held and how many of them are new")
    script.over(f"uncounted_k.edf {faults.full(0, 3, 2)}", "uncounted_k_two.edf 2 0",
                f"uncounted_k.edf {faults.full(2, 1, 2)}", f"k.edf {faults.full(2, 1, 2)}", cap=2)
    script.over(f"uncounted_k.edf {faults.full(0, 3, 2)}", cap=2, lists=[])
    script.over("n3.edf 1 0", f"uncounted_k.edf {faults.full(1, 2, 2)}",
                f"uncounted_k_two.edf {faults.full(1, 2, 2)}", cap=2)
    script.over("n1.edf 1 0", "uncounted_k_two.edf 1 1",
                f"uncounted_k.edf {faults.full(2, 1, 2)}", "uncounted_k_two.edf 0 2", cap=2)
    script.over("n1.edf 1 0", "n3.edf 1 0", f"other_third_three.edf {faults.differs(at_one(2))}",
                f"uncounted_k_cut.edf {faults.cut_record(3)}", cap=2)


def that_grows(script: Script) -> None:
    script.title("a file without a count is taken data record by data record as it grows")
    answers = {255: faults.cut(), 256: faults.cut_signals(), 767: faults.cut_signals(),
               768: faults.cut_record(1), 777: faults.cut_record(1), 778: "1 0",
               779: faults.cut_record(2), 787: faults.cut_record(2), 788: "1 1",
               789: faults.cut_record(3), 797: faults.cut_record(3), 798: "1 2"}
    script.over(*(f"grown_{size}.edf {answer}" for size, answer in answers.items()),
                exports=["canonical_k.edf"])


def in_runs(script: Script) -> None:
    script.title("commands that are runs of their own find what those before them left")
    script.over_files("runs.db")
    for given, export in (("p5.edf 1 0", "canonical_p5.edf"), ("q.edf 1 0", "q_and_p5.edf"),
                          (f"half.edf {OVERLAPS}", "q_and_p5.edf"), ("k.edf 3 0", "q_p5_and_k.edf"),
                          ("n2.edf 0 1", "q_p5_and_k.edf")):
        script.take(given)
        script.export(export)
    script.list(listed(1, 5, Q_START))
    script.title("a cap is that of each run")
    script.over_files("capped.db", 2)
    script.take("n1.edf 1 0", f"k.edf {faults.full(1, 2, 2)}", "n2.edf 1 0")
    script.take(f"n3.edf {faults.full(2, 1, 2)}", "n1.edf 0 1")
    script.export("n1_and_n2.edf")


def of_many_recordings(script: Script) -> None:
    script.title("sixty recordings are given back in the order of their identities")
    count = len(named.CODES)
    codes = [named.CODES[7 * turn % count] for turn in range(count)]
    script.over_files("many.db")
    script.take(*(f"many/{code}.edf 1 0" for code in codes))
    script.list(*(listed(place, 1, Q_START, code, "N1")
                  for place, code in enumerate(named.CODES, 1)))
    script.export(*(f"many/{code}.edf" for code in named.CODES))
    seventh = f"many/{named.CODES[6]}.edf"
    script.command(f"export many.db 007 = {seventh}", just(seventh, len(script.files[seventh])),
                   ended(0))


def of_several_signals(script: Script) -> None:
    script.title("annotations count in the order of the blocks and not by their block, and an "
                 "export has one annotations signal")
    script.over("v.edf 1 0", "v.edf 0 1", "canonical_v.edf 0 1", "uncounted_v.edf 0 1",
                exports=["canonical_v.edf"])
    script.over("canonical_v.edf 1 0", "v.edf 0 1", exports=["canonical_v.edf"])
    script.over("q.edf 1 0", f"v.edf {DIFFERS}", "v_without_text.edf 0 1", "q.edf 0 1",
                lists=[listed(1, 1, Q_START)], exports=["q.edf"])
    script.over("v_without_text.edf 1 0", exports=["q.edf"])
    script.over("v.edf 1 0", f"q.edf {DIFFERS}", exports=["canonical_v.edf"])
    script.over("p5.edf 1 0", "p5_in_blocks.edf 0 1",
                f"p5_turned.edf {faults.differs('2002-03-03T00:00:05')}")
    script.over("p5_in_blocks.edf 1 0", "p5.edf 0 1", "q.edf 1 0", exports=["q_and_p5.edf"])
    script.title("a refusal tells its place over all blocks")
    script.over(V_SPOILT, V_UNTIMED, f"too_large.edf {faults.size()}",
                f"no_ordinary.edf {faults.annotations()}", lists=[], exports=[])
    script.refused(V_SPOILT, V_UNTIMED)


def script(files: dict) -> Script:
    """All stories."""
    made = Script(files)
    for play in (that_fit, of_bad_form, that_clash, of_a_full_recording, that_are_missing,
                 converted, in_all_orders, sent_again, of_other_years, without_a_count, that_grows,
                 of_several_signals, in_runs, of_many_recordings):
        play(made)
    return made
