"""Checks the program's exact lines, files and statuses on small files made here.

    python3 -m checks.lines.run [--program PATH]

The files come from checks/lib/edf.py, field by field; what is expected is written below by hand.
Nothing comes from the program.
"""
from pathlib import Path

from checks.lib import arguments, by_hand, edf, faults, measure, printed
from checks.lib.checks import Checks
from checks.lib.printed import KNOWN, NEW, UNREAD, accepted, refused

FILES = edf.small_files()
Q = FILES["Q"]
OVERLAPS, DIFFERS = refused(by_hand.OVERLAPS), refused(by_hand.DIFFERS)


def line(place: int, records: int = 1, first: str = "2002-03-02T23:59:50") -> str:
    """What `list` says of a recording of Q."""
    return printed.recording(place, records, first, "P7", "N1")


def one_record_is_its_own_canonical_file(checks: Checks) -> None:
    checks.begin("one record is its own canonical file")
    checks.file("a.edf", Q)
    checks.run(given=Q, out=Q)
    checks.run("convert", "-", given=Q, out=Q)
    checks.run("convert", "a.edf", out=Q)
    checks.run("convert", "u.edf", err=printed.fault("u.edf", faults.read()), status=3)
    checks.take("night.db", ("-", NEW), given=Q)
    checks.take("night.db", ("a.edf", KNOWN))
    checks.run("export", "night.db", "1", out=Q)
    checks.take(":memory:", ("a.edf", NEW), ("a.edf", KNOWN))
    checks.run("list", ":memory:")


def two_records_cut_inside_the_second_leave_nothing(checks: Checks) -> None:
    checks.begin("two records, cut inside the second, leave nothing")
    header = edf.Header((edf.Signal(), edf.annotations_signal(3)), count="2")
    whole = edf.fragment(header,
                         [(b"\1\0\2\0", edf.keeping("+0")), (b"\3\0\4\0", edf.keeping("+1"))])
    checks.file("cut.edf", whole[:-1])
    checks.take("night.db", ("cut.edf", refused(faults.cut_record(2))), status=1)
    checks.run("list", "night.db")
    checks.run("export", "night.db", "1", err=printed.no_recording(1), status=1)


def an_overlap_is_refused_with_both_starts(checks: Checks) -> None:
    checks.begin("an overlap is refused with both starts")
    checks.file("a.edf", Q)
    checks.file("b.edf", FILES["half"])
    checks.take("night.db", ("a.edf", NEW), ("b.edf", OVERLAPS), status=1)
    checks.run("list", "night.db", out=line(1))
    checks.run("export", "night.db", "1", out=Q)
    checks.run("export", "night.db", "2", err=printed.no_recording(2), status=1)
    for place in ("0", "-1", "+1", "4294967296", "one"):
        checks.run("export", "night.db", place, err=None, status=2)
    checks.run("export", "night.db", "4294967295", err=printed.no_recording(4294967295), status=1)
    checks.run("export", "night.db", "001", out=Q)
    changed = Q[:768] + b"\0" + Q[769:]
    checks.file("c.edf", changed)
    checks.take("night.db", ("c.edf", DIFFERS), status=1)


def a_withheld_date_is_another_recording(checks: Checks) -> None:
    checks.begin("a withheld Startdate is another recording, listed after the dated one")
    checks.file("x.edf", FILES["X"])
    checks.file("a.edf", Q)
    checks.take("night.db", ("x.edf", NEW), ("a.edf", NEW))
    checks.run("list", "night.db", out=line(1) + line(2))
    checks.run("export", "night.db", "1", out=Q)
    checks.run("export", "night.db", "2", out=FILES["X"])


def a_missing_file_is_trouble_and_the_next_is_taken(checks: Checks) -> None:
    checks.begin("a missing file is trouble, and the next file is taken")
    checks.file("a.edf", Q)
    checks.take("night.db", ("missing.edf", UNREAD), ("a.edf", NEW), status=3)
    checks.run("list", "night.db", out=line(1))


def a_refused_conversion_writes_nothing(checks: Checks) -> None:
    checks.begin("a refused conversion writes nothing")
    checks.file("a.edf", Q[:-1])
    checks.run("convert", "a.edf", err=printed.fault("a.edf", faults.cut_record(1)), status=1)
    checks.run(given=Q + b"\0", err=printed.fault("-", faults.trailing()), status=1)
    checks.run(given=Q[:-1] + b"\1", err=printed.fault("-", faults.tal(1, 5)), status=1)


def a_file_cut_anywhere(checks: Checks) -> None:
    """Every cut of two files into a store that holds Q, 200 files a run, and the store as
    before."""
    checks.begin("a file cut anywhere")
    answers = [("Q", n, text) for first, last, text in (
        (0, 256, faults.cut()), (256, 768, faults.cut_signals()), (768, 778, faults.cut_record(1)))
        for n in range(first, last)]
    answers += [("U", n, faults.cut_record(1 if n < 886 else 2)) for n in range(768, 1004)]
    checks.file("a.edf", Q)
    checks.take("night.db", ("a.edf", NEW))
    for first in range(0, len(answers), 200):
        batch = answers[first:first + 200]
        for letter, n, _ in batch:
            checks.file(f"{letter}{n}", FILES[letter][:n])
        checks.take("night.db", *((f"{letter}{n}", refused(text)) for letter, n, text in batch),
                    status=1)
    checks.run("export", "night.db", "1", out=Q)
    checks.run("list", "night.db", out=line(1))


def a_file_of_unknown_count_cut_anywhere(checks: Checks) -> None:
    """A file without a count of its data records ends where a record does, and nowhere else."""
    checks.begin("a file of unknown count cut anywhere")
    data = by_hand.unknown(FILES["U"])
    answers = {n: faults.cut() if n < 256 else faults.cut_signals() for n in range(0, 768, 64)}
    answers |= {n: faults.cut_record(1) for n in range(768, 886)}
    answers |= {n: faults.cut_record(2) for n in range(887, 1004)}
    answers[1005] = faults.cut_record(3)
    for n in answers:
        checks.file(f"{n}", (data + b"\0")[:n])
    checks.take("night.db", *((str(n), refused(text)) for n, text in answers.items()), status=1)
    checks.run("list", "night.db")
    checks.file("886", data[:886])
    checks.file("whole", data)
    checks.file("counted", FILES["U"])
    checks.take("night.db", ("886", NEW), ("whole", accepted(1, 1)), ("counted", accepted(0, 2)),
                ("whole", accepted(0, 2)))
    checks.run("export", "night.db", "1", out=canonical_u())
    checks.run("convert", "whole", out=canonical_u())
    checks.run(given=data, out=canonical_u())
    checks.run(given=data[:-1], err=printed.fault("-", faults.cut_record(2)), status=1)


def annotations_of_several_signals_are_one_list(checks: Checks) -> None:
    checks.begin("annotations of several signals are one list")
    header = edf.Header((edf.Signal(), edf.annotations_signal(9)))
    export = edf.fragment(header, [(Q[768:772], edf.keeping("+0") + edf.tal("+0.5", "Snore"))])
    v = FILES["V"]
    checks.file("v.edf", v)
    checks.file("export.edf", export)
    checks.file("a.edf", Q)
    checks.run("convert", "v.edf", out=export)
    checks.take("night.db", ("v.edf", NEW), ("export.edf", KNOWN), ("a.edf", DIFFERS), status=1)
    checks.run("export", "night.db", "1", out=export)
    for n in range(1024, 1050):
        checks.run(given=v[:n], err=printed.fault("-", faults.cut_record(1)), status=1)
    checks.run(given=v[:-1] + b"\1", err=printed.fault("-", faults.tal(1, 18)), status=1)
    checks.run(given=v[:1024] + bytes(6) + v[1030:], err=printed.fault("-", faults.not_timed(1)),
               status=1)
    checks.run(given=v[:-16] + bytes(16), out=Q)


def canonical_u() -> bytes:
    wide = edf.Signal(physical_minimum="-3276.8", physical_maximum="3276.7",
                      digital_minimum="-32768", digital_maximum="32767")
    header = edf.Header((wide, edf.annotations_signal(11)), starttime="22.00.00", patient="X X X X",
                        recording="Startdate 02-MAR-2002 X X X", count="2")
    off = edf.keeping("+0") + edf.tal("+0.5", "Lights off")
    return edf.fragment(header, [(b"\1\0\2\0", off), (b"\3\0\4\0", edf.keeping("+1"))])


def five_files_make_one_night(checks: Checks) -> None:
    checks.begin("fragments, the card and a resend make one file")
    for name in ("N3", "N1", "K", "P5", "Q", "R9"):
        checks.file(name, FILES[name])
    checks.take("night.db", ("N3", NEW), ("N1", NEW), ("K", accepted(1, 2)), ("N1", KNOWN))
    canonical = bytearray(FILES["K"])
    canonical[196:197] = b"D"
    checks.run("export", "night.db", "1", out=bytes(canonical))
    checks.take("other.db", ("P5", NEW), ("Q", NEW), ("R9", accepted(1, 1)))
    header = edf.Header((edf.Signal(), edf.annotations_signal(16)), count="3")
    snore = edf.keeping("+15") + edf.tal("+15.5", "Snore") + edf.tal("+15.5", "Turn")
    checks.run("export", "other.db", "1", out=edf.fragment(header, [
        (b"\1\0\xff\xff", edf.keeping("+0")), (b"\3\0\xfd\xff", edf.keeping("+10")),
        (b"\2\0\xfe\xff", snore)]))
    checks.file("U", FILES["U"])
    checks.run("convert", "U", out=canonical_u())


def late(startdate: str, subfield: str, starttime: str = "23.59.50") -> bytes:
    """Q's data record from another start, with this Startdate subfield."""
    header = edf.Header((edf.Signal(), edf.annotations_signal(3)), startdate, starttime,
                        recording=f"Startdate {subfield} N1 T3 REC5")
    return edf.fragment(header, [(Q[768:772], edf.keeping("+0"))])


def letters_are_the_year_of_a_startdate_after_2084(checks: Checks) -> None:
    checks.begin("the letters yy are the year of a startdate after 2084")
    march, end = late("02.03.yy", "02-MAR-2102"), late("31.12.84", "31-DEC-2084")
    begin = late("01.01.yy", "01-JAN-2085", "00.00.05")
    checks.run(given=march, out=march)
    for data, text in ((late("02.03.yy", "X"), faults.startdate()),
                       (late("02.03.YY", "02-MAR-2102"), faults.startdate()),
                       (late("02.03.yy", "02-MAR-2102", "24.00.00"), faults.starttime()),
                       (late("02.03.yy", "03-MAR-2102"), faults.dates_differ()),
                       (late("02.03.yy", "02-MAR-2185"), faults.dates_differ()),
                       (late("02.03.02", "02-MAR-2102"), faults.dates_differ())):
        checks.run(given=data, err=printed.fault("-", text), status=1)
    for name, data in (("march", march), ("end", end), ("begin", begin)):
        checks.file(name, data)
    checks.take("night.db", ("march", NEW), ("begin", NEW))
    checks.run("list", "night.db", out=line(1, 2, "2085-01-01T00:00:05"))
    checks.take("other.db", ("begin", NEW), ("end", NEW))
    checks.run("list", "other.db", out=line(1, 2, "2084-12-31T23:59:50"))
    header = edf.Header((edf.Signal(), edf.annotations_signal(3)), "31.12.84",
                        recording="Startdate 31-DEC-2084 N1 T3 REC5", count="2")
    checks.run("export", "other.db", "1", out=edf.fragment(header, [
        (Q[768:772], edf.keeping("+0")), (Q[768:772], edf.keeping("+15"))]))


def version() -> str:
    """The version, which one place of the sources has."""
    begin = 'pub const VERSION: &str = "'
    texts = [path.read_text() for path in (arguments.TOP / "crates").glob("*/src/**/*.rt")]
    found, = (text.split(begin)[1].split('"')[0] for text in texts if begin in text)
    return found


def words_that_ask_for_nothing(checks: Checks) -> None:
    checks.begin("words that ask for nothing are a usage fault, and help and the version are none")
    for flag in ("--version", "-V"):
        checks.run(flag, out=printed.version("edfstore", version()))
    for words in (("list",), ("take", "night.db"), ("frob",), ("export", "night.db"),
                  ("list", "-x"), ("convert",), ("list", "night.db", "more")):
        checks.run(*words, err=None, status=2)
    checks.same("files that a usage fault made", checks.names(), [])


def main() -> None:
    given = arguments.Parser(__doc__).read()
    with measure.scratch() as name:
        checks = Checks(given.program, Path(name))
        for case in (one_record_is_its_own_canonical_file,
                     two_records_cut_inside_the_second_leave_nothing,
                     an_overlap_is_refused_with_both_starts, a_withheld_date_is_another_recording,
                     a_missing_file_is_trouble_and_the_next_is_taken,
                     a_refused_conversion_writes_nothing, a_file_cut_anywhere,
                     a_file_of_unknown_count_cut_anywhere,
                     annotations_of_several_signals_are_one_list, five_files_make_one_night,
                     letters_are_the_year_of_a_startdate_after_2084, words_that_ask_for_nothing):
            case(checks)
    checks.end()


if __name__ == "__main__":
    main()
