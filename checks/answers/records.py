"""Files with a count and one annotations signal, and data records that come between stored ones."""
from checks.lib import faults
from checks.lib.by_hand import (COUNT, DIFFERS, DIGITAL_HIGH, DIGITAL_LOW, DURATION, EMPTY, FIRST,
                                HALF, HEADER_BYTES, HIGH, K, KNOWN, LABEL, LOW, MARCH_3, N1, N2, N3,
                                OVERLAPS, P5, PATIENT, Q, R9, RECORDING, RESERVED, SAMPLES, SIGNALS,
                                SIZE, STARTDATE, STARTTIME, U, V, VERSION, Worked, canonical,
                                column, field, several, unknown)
from checks.lib.edf import Header, Signal, annotations_signal, fragment, keeping, tal


def one_annotations_signal(worked: Worked) -> None:
    worked.store("one record", (Q, FIRST), (Q, KNOWN), exports=[Q])
    snore = keeping("+15") + tal("+15.5", "Snore") + tal("+15.5", "Turn")
    records = [(SAMPLES, EMPTY), (b"\x03\x00\xfd\xff", keeping("+10")),
               (b"\x02\x00\xfe\xff", snore)]
    worked.store("two parts of a night", (P5, FIRST), (Q, FIRST),
                 exports=[canonical(records[0], records[2])])
    worked.store("three parts of a night", (P5, FIRST), (Q, FIRST), (R9, (1, 1)),
                 exports=[canonical(*records)])
    worked.store("an overlap by half a record", (Q, FIRST), (HALF, OVERLAPS),
                 (Q[:768] + b"\0" + Q[769:], DIFFERS), exports=[Q])
    worked.store("records that touch", (Q, FIRST),
                 (several([EMPTY], order="En", starttime="23.59.51"), FIRST),
                 (several([EMPTY], order="En", starttime="23.59.49"), FIRST))
    worked.store("the card", (N1, FIRST), (N2, FIRST), (K, (1, 2)), (N3, KNOWN))
    worked.each("a byte less, more, or changed", (Q[:-1], faults.cut_record(1)),
                (Q + b"\0", faults.trailing()), (Q[:-1] + b"\1", faults.tal(1, 5)))
    odd = EMPTY + b"+1.0000000000\x14a\x14\x14\0"
    worked.store("an annotation without text", (several([odd], order="En"), FIRST),
                 exports=[canonical((SAMPLES, EMPTY + tal("+1", "a") + tal("+1", "")))])
    worked.store("a room of two", (N1, FIRST), (N2, FIRST), (N3, faults.full(2, 1, 2)),
                 (N1, KNOWN), cap=2)
    wide = Signal(physical_minimum="-3276.8", physical_maximum="3276.7", digital_minimum="-32768",
                  digital_maximum="32767")
    header = Header((wide, annotations_signal(11)), starttime="22.00.00", patient="X X X X",
                    recording="Startdate 02-MAR-2002 X X X", count="2")
    export = fragment(
        header, [(b"\1\0\2\0", EMPTY + tal("+0.5", "Lights off")), (b"\3\0\4\0", keeping("+1"))])
    worked.store("spare samples", (U, (2, 0)), exports=[export])
    worked.store("spare samples, of unknown count", (unknown(U), (2, 0)),
                 (U, (0, 2)), exports=[export])


def headers_with_a_fault(worked: Worked) -> None:
    for which, text, answer in ((STARTDATE, "31.02.02", faults.startdate()),
                                (STARTDATE, "03.03.02", faults.dates_differ()),
                                (STARTTIME, "24.00.00", faults.starttime()),
                                (PATIENT, "P7 F 02-MAY-1951", faults.patient()),
                                (RECORDING, "Startdate 02-MAR-2002 N1 T3", faults.recording()),
                                (VERSION, "1", faults.version()), (RESERVED, "", faults.not_plus()),
                                (COUNT, "0", faults.count()), (DURATION, "0", faults.duration()),
                                (SIGNALS, "1", faults.signals()),
                                (SIGNALS, "641", faults.signals()),
                                (HEADER_BYTES, "512", faults.header_bytes())):
        worked.each(f"field {which} is {text!r}", (field(Q, which, text), answer),
                    (field(V, which, text), answer))
    worked.each("a fault of a signal",
                (column(Q, LABEL, 2, "EDF annotations"), faults.annotations()),
                (column(column(Q, LOW, 1, "0"), HIGH, 1, "-0.0"), faults.physical(1)),
                (column(column(Q, DIGITAL_LOW, 1, "5"), DIGITAL_HIGH, 1, "5"),
                 faults.digital(1)), (column(Q, SIZE, 1, "0"), faults.samples(1)),
                (column(Q, SIZE, 1, "2097153"), faults.size()),
                (column(Q, SIZE, 1, "2097152"), faults.cut_record(1)))


def night_of(second: int, *onsets) -> bytes:
    """Data records of a second, of a file that starts at that second of 2002-03-03."""
    blocks = ([onset if isinstance(onset, bytes) else keeping(f"+{onset}")] for onset in onsets)
    return several(*blocks, order="En", starttime=f"00.00.{second:02}", **MARCH_3)


AT = "2002-03-03T00:00:"
SNORING = keeping("+2") + tal("+2", "Snore")
# Files beside data records that are stored at 10 s and at 20 s, each with its answer.
BETWEEN = (
    ("up to the first", night_of(5, 0, 1, 2, 3, 4), (5, 0)),
    ("a nanosecond too far", night_of(5, 0, 1, 2, 3, "4.000000001"),
     faults.overlap(f"{AT}09.000000001", f"{AT}10")),
    ("over the first", night_of(5, 0, 1, 2, 3, 4, 5, 6), (6, 1)),
    ("over both", night_of(5, *range(20)), (18, 2)),
    ("past the first and into it", night_of(5, 0, 1, "5.5"),
     faults.overlap(f"{AT}10.5", f"{AT}10")),
    ("past the first and after it", night_of(5, 0, 1, 6, 7), (4, 0)),
    ("past both", night_of(5, 0, 1, 16, 17), (4, 0)),
    ("into the second, after the first was known", night_of(10, *range(9), "9.5"),
     faults.overlap(f"{AT}19.5", f"{AT}20")),
    ("from the first to after the second", night_of(10, *range(12)), (10, 2)),
    ("another at the first", night_of(8, 0, 1, SNORING), faults.differs(f"{AT}10")),
    ("another at the second, after the first was known",
     night_of(10, *range(10), keeping("+10") + tal("+10", "Snore"), 11),
     faults.differs(f"{AT}20")),
    ("two that clash, the first is named", night_of(5, 0, "5.5", "15.5"),
     faults.overlap(f"{AT}10.5", f"{AT}10")),
    ("one that clashes before a fault", night_of(5, 0, "5.5", "5.7"), faults.order(3)),
    ("after both", night_of(21, 0, 1, 2), (3, 0)),
)


def new_ones_between_stored_ones(worked: Worked) -> None:
    """A file that was taken is known when it comes again, and so are the stored ones."""
    stored = ((night_of(10, 0), FIRST), (night_of(20, 0), FIRST))
    for name, file, answer in BETWEEN:
        again = [] if isinstance(answer, str) else [(file, (0, sum(answer)))]
        worked.store(f"new ones {name}", *stored, (file, answer), *again,
                     *((same, KNOWN) for same, _ in stored))
    worked.store("a refused file leaves the stored ones", *stored,
                 (night_of(5, 0, 1, "5.5"), faults.overlap(f"{AT}10.5", f"{AT}10")),
                 exports=[canonical((SAMPLES, EMPTY), (SAMPLES, keeping("+10")),
                                    starttime="00.00.10", **MARCH_3)])
    worked.store("between two that touch", (night_of(10, 0, 1), (2, 0)),
                 (night_of(5, 0, "5.5"), faults.overlap(f"{AT}10.5", f"{AT}10")))


ALL = (one_annotations_signal, headers_with_a_fault, new_ones_between_stored_ones)
