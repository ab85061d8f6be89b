"""Startdates, with two digits of the year up to 2084 and the letters yy after that."""
from checks.lib import faults
from checks.lib.by_hand import (COUNT, EMPTY, FIRST, KNOWN, LAST_SECOND, PATIENT, Q, RECORDING,
                                RESERVED, SAMPLES, STARTDATE, STARTTIME, Worked, canonical, field,
                                several)
from checks.lib.edf import keeping, tal


def dated(startdate: str, subfield: str, starttime: str = "23.59.50") -> bytes:
    """Q with another startdate, Startdate subfield and starttime."""
    return field(
        field(field(Q, STARTDATE, startdate), RECORDING, f"Startdate {subfield} N1 T3 REC5"),
        STARTTIME, starttime)


def startdates_that_name_a_day(worked: Worked) -> None:
    for startdate, subfield in (("01.01.85", "01-JAN-1985"), ("31.12.99", "31-DEC-1999"),
                                ("01.01.00", "01-JAN-2000"), ("29.02.84", "29-FEB-2084"),
                                ("31.12.84", "31-DEC-2084"), ("01.01.85", "X"), ("31.12.84", "X"),
                                ("01.01.yy", "01-JAN-2085"), ("02.03.yy", "02-MAR-2085"),
                                ("29.02.yy", "29-FEB-2088"), ("28.02.yy", "28-FEB-2100"),
                                ("01.03.yy", "01-MAR-2100"), ("02.03.yy", "02-MAR-2102"),
                                ("29.02.yy", "29-FEB-2104"), ("29.02.yy", "29-FEB-2184"),
                                ("31.12.yy", "31-DEC-2184")):
        data = dated(startdate, subfield)
        worked.store(f"{startdate} beside {subfield}", (data, FIRST), (data, KNOWN), exports=[data])
        worked.store(f"{startdate} beside {subfield}, no time",
                     (dated(startdate, subfield, "24.00.00"), faults.starttime()))


def startdates_that_name_none(worked: Worked) -> None:
    for startdate, subfield in (("02.03.yy", "X"), ("29.02.yy", "X"), ("31.02.yy", "X"),
                                ("02.03.YY", "X"), ("02.03.YY", "02-MAR-2102"),
                                ("02.03.Yy", "02-MAR-2102"), ("02.03.yY", "02-MAR-2102"),
                                ("02.03.y2", "02-MAR-2102"), ("02.03.2y", "02-MAR-2102"),
                                ("02.03.y", "02-MAR-2102"), ("02.03.", "02-MAR-2102"),
                                ("02.03.-1", "02-MAR-2102"), ("02.03.xx", "02-MAR-2102"),
                                ("02-03-yy", "02-MAR-2102"), ("02.03 yy", "02-MAR-2102"),
                                ("2.03.yy", "02-MAR-2102"), ("02.3.yy", "02-MAR-2102"),
                                (" 2.03.yy", "02-MAR-2102"), ("yy.03.02", "02-MAR-2102"),
                                ("02.yy.02", "02-MAR-2102"), ("dd.mm.yy", "02-MAR-2102"),
                                ("30.02.yy", "28-FEB-2102"), ("31.04.yy", "30-APR-2102"),
                                ("00.03.yy", "02-MAR-2102"), ("32.03.yy", "31-MAR-2102"),
                                ("02.00.yy", "02-MAR-2102"), ("02.13.yy", "02-MAR-2102"),
                                ("31.02.02", "02-MAR-2002"), ("29.02.85", "28-FEB-1985"),
                                ("30.02.yy", "02-MAR-2002"), ("31.02.yy", "02-MAR-2185")):
        for starttime in ("23.59.50", "24.00.00"):
            worked.store(f"{startdate} beside {subfield} at {starttime}",
                         (dated(startdate, subfield, starttime), faults.startdate()))


def startdates_that_name_another_day(worked: Worked) -> None:
    for startdate, subfield in (("02.03.yy", "03-MAR-2102"), ("02.03.yy", "02-APR-2102"),
                                ("02.03.yy", "03-FEB-2102"), ("29.02.yy", "28-FEB-2100"),
                                ("29.02.yy", "01-MAR-2100"), ("29.02.yy", "28-FEB-2088"),
                                ("02.03.yy", "02-MAR-2084"), ("31.12.yy", "31-DEC-2084"),
                                ("02.03.yy", "02-MAR-2002"), ("01.01.yy", "01-JAN-1985"),
                                ("31.12.yy", "31-DEC-1984"), ("02.05.yy", "02-MAY-1951"),
                                ("29.02.yy", "29-FEB-0000"), ("01.01.yy", "01-JAN-2185"),
                                ("02.03.yy", "02-MAR-2185"), ("29.02.yy", "29-FEB-2188"),
                                ("31.12.yy", "31-DEC-9999"), ("02.03.02", "02-MAR-2102"),
                                ("01.01.85", "01-JAN-2085"), ("31.12.84", "31-DEC-2184"),
                                ("02.03.85", "02-MAR-2085"), ("02.03.02", "02-MAR-1902"),
                                ("02.03.02", "03-MAR-2002"), ("31.12.84", "01-JAN-2085"),
                                ("01.01.yy", "31-DEC-2084")):
        other = dated(startdate, subfield)
        worked.each(f"{startdate} beside {subfield}", (other, faults.dates_differ()),
                    (dated(startdate, subfield, "24.00.00"), faults.starttime()),
                    (field(other, RESERVED, ""), faults.dates_differ()),
                    (field(other, COUNT, "0"), faults.dates_differ()),
                    (field(other, PATIENT, "P7"), faults.patient()))
    for subfield in ("29-FEB-2100", "02-MAR-yyyy", "02-MAR-102", "2-MAR-2102", "02-Mar-2102", "yy"):
        worked.store(f"the Startdate subfield {subfield}",
                     (dated("02.03.yy", subfield, "24.00.00"), faults.recording()))


def recordings_of_many_years(worked: Worked) -> None:
    """2085 begins 3,155,760,000 s after 1985 and 2,614,032,010 s after Q's start, 2185 another
    3,155,673,600 s later."""
    century = dated("02.03.yy", "02-MAR-2102")
    worked.store("a data record of each century", (century, FIRST), (Q, FIRST), (century, KNOWN),
                 exports=[canonical((SAMPLES, EMPTY), (SAMPLES, keeping("+3155673600")))])
    end, begin = dated("31.12.84", "31-DEC-2084"), dated("01.01.yy", "01-JAN-2085", "00.00.05")
    both = canonical((SAMPLES, EMPTY), (SAMPLES, keeping("+15")), startdate="31.12.84",
                     recording="Startdate 31-DEC-2084 N1 T3 REC5")
    worked.store("the beginning of 2085", (begin, FIRST), exports=[begin])
    worked.store("then the end of 2084", (begin, FIRST), (end, FIRST), (both, (0, 2)),
                 exports=[both])
    worked.store("the end of 2084, then the beginning of 2085", (end, FIRST), (begin, FIRST),
                 exports=[both])
    midnight = {"startdate": "31.12.84", "starttime": "23.59.59",
                "recording": "Startdate 31-DEC-2084 N1 T3 REC5"}
    over = several([keeping("+0.5")], [keeping("+1.5")], order="En", **midnight)
    worked.store("over the end of 2084", (over, (2, 0)), exports=[over])
    part = several([keeping("+0.5")], order="En", startdate="01.01.yy", starttime="00.00.00",
                   recording="Startdate 01-JAN-2085 N1 T3 REC5")
    worked.store("the part of it that is of 2085", (part, FIRST), (over, (1, 1)),
                 (part, KNOWN), exports=[over])
    early = several([EMPTY, tal("-15.5", "Snore")], order="nEn", startdate="01.01.yy",
                    starttime="00.00.05", recording="Startdate 01-JAN-2085 N1 T3 REC5")
    worked.store("an annotation of 2084 in a record of 2085", (early, FIRST),
                 exports=[canonical((SAMPLES, EMPTY + tal("-15.5", "Snore")), startdate="01.01.yy",
                                    starttime="00.00.05",
                                    recording="Startdate 01-JAN-2085 N1 T3 REC5")])


def the_end_of_the_window(worked: Worked) -> None:
    last = several([keeping("+0.5")], order="En", **LAST_SECOND)
    edge = several([keeping("+0.999999999") + tal("+0.999999999", "Turn")], order="En",
                   **LAST_SECOND)
    worked.store("the last half second", (last, FIRST), exports=[last])
    worked.store("the last nanosecond", (edge, FIRST), exports=[edge])
    worked.each("a nanosecond later",
                (several([EMPTY], [keeping("+1")], order="En", **LAST_SECOND),
                 faults.window(2)),
                (several([EMPTY + tal("+1", "Turn")], order="En", **LAST_SECOND),
                 faults.window(1)),
                (several([EMPTY, b"+1\x14\0"], **LAST_SECOND), faults.window(1)),
                (several([keeping("+0.5")], [keeping("+1.5")], order="En", **LAST_SECOND),
                 faults.window(2)),
                (several([keeping("+1")], order="En", **LAST_SECOND), faults.first_onset(1)))
    first = several([EMPTY + tal("-6311433599", "Turn")], order="En", **LAST_SECOND)
    worked.store("an annotation of the first second", (first, FIRST), exports=[first])
    worked.store("an annotation a nanosecond before that",
                 (several([EMPTY + tal("-6311433599.000000001", "Turn")], order="En",
                          **LAST_SECOND), faults.window(1)))


def recordings_without_a_date(worked: Worked) -> None:
    """They begin before 2085 and may go on to the end of the window, 3,155,673,601 s after the last
    second of 2084 begins."""
    midnight = {"startdate": "31.12.84", "starttime": "23.59.59",
                "recording": "Startdate X N1 T3 REC5"}
    over = several([EMPTY], [keeping("+1")], order="En", **midnight)
    worked.store("over the end of 2084", (over, (2, 0)), (over, (0, 2)),
                 exports=[over])
    worked.store("after the same with a date",
                 (several([EMPTY], [keeping("+1")], order="En",
                          **{**midnight, "recording": "Startdate 31-DEC-2084 N1 T3 REC5"}),
                  (2, 0)), (over[:236] + b"1" + over[237:-10], FIRST))
    edge = several([keeping("+0.999999999")], order="En", **midnight)
    worked.store("the last nanosecond of 2084", (edge, FIRST), exports=[edge])
    far = several([EMPTY], [keeping("+3155673600.999999999")], order="En", **midnight)
    worked.store("to the last nanosecond of 2184", (far, (2, 0)), exports=[far])
    worked.each("no further",
                (several([EMPTY], [keeping("+3155673601")], order="En", **midnight),
                 faults.window(2)),
                (several([keeping("+1")], order="En", **midnight), faults.first_onset(1)))
    worked.store("none begins after 2084", (over, (2, 0)),
                 (dated("01.01.yy", "X", "00.00.00"), faults.startdate()),
                 (dated("01.01.85", "X", "00.00.00"), FIRST),
                 (dated("01.01.yy", "01-JAN-2085", "00.00.00"), FIRST))


ALL = (startdates_that_name_a_day, startdates_that_name_none, startdates_that_name_another_day,
       recordings_of_many_years, the_end_of_the_window, recordings_without_a_date)
