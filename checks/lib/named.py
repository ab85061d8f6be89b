"""The small files of the stories by their names, built field by field. But for those with letters
for names, they are of Q's recording, cut and changed. Those that are exported are spelled as
exports are.
"""
from .by_hand import (COUNT, HEADER_BYTES, LABEL, LAST_SECOND, MARCH_3, PATIENT, RECORDING,
                      RESERVED, SIGNALS, SIZE, STARTDATE, STARTTIME, canonical, column, field)
from .edf import Header, Signal, annotations_signal, fragment, keeping, small_files, tal

LETTERS = small_files()
Q, K, U, V = (LETTERS[letter] for letter in "QKUV")
ONE, TWO, THREE, FIVE, SIX = (
    bytes.fromhex(text) for text in ("0100FFFF", "0200FEFF", "0300FDFF", "05000000", "06000000"))
END_OF_2084 = {"startdate": "31.12.84", "starttime": "23.59.59",
               "recording": "Startdate 31-DEC-2084 N1 T3 REC5"}
UNDATED_END = END_OF_2084 | {"recording": "Startdate X N1 T3 REC5"}
UNDATED_EVENING = UNDATED_END | {"starttime": "23.59.57"}
CODES = [f"P{number:03}" for number in range(60)]
P5_BEHIND_Q = (TWO, keeping("+15") + tal("+15.5", "Snore") + tal("+15.5", "Turn"))


# Files

def evening(*records, samples: int = 3, **fields) -> bytes:
    """Data records of Q's recording from Q's start on, unless another is named."""
    return fragment(Header((Signal(), annotations_signal(samples)),
                           count=fields.pop("count", str(len(records))), **fields), records)


def second(n: int) -> tuple:
    """The data record of N1, N2 or N3 by its number in K."""
    return bytes([10 + n, 0, 0, 0]), keeping(f"+{n}")


def patched(data: bytes, at: int, text: bytes) -> bytes:
    return data[:at] + text + data[at + len(text):]


def fitting() -> dict:
    """Files that are taken, most of them beside Q."""
    small = {f"{letter.lower()}.edf": LETTERS[letter]
             for letter in ("Q", "P5", "R9", "N1", "N2", "N3", "K", "U", "V")}
    return small | {
        "before.edf": evening((THREE, keeping("+0")), starttime="23.59.49"),
        "after.edf": evening((TWO, keeping("+0")), starttime="23.59.51"),
        "spare.edf": evening((ONE, keeping("+0")), samples=57, reserved="EDF+C"),
        "undated.edf": field(Q, RECORDING, "Startdate X N1 T3 REC5"),
        "fraction.edf": evening((ONE, keeping("+0.999999999")), samples=8),
        "last.edf": evening((ONE, keeping("+0.5")), samples=4, **LAST_SECOND),
        "long.edf": evening(*((ONE, keeping(f"+{n}")) for n in range(1000)), samples=4),
    }


def refused() -> dict:
    """Files that are refused: by themselves, or beside Q, or beside N1 and N3."""
    one, two = (ONE, keeping("+0")), (TWO, keeping("+1"))
    return {
        "empty.edf": b"",
        "cut.edf": Q[:-1],
        "trailing.edf": Q + b"\0",
        "spoilt.edf": patched(Q, 777, b"\1"),
        "late.edf": patched(Q, 773, b"1"),
        "other.edf": patched(Q, 768, b"\0"),
        "no_such_hour.edf": field(Q, STARTTIME, "24.00.00"),
        "past.edf": evening((ONE, keeping("+0.5")), (TWO, keeping("+1.5")), samples=4,
                            **LAST_SECOND),
        "half.edf": evening((FIVE, keeping("+0")), (SIX, keeping("+10.5")), samples=4,
                            starttime="23.59.40"),
        "half_alone.edf": evening((FIVE, keeping("+0.5")), samples=4),
        "cut_second.edf": evening(one, two)[:781],
        "cut_third.edf": patched(evening(one, two, (THREE, keeping("+2"))), 768, b"\0")[:791],
        "other_third.edf": patched(K, 788, b"\x0d"),
    }


def expected() -> dict:
    """Files that are exported and that no other file is."""
    return {
        "q_and_p5.edf": canonical((ONE, keeping("+0")), P5_BEHIND_Q),
        "q_r9_and_p5.edf": canonical((ONE, keeping("+0")), (THREE, keeping("+10")), P5_BEHIND_Q),
        "before_q_and_after.edf": canonical((THREE, keeping("+0")), (ONE, keeping("+1")),
                                            (TWO, keeping("+2")), starttime="23.59.49"),
        "n1_and_n2.edf": canonical(second(0), second(1), starttime="01.00.00", **MARCH_3),
        "n2_and_n3.edf": canonical((second(1)[0], keeping("+0")), (second(2)[0], keeping("+1")),
                                   starttime="01.00.01", **MARCH_3),
        "canonical_p5.edf": canonical(
            (TWO, keeping("+0") + tal("+0.5", "Snore") + tal("+0.5", "Turn")),
            starttime="00.00.05", **MARCH_3),
        "q_p5_and_k.edf": canonical((ONE, keeping("+0")), P5_BEHIND_Q,
                                    *((second(n)[0], keeping(f"+{3610 + n}")) for n in range(3))),
        "canonical_k.edf": field(K, RESERVED, "EDF+D"),
        "canonical_u.edf": column(field(U, RESERVED, "EDF+D"), SIZE, 2, "11")[:768] + b"\1\0\2\0" +
        keeping("+0") + tal("+0.5", "Lights off") + b"\3\0\4\0" + keeping("+1").ljust(22, b"\0"),
        "canonical_v.edf": canonical((ONE, keeping("+0") + tal("+0.5", "Snore"))),
    }


# Q's data record under another header: the Startdate subfield, the startdate and the starttime.
OF_OTHER_YEARS = {
    "of_2102.edf": ("02-MAR-2102", "02.03.yy", "23.59.50"),
    "undated_of_2102.edf": ("X", "02.03.yy", "23.59.50"),
    "undated_without_time.edf": ("X", "02.03.yy", "24.00.00"),
    "capitals.edf": ("02-MAR-2102", "02.03.YY", "23.59.50"),
    "one_capital.edf": ("02-MAR-2102", "02.03.Yy", "23.59.50"),
    "without_time.edf": ("02-MAR-2102", "02.03.yy", "24.00.00"),
    "next_day.edf": ("03-MAR-2102", "02.03.yy", "23.59.50"),
    "next_month.edf": ("02-APR-2102", "02.03.yy", "23.59.50"),
    "subfield_of_2084.edf": ("02-MAR-2084", "02.03.yy", "23.59.50"),
    "subfield_of_2185.edf": ("02-MAR-2185", "02.03.yy", "23.59.50"),
    "digits_of_2102.edf": ("02-MAR-2102", "02.03.02", "23.59.50"),
    "leap_day.edf": ("29-FEB-2088", "29.02.yy", "23.59.50"),
    "no_leap_day.edf": ("28-FEB-2100", "29.02.yy", "23.59.50"),
    "first_of_2085.edf": ("01-JAN-2085", "01.01.yy", "00.00.05"),
    "end_of_2084.edf": ("31-DEC-2084", "31.12.84", "23.59.50"),
}


def of_other_years() -> dict:
    """Files that start after 2084, and files that go on into these years."""
    start, later = (ONE, keeping("+0")), (TWO, keeping("+1"))
    of_2102 = {"startdate": "02.03.yy", "recording": "Startdate 02-MAR-2102 N1 T3 REC5"}
    files = {name: field(field(field(Q, RECORDING, f"Startdate {day} N1 T3 REC5"), STARTDATE, date),
                         STARTTIME, time) for name, (day, date, time) in OF_OTHER_YEARS.items()}
    return files | {
        "half_of_2102.edf": evening((FIVE, keeping("+0.5")), samples=4, **of_2102),
        "last_nanosecond.edf": evening((ONE, keeping("+0.999999999")), samples=8, **LAST_SECOND),
        "nanosecond_past.edf": evening(start, later, **LAST_SECOND),
        "annotation_past.edf": evening((ONE, keeping("+0") + tal("+1", "Turn")), samples=7,
                                       **LAST_SECOND),
        "into_2085.edf": evening((ONE, keeping("+0.5")), (TWO, keeping("+1.5")), samples=4,
                                 **END_OF_2084),
        "undated_into_2085.edf": evening(start, later, **UNDATED_END),
        "undated_spelled_otherwise.edf": evening((ONE, keeping("-0.0")), (TWO, keeping("+01.00")),
                                                 samples=9, reserved="EDF+C", **UNDATED_END),
        "undated_end_of_2084.edf": evening((ONE, keeping("+0.999999999")), samples=8,
                                           **UNDATED_END),
        "undated_evening.edf": evening(start, later, **UNDATED_EVENING),
        "undated_new_year.edf": evening((THREE, keeping("+0")), (FIVE, keeping("+1")),
                                        (SIX, keeping("+61")), **UNDATED_END),
        "undated_night.edf": canonical(start, later, (THREE, keeping("+2")), (FIVE, keeping("+3")),
                                       (SIX, keeping("+63")), **UNDATED_EVENING),
        "undated_last_second.edf": evening(start, **UNDATED_END),
        "first_second_of_2085.edf": evening(
            (TWO, keeping("+0")), startdate="01.01.yy", starttime="00.00.00",
            recording="Startdate 01-JAN-2085 N1 T3 REC5"),
        "end_and_first.edf": evening(start, (ONE, keeping("+15")),
                                     **END_OF_2084 | {"starttime": "23.59.50"}),
        "q_and_2102.edf": evening(start, (ONE, keeping("+3155673600")), samples=7),
    }


def without_count(data: bytes, size: int, at: int = 0, text: bytes = b"") -> bytes:
    """The front of a file that has no count of its data records and ten zeros more, with another
    text in it."""
    return patched(field(data, COUNT, "-1") + bytes(10), at, text)[:size]


def uncounted() -> dict:
    half = refused()["half.edf"]
    return {
        "uncounted_q.edf": without_count(Q, 778),
        "uncounted_q_header.edf": without_count(Q, 768),
        "uncounted_q_more.edf": without_count(Q, 779),
        "uncounted_u.edf": without_count(U, 1_004),
        "uncounted_u_cut.edf": without_count(U, 1_003),
        "uncounted_k.edf": without_count(K, 798),
        "uncounted_k_two.edf": without_count(K, 788),
        "uncounted_k_cut.edf": without_count(K, 797),
        "other_first_two.edf": without_count(K, 788, 768, b"\x0d"),
        "other_first_cut.edf": without_count(K, 795, 768, b"\x0d"),
        "other_second_two.edf": without_count(K, 788, 778, b"\x0d"),
        "other_third_three.edf": without_count(K, 798, 788, b"\x0d"),
        "uncounted_half.edf": without_count(half, 792),
        "uncounted_half_one.edf": without_count(half, 780),
    }


# How much there is of K's file as it grows, without its count
GROWN = (255, 256, 767, 768, 777, 778, 779, 787, 788, 789, 797, 798)


def growing() -> dict:
    return {f"grown_{size}.edf": without_count(K, size) for size in GROWN}


def many() -> dict:
    """Q's file under sixty patient codes, which its samples repeat."""
    return {f"many/{code}.edf": patched(field(Q, PATIENT, f"{code} F 02-MAY-1951 X"), 768,
                                        code.encode()) for code in CODES}


def p5_in_blocks(first: bytes, later: bytes) -> bytes:
    """The data record of P5, its annotations in these blocks after the one that keeps time."""
    signals = (annotations_signal(3), annotations_signal(6), Signal(), annotations_signal(6))
    return fragment(Header(signals, starttime="00.00.05", **MARCH_3),
                    [(TWO, [keeping("+0"), first, later])])


def several_signals() -> dict:
    """V, changed, and other files of several annotations signals."""
    snore, turn = tal("+0.5", "Snore"), tal("+0.5", "Turn")
    return {
        "v_without_text.edf": patched(V, 1_034, bytes(16)),
        "v_spoilt.edf": patched(V, 1_049, b"\1"),
        "v_untimed.edf": patched(V, 1_024, bytes(6)),
        "uncounted_v.edf": field(V, COUNT, "-1"),
        "p5_in_blocks.edf": p5_in_blocks(snore, turn),
        "p5_turned.edf": p5_in_blocks(turn, snore),
        "too_large.edf": Header(
            (annotations_signal(2_097_152), Signal(), annotations_signal(1))).to_bytes(),
        "no_ordinary.edf": column(Q, LABEL, 1, "EDF Annotations "),
    }


def promising() -> dict:
    """Q under a header that promises more than there is."""
    return {
        "count_2.edf": field(Q, COUNT, "2"),
        "count_99999999.edf": field(Q, COUNT, "99999999"),
        "samples_2097152.edf": column(Q, SIZE, 1, "2097152"),
        "signals_3.edf": field(Q, SIGNALS, "3"),
        "signals_640.edf": field(field(Q, SIGNALS, "640"), HEADER_BYTES, "164096"),
        "signals_641.edf": field(Q, SIGNALS, "641"),
        "two_large_signals.edf": Header(
            (Signal(samples="1048577"), Signal(samples="1048577"),
             annotations_signal(3))).to_bytes(),
    }


def files() -> dict:
    """Every file of the stories by its name."""
    return (fitting() | refused() | expected() | of_other_years() | uncounted() | growing() |
            several_signals() | promising() | many())
