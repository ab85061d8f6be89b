"""Rows of `checks.mend.table`: files, the words of `edfmend`, and what is wanted of them, spelled
by hand."""
from dataclasses import dataclass, replace
from typing import Union

from checks.lib import by_hand, printed
from checks.lib.edf import Header, Signal, annotations_signal, fragment, keeping
from checks.mend.run import GOOD, PLAIN, RECORDS, SIGNALS, at_column, in_block

Text = Union[str, bytes]
NIGHT = "Startdate 02-MAR-2002 N1 T3 REC5"


@dataclass(frozen=True)
class Row:
    """A file, words, and what is wanted: the line why nothing is made, behind the file's name; or
    fields of the new file, and how many data records it has. `signal` has of its first signal some
    fields by their numbers."""
    what: str
    data: bytes
    words: str = ""
    error: str = ""
    patient: str = "P7 F 02-MAY-1951 X"
    recording: str = NIGHT
    signal: tuple[tuple[int, str], ...] = ()
    records: int = 3


def refused(what: str, data: bytes, error: str, words: str = "") -> Row:
    return Row(what, data, words, error)


def of_patient(field: Text, data: bytes = GOOD) -> bytes:
    text = field if isinstance(field, bytes) else field.encode()
    return by_hand.field(data, by_hand.PATIENT, text)


def of_recording(field: Text, startdate: str = "02.03.02", data: bytes = GOOD) -> bytes:
    text = field if isinstance(field, bytes) else field.encode()
    return by_hand.field(by_hand.field(data, by_hand.RECORDING, text), by_hand.STARTDATE, startdate)


def asks(field: Text) -> Row:
    return refused(f"patient {field!r}, and no code", of_patient(field), printed.NO_CODE)


def gets(old: Text, new: str, words: str = "") -> Row:
    """A patient field becomes another."""
    return Row(f"patient {old!r}{words}", of_patient(old), words, patient=new,
               recording=f"{NIGHT} mended")


# Whose a file is

NAMED: tuple[Text, ...] = ("P7 F 02-MAY-1951 X", "P7 f 02-may-1951 X", b"P7 F X Jos\xe9")
CYRILLIC = "Иван F 02-MAY-1951 Müller"
NAMELESS: tuple[Text, ...] = (
    "anonymous X", "Mary M Smith", "Anna M", "Smith Female", "P-0042", "",
    "P7 Female 02-may-1951 X", "P-4711 w 03-mar-1961 Huber_Anna",
    "P-4711 F 03.03.1961 Huber_Anna", "P7  F  02-MAY-1951", "X X X Анна", b"X X X J\xfcrgen",
    "X f X X", "x F 02-may-1951 X", "Zoé F X X", "Ж-7 F X X", b"\xc0-17 F X X",
    b"AB\xa0001 X X Doe", b"AB\x01 F X Doe", b"P7\0F X Doe", CYRILLIC)
LONG = "Anna_" + "b" * 70
GIVEN = " --patient S-0118"
NOBODY = of_patient("X X X X")
WHO = [
    *map(asks, NAMELESS),
    gets("anonymous X", "P-1001 X X anonymous_X", " --patient P-1001"),
    gets("Mary M Smith", "S-0118 X X Mary_M_Smith", GIVEN),
    gets("  Haagse   Harry  de Vries", "S-0118 X X Haagse_Harry_de_Vries", GIVEN),
    gets("P-4711 F 03.03.1961 Huber_Anna", "P-4711 X X P-4711_F_03.03.1961_Huber_Anna",
         " --patient P-4711"),
    gets("", "S-0118 X X X", GIVEN), gets(LONG, f"S-0118 X X {LONG[:69]}", GIVEN),
    gets(b"J\xfcrgen M\xfcller", "S-0118 X X Juergen_Mueller", GIVEN),
    gets(b"P7 F X Jos\xe9", "P7 F X Jose"), gets("P7 F X José", "P7 F X Jose"),
    gets("P7 f 02-may-1951 X", "P7 F 02-MAY-1951 X"), gets("P7 F X Анна", "P7 F X ????"),
    gets(b"P7 F X \xa0", "P7 F X X"), gets("X X X Анна", "P-1 X X ????", " --patient P-1"),
    gets(CYRILLIC, "S-0118 X X ????_F_02-MAY-1951_Mueller", GIVEN),
    gets("X F 02-MAY-1951 X", "P-1 F 02-MAY-1951 X", " --patient P-1"),
    gets("P7 F 02-MAY-1951 X", "P-5 F 02-MAY-1951 X", " --set-patient P-5"),
    gets(b"AB\xa0001 X X Doe", "AB001 X X AB_001_X_X_Doe", " --patient AB001"),
    Row("zeros that fill a patient field", of_patient(b"P7 F X X" + 72 * b"\0"),
        patient="P7 F X X"),
    Row("the code that the file names", GOOD, " --patient P7"),
    Row("the same, in place of itself", of_patient("P7  F  X  Doe"), " --set-patient P7",
        patient="P7  F  X  Doe")]
CODES = [
    *(refused(f"another code beside {field!r}", of_patient(field),
              "patient unused: IN names P7", " --patient P-5")
      for field in NAMED),
    *(refused(f"investigation {name} of patient X",
              of_recording(f"Startdate 02-MAR-2002 {name} T3 REC5", data=NOBODY), printed.NO_CODE)
      for name in ("É-1", "È-1")),
    refused("a name without room in ASCII", of_patient(b"P7 F X " + 40 * b"\xe4"),
            "has a patient field that has no room in ASCII"),
    refused("a recording that is a name, of patient X", of_recording("Night 1", data=NOBODY),
            printed.NO_CODE),
    Row("a date in small letters, of patient X",
        of_recording("Startdate 02-mar-2002 N1 T3 REC5", data=NOBODY), patient="X X X X",
        recording=f"{NIGHT} mended"),
    *(Row(f"{field!r} for others", of_recording(field, data=of_patient("P7 F X Jensen")),
          " --deidentify C-1", patient="C-1 X X X",
          recording="Startdate 02-MAR-2002 X X X mended")
      for field in (NIGHT, "Mary Smith b 1951 Dr Jones", f"{NIGHT} mended",
                    "Startdate 02-MAR-2002 PSG Anna Smith Nihon"))]

# When it starts

WHOLE = "Startdate 02-MAR-2002 X X X "
ROOM = 73 - len(WHOLE)
FULL = f"{NIGHT} {'a' * 39}"


def dated(old: Text, new: str) -> Row:
    return Row(f"recording {old!r}", of_recording(old), recording=f"{new} mended")


DATES = [
    refused("another day", of_recording("Startdate 05-MAR-2002 N1 T3 REC5"),
            "refused E8 DatesDiffer"),
    refused("another day, in small letters", of_recording("Startdate 05-mar-2002 N1 T3 REC5"),
            "refused E8 DatesDiffer"),
    *(dated(text, WHOLE + text) for text in (
        "Startdate 2002-03-05 N1", "Startdate 02-MRZ-2002 N1", "Startdate yesterday N1",
        "Startdate NIGHT-17 T3 REC5 Z", "Start 02-MAR-2002 N1", "Night 1", "Foo Bar X X X")),
    dated("a" * 80, WHOLE + "a" * ROOM), dated(f"{FULL}a".replace("MAR", "mar"), f"{FULL}a"),
    refused("a recording field of 74 bytes", of_recording(f"{FULL}ab".replace("MAR", "mar")),
            printed.NO_MARK),
    dated("startdate 02-mar-2002 N1 T3 REC5", NIGHT),
    dated("Startdate 02-MAR-2002 N1 T3", "Startdate 02-MAR-2002 N1 T3 X"),
    dated(b"Startdate 02-MAR-2002 N1 T3 \xa0", "Startdate 02-MAR-2002 N1 T3   X"),
    dated(b"Startdate 02-MAR-2002 N1 T3 B\xe4r", "Startdate 02-MAR-2002 N1 T3 Baer"),
    Row("slashes in a startdate that the recording field has",
        by_hand.field(GOOD, by_hand.STARTDATE, "02/03/02")),
    refused("slashes in a startdate that it has not",
            of_recording("Startdate X N1 T3 REC5", "02/03/02"), "refused E6 Startdate"),
    refused("a year that nobody says", of_recording("Night 1", "02.03.yy"),
            "refused E5 Recording"),
    Row("a file that was mended before", of_recording(f"startdate{NIGHT[9:]} mended"),
        recording=f"{NIGHT} mended"),
    Row("colons in a starttime", by_hand.field(GOOD, by_hand.STARTTIME, "23:59:50")),
    *(refused(f"starttime {text}", by_hand.field(GOOD, by_hand.STARTTIME, text),
              "refused E7 Starttime") for text in ("20230511", "00000000", "99.99.99", "")),
    Row("a starttime by hand", by_hand.field(GOOD, by_hand.STARTTIME, ""),
        " --starttime 22.30.00", recording=f"{NIGHT} mended"),
    Row("a startdate by hand", by_hand.field(GOOD, by_hand.STARTDATE, ""),
        " --startdate 02.03.02", recording=f"{NIGHT} mended"),
    refused("a startdate by hand of a file that has one", GOOD,
            "startdate unused: IN has 02.03.02", " --startdate 03.03.02"),
    refused("a starttime by hand of a file that has one", GOOD,
            "starttime unused: IN has 23.59.50", " --starttime 22.30.00")]

# What a sample means


def limits(low: str, high: str, new_low: str, new_high: str) -> Row:
    data = at_column(by_hand.LOW, 1, low)(at_column(by_hand.HIGH, 1, high)(GOOD))
    return Row(f"limits {low} and {high}", data, recording=f"{NIGHT} mended",
               signal=((by_hand.LOW, new_low), (by_hand.HIGH, new_high)))


def no_limits(low: str, high: str, fault: str = "refused E17 Physical signal=1") -> Row:
    data = at_column(by_hand.LOW, 1, low)(at_column(by_hand.HIGH, 1, high)(GOOD))
    return refused(f"limits {low} and {high}", data, fault)


def no_dimension(text: bytes, at: int, signal: int = 1, data: bytes = GOOD) -> Row:
    return refused(f"dimension {text!r} of signal {signal}",
                   at_column(by_hand.DIMENSION, signal, text)(data),
                   f"refused E15 UnprintableSignals offset={at}")


def lettered(which: int, text: bytes, spelled: str) -> Row:
    return Row(f"{text!r} in field {which}", at_column(which, 1, text)(GOOD),
               recording=f"{NIGHT} mended", signal=((which, spelled),))


FALLING = at_column(by_hand.DIGITAL_LOW, 1, "2047")(at_column(by_hand.DIGITAL_HIGH, 1, "-2048")(
    at_column(by_hand.LOW, 1, "510,0")(at_column(by_hand.HIGH, 1, "-440")(GOOD))))
EQUAL = at_column(by_hand.LOW, 1, "0")(at_column(by_hand.HIGH, 1, "0,0")(GOOD))
LIMITS = [
    *(no_limits(low, high) for low, high in (
        ("-1,000", "1,000"), ("-440", "1,000"), ("-12,345", "12,345"), ("1", "1,000"),
        ("1,000", "1,000"), ("-1.23E-7", "1"))),
    limits("0,125", "3276,800", "0.125", "3276.800"), limits("-,5", "1,00", "-0.5", "1.00"),
    limits("-440.", "510,0", "-440.", "510.0"), limits("-4.4E2", "51e1", "-440", "510"),
    Row("equal limits", EQUAL, recording=f"{NIGHT} mended", signal=(
        (by_hand.LOW, "-2048"), (by_hand.HIGH, "2047"), (by_hand.DIMENSION, ""))),
    Row("digital limits that fall, and a comma", FALLING, recording=f"{NIGHT} mended", signal=(
        (by_hand.LOW, "-440"), (by_hand.HIGH, "510.0"), (by_hand.DIGITAL_LOW, "-2048"),
        (by_hand.DIGITAL_HIGH, "2047"), (by_hand.DIMENSION, "uV"))),
    Row("equal limits, and a dimension that is not read", at_column(
        by_hand.DIMENSION, 1, b"\xecV")(EQUAL), recording=f"{NIGHT} mended",
        signal=((by_hand.DIMENSION, ""),)),
    *(lettered(by_hand.DIMENSION, text, "uV") for text in
      (b"\xb5V", "µV".encode(), "μV".encode(), b"\xe6V", b"\x83\xcaV")),
    lettered(by_hand.DIMENSION, b"\xb0C", "degC"), lettered(by_hand.DIMENSION, b"?\xb5V", "?uV"),
    # GOOD has three signals, and so the dimension of the first is at 256 + 3 * 96
    *(no_dimension(text, at) for text, at in (
        (b"\xe4V", 544), (b"\xecV", 544), (b"\xa6\xccV", 544), (b"\xa3gV", 544), (b"\xf8C", 544),
        ("мкВ".encode(), 544), (b"\x83V", 544), (b"\xcaV", 544), (b"\x83\xca\xb5V", 544),
        (b"V\x83\xca", 545), (b"uV\0x", 546), (b"uV/\xa0", 547), (b"\xb0\xb0\xb0", 544))),
    no_dimension(b"m\xcaV", 553, 2), no_dimension(b"\xecV", 456, 2, PLAIN),
    no_dimension(b"\xecV", 544, 1, at_column(by_hand.LABEL, 1, b"\xe4")(GOOD)),
    lettered(by_hand.TRANSDUCER, "µμ°ºΩ²³±ÄäÖöÜüßÆæÅåØø".encode(),
             "uudegdegOhm23+-AeaeOeoeUeuessAEaeAaaaOeoe"),
    lettered(by_hand.TRANSDUCER, b"\xc0\xe3\xc7\xe7\xd1\xfd\xff", "AaCcNyy")]

# What a signal is


def labelled(label: Text, reserved: str) -> bytes:
    return by_hand.field(at_column(by_hand.LABEL, 3, label)(GOOD), by_hand.RESERVED, reserved)


SPEAKING: tuple[Text, ...] = (
    "EDF_Annotations", "EDF Annotation", "BDF Annotations", "edf annotations", "Annot.ations 2",
    "A N N O T ATION", b"EDF_A\xd1notations")
LABELS = [
    *(refused(f"the label {label!r}, reserved {reserved!r}", labelled(label, reserved),
              "refused E16 Annotations")
      for label in SPEAKING
      for reserved in ("EDF+C", "")),
    *(Row(f"plain EDF with the label {label!r}", at_column(by_hand.LABEL, 1, label)(PLAIN),
          signal=((by_hand.LABEL, label),)) for label in ("Notations", "EDF Anotations", "Events")),
    refused("gaps, and no annotations signal",
            by_hand.field(PLAIN, by_hand.RESERVED, "EDF+D"), "refused E16 Annotations")]

# What is a data record

OTHER = of_patient("P8 M X X", PLAIN)
LATER = [(bytes([nth, 9, 9, 9, 9, nth]), keeping(f"+{nth}")) for nth in (3, 4)]
LEFT = fragment(Header((*SIGNALS, annotations_signal(16)), count="3", reserved="EDF+C"),
                RECORDS + LATER)
HOUR = Header((Signal(samples="256"),), count="10", reserved="", recording=NIGHT)
TEN = fragment(HOUR, [(bytes([nth, 1]) * 256, []) for nth in range(10)])
ONE = fragment(replace(HOUR, count="1"), [(bytes(512), [])])
MANY = by_hand.field(ONE, by_hand.COUNT, "3") + of_patient("P8 M 05-JUN-1960 Y", ONE)
COUNTS = [
    *(refused(what, data, printed.OTHER_COUNT) for what, data in (
        ("two plain files in one", PLAIN + OTHER),
        ("plain EDF that counts 100, and another's file behind ten",
         by_hand.field(TEN, by_hand.COUNT, "100") + of_patient("P8 M 05-JUN-1960 Y", TEN)),
        ("plain EDF that counts 1000", by_hand.field(PLAIN, by_hand.COUNT, "1000")),
        ("plain EDF without a count", by_hand.unknown(PLAIN)),
        ("data records behind those of EDF+C", LEFT), ("one behind plain EDF", PLAIN + bytes(6)))),
    refused("a piece behind plain EDF", PLAIN + b"abc", "refused E29 Trailing"),
    Row("all of plain EDF", PLAIN + bytes(6), " --all", records=4),
    Row("all data records of EDF+C", LEFT, " --all", records=5),
    Row("a limit: another's header and data record, which the first file counts as its own", MANY,
        records=3),
    Row("EDF+C without a count", by_hand.unknown(LEFT), records=5),
    Row("EDF+C that counts 7", by_hand.field(GOOD, by_hand.COUNT, "7")),
    Row("a piece behind EDF+C", GOOD + bytes(37)),
    Row("a number of header bytes that the signals don't give",
        by_hand.field(GOOD, by_hand.HEADER_BYTES, "768")),
    refused("the same, and a piece behind", by_hand.field(GOOD, by_hand.HEADER_BYTES, "768") + b"a",
            "refused E13 HeaderBytes"),
    Row("a text of Latin-1", in_block(0, b"Snore", b"Sn\xf6re")(GOOD)),
    refused("a text that does not end", in_block(0, b"\0+0.5\x14Snore\x14", b"\0+30 Stage W")(GOOD),
            "refused E22 Tal record=1 offset=5")]

TABLE = (("whose a file is", WHO), ("codes", CODES), ("when it starts", DATES),
         ("what a sample means", LIMITS), ("what a signal is", LABELS),
         ("what is a data record", COUNTS))
