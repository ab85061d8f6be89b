"""The stories of `edfmend` in the stored run edfstore_stored_run: its files, its commands, and what
each must write and make.

All of that is spelled by hand. The plain model must make the same files and lines, or nothing where
one is refused. The files are Q's header, changed, with one data record, unless it is said
otherwise; what is made of them is EDF+D.
"""
from dataclasses import replace

from . import faults, mending, mending_fields, printed, stories
from .edf import Header, Signal, annotations_signal, fragment, keeping, tal

RECORDING = "Startdate 02-MAR-2002 N1 T3 REC5"
SAMPLES = b"\x10\x00\x20\x01"
ZERO = keeping("+0")
EEG = Signal()
CODE = " --patient S-0118"
CHRISTMAS = {"startdate": "24.12.26"}


# Files

def of(signal: Signal = EEG, noted: Signal = annotations_signal(3), **fields) -> bytes:
    """Q with this ordinary signal, this annotations signal and these fields, and other samples."""
    return Header((signal, noted), **fields).to_bytes() + SAMPLES + ZERO + b"\0"


def marked(recording: str = RECORDING) -> str:
    """The recording field of a mended file."""
    return f"{recording} mended"


def good(signal: Signal = EEG, **fields) -> bytes:
    """What `of` becomes, with these fields, where what names the recording became another."""
    return of(signal, **{"recording": marked()} | fields)


def physical(low: str, high: str, **others) -> Signal:
    return replace(EEG, physical_minimum=low, physical_maximum=high, **others)


def digital(low: str, high: str, **others) -> Signal:
    return replace(EEG, digital_minimum=low, digital_maximum=high, **others)


def plain(count: str, behind: bytes, **fields) -> bytes:
    """A file without an annotations signal, whose data records have four bytes."""
    return Header((EEG,), **{"reserved": "", "count": count} | fields).to_bytes() + behind


def timed(*records, **fields) -> bytes:
    """Data records of four sample bytes and a block, in the room that the longest block wants."""
    samples = (max(len(block) for _, block in records) + 1) // 2
    header = Header((EEG, annotations_signal(samples)), **{"count": str(len(records))} | fields)
    return fragment(header, list(records))


# Lines

def change(where: str, at: int, old: str, new: str) -> str:
    """The line of a field, or of annotations."""
    return f'{where} at={at} old="{old}" new="{new}"\n'


def patient(old: str, new: str) -> str:
    return change("patient", 8, old, new)


def recording(old: str = RECORDING, new: str = RECORDING) -> str:
    return change("recording", 88, old, marked(new))


def low(old: str, new: str) -> str:
    return change("signal 1 physical_minimum", 464, old, new)


def high(old: str, new: str) -> str:
    return change("signal 1 physical_maximum", 480, old, new)


def dimension(old: str, new: str) -> str:
    return change("signal 1 dimension", 448, old, new)


def count(old: str, new: str) -> str:
    return change("count", 236, old, new)


def added(reserved: str) -> str:
    """An annotations signal is added to one signal."""
    return change("header_bytes", 184, "512", "768") + \
        change("reserved", 192, reserved, "EDF+D") + change("signals", 252, "1", "2")


NO_TEXT = "has a text of signal 1 that has no room in ASCII"


# Stories

class MendScript(stories.OverFiles):
    """Commands of `edfmend`, whose files are added to those of the script."""
    program = "edfmend"

    def __init__(self, script: stories.Script):
        super().__init__(script)
        self.names = {data: name for name, data in self.files.items()}

    def add(self, name: str, data: bytes) -> str:
        """The name of a file: of the one that is there with these bytes, or this one."""
        if data not in self.names:
            if name in self.files:
                raise ValueError(f"{name} is there")
            self.files[name], self.names[data] = data, name
        return self.names[data]

    def mends(self, name: str, before: bytes, after: bytes, lines: str = "", words: str = "",
              alone=printed.needs_nothing) -> None:
        """A file is mended into another: these lines tell it, or the one that stands alone."""
        given, wanted = (self.add(f"{name}{kind}.edf", data)
                         for kind, data in (("", before), ("_mended", after)))
        made = f"{name}_made.edf"
        line = lines or alone(given)
        self.writes(f"{given} {made}{words}", line)
        self.has(made, wanted)
        by_model = mending.mend(before, mending.wanted(words.split()))
        self.same((by_model.out, by_model.printed(given)), (after, line.encode()))

    def refuses(self, name: str, data: bytes, why: str, words: str = "") -> None:
        """Nothing is made of a file: this is the line, in which it is IN, or stands first."""
        given = self.add(f"{name}.edf", data)
        line = why.replace("IN", given) if "IN " in why else f"{given} {why}"
        self.writes(f"{given} {name}_made.edf{words}", error=f"{line}\n", status=1)
        try:
            by_model = mending.mend(data, mending.wanted(words.split())).lines
        except mending_fields.Refused:
            by_model = "refused"
        self.same(by_model, "refused")

    def refuses_form(self, name: str, data: bytes, fault: str, words: str = "") -> None:
        self.refuses(name, data, printed.refused(fault), words)


SINGLE = (
    ("micro_latin_1", of(replace(EEG, dimension=b"\xb5V")), good(),
     recording() + dimension("\\xb5V", "uV")),
    ("micro_utf_8", of(replace(EEG, dimension="µV".encode())), good(),
     recording() + dimension("\\xc2\\xb5V", "uV")),
    ("micro_shift_jis", of(replace(EEG, dimension=b"\x83\xcaV")), good(),
     recording() + dimension("\\x83\\xcaV", "uV")),
    ("transducer", of(replace(EEG, transducer="Müller \"37°\"".encode())),
     good(replace(EEG, transducer='Mueller "37deg"')),
     recording() + change("signal 1 transducer", 288, 'M\\xc3\\xbcller \\"37\\xc2\\xb0\\"',
                          'Mueller \\"37deg\\"')),
    ("comma", of(physical("-440", "510,0")), good(physical("-440", "510.0")),
     recording() + high("510,0", "510.0")),
    ("no_digit", of(physical("-.5", "510")), good(physical("-0.5", "510")),
     recording() + low("-.5", "-0.5")),
    ("powers", of(physical("-4.4E2", "51e1")), good(physical("-440", "510")),
     recording() + low("-4.4E2", "-440") + high("51e1", "510")),
    ("small_power", of(physical("0", "125e-3")), good(physical("0", "0.125")),
     recording() + high("125e-3", "0.125")),
    ("at_the_right", of(physical("    -440", "510")), good(physical("-440", "510")),
     recording() + low("    -440", "-440")),
    ("thousandths", of(physical("0,345", "510")), good(physical("0.345", "510")),
     recording() + low("0,345", "0.345")),
    ("equal_limits", of(physical("0", "0,0")), good(physical("-2048", "2047", dimension="")),
     recording() + dimension("uV", "") + low("0", "-2048") + high("0,0", "2047")),
    ("falling", of(digital("2047", "-2048")), good(physical("510", "-440")),
     recording() + low("-440", "510") + high("510", "-440") +
     change("signal 1 digital_minimum", 496, "2047", "-2048") +
     change("signal 1 digital_maximum", 512, "-2048", "2047")),
    ("two_faults", of(physical("-440,0", "510", dimension=b"\xb5V")),
     good(physical("-440.0", "510")),
     recording() + dimension("\\xb5V", "uV") + low("-440,0", "-440.0")),
    ("three_faults", of(physical("1", "1,0"), patient="P7 m X Jensen", count="7"),
     good(physical("-2048", "2047", dimension=""), patient="P7 M X Jensen"),
     patient("P7 m X Jensen", "P7 M X Jensen") + recording() + dimension("uV", "") +
     low("1", "-2048") + high("1,0", "2047") + count("7", "1")))


def signals(script: MendScript) -> None:
    script.title("a field of a signal becomes its good form, and a line names it")
    for name, before, after, lines in SINGLE:
        script.mends(name, before, after, lines)
    script.title("what eight bytes lack, a comma that may part thousands, a text without room, a "
                 "dimension of which a letter may be micro or milli")
    script.refuses_form("wide_power", of(physical("1e9", "51e1")), faults.physical(1))
    for nth, (least, most) in enumerate((("-1,000", "1,000"), ("012,345", "510")), 1):
        script.refuses_form(f"thousands_{nth}", of(physical(least, most)), faults.physical(1))
    script.refuses_form("micro_or_milli", of(replace(EEG, dimension=b"\xecV")),
                        faults.unprintable_signals(448))
    script.refuses("long_label", of(replace(EEG, label=b"EEG Fpz-Cz \xe4\xe4\xe4\xe4")), NO_TEXT)


PATIENTS = (
    ("P7 f 02-may-1951 X", "", "P7 F 02-MAY-1951 X"),
    ("P-4711 f X Huber_Anna Ward_3", "", "P-4711 F X Huber_Anna Ward_3"),
    ("P-4711 w 03-mar-1961 Huber_Anna", CODE, "S-0118 X X P-4711_w_03-mar-1961_Huber_Anna"),
    ("P-4711 F 03.03.1961 Huber_Anna", " --patient P-4711",
     "P-4711 X X P-4711_F_03.03.1961_Huber_Anna"),
    ("x F 03-mar-1961 Huber_Anna", CODE, "S-0118 F 03-MAR-1961 Huber_Anna"),
    ("Haagse Harry de Vries", CODE, "S-0118 X X Haagse_Harry_de_Vries"),
    ("P7 F 02-MAY-1951 X", " --set-patient P-5", "P-5 F 02-MAY-1951 X"))
NAMELESS = ("Haagse Harry de Vries", "P-4711 F 03.03.1961 Huber_Anna",
            "P-4711 w 03-mar-1961 Huber_Anna", "x F 03-mar-1961 Huber_Anna")


def patients(script: MendScript) -> None:
    script.title("a patient keeps the code that the field names, or gets the one that is given")
    for nth, (old, words, new) in enumerate(PATIENTS, 1):
        script.mends(f"patient_{nth}", of(patient=old), good(patient=new),
                     patient(old, new) + recording(), words)
    script.mends("for_others", of(), of(patient="C-1 X X X",
                                        recording="Startdate 02-MAR-2002 X X X mended"),
                 patient("P7 F 02-MAY-1951 X", "C-1 X X X") +
                 recording(new="Startdate 02-MAR-2002 X X X"), " --deidentify C-1")
    script.title("nobody is guessed")
    for nth, name in enumerate(NAMELESS, 1):
        script.refuses(f"nobody_{nth}", of(patient=name), printed.NO_CODE)
    script.refuses("another_code", of(), "patient unused: IN names P7", " --patient P-5")
    script.refuses("another_small", of(patient="P7 f 02-may-1951 X"),
                   "patient unused: IN names P7", " --patient P-5")
    script.refuses("x_and_a_name", of(patient="X X X X", recording="Night 1"), printed.NO_CODE)


PSG = "Startdate 24-DEC-2026 PSG-1 T7 Nox"
LONG_ROOM = "A23456789B23456789C23456789D23456789"
# Of a file of 24 December 2026
RECORDINGS = (
    ("Startdate 24-dec-2026 PSG-1 T7 Nox", PSG),
    (f"Startdate 24-dec-2026 PSG-1 T7 Nox {LONG_ROOM}ab", f"{PSG} {LONG_ROOM}ab"),
    ("startdate X PSG-1 T7 Nox Room_2", "Startdate X PSG-1 T7 Nox Room_2"),
    ("Startdate 24-DEC-2026 PSG-1 T7", "Startdate 24-DEC-2026 PSG-1 T7 X"),
    ("Start 24-DEZ-2026 PSG-1 T7 Nox",
     "Startdate 24-DEC-2026 X X X Start 24-DEZ-2026 PSG-1 T7 Nox"),
    ("Night 1", "Startdate 24-DEC-2026 X X X Night 1"))


def starts(script: MendScript) -> None:
    script.title("a recording field keeps its date and its codes, or stands behind those it lacks")
    for nth, (old, new) in enumerate(RECORDINGS, 1):
        script.mends(f"recording_{nth}", of(recording=old, **CHRISTMAS),
                     good(recording=marked(new), **CHRISTMAS), recording(old, new))
    script.title("a start with other separators, and one that is given")
    script.mends("colons", of(starttime="23:59:50"), of(),
                 change("starttime", 176, "23:59:50", "23.59.50"))
    script.mends("slashes", of(startdate="02/03/02"), of(),
                 change("startdate", 168, "02/03/02", "02.03.02"))
    script.mends("no_time", of(starttime=""), good(starttime="22.30.00"),
                 recording() + change("starttime", 176, "", "22.30.00"), " --starttime 22.30.00")
    script.mends("no_day", of(startdate=""), good(),
                 recording() + change("startdate", 168, "", "02.03.02"), " --startdate 02.03.02")
    script.title("a date or a time is guessed as little, and a mark wants its room")
    script.refuses_form("other_day", of(recording="Startdate 25-dec-2026 PSG-1 T7 Nox",
                                        **CHRISTMAS), faults.dates_differ())
    script.refuses_form("digits", of(starttime="20230511"), faults.starttime())
    script.refuses_form("no_month", of(startdate="02.13.02"), faults.startdate())
    script.refuses("a_day_more", of(), "startdate unused: IN has 02.03.02",
                   " --startdate 03.03.02")
    script.refuses("a_time_more", of(), "starttime unused: IN has 23.59.50",
                   " --starttime 22.30.00")
    script.refuses("long_recording",
                   of(recording=f"Startdate 24-dec-2026 PSG-1 T7 Nox {LONG_ROOM}abc", **CHRISTMAS),
                   printed.NO_MARK)


ONE, TWO, THREE = b"\x01\0\x02\0", b"\x03\0\x04\0", b"\x05\0\x06\0"
PAIR = timed((ONE, ZERO), (TWO, keeping("+1")))
TRIPLE = timed((ONE, ZERO), (TWO, keeping("+1")), (THREE, keeping("+2")))


def counts(script: MendScript) -> None:
    script.title("plain EDF, and EDF+C without annotations, get starts in turn")
    for kind, reserved in (("plain", ""), ("plus", "EDF+C")):
        script.mends(f"two_{kind}", plain("2", ONE + TWO, reserved=reserved), PAIR,
                     added(reserved))
    dated = "Startdate 02-MAR-2002 X X X Night 1"
    script.mends("two_named", plain("2", ONE + TWO, patient="Haagse Harry", recording="Night 1"),
                 timed((ONE, ZERO), (TWO, keeping("+1")), patient="S-0118 X X Haagse_Harry",
                       recording=marked(dated)),
                 patient("Haagse Harry", "S-0118 X X Haagse_Harry") +
                 recording("Night 1", dated) + added(""), CODE)
    script.refuses_form("gaps_without_annotations", plain("2", ONE + TWO, reserved="EDF+D"),
                        faults.annotations())
    script.title("without starts the count must be right, unless all data records are taken")
    for nth, (counted, behind) in enumerate((("1", TWO), ("3", TWO), ("-1", TWO), ("1", bytes(4))),
                                            1):
        script.refuses(f"uncounted_{nth}", plain(counted, ONE + behind), printed.OTHER_COUNT)
    script.refuses_form("piece_behind_plain", plain("1", ONE + b"abc"), faults.trailing())
    script.mends("all_of_plain", plain("1", ONE + TWO + b"abc"), PAIR,
                 added("") + count("1", "2") + "left_out bytes=3\n", " --all")
    script.title("where data records say when they start, those that are there are counted")
    for name, counted in (("more_counted", "7"), ("none_counted", "-1"), ("not_counted", "")):
        script.mends(name, timed((ONE, ZERO), (TWO, keeping("+1")), count=counted) + b"\5\0\6",
                     PAIR, count(counted, "2") + "left_out bytes=3\n")
    script.mends("piece_behind", PAIR + b"\5\0\6", PAIR, "left_out bytes=3\n")
    third = THREE + keeping("+2") + b"\0"
    script.refuses("one_behind", PAIR + third, printed.OTHER_COUNT)
    script.refuses("odd_count", timed((ONE, ZERO), (TWO, keeping("+1")), count="+1"),
                   printed.OTHER_COUNT)
    script.mends("all_of_three", PAIR + third, TRIPLE, count("2", "3"), " --all")
    script.title("any number of header bytes is read where the counted data records end the file")
    script.mends("header_bytes", timed((ONE, ZERO), (TWO, keeping("+1")), header_bytes="512"), PAIR,
                 change("header_bytes", 184, "512", "768"))
    script.refuses_form("header_bytes_and_a_piece",
                        timed((ONE, ZERO), header_bytes="512") + b"\5", faults.header_bytes())
    script.title("a label that speaks of annotations becomes no samples")
    for nth, label in enumerate(("EDF annotations", "EDFAnnotations", "edf  annotations",
                                 "BDF Annotations"), 1):
        noted = replace(annotations_signal(3), label=label)
        for kind, reserved in (("plus", "EDF+C"), ("plain", "")):
            script.refuses_form(f"label_{nth}_{kind}", of(noted=noted, reserved=reserved),
                                faults.annotations())


def text(at: int, old: str, new: str) -> str:
    return change("annotations record=1", at, old, new)


def noted(block: bytes, **fields) -> bytes:
    """A file with this block, which zeros fill up to 40 bytes."""
    return fragment(Header((EEG, annotations_signal(20)), **fields), [(SAMPLES, block)])


# A block at byte 4 of a data record, what it becomes, and its lines
BLOCKS = (
    (ZERO + tal("+0.5", b"M\xfcller"), ZERO + tal("+0.5", "Müller"),
     text(14, "M\\xfcller", "M\\xc3\\xbcller")),
    (ZERO + tal("+0.5", "a", b"b\xe9"), ZERO + tal("+0.5", "a") + tal("+0.5", "bé"),
     text(16, "b\\xe9", "b\\xc3\\xa9")),
    (keeping("+0.0000000005") + tal("+0.5", "a"), ZERO + tal("+0.5", "a"),
     text(4, "+0.0000000005", "+0.000000000")),
    (ZERO + tal("+0.9999999999", "a", duration="0.33333333333"),
     ZERO + tal("+0.999999999", "a", duration="0.333333333"),
     text(9, "+0.9999999999\\x150.33333333333", "+0.999999999\\x150.333333333")),
    (ZERO.ljust(40), ZERO, ""))


def annotations(script: MendScript) -> None:
    script.title("texts and times of annotations are read, and lines tell what reads otherwise")
    for nth, (before, after, lines) in enumerate(BLOCKS, 1):
        script.mends(f"texts_{nth}", noted(before), timed((SAMPLES, after)), lines,
                     alone=printed.differs_in_fill)
    odd = replace(annotations_signal(3), digital_minimum="-1", digital_maximum="1")
    script.mends("odd_limits", of(noted=odd), of(),
                 change("signal 2 digital_minimum", 504, "-1", "-32768") +
                 change("signal 2 digital_maximum", 520, "1", "32767"))
    script.title("what is no list, and a start before the end of another data record, are refused")
    for name, block, at in (("other_fill", ZERO + b"@@\0", 5),
                            ("no_list", b"@".ljust(39) + b"\0", 0),
                            ("text_after_zeros", ZERO + b"\0" + tal("+0.5", "a"), 5)):
        script.refuses_form(name, noted(block), faults.tal(1, at))
    script.refuses_form("rounded", timed((ONE, ZERO), (TWO, keeping("+0.9"))), faults.order(2))


def good_files(script: MendScript) -> None:
    script.title("a good file becomes its canonical file, and needs nothing")
    script.mends("good", of(), of())
    script.mends("good_of_its_code", of(), of(), words=" --patient P7",
                 alone=printed.differs_in_fill)
    script.mends("loose_good", fragment(Header((EEG, annotations_signal(9)), reserved="EDF+C"),
                                        [(SAMPLES, keeping("+0.0"))]), of())
    script.title("--dry-run tells the same, and makes no file; what is there stays")
    given, there = script.add("no_digit.edf", SINGLE[5][1]), script.add("good.edf", of())
    script.writes(f"{given} --dry-run", SINGLE[5][3])
    script.writes(f"{given} {there}", error=printed.is_there(there), status=1)
    script.has(there, there)
    script.title("an option that earlier versions had, and what to do instead")
    why = "--as is gone: all is read that can be, and --all takes what '--as count' took"
    script.writes(f"--as count {given} made.edf", status=2,
                  error=printed.usage(why, "edfmend [OPTIONS] <IN> [OUT]"))
    script.title("what is no EDF is refused, and asked for no code")
    script.refuses_form("archive", b"PK\x03\x04".ljust(512), faults.unprintable(2))
    script.refuses_form("letter", b"Dear reader, ".ljust(512), faults.version())
    script.refuses_form("short", b"0".ljust(255), faults.cut())


def play(script: stories.Script) -> None:
    """All stories of `edfmend`."""
    made = MendScript(script)
    for one in (good_files, signals, patients, starts, counts, annotations):
        one(made)
