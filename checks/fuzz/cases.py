"""Makes random files: fragments of a few recordings, cut, spelled and ordered at random, some of
them broken.

Half of them have no count of their data records (-1), or several annotations signals, or both; four
in ten are of recordings that start in 2084 or later. Nothing here reads a file or knows the
program's answers: checks/lib/model.py says what a file is answered.
"""
import random
from dataclasses import replace
from datetime import datetime, timedelta

from checks.lib.edf import (ANNOTATIONS_LABEL, FIXED_WIDTHS, SIGNAL_WIDTHS, Header, Signal,
                            annotations_signal, fragment, keeping)

BATCH = 200
SECOND = 10**9
DAYS = (datetime(1985, 1, 1), datetime(1999, 12, 31, 23, 59, 58), datetime(2000, 2, 28, 23, 59, 59),
        datetime(2002, 3, 2, 22, 30), datetime(2023, 10, 29, 1, 59, 57),
        datetime(2084, 12, 31, 23, 59, 55))
LATE_DAYS = (datetime(2085, 1, 1), datetime(2088, 2, 28, 23, 59, 58),
             datetime(2100, 2, 28, 23, 59, 59), datetime(2184, 12, 31, 22, 59, 55))
DURATIONS = ("1", "1.0", "0.5", "2", "30", "0.000001", "00001.25")

# Texts that each field of the fixed part may be given, right and wrong ones
FIXED_TEXTS = (
    ("0", "1", " 0", "0 0", "00", "", "0\0", "\xffBIOSEMI"),
    ("P7 F 02-MAY-1951 X", "  P7  M  X  X  more", "P7 F 02-MAY-1951", "P7 f X X", "X X X X",
     "P7 X 29-FEB-2001 X", "", "P7 X 29-FEB-2000 X", "P7 F 2-MAY-1951 X", "P7 F 02-May-1951 X",
     "P7 M 00-JAN-2000 X", "P7 M 01-JAN-0000 X", "P7 M 29-FEB-0000 X", "P7 M 31-JUN-1970 X",
     "P7 F 02-MAY-1951 X" + " y" * 31, "M\xfcller F X X", "P7 F 02.05.1951 X", "P7 F x X"),
    ("Startdate 02-MAR-2002 N1 T3 REC5", "Startdate X N1 T3 REC5", "Startdate X  N1  T3  REC5 more",
     "Startdate 02-MAR-2002 N1 T3", " Startdate X N1 T3 REC5", "Startdate  X N1 T3 REC5",
     "startdate X N1 T3 REC5", "Startdate 2-MAR-2002 N1 T3 REC5", "",
     "Startdate 31-FEB-2002 N1 T3 REC5", "Startdate 03-MAR-2002 N1 T3 REC5",
     "StartdateX N1 T3 REC5", "Startdate Y N1 T3 REC5", "Startdate X " + "a " * 34,
     "Startdate 01-JAN-9999 N1 T3 REC5", "Startdate X" + " " * 63 + "a b c",
     "Startdate 02-MAR-2102 N1 T3 REC5", "Startdate 29-FEB-2100 N1 T3 REC5",
     "Startdate 02-MAR-yyyy N1 T3 REC5"),
    ("02.03.02", "31.02.02", "29.02.00", "29.02.01", "01.01.85", "31.12.84", "00.03.02", "02.13.02",
     "02.00.02", "2.03.02", "02-03-02", "02.03.yy", "02.03. 2", "32.01.02", "31.04.10", "02.03.0a",
     "02.03.YY", "02.03.Yy", "02.03.y2", "31.02.yy", "29.02.yy", "01.01.yy"),
    ("23.59.50", "24.00.00", "23.60.00", "23.59.60", "00.00.00", "23:59:50", "3.59.50", "23.59.5",
     "-1.00.00"),
    ("768", "512", "1024", "00000768", "768.0", "+768", "", " 768", "0"),
    ("EDF+C", "EDF+D", "", "EDF+", "EDF+E", "edf+c", " EDF+C",
     "EDF+C and what follows it, to its whole width", "BDF+C", "EDF+Dx"),
    ("1", "2", "3", "00000001", "0", "-1", "-1", "-1", "-1", "+1", " 1", "1 1", "99999999", "1.0",
     "", "00000000", "a", "-2", "-01", " -1", "-1.", "-001", "-0", "-10", "-11", "- 1", "--1",
     "-1 1", "-1.0", "-", "1-", "-1-", "-1\0", "-1\x1f", "-9999999"),
    ("1", "1.0", "0", "0.0", "1.", ".5", "0.5", "1e1", "-1", "+1", "00000001", "99999999",
     "0.000001", "1 1", "", "0000000."),
    ("2", "02", "0002", "3", "1", "0", "640", "641", "2 2", "+2", "-2", "", "9999", "2.0"),
)
SIGNAL_TEXTS = (
    ("EEG Fpz-Cz", "EDF Annotations ", "EDF Annotations", "EDF annotations", " EDF Annotations", "",
     "EDF Annotationsx", "\xb5V"),
    ("AgAgCl electrode", "", "\x7f"),
    ("uV", "", "\xb5V", "degC"),
    ("-440", "510", "-440.", "-0.0", "0", "+0", "-440.50", "1E3", ".5", "-.5", "-", "+", "",
     "12345678", "-440 1", "510.0000", "--1", "1..2", " 1", "0x10"),
    ("510", "-440", "510.", "-0", "0.0", "+510", "1e3", ".", "", "-440.0", "510,0", "00000510"),
    ("-2048", "-32768", "-32769", "0", "2047", "+0", "-0", "", "-", "-02048", "-2048.0", "32767",
     " -1", "99999999"),
    ("2047", "32767", "32768", "-2048", "+2047", "0", "", "2047.", "02047", "-2049", "2 047"),
    ("HP:0.1Hz", "", "\x00"),
    ("1", "2", "3", "0", "00000002", "+2", "-2", "2.0", "", "2097151", "2097152", "2097153",
     "99999999", " 2", "2 2"),
    ("", "reserved", "\x1f"),
)
ONSETS = ("+0", "-0", "+1", "+1.5", "-1.5", "+00001.500", "+0.000000001", "+1.0000000010",
          "+1.0000000001", "+1.", "+.5", "1", "", "+", "+ 1", "+1e3", "+1 ", "-3155760000",
          "+3155759999.999999999", "-6311433600", "+6311433599.999999999", "+5769705609.999999999",
          "+9223372036.854775807", "+9223372036.854775808", "+18446744073.709551616",
          "+" + "9" * 40, "+" + "0" * 300 + "1", "+1." + "0" * 300, "++1", "+1.5.5", "+1,5")
SPANS = (None,) * 12 + ("0", "1", "2.50", "0.000000001", "3155760000", "6311433599.999999999",
                        "6311433600", "0.0000000001", "1.0000000000", "", "-1", "+1", ".5", "1.",
                        "9" * 30, "9223372036.854775808")
# Startdates, and Startdate subfields, that are given together to the header of a file
DATES = ("02.03.02", "02.03.yy", "02.03.YY", "29.02.00", "29.02.yy", "30.02.yy", "01.01.85",
         "01.01.yy", "31.12.84", "31.12.yy", "28.02.yy")
SUBFIELDS = ("X", "X", "X", "02-MAR-2002", "02-MAR-2102", "03-MAR-2102", "02-APR-2102",
             "29-FEB-2000", "29-FEB-2088", "28-FEB-2100", "29-FEB-2100", "01-JAN-1985",
             "01-JAN-2085", "01-JAN-2185", "31-DEC-2084", "31-DEC-2184", "31-DEC-1984",
             "02-MAR-2185", "02-MAR-2084")
TEXTS = (b"", b"a", b"Lights off", "Schädel bewegt".encode(), "\U0001f634".encode(), b"\xff",
         b"\xc0\x80", b"\xed\xa0\x80", b"\xf4\x90\x80\x80", b"\xe2\x82", b"x\x15y", b"line\nline",
         b"\x01\x7f", b"+1", b" ", b"\xef\xbf\xbf", b"a" * 300)


def decimal(nanos: int, rng: random.Random) -> str:
    """A spelling of the value, seldom the shortest."""
    seconds, rest = divmod(nanos, SECOND)
    text = str(seconds)
    if rest:
        text += f".{rest:09}".rstrip("0")
    if rng.random() < 0.2:
        text = "0" * rng.randint(1, 3) + text
    if rng.random() < 0.2:
        text += ("" if rest else ".") + "0" * rng.randint(1, 4)
    return text


def signed(nanos: int, rng: random.Random) -> str:
    return ("-" if nanos < 0 else "+") + decimal(abs(nanos), rng)


def in_lists(notes: list, begun: list, rng: random.Random) -> list:
    """The annotations in lists after those begun, one sometimes in the list of the one before
    where it may be; now and then a list without annotations, which adds nothing."""
    for at, span, text in notes:
        if begun and (at, span) == tuple(begun[-1][:2]) and rng.random() < 0.5:
            begun[-1][2].append(text)
        else:
            begun.append([at, span, [text]])
        if rng.random() < 0.03:
            begun.append([at, rng.choice((None, SECOND)), []])
    return begun


def spelled(lists: list, base: int, rng: random.Random) -> bytes:
    made = b""
    for at, span, texts in lists:
        made += signed(at - base, rng).encode()
        made += b"" if span is None else b"\x15" + decimal(span, rng).encode()
        made += b"\x14" + b"".join(text + b"\x14" for text in texts) + b"\0"
    return made


def shares(total: int, count: int, rng: random.Random) -> list:
    """From where to where each of so many shares of the whole goes; some are empty."""
    ends = [0, *sorted(rng.randint(0, total) for _ in range(count - 1)), total]
    return list(zip(ends, ends[1:]))


def blocks(start: int, notes: list, base: int, count: int, rng: random.Random) -> list:
    """The blocks of a record: its start in the first, and its annotations in all of them, in their
    order."""
    made = []
    for nth, (begin, end) in enumerate(shares(len(notes), count, rng)):
        begun = [] if nth else [[start, None, [b""]]]
        if nth and rng.random() < 0.1:
            # here an empty text is an annotation
            begun.append([start, None, rng.choice(([], [], [b""]))])
        made.append(spelled(in_lists(notes[begin:end], begun, rng), base, rng))
    return made


def noted_signals(pairs: list, spare: tuple, rng: random.Random) -> list:
    """An annotations signal for each block of a record, wide enough for the blocks at its place in
    all records."""
    signals = []
    for made in zip(*(made for _, made in pairs)):
        signal = annotations_signal(max(1, (max(map(len, made)) + 1) // 2) + rng.choice(spare))
        if rng.random() < 0.1:
            signal = replace(signal, transducer="any", dimension="any", physical_minimum="5.",
                             physical_maximum="-5", digital_maximum="+32767", prefiltering="any",
                             reserved="any")
        signals.append(signal)
    return signals


def placed(ordinary: list, noted: list, rng: random.Random) -> tuple:
    """The ordinary signals with the annotations signals among them: all of these first, all last,
    or anywhere."""
    last = len(ordinary)
    places = rng.choice(
        ([0] * len(noted), [last] * len(noted), sorted(rng.randint(0, last) for _ in noted)))
    signals = list(ordinary)
    for place, signal in reversed(list(zip(places, noted))):
        signals.insert(place, signal)
    return tuple(signals)


class Recording:
    """What really happened: records in time, some ways apart, some after a gap."""

    def __init__(self, rng: random.Random):
        self.rng = rng
        self.dated = rng.random() < 0.7
        # Without a date no file of a recording that starts after 2084 is accepted: they are few.
        self.start = rng.choice(DAYS + LATE_DAYS if self.dated or rng.random() < 0.1 else DAYS)
        self.duration = rng.choice(DURATIONS)
        self.patient = rng.choice(("P7 F 02-MAY-1951 X", "P8 M X X and more", "X X X X"))
        self.following = rng.choice((" N1 T3 REC5", " N1  T3 REC5", " N2 T3 REC5 more"))
        self.signals = [Signal(label=f"EEG {n}", samples=rng.choice(("1", "2", "02", "3")))
                        for n in range(rng.randint(1, 3))]
        self.bytes = 2 * sum(int(signal.samples) for signal in self.signals)
        step = round(float(self.duration) * SECOND)
        self.records, at = [], rng.choice((0, 0, SECOND // 2, 1))
        for _ in range(rng.randint(2, 12)):
            notes = [self.note(at) for _ in range(rng.choice((0, 0, 1, 2, 4)))]
            if notes and rng.random() < 0.5:
                notes.append((notes[-1][0], notes[-1][1], b"again"))
            self.records.append((at, rng.randbytes(self.bytes), notes))
            at += step + rng.choice((0, 0, 0, 1, SECOND, SECOND // 4, 3600 * SECOND))

    def note(self, at: int) -> tuple:
        rng = self.rng
        return (at + rng.choice((0, SECOND // 4, 1, -1, -SECOND)),
                rng.choice((None, None, 0, SECOND, 1_500_000_000)),
                rng.choice((b"", b"Apnea", "Schnarcher \u00e4".encode(), b"\x15")))

    def differing(self, records: list) -> list:
        """The records with one of them changed, so that it clashes with what it was."""
        rng, changed = self.rng, list(records)
        nth = rng.randrange(len(changed))
        at, samples, notes = changed[nth]
        change = rng.randrange(4)
        if change == 0:
            samples = bytes([samples[0] ^ 1]) + samples[1:]
        elif change == 1:
            at += rng.choice((1, SECOND // 8, SECOND // 2))
        elif change == 2:
            notes = notes[1:] if notes else [self.note(at)]
        else:
            turned = [(onset, 0 if span is None else None, text) for onset, span, text in notes]
            notes = turned or [self.note(at)]
        changed[nth] = (at, samples, notes)
        return changed

    def cut(self) -> tuple:
        """A header and the pairs of samples and blocks of some records in a row."""
        rng = self.rng
        first = rng.randrange(len(self.records))
        records = self.records[first:first + rng.randint(1, 6)]
        if rng.random() < 0.15:
            records = self.differing(records)
        begin = self.start + timedelta(seconds=records[0][0] // SECOND)
        base = records[0][0] // SECOND * SECOND
        parts = rng.choice((2, 2, 2, 3, 3, 5)) if rng.random() < 0.3 else 1
        pairs = [(samples, blocks(at, notes, base, parts, rng)) for at, samples, notes in records]
        signals = placed(self.signals, noted_signals(pairs, (0, 0, 1, 20), rng), rng)
        day = begin.strftime("%d-%b-%Y").upper() if self.dated else "X"
        count = "-1" if rng.random() < 0.3 else rng.choice(("{}", "{}", "{:03}")).format(len(pairs))
        year = "%y" if begin.year < 2085 else "yy"
        header = Header(signals, begin.strftime(f"%d.%m.{year}"), begin.strftime("%H.%M.%S"),
                        self.patient, f"Startdate {day}{self.following}",
                        rng.choice(("EDF+C", "EDF+D", "EDF+D and more")), count, self.duration)
        return header, pairs


def column(ns: int, which: int, signal: int) -> int:
    """Where a field of a signal stands in the file."""
    return 256 + ns * sum(SIGNAL_WIDTHS[:which]) + signal * SIGNAL_WIDTHS[which]


def with_field(data: bytes, ns: int, rng: random.Random) -> bytes:
    """The file with one field of its header given another text."""
    if rng.random() < 0.5:
        which = rng.choice((0, 1, 2, 3, 4, 5, 6, 7, 7, 7, 8, 9))
        at, width = sum(FIXED_WIDTHS[:which]), FIXED_WIDTHS[which]
        text = rng.choice(FIXED_TEXTS[which])
    else:
        which = rng.choice((0, 1, 2, 3, 3, 4, 4, 5, 5, 6, 6, 7, 8, 8, 9))
        at, width = column(ns, which, rng.randrange(ns)), SIGNAL_WIDTHS[which]
        text = rng.choice(SIGNAL_TEXTS[which])
    return data[:at] + text.encode("latin-1").ljust(width)[:width] + data[at + width:]


def with_dates(header: Header, rng: random.Random) -> Header:
    """The header with another startdate and Startdate subfield, which may be those of one day, now
    and then another starttime, and now and then the startdate of the header alone with digits or
    letters for its year."""
    if rng.random() < 0.2:
        return replace(header,
                       startdate=header.startdate[:6] + rng.choice(("yy", "84", "85", "02", "YY")))
    startdate, subfield = rng.choice(DATES), rng.choice(SUBFIELDS)
    _, _, following = header.recording.split(" ", 2)
    starttime = rng.choice((header.starttime,) * 4 + ("24.00.00", "00.00.00", "23.59.59"))
    return replace(header, startdate=startdate, starttime=starttime,
                   recording=f"Startdate {subfield} {following}")


def odd_list(rng: random.Random) -> bytes:
    span = rng.choice(SPANS)
    made = rng.choice(ONSETS).encode()
    made += (b"" if span is None else b"\x15" + span.encode()) + b"\x14"
    made += b"".join(rng.choice(TEXTS) + b"\x14" for _ in range(rng.choice((0, 1, 1, 2, 3))))
    return made + rng.choice((b"\0",) * 12 + (b"", b"\0\0", b"\x14", b"x\0"))


def odd_block(made: bytes, rng: random.Random) -> bytes:
    change = rng.randrange(5)
    if change == 0:
        return b"".join(odd_list(rng) for _ in range(rng.randint(0, 3)))
    if change == 1:
        return odd_list(rng) + made
    if change == 2:
        return made + odd_list(rng)
    if change == 3:
        lists = made.split(b"\0")
        return b"\0".join(lists[:1] + [odd_list(rng).rstrip(b"\0")] + lists[1:])
    at = rng.randrange(len(made) + 1)
    byte = rng.choice((0, 20, 21, 43, 45, 46, 48, 57, 255, rng.randrange(256)))
    return made[:at] + bytes([byte]) + made[at + 1:]


def odd_in_two(made: list, rng: random.Random) -> list:
    """The blocks of a record with what is wrong in two of them, or in one as it stands beside the
    others."""
    change, made = rng.randrange(6), list(made)
    first, second = sorted(rng.sample(range(len(made)), 2))
    if change == 0:
        # a text that is no UTF-8 and, in another block, what is no list, or a second such text
        bad = [b"+1\x14a\x14\xe2\x82\x14\0",
               rng.choice((b"+1", b"\0\1", b"+1.\x14\0", b"+1\x14\xff\x14\0"))]
        rng.shuffle(bad)
        made[first] += bad[0]
        made[second] += bad[1]
    elif change == 1:       # no time-keeping list in the first block
        made[0], made[second] = rng.choice((b"", made[second], b"+0\x14\0")), made[0]
    elif change == 2:       # a list without annotations, of which only the times can be wrong
        span = rng.choice((b"", b"\x151", b"\x156311433599.999999999", b"\x156311433600",
                           b"\x159223372036.854775808"))
        made[second] += rng.choice(ONSETS).encode() + span + b"\x14\0"
    elif change == 3:
        made[first], made[second] = odd_block(made[first], rng), odd_block(made[second], rng)
    elif change == 4:
        # a list that may go on in the next block, with no byte between where the record is alone
        whole = keeping("+0") + rng.choice((b"+0\x14ab\x14\0", b"+0.50\x151\x14text\x14\0",
                                            b"+1\x14\x14\x14a\x14\0"))
        at = 2 * rng.randint(1, len(whole) // 2)
        made = [whole[:at], whole[at:], *[b""] * (len(made) - 2)]
    else:
        rng.shuffle(made)
    return made


def with_odd_block(header: Header, pairs: list, rng: random.Random) -> tuple:
    """The file with odd blocks in one of its records; sometimes the first, which is then alone."""
    alone = rng.random() < 0.3
    nth = 0 if alone else rng.randrange(len(pairs))
    samples, made = pairs[nth]
    if len(made) > 1 and rng.random() < 0.6:
        made = odd_in_two(made, rng)
    else:
        which = rng.randrange(len(made))
        made = [*made[:which], odd_block(made[which], rng), *made[which + 1:]]
    pairs = [(samples, made)] if alone else [*pairs[:nth], (samples, made), *pairs[nth + 1:]]
    noted = iter(noted_signals(pairs, (0, 0, 1), rng))
    signals = tuple(next(noted) if signal.label == ANNOTATIONS_LABEL else signal
                    for signal in header.signals)
    return replace(header, signals=signals,
                   count="1" if alone and header.count != "-1" else header.count), pairs


def without_ordinary(header: Header, pairs: list) -> tuple:
    """The file with annotations signals alone, each twice."""
    noted = tuple(signal for signal in header.signals if signal.label == ANNOTATIONS_LABEL)
    return replace(header, signals=2 * noted), [(b"", 2 * made) for _, made in pairs]


def with_other_end(data: bytes, header: Header, rng: random.Random) -> bytes:
    """The file cut between two records, or inside one at a kind of place; or made longer, by less
    than a record or more."""
    head, size, widths = 256 + 256 * len(header.signals), header.record_bytes(), header.widths()
    begin = head + size * rng.randrange((len(data) - head) // size)
    edge = sum(widths[:rng.randrange(len(widths))]) + rng.choice((-1, 0, 1))
    longer = (b"\0", b"\xff" * rng.randrange(1, size), bytes(size - 1), bytes(size),
              bytes(size + 1), data[-size:], data[head:], data)
    if rng.random() < 0.3:
        return data + rng.choice(longer)
    return data[:begin + rng.choice((0, 0, 0, 1, size - 1, edge, rng.randrange(size)))]


def with_other_bytes(data: bytes, ns: int, rng: random.Random) -> bytes:
    """The file cut, made longer, or with a byte or two changed anywhere."""
    change, head = rng.randrange(6), 256 + 256 * ns
    if change == 0:
        return data[:rng.randrange(len(data))]
    if change == 1:
        return data[:rng.choice((0, 1, 255, 256, 257, head - 1, head, head + 1, len(data) - 1))]
    if change == 2:
        return data + rng.choice((b"\0", b"\xff" * 7, data[head:], data))
    at = rng.randrange(head) if change == 3 else rng.randrange(len(data))
    return data[:at] + bytes([rng.randrange(256)]) + data[at + 1:]


def case(recording: Recording, rng: random.Random) -> bytes:
    header, pairs = recording.cut()
    kind = rng.random()
    if kind < 0.2:
        header, pairs = with_odd_block(header, pairs, rng)
    if 0.2 <= kind < 0.24 or kind < 0.02:
        rng.shuffle(pairs)
    if 0.24 <= kind < 0.25:
        header, pairs = without_ordinary(header, pairs)
    if 0.55 <= kind < 0.61 or kind < 0.02:
        header = with_dates(header, rng)
    data = fragment(header, pairs)
    if rng.random() < (0.3 if header.count == "-1" else 0.03):
        data = with_other_end(data, header, rng)
    for _ in range(rng.choice((1, 1, 2)) if 0.25 <= kind < 0.45 or kind < 0.02 else 0):
        data = with_field(data, len(header.signals), rng)
    if 0.45 <= kind < 0.53 or kind < 0.01:
        data = with_other_bytes(data, len(header.signals), rng)
    if 0.53 <= kind < 0.533:
        data = crowded(rng)
    if 0.54 <= kind < 0.55:
        data = wide(rng)
    return data


def crowded(rng: random.Random) -> bytes:
    """A record at the edge of what its list may hold, in one block or in several."""
    count, text = rng.choice((1, 2, 3)), b""
    if rng.random() < 0.5:
        total, text = rng.choice((10_000, 10_001)), b"\x14"
    else:
        total, text = rng.choice((1_000_000, 1_000_001)), b"a"
    made = []
    for begin, end in shares(total, count, rng):
        keeps_time = b"" if made else b"\x14"
        made.append(b"+0\x14" + keeps_time + (end - begin) * text +
                    (b"" if text == b"\x14" else b"\x14") + b"\0")
        made[-1] += b"+5\x14\0" * rng.choice((0, 0, 1))       # a list without annotations
    pairs = [(b"\1\0\2\0", made)]
    return fragment(Header(placed([Signal()], noted_signals(pairs, (0,), rng), rng),
                           count=rng.choice(("1", "-1"))), pairs)


def wide(rng: random.Random) -> bytes:
    """A header whose records are at the edge of what a record may hold, with less than one of them
    after it."""
    edges = ((2_097_152,), (2_097_153,), (2_097_151, 1), (2_097_151, 2), (2, 2_097_151),
             (2_097_152, 1), (1_048_576, 1_048_576), (1_048_576, 1_048_577),
             (699_051, 699_051, 699_050), (699_051, 699_051, 699_051))
    ordinary = [Signal(samples=str(samples)) for samples in rng.choice(((2,), (2,), *edges))]
    noted = [annotations_signal(samples) for samples in rng.choice(((3,), *edges[2:]))]
    header = Header(placed(ordinary, noted, rng), count=rng.choice(("1", "-1")))
    return header.to_bytes() + rng.randbytes(rng.randrange(40))


def batches(seed: str, count: int):
    """So many files, in lists of a seed each."""
    for nth in range((count + BATCH - 1) // BATCH):
        yield batch(f"{seed}/{nth}", min(BATCH, count - nth * BATCH))


def batch(seed: str, count: int) -> list:
    """A list of files as they come, repeats among them."""
    rng = random.Random(seed)
    recordings = [Recording(rng) for _ in range(rng.randint(1, 3))]
    files = [case(rng.choice(recordings), rng) for _ in range(count)]
    for _ in range(count // 20):
        files[rng.randrange(count)] = rng.choice(files)
    return files
