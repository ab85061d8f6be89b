"""A small night with gaps as it was submitted, and exports of it that are made wrong in one place,
by bytes, each with the line that `examples/witness.py` must print of it, written by hand."""
from . import model
from .edf import Header, Signal, annotations_signal, fragment
from .faults import cut_record, differs
from .model import SECOND, Record
from .named import patched

EXPORT = "night.edf"
BEGIN, EVENING, MORNING = 541_727_990 * SECOND, "2002-03-02T23:59:", "2002-03-03T00:00:"
P7, P8, P9 = "P7 F 02-MAY-1951 X", "P8 F 02-MAY-1951 X", "P9 F 02-MAY-1951 X"
NO_START = f"{EXPORT} has no data record of this start"
NO_FILE = "no accepted file of the recording has it"


def record(start: int, first: int, *notes) -> Record:
    """A data record that starts so many milliseconds after 23:59:50, with four samples."""
    listed = tuple((BEGIN + onset * 10**6, None if lasting is None else lasting * 10**6, text)
                   for onset, lasting, text in notes)
    samples = b"".join(value.to_bytes(2, "little") for value in range(first, first + 4))
    return Record(BEGIN + start * 10**6, samples, listed)


def file_of(records: list, patient: str = P7) -> bytes:
    base = records[0].start // SECOND * SECOND
    day, hour, minute, second, _ = model.civil(base)
    blocks = [model.written_block(one, base) for one in records]
    header = Header((Signal(), Signal("Pulse"), annotations_signal(max(map(len, blocks)))),
                    f"{day:%d.%m.%y}", f"{hour:02}.{minute:02}.{second:02}", patient,
                    f"Startdate {day:%d}-MAR-2002 N1 T3 REC5", count=str(len(records)))
    return fragment(header, [(one.samples, block) for one, block in zip(records, blocks)])


NIGHT = [record(0, 1), record(1_000, 5, (1_500, 2_000, b"Arousal")),
         record(2_000, 9, (2_250, None, b"Snore"), (2_250, None, b"Turn")), record(3_000, 13),
         record(10_250, 17, (9_000, 30_000, b"N2")), record(11_250, 21),
         record(12_250, 25, (11_000, 0, b"x" * 50)), record(20_000, 29)]
STRANGER, LATER = record(15_000, 33), record(30_000, 37)
FILES = {"part1.edf": file_of(NIGHT[:4]), "part2.edf": file_of(NIGHT[2:6]),
         "part3.edf": file_of(NIGHT[5:]), "card.edf": file_of(NIGHT),
         "cut.edf": file_of(NIGHT)[:-1], "other.edf": file_of([record(20_000, 30), LATER]),
         "p8.edf": file_of([STRANGER], P8)}
ORDER = ("part3.edf", "part1.edf", "cut.edf", "part2.edf", "part1.edf", "p8.edf", "other.edf",
         "card.edf")
ANSWERS = ((3, 0), (4, 0), cut_record(8), (1, 3), (0, 4), (1, 0), differs(f"{MORNING}10"), (0, 8))


class Parts:
    """An export by its bytes: its header, and its data records, whose blocks are behind."""

    def __init__(self, data: bytes):
        count = int(data[252:256])
        head = 256 * (count + 1)
        sizes = [2 * int(data[at:at + 8]) for at in range(256 + 216 * count, 256 + 224 * count, 8)]
        self.head, self.samples, self.size = data[:head], sum(sizes[:-1]), sum(sizes)
        self.each = [data[at:at + self.size] for at in range(head, len(data), self.size)]

    def file(self, *records: bytes) -> bytes:
        return patched(self.head, 236, b"%-8d" % len(records)) + b"".join(records)

    def changed(self, nth: int, *records: bytes) -> bytes:
        """With these data records in place of that one."""
        return self.file(*self.each[:nth], *records, *self.each[nth + 1:])

    def filled(self, samples: bytes, block: bytes) -> bytes:
        return samples + block.ljust(self.size - self.samples, b"\0")

    def noted(self, nth: int, old: bytes, new: bytes) -> bytes:
        """With another text in a block."""
        one = self.each[nth]
        made = one[self.samples:].rstrip(b"\0").replace(old, new, 1).rstrip(b"\0") + b"\0"
        return self.changed(nth, self.filled(one[:self.samples], made))

    def added(self, nth: int, one: Record) -> bytes:
        """With a data record before that one."""
        made = self.filled(one.samples, model.written_block(one, BEGIN))
        return self.file(*self.each[:nth], made, *self.each[nth:])


def exchanged(data: bytes, one: int, other: int, width: int) -> bytes:
    return patched(patched(data, one, data[other:other + width]), other, data[one:one + width])


def line(name: str, nth: int, time: str, text: str) -> str:
    return f"{name}, data record {nth}, {time}: {text}\n"


def in_data_records(it: Parts) -> list:
    """What is wrong, the export, the place that is told, and what is told of it."""
    each, at, third = it.each, len(it.head), ("part1.edf", 3, f"{EVENING}52")
    first, fourth, last = (("part1.edf", 1, f"{EVENING}50"), ("part1.edf", 4, f"{EVENING}53"),
                           ("part3.edf", 3, f"{MORNING}10"))
    beside = ", which was refused or is of another recording"
    return [
        ("left out", it.changed(3), fourth, NO_START),
        ("the first left out", it.changed(0), (EXPORT, 1, f"{EVENING}51"),
         f"its header has the start {EVENING}50"),
        ("twice", it.changed(3, each[3], each[3]), (EXPORT, 5, f"{EVENING}53"),
         "it starts at the start of data record 4"),
        ("exchanged", it.file(*each[:2], each[3], each[2], *each[4:]), (EXPORT, 4, third[2]),
         "it starts before the end of data record 3"),
        ("their samples", exchanged(it.file(*each), at, at + it.size, it.samples), first,
         f"sample 1 of signal 1 is 1, and 5 in data record 1 of {EXPORT}"),
        ("a second later", it.noted(7, b"+20", b"+21"), last, NO_START),
        ("a nanosecond later", it.noted(7, b"+20", b"+20.000000001"), last, NO_START),
        ("overlapping", it.noted(1, b"+1\x14", b"+1.5\x14"), (EXPORT, 3, third[2]),
         "it starts before the end of data record 2"),
        ("before its header", it.noted(0, b"+0", b"-1"), (EXPORT, 1, f"{EVENING}49"),
         f"its header has the start {EVENING}50"),
        ("a sample", it.changed(5, patched(each[5], 6, b"\xff\xff")),
         ("part2.edf", 4, f"{MORNING}01.25"),
         f"sample 2 of signal 2 is 24, and -1 in data record 6 of {EXPORT}"),
        ("two signals", exchanged(it.file(*each), at, at + 4, 4), first,
         f"sample 1 of signal 1 is 1, and 3 in data record 1 of {EXPORT}"),
        ("another's", it.added(7, STRANGER), (EXPORT, 8, f"{MORNING}05"),
         f"{NO_FILE}, but p8.edf{beside}"),
        ("a refused one", it.added(8, LATER), (EXPORT, 9, f"{MORNING}20"),
         f"{NO_FILE}, but other.edf{beside}"),
        ("nobody's", it.added(8, record(40_000, 1)), (EXPORT, 9, f"{MORNING}30"), NO_FILE)]


def in_annotations(it: Parts) -> list:
    """The same of annotations."""
    third, there = ("part1.edf", 3, f"{EVENING}52"), f"in data record 3 of {EXPORT}"
    snore, turn = (f"'{text}' at {EVENING}52.25" for text in ("Snore", "Turn"))
    long = f"'{'x' * 50}' at {MORNING}01"
    return [
        ("no annotation", it.noted(2, b"+2.25\x14Turn\x14", b""), third,
         f"annotation 2 is {turn}, and none {there}"),
        ("moved", it.noted(2, b"5\x14Turn", b"6\x14Turn"), third,
         f"annotation 2 is {turn}, and {turn[:-1]}6 {there}"),
        ("doubled", it.noted(2, b"Turn\x14", b"Turn\x14Turn\x14"), third,
         f"annotation 3 is none, and {turn} {there}"),
        ("two of them", it.noted(2, b"Snore\x14\0+2.25\x14Turn", b"Turn\x14\0+2.25\x14Snore"),
         third, f"annotation 1 is {snore}, and {turn} {there}"),
        ("a text", it.noted(2, b"Snore", b"Sn\x1bre"), third,
         f"annotation 1 is {snore}, and {snore[:3]}\\x1b{snore[4:]} {there}"),
        ("a space", it.noted(2, b"Turn", b"Turn "), third,
         f"annotation 2 is {turn}, and 'Turn '{turn[6:]} {there}"),
        ("no duration", it.noted(6, b"\x150", b""), ("part3.edf", 2, f"{MORNING}02.25"),
         f"annotation 1 is {long} for 0 s, and {long} in data record 7 of {EXPORT}")]


def in_header(data: bytes, size: int) -> list:
    """What is wrong in the header or behind the data records, the export, and what is told."""
    row, counted = 256 + 3 * 16, "number of data records is '{}'; there are {} and {} bytes more"
    return [
        ("patient", patched(data, 9, b"9"), f"patient field is '{P9}', and '{P7}' in card.edf"),
        ("equipment", patched(data, 119, b"6"),
         "recording field, behind its date is ' N1 T3 REC6', and ' N1 T3 REC5' in card.edf"),
        ("duration", patched(data, 245, b".0"),
         "duration of a data record is '1.0', and '1' in card.edf"),
        ("dimension", patched(data, row + 3 * 80 + 8, b"mV"),
         "physical dimension of signal 2 is 'mV', and 'uV' in card.edf"),
        ("labels", exchanged(data, 256, 272, 16),
         "label of signal 1 is 'Pulse', and 'EEG Fpz-Cz' in card.edf"),
        ("EDF+C", patched(data, 196, b"C"), "reserved field is 'EDF+C', and not 'EDF+D'"),
        ("transducer", patched(data, row + 2 * 80, b"x"),
         "transducer type of the last signal is 'x', and not ''"),
        ("too many", patched(data, 236, b"9"), counted.format(9, 8, 0)),
        ("too few", patched(data, 236, b"7"), counted.format(7, 8, 0)),
        ("unknown", patched(data, 236, b"-1"), counted.format(-1, 8, 0)),
        ("a byte behind", data + b"\0", counted.format(8, 8, 1)),
        ("a byte less", data[:-1], counted.format(8, 7, size - 1))]


def wrong(data: bytes) -> list:
    """Each export that is wrong: what is, its bytes, and the line."""
    parts = Parts(data)
    found = [(what, made, line(*place, text))
             for what, made, place, text in in_data_records(parts) + in_annotations(parts)]
    found += [(what, made, f"{EXPORT}, header: {text}\n")
              for what, made, text in in_header(data, parts.size)]
    return found + [
        ("starttime", patched(data, 182, b"51"), line("part1.edf", 1, f"{EVENING}50", NO_START)),
        ("startdate", patched(data, 168, b"03"),
         f"{EXPORT}: its startdate is '03.03.02', and its date 2002-03-02\n"),
        ("no EDF+", patched(data, 192, b"     "), f"{EXPORT}: it is no EDF+ file\n"),
        ("no byte", b"", f"{EXPORT}: it is no EDF+ file\n")]
