"""Says whether an export of edfstore has each accepted data record once, and nothing else.

    edfstore take night.db part*.edf card.edf > answers
    edfstore export night.db 1 > night.edf
    python3 witness.py --answers answers --export night.edf part*.edf card.edf

It is for whoever does not want to believe edfstore: it reads EDF+ by itself, has no code of
edfstore, and needs Python 3.11 alone. The files are those that were submitted, by the names that
the answers have. Of each one that was accepted, and is of the export's recording, it compares:

- Each data record stands in the export once: at its instant, to the nanosecond, with the bytes of
  each signal, and the same annotations in the same order: onset, duration or none, and text.
- The export has no other data record. Its own rise in time, and none begins before the end of the
  one before. Its header has the patient field, the recording field (its date aside), the duration
  of a data record and the signals of the files; as start the second of its first data record;
  EDF+D; and the number of data records that follow. No byte follows the last.

Status 0: so it is. Status 1: it is not, and a line names the first place and what differs there.
Status 2: it can't be told, and a line says why: a file that can't be read as EDF+, one without an
answer, an accepted one that was not given. Refused files may be left out. Of the answers the last
one of each file counts. After E41, E42 and E45 nobody knows whether it is held: take it again.

Not checked: accepted files of other recordings, which have exports of their own; whether a file was
rightly accepted or refused, or keeps each rule of EDF+; whether the answers are edfstore's, but for
`new` and `known`, whose sum is the file's number of data records; how the export spells numbers and
groups annotations; the store.
"""
import argparse
import os
import re
import sys
from array import array
from bisect import bisect_left
from collections.abc import Iterable, Iterator
from dataclasses import dataclass
from datetime import date
from itertools import accumulate, pairwise, zip_longest
from typing import BinaryIO, NamedTuple

SECOND, DAY = 10**9, 86_400 * 10**9         # times are whole nanoseconds
WINDOW = 73_049 * DAY                       # 1985 to 2184
EPOCH = date(1985, 1, 1).toordinal()        # instants count from here, on a clock without time zone
MONTHS = b"JAN FEB MAR APR MAY JUN JUL AUG SEP OCT NOV DEC".split()
FIXED = {"version": 8, "patient field": 80, "recording field": 80, "startdate": 8, "starttime": 8,
         "bytes in header": 8, "reserved field": 44, "number of data records": 8,
         "duration of a data record": 8, "number of signals": 4}
SIGNAL = {"label": 16, "transducer type": 80, "physical dimension": 8, "physical minimum": 8,
          "physical maximum": 8, "digital minimum": 8, "digital maximum": 8, "prefiltering": 80,
          "samples per data record": 8, "reserved field": 32}
ANNOTATIONS = b"EDF Annotations "
# What an export has in the fields of its annotations signal, but for its samples
NOTED = {"label": b"EDF Annotations", "physical minimum": b"-1", "physical maximum": b"1",
         "digital minimum": b"-32768", "digital maximum": b"32767"}
BUFFER = 65_536
TIME = rb"(\d+)(?:\.(\d+))?"
DURATION, TIMES = re.compile(TIME + b" *"), re.compile(b"([+-])" + TIME + b"(?:\x15" + TIME + b")?")
CLOCK = re.compile(rb"([01]\d|2[0-3])\.([0-5]\d)\.([0-5]\d)")
DATED = re.compile(rb"Startdate (?:X|(\d\d)-(" + b"|".join(MONTHS) + rb")-(\d{4})) ")
ANSWER = re.compile(r"(?m)^(.+) (?:accepted new=(\d{1,8}) known=(\d{1,8})|refused E(\d{1,2}) .+)$")
REFUSED, UNKNOWN, READ = -2, -1, 40         # answers that are no count; after E40 nothing is held


class Wrong(Exception):
    """Where the export is not as it must be, and how."""


class Unsure(Exception):
    """Why it can't be told."""


def plain(text: str) -> str:
    """The text in ASCII, so that no name can steer a terminal."""
    return ascii(text)[1:-1]


def quoted(text: bytes, fill: bytes = b" ") -> str:
    return ascii(text.rstrip(fill).decode("utf-8", "backslashreplace"))


def decimal(nanos: int) -> str:
    return f"{nanos // SECOND}.{nanos % SECOND:09}".rstrip("0").rstrip(".")


def civil(instant: int) -> str:
    day, rest = divmod(instant, DAY)
    second, part = divmod(rest, SECOND)
    clock = f"{second // 3_600:02}:{second // 60 % 60:02}:{second % 60:02}.{part:09}"
    return f"{date.fromordinal(EPOCH + day)}T{clock.rstrip('0').rstrip('.')}"


def nanoseconds(digits: bytes, decimals: bytes | None) -> int:
    digits, decimals = digits.lstrip(b"0"), (decimals or b"").rstrip(b"0")
    if len(digits) > 10 or len(decimals) > 9:
        raise ValueError("a time of it is finer than a nanosecond, or centuries away")
    return int(digits or b"0") * SECOND + int(decimals.ljust(9, b"0"))


def split(data: bytes, widths: Iterable[int]) -> list[bytes]:
    return [data[at:end] for at, end in pairwise(accumulate(widths, initial=0))]


def whole(fields: dict[str, bytes], name: str) -> int:
    if not fields[name].rstrip(b" ").isdigit():
        raise ValueError(f"its {name} is {quoted(fields[name])}")
    return int(fields[name])


class Annotation(NamedTuple):
    onset: int                  # an instant
    duration: int | None
    text: bytes

    def __str__(self) -> str:
        lasting = "" if self.duration is None else f" for {decimal(self.duration)} s"
        return f"{quoted(self.text, b'')} at {civil(self.onset)}{lasting}"


class DataRecord(NamedTuple):
    start: int                  # an instant
    samples: list[bytes]        # of each signal that holds no annotations
    annotations: list[Annotation]


def annotations_of(block: bytes, base: int) -> Iterator[list[Annotation]]:
    """Each time-stamped annotations list of a block, whose onsets count from that instant."""
    body = block.rstrip(b"\0")
    if len(body) == len(block):
        raise ValueError("no zero ends its annotations")
    for piece in body.split(b"\0") if body else ():
        times, *texts = piece.split(b"\x14")
        found = TIMES.fullmatch(times)
        if not found or not texts or texts.pop():
            raise ValueError(f"its annotations are no lists of EDF+ from {quoted(piece[:40])} on")
        onset = nanoseconds(found[2], found[3]) * (-1 if found[1] == b"-" else 1)
        duration = None if found[4] is None else nanoseconds(found[4], found[5])
        yield [Annotation(base + onset, duration, text) for text in texts]


@dataclass(frozen=True)
class Header:
    path: str
    name: str                   # the path, as it may be printed
    error: type[Exception]      # of what is wrong in the file
    fixed: dict[str, bytes]
    signals: list[dict[str, bytes]]
    sizes: list[int]            # bytes of each signal in a data record
    start: int
    duration: int
    length: int                 # bytes behind the header

    def count(self) -> int:
        """The whole data records that follow it."""
        return self.length // sum(self.sizes)

    def are_annotations(self) -> list[bool]:
        return [signal["label"] == ANNOTATIONS for signal in self.signals]

    def identification(self) -> dict[str, bytes]:
        """What all files of a recording have alike, field by field."""
        recording = self.fixed["recording field"]
        ordinary = [signal for signal in self.signals if signal["label"] != ANNOTATIONS]
        end = 11 if recording[10:12] == b"X " else 21
        found = {"patient field": self.fixed["patient field"],
                 "recording field, with a date or X": b"X" if end == 11 else b"a date",
                 "recording field, behind its date": recording[end:].ljust(69),
                 "duration of a data record": self.fixed["duration of a data record"]}
        for nth, signal in enumerate(ordinary, 1):
            found |= {f"{name} of signal {nth}": text for name, text in signal.items()}
        return found | {"number of signals without annotations": b"%d" % len(ordinary)}

    def check_count(self) -> None:
        text, rest = self.fixed["number of data records"], self.length % sum(self.sizes)
        is_right = text.rstrip(b" ").isdigit() and int(text) == self.count() > 0
        is_unknown = text == b"-1      " and self.error is Unsure
        if rest or not is_right and not is_unknown:
            raise self.error(f"{self.name}, header: number of data records is {quoted(text)}; "
                             f"there are {self.count()} and {rest} bytes more")

    def data_record(self, data: bytes) -> DataRecord:
        pieces = list(zip(self.are_annotations(), split(data, self.sizes)))
        samples = [piece for is_block, piece in pieces if not is_block]
        blocks = [list(annotations_of(piece, self.start)) for is_block, piece in pieces if is_block]
        times = blocks[0][0] if blocks[0] else []
        if not times or times[0].text or not 0 <= times[0].onset < WINDOW:
            raise ValueError("its first annotation is none that keeps time")
        first, *others = (one for block in blocks for tal in block for one in tal)
        return DataRecord(first.onset, samples, others)

    def read(self, file: BinaryIO, nth: int) -> DataRecord:
        """The data record of that number, from 0."""
        file.seek(256 * (len(self.signals) + 1) + nth * sum(self.sizes))
        try:
            return self.data_record(file.read(sum(self.sizes)))
        except ValueError as why:
            raise self.error(f"{self.name}, data record {nth + 1}: {why}") from None

    def data_records(self) -> Iterator[DataRecord]:
        with open(self.path, "rb", BUFFER) as file:
            for nth in range(self.count()):
                yield self.read(file, nth)


def start_of(fixed: dict[str, bytes]) -> int:
    """The second that a header names; where its recording field has a date that has the century."""
    named, clock = DATED.match(fixed["recording field"]), CLOCK.fullmatch(fixed["starttime"])
    text = fixed["startdate"].decode("latin-1")
    if not named or not clock:
        raise ValueError("its starttime is no time, or its recording field has no Startdate")
    if named[1]:
        day = date(int(named[3]), MONTHS.index(named[2]) + 1, int(named[1]))
    else:
        year = int(text[6:])
        day = date(year + (1900 if year >= 85 else 2000), int(text[3:5]), int(text[:2]))
    right = day.strftime("%d.%m.%y" if day.year < 2085 else "%d.%m.yy")
    if text != right or not 1985 <= day.year <= 2184:
        raise ValueError(f"its startdate is {ascii(text)}, and its date {day}")
    hour, minute, second = map(int, clock.groups())
    return (day.toordinal() - EPOCH) * DAY + (3_600 * hour + 60 * minute + second) * SECOND


def header_of(path: str, file: BinaryIO, error: type[Exception]) -> Header:
    fixed = dict(zip(FIXED, split(file.read(256), FIXED.values())))
    if fixed["version"] != b"0       " or fixed["reserved field"][:5] not in (b"EDF+C", b"EDF+D"):
        raise ValueError("it is no EDF+ file")
    count = whole(fixed, "number of signals")
    length = os.path.getsize(path) - 256 * (count + 1)
    if whole(fixed, "bytes in header") != 256 * (count + 1) or length < 0:
        raise ValueError("it ends in its header, or its bytes in header are not as its signals")
    columns = [split(file.read(count * width), count * [width]) for width in SIGNAL.values()]
    signals = [dict(zip(SIGNAL, row)) for row in zip(*columns)]
    sizes = [2 * whole(signal, "samples per data record") for signal in signals]
    duration = DURATION.fullmatch(fixed["duration of a data record"])
    if not duration or not all(sizes) or all(it["label"] != ANNOTATIONS for it in signals):
        raise ValueError("it has no annotations signal, no duration of a data record or no samples")
    return Header(path, plain(path), error, fixed, signals, sizes, start_of(fixed),
                  nanoseconds(*duration.groups()), length)


def read_header(path: str, error: type[Exception] = Unsure) -> Header:
    if os.path.exists(path) and not os.path.isfile(path):
        raise error(f"{plain(path)}: it is no plain file")
    with open(path, "rb") as file:
        try:
            return header_of(path, file, error)
        except ValueError as why:
            raise error(f"{plain(path)}: {why}") from None


class Export:
    """An export, which stays open: the starts of its data records, and which of them were met."""

    def __init__(self, header: Header, file: BinaryIO):
        self.header, self.file = header, file
        self.starts, self.met = array("q"), bytearray(header.count())
        for nth in range(header.count()):
            start = header.read(file, nth).start
            self.starts.append(start)
            if nth == 0 and not 0 <= start - header.start < SECOND:
                raise Wrong(f"{self.place(nth)}: its header has the start {civil(header.start)}")
            if nth and start < self.starts[nth - 1] + header.duration:
                when = "at the start" if start == self.starts[nth - 1] else "before the end"
                raise Wrong(f"{self.place(nth)}: it starts {when} of data record {nth}")

    def place(self, nth: int) -> str:
        return f"{self.header.name}, data record {nth + 1}, {civil(self.starts[nth])}"

    def compare(self, file: Header) -> None:
        """Compares each data record of a file with the one of its start."""
        for number, record in enumerate(file.data_records(), 1):
            nth = bisect_left(self.starts, record.start)
            place = f"{file.name}, data record {number}, {civil(record.start)}"
            if nth == len(self.starts) or self.starts[nth] != record.start:
                raise Wrong(f"{place}: {self.header.name} has no data record of this start")
            found = self.header.read(self.file, nth)
            if found != record:
                raise Wrong(f"{place}: {difference(record, found)} in data record {nth + 1} of "
                            f"{self.header.name}")
            self.met[nth] = True

    def check_all_met(self, others: list[str]) -> None:
        """No data record is there that no file had. Of one that is, one of the others may tell."""
        nth = self.met.find(False)
        if nth < 0:
            return
        found, beside = self.header.read(self.file, nth), ""
        for path in others:
            try:
                if any(it[:2] == found[:2] for it in read_header(path).data_records()):
                    beside = f", but {plain(path)}, which was refused or is of another recording"
                    break
            except (OSError, Unsure):
                continue
        raise Wrong(f"{self.place(nth)}: no accepted file of the recording has it{beside}")


def difference(record: DataRecord, found: DataRecord) -> str:
    """What differs in a data record, and what is in its place."""
    for nth, (ours, theirs) in enumerate(zip(record.samples, found.samples), 1):
        if ours != theirs:
            at = next(at for at in range(0, len(ours), 2) if ours[at:at + 2] != theirs[at:at + 2])
            one, other = (int.from_bytes(it[at:at + 2], "little", signed=True)
                          for it in (ours, theirs))
            return f"sample {at // 2 + 1} of signal {nth} is {one}, and {other}"
    pairs = enumerate(zip_longest(record.annotations, found.annotations), 1)
    nth, (mine, its) = next(pair for pair in pairs if pair[1][0] != pair[1][1])
    return f"annotation {nth} is {mine or 'none'}, and {its or 'none'}"


def check_header(export: Header) -> None:
    """What an export's header has by itself."""
    wanted = [("reserved field", export.fixed["reserved field"], b"EDF+D"),
              ("number of annotations signals", b"%d" % sum(export.are_annotations()), b"1")]
    wanted += [(f"{name} of the last signal", text, NOTED.get(name, b""))
               for name, text in export.signals[-1].items() if name != "samples per data record"]
    for name, text, right in wanted:
        if text.rstrip(b" ") != right:
            raise Wrong(f"{export.name}, header: {name} is {quoted(text)}, and not "
                        f"{quoted(right)}")


def read_answers(path: str, names: dict[str, None]) -> dict[str, int]:
    """How many data records each of these files was accepted with; or that it was refused."""
    answers: dict[str, int] = {}
    with open(path, "rb") as file:
        lines = ANSWER.findall(os.fsdecode(file.read()))
    for name, new, known, number in lines:
        if not number:
            answers[name] = int(new) + int(known)
        elif int(number) < READ or name not in answers:
            answers[name] = REFUSED if int(number) <= READ else UNKNOWN
    for name in names:
        if answers.get(name, UNKNOWN) == UNKNOWN:
            raise Unsure(f"{plain(name)}: {plain(path)} does not say whether it was accepted")
    for name, answer in answers.items():
        if answer >= 0 and name not in names:
            raise Unsure(f"{plain(name)}: it was accepted, and is not among the given files")
    return {name: answers[name] for name in names}


def files_of(export: Header, accepted: dict[str, int]) -> list[str]:
    """The accepted files of the export's recording. Where there is none, the one whose fields
    differ least says which one is wrong."""
    own, files, others = export.identification(), [], []
    for path, count in accepted.items():
        file = read_header(path)
        file.check_count()
        if file.count() != count:
            raise Wrong(f"{file.name}: it was accepted with {count} data records, and has "
                        f"{file.count()}")
        theirs = file.identification()
        differing = [name for name, text in theirs.items() if own.get(name) != text]
        if not differing:
            files.append(path)
            continue
        name = differing[0 if len(theirs) == len(own) else -1]
        others.append((len(differing), f"{name} is {quoted(own[name])}, and "
                                       f"{quoted(theirs[name])} in {file.name}"))
    if others and not files:
        raise Wrong(f"{export.name}, header: {min(others)[1]}")
    return files


def witnessed(source: str, path: str, names: dict[str, None]) -> str:
    """What is so of the export."""
    answers, header = read_answers(source, names), read_header(path, Wrong)
    accepted = {name: count for name, count in answers.items() if count != REFUSED}
    check_header(header)
    files = files_of(header, accepted)
    header.check_count()
    with open(path, "rb", BUFFER) as file:
        export, own = Export(header, file), set(files)
        for one in files:
            export.compare(read_header(one))
        export.check_all_met([name for name in names if name not in own])
    return (f"{header.name} has the {header.count()} data records of {len(files)} accepted "
            f"files, each once, and nothing else\nnot in it: {len(accepted) - len(files)} accepted "
            f"files of other recordings, {len(names) - len(accepted)} refused files")


def main() -> int:
    parser = argparse.ArgumentParser(description=__doc__, allow_abbrev=False,
                                     formatter_class=argparse.RawDescriptionHelpFormatter)
    parser.add_argument("--answers", required=True, help="what edfstore take printed of the files")
    parser.add_argument("--export", required=True, help="what edfstore export wrote")
    parser.add_argument("files", nargs="+", metavar="FILE", help="a file that was submitted")
    given = parser.parse_args()
    try:
        print(witnessed(given.answers, given.export, dict.fromkeys(given.files)))
        return 0
    except Wrong as found:
        print(found)
        return 1
    except (Unsure, OSError) as why:
        print(why if isinstance(why, Unsure) else plain(str(why)), file=sys.stderr)
        return 2


if __name__ == "__main__":
    sys.exit(main())
