"""Builds EDF+ files, field by field, for benches and checks. Nothing here reads a file, and nothing
here is the program's."""
from dataclasses import dataclass

FIXED_WIDTHS = (8, 80, 80, 8, 8, 8, 44, 8, 8, 4)
SIGNAL_WIDTHS = (16, 80, 8, 8, 8, 8, 8, 80, 8, 32)
ANNOTATIONS_LABEL = "EDF Annotations "


def filled(text, width: int) -> bytes:
    """The text, left-justified and filled with spaces; bytes are taken as they are."""
    given = text if isinstance(text, bytes) else str(text).encode("latin-1")
    if len(given) > width:
        raise ValueError(f"{given!r} is wider than its field of {width}")
    return given.ljust(width)


@dataclass(frozen=True)
class Signal:
    """The ten fields of a signal's header."""
    label: str = "EEG Fpz-Cz"
    transducer: str = "AgAgCl electrode"
    dimension: str = "uV"
    physical_minimum: str = "-440"
    physical_maximum: str = "510"
    digital_minimum: str = "-2048"
    digital_maximum: str = "2047"
    prefiltering: str = "HP:0.1Hz LP:75Hz"
    samples: str = "2"
    reserved: str = ""

    def fields(self) -> tuple:
        return (self.label, self.transducer, self.dimension, self.physical_minimum,
                self.physical_maximum, self.digital_minimum, self.digital_maximum,
                self.prefiltering, self.samples, self.reserved)

    def row(self) -> bytes:
        return b"".join(filled(text, width) for text, width in zip(self.fields(), SIGNAL_WIDTHS))


def annotations_signal(samples) -> Signal:
    return Signal(ANNOTATIONS_LABEL, "", "", "-1", "1", "-32768", "32767", "", str(samples), "")


@dataclass(frozen=True)
class Header:
    """The fixed part of a header, and its signals in file order."""
    signals: tuple
    startdate: str = "02.03.02"
    starttime: str = "23.59.50"
    patient: str = "P7 F 02-MAY-1951 X"
    recording: str = "Startdate 02-MAR-2002 N1 T3 REC5"
    reserved: str = "EDF+D"
    count: str = "1"
    duration: str = "1"
    version: str = "0"
    header_bytes: str = ""
    number_of_signals: str = ""

    def widths(self) -> list:
        """How many bytes each signal has in a data record."""
        return [2 * int(signal.samples) for signal in self.signals]

    def record_bytes(self) -> int:
        """How many bytes a data record has."""
        return sum(self.widths())

    def to_bytes(self) -> bytes:
        ns = len(self.signals)
        texts = (self.version, self.patient, self.recording, self.startdate, self.starttime,
                 self.header_bytes or str(256 + 256 * ns), self.reserved, self.count, self.duration,
                 self.number_of_signals or str(ns))
        fixed = b"".join(filled(text, width) for text, width in zip(texts, FIXED_WIDTHS))
        columns = zip(*(signal.fields() for signal in self.signals))
        part = b"".join(filled(text, width) for column, width in zip(columns, SIGNAL_WIDTHS)
                        for text in column)
        return fixed + part


def tal(onset: str, *texts, duration: str = "") -> bytes:
    """A time-stamped annotations list; texts are strings or bytes."""
    middle = b"\x15" + duration.encode() if duration else b""
    named = b"".join((text if isinstance(text, bytes) else text.encode()) + b"\x14"
                     for text in texts)
    return onset.encode() + middle + b"\x14" + named + b"\0"


def keeping(onset: str) -> bytes:
    """The time-keeping annotation alone in its list."""
    return tal(onset, "")


def data_record(header: Header, samples: bytes, blocks) -> bytes:
    """A data record: each signal's bytes in turn. `blocks` is the annotations block before its
    fill, or the list of those of all annotations signals, in file order."""
    pieces, at, left = [], 0, [blocks] if isinstance(blocks, bytes) else list(blocks)
    for signal, width in zip(header.signals, header.widths()):
        if signal.label == ANNOTATIONS_LABEL:
            pieces.append(left.pop(0).ljust(width, b"\0"))
        else:
            pieces.append(samples[at:at + width])
            at += width
    if at != len(samples) or left or sum(map(len, pieces)) != header.record_bytes():
        raise ValueError("the data record is not as the header's signals say")
    return b"".join(pieces)


def fragment(header: Header, records) -> bytes:
    """A file of `records`: pairs of the ordinary sample bytes and the annotations block or blocks,
    as `data_record` takes them."""
    return b"".join(
        [header.to_bytes(), *(data_record(header, samples, blocks) for samples, blocks in records)])


def _small(startdate: str, day: str, starttime: str, blocks, samples, first=False,
           annotation_samples=3, reserved="EDF+D", recording=None) -> bytes:
    ordinary, notes = Signal(), annotations_signal(annotation_samples)
    signals = (notes, ordinary) if first else (ordinary, notes)
    header = Header(signals, startdate, starttime,
                    recording=recording or f"Startdate {day} N1 T3 REC5", reserved=reserved,
                    count=str(len(blocks)))
    return fragment(header, list(zip(samples, blocks)))


def small_files() -> dict:
    """Q, P5, R9, N1, N2, N3, K, U and V by their letters, as bytes, and two more.

    Q is one record at 23:59:50; P5 lies 15 s later, past midnight; R9 holds P5's record and one
    before it, spelled otherwise and with the annotations first; N1 to N3 are a card's three
    records one by one, and K the card; U has spare annotation samples and an onset spelled
    longer than needed; V is Q's record with one more annotation, which stands in a second
    annotations signal, one before the ordinary signal and one after it. `half` starts 10 s
    before Q and its second record overlaps Q's by half a second; `X` is Q with its date in the
    Startdate subfield withheld."""
    march2, march3 = ("02.03.02", "02-MAR-2002"), ("03.03.02", "03-MAR-2002")
    q = bytes.fromhex("0100FFFF")
    card = [bytes([n, 0, 0, 0]) for n in (10, 11, 12)]
    files = {
        "Q": _small(*march2, "23.59.50", [keeping("+0")], [q]),
        "P5": _small(*march3, "00.00.05",
                     [keeping("+0") + tal("+0.50", "Snore") + tal("+0.5", "Turn")],
                     [bytes.fromhex("0200FEFF")], annotation_samples=15),
        "R9": _small(*march3, "00.00.00",
                     [keeping("+0"), keeping("+5.0") + tal("+5.5", "Snore", "Turn")],
                     [bytes.fromhex("0300FDFF"), bytes.fromhex("0200FEFF")], first=True,
                     annotation_samples=12),
        "K": _small(*march3, "01.00.00", [keeping("+0"), keeping("+1"), keeping("+2")], card,
                    reserved="EDF+C"),
        "half": _small(*march2, "23.59.40", [keeping("+0"), keeping("+10.5")], [q, q],
                       annotation_samples=4),
        "X": _small(*march2, "23.59.50", [keeping("+0")], [q], recording="Startdate X N1 T3 REC5"),
    }
    for n in range(3):
        files[f"N{n + 1}"] = _small(*march3, f"01.00.0{n}", [keeping("+0")], [card[n]])
    files["V"] = fragment(Header((annotations_signal(3), Signal(), annotations_signal(8))),
                          [(q, [keeping("+0"), tal("+0.5", "Snore")])])
    return files | {"U": _spare()}


def _spare() -> bytes:
    wide = Signal(physical_minimum="-3276.8", physical_maximum="3276.7", digital_minimum="-32768",
                  digital_maximum="32767")
    header = Header((wide, annotations_signal(57)), starttime="22.00.00", patient="X X X X",
                    recording="Startdate 02-MAR-2002 X X X", reserved="EDF+C", count="2")
    return fragment(header,
                    [(bytes.fromhex("01000200"), keeping("+0") + tal("+0.5000000", "Lights off")),
                     (bytes.fromhex("03000400"), keeping("+1"))])
