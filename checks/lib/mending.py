"""A plain model of `edfmend`, written from its manual page and from nothing of the program: a file
is read leniently, and what is read is written as its canonical file.

    from checks.lib import mending
    mending.mended(data, mending.Wanted(patient=b"S-0118"))     OUT; `Refused` where there is none

`mending_fields` and `mending_signals` read the fields; `model` reads and writes what is strict.
"""
import re
from collections.abc import Sequence
from dataclasses import dataclass
from typing import Optional

from . import model, printed
from .mending_fields import FIELD, MARK, Refused, Wanted, check_nobody, numeral, patient, \
    recording, spaced, startdate, starttime, unfilled
from .mending_signals import WIDTHS, Row, annotations_row, good_block, good_signal, is_labelled, \
    rows_of, speaks_of_annotations


def wanted(words: Sequence[str]) -> Wanted:
    """What the words say, but for the files' names."""
    given = [word for word in words if word != "--all"]
    said = {name[2:].replace("-", "_"): value.encode()
            for name, value in zip(given[::2], given[1::2])}
    return Wanted(said.get("patient", b""), said.get("set_patient", b""),
                  said.get("deidentify", b""), said.get("startdate"), said.get("starttime"),
                  "--all" in words)


# Lines

FIXED = (("version", 0, 8), ("patient", 8, 80), ("recording", 88, 80), ("startdate", 168, 8),
         ("starttime", 176, 8), ("header_bytes", 184, 8), ("reserved", 192, 44),
         ("duration", 244, 8), ("signals", 252, 4))
FIELDS = ("label", "transducer", "dimension", "physical_minimum", "physical_maximum",
          "digital_minimum", "digital_maximum", "prefiltering", "samples", "reserved")


def quoted(text: bytes) -> str:
    """Without the spaces at its end."""
    shown = (f"\\{one:c}" if one in b'"\\' else chr(one) if 32 <= one <= 126 else f"\\x{one:02x}"
             for one in text.rstrip(b" "))
    return f'"{"".join(shown)}"'


def change(where: str, at: int, old: bytes, new: bytes) -> str:
    """The line of a field, where it differs."""
    return f"{where} at={at} old={quoted(old)} new={quoted(new)}\n" if old != new else ""


def changes_of_header(data: bytes, header: bytes, old: list[Row], new: list[Row]) -> str:
    """The lines of the fixed part and of the signals."""
    lines = [change(name, at, data[at:at + width], header[at:at + width])
             for name, at, width in FIXED]
    for nth, rows in enumerate(zip(old, new)):
        at = 256
        for name, width, was, now in zip(FIELDS, WIDTHS, *rows):
            lines.append(change(f"signal {nth + 1} {name}", at + nth * width, was, now))
            at += len(old) * width
    return "".join(lines)


# A file

@dataclass
class Opened:
    """A header that was read, and its good form."""
    layout: model.Layout
    # of each signal of IN: whether it has annotations, and how many bytes
    parts: list[tuple[bool, int]]
    is_timed: bool
    lines: str


@dataclass(frozen=True)
class Made:
    """OUT, whether it is that of a good file, and the lines of what differs."""
    out: bytes
    is_good: bool
    lines: str

    def printed(self, name: str = "in.edf") -> bytes:
        """What goes to standard output for a file of this name."""
        alone = printed.needs_nothing(name) if self.is_good else printed.differs_in_fill(name)
        return (self.lines or alone).encode()


def good_rows(data: bytes, rows: list[Row], is_timed: bool) -> list[Row]:
    if not is_timed and data[192:197] == b"EDF+D":
        raise Refused("E16")
    if not is_timed and any(map(speaks_of_annotations, rows)):
        raise Refused("E16")
    made = [good_signal(row) for row in rows]
    if not is_timed and any(map(speaks_of_annotations, made)):
        raise Refused("E16")
    if any(is_labelled(now) and not is_labelled(was) for was, now in zip(rows, made)):
        raise Refused("E16")
    return made if is_timed else [*made, annotations_row(b"32")]


def marked(text: bytes, stays: bool) -> bytes:
    made = text if stays or text.endswith(b" " + MARK) else text + b" " + MARK
    if len(made) > FIELD:
        raise Refused("has no room for the word mended")
    return made.ljust(FIELD)


def opened(data: bytes, wanted: Wanted) -> Opened:
    if len(data) < 256 or spaced(data[:8]) != b"0       ":
        raise Refused("E3")
    count = model.whole(numeral(data[252:256]))
    if not count or count > 640 or len(data) < 256 + 256 * count:
        raise Refused("E12")
    rows = rows_of(data[256:256 + 256 * count], count)
    is_timed = any(map(is_labelled, rows))
    name = patient(data[8:88], wanted)
    date = startdate(data[168:176], data[88:168], wanted.startdate)
    time = starttime(data[176:184], wanted.starttime)
    text, duration = recording(data[88:168], date, wanted), numeral(data[244:252])
    good = good_rows(data, rows, is_timed)
    is_same = all(row == tuple(map(spaced, old)) for old, row in zip(rows, good)
                  if not is_labelled(old))
    stays = is_same and name == spaced(data[8:88]) and text == unfilled(data[88:168]) and \
        duration == spaced(data[244:252]) and wanted.startdate is None and wanted.starttime is None
    field = marked(text, stays)
    if not (wanted.patient or wanted.set_patient or wanted.deidentify):
        check_nobody(data[88:168], name, text)
    header = b"".join((b"0       ", name, field, date, time, b"%-8d" % (256 + 256 * len(good)),
                       b"EDF+D".ljust(44), b"-1      ", duration, b"%-4d" % len(good)))
    columns = b"".join(row[at] for at in range(len(WIDTHS)) for row in good)
    try:
        layout = model.Layout(header + columns)
    except model.Refused as why:
        raise Refused(str(why)) from None
    return Opened(layout, layout.parts[:count], is_timed,
                  changes_of_header(data, header, rows, good))


def records_of(body: bytes, of: Opened) -> tuple[list[model.Record], int, str]:
    """The data records that are there, how many bytes are behind them, and the lines of annotations
    that read otherwise."""
    size, records = sum(width for _, width in of.parts), list[model.Record]()
    before: Optional[int] = None
    lines = ""
    while len(body) - size * len(records) >= size:
        at, samples, blocks = size * len(records), b"", []
        for is_block, width in of.parts:
            piece = body[at:at + width]
            if is_block:
                parts = good_block(piece)
                blocks.append(b"".join(part.new + part.end for part in parts))
                where, begin = f"annotations record={len(records) + 1}", at - size * len(records)
                lines += "".join(change(where, begin + part.at, part.old, part.new)
                                 for part in parts)
            else:
                samples += piece
            at += width
        if of.is_timed:
            start, notes = model.read_blocks(blocks, len(records) + 1, of.layout, before)
        else:
            start = of.layout.start if before is None else before + of.layout.duration
            notes = ()
        if not start < model.WINDOW:
            raise Refused("E26")
        records.append(model.Record(start, samples, notes))
        before = start
    return records, len(body) - size * len(records), lines


def check_count(data: bytes, records: int, left_out: int, is_timed: bool, wanted: Wanted) -> None:
    text, number = numeral(data[236:244]), model.whole(numeral(data[252:256]))
    count = model.whole(text)
    is_uncounted = count == 0 or text == model.UNKNOWN or not re.search(rb"[0-9]", text)
    if not wanted.all and count != records:
        if not is_timed or not (is_uncounted or (count and records <= count)):
            raise Refused("the number of data records is another")
    is_sized = model.whole(numeral(data[184:192])) == 256 + 256 * (number or 0)
    if not is_sized and not (left_out == 0 and count == records):
        raise Refused("E13")
    if left_out and not is_timed and not wanted.all:
        raise Refused("E29")


def mend(data: bytes, wanted: Wanted = Wanted()) -> Made:
    """What is made of a file."""
    if wanted.asks_nothing() and not model.refusal(data):
        return Made(model.canonical(*model.read(data)), True, "")
    of = opened(data, wanted)
    number = model.whole(numeral(data[252:256])) or 0
    try:
        records, left_out, lines = records_of(data[256 + 256 * number:], of)
    except model.Refused as why:
        raise Refused(str(why)) from None
    if not records:
        raise Refused("E21")
    check_count(data, len(records), left_out, of.is_timed, wanted)
    counted = change("count", 236, data[236:244], b"%-8d" % len(records))
    behind = f"left_out bytes={left_out}\n" if left_out else ""
    return Made(model.canonical(of.layout.key, records), False,
                of.lines + lines + counted + behind)


def mended(data: bytes, wanted: Wanted = Wanted()) -> bytes:
    """OUT of a file."""
    return mend(data, wanted).out
