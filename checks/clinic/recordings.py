"""What recorders record, as it is known before any program sees it; and an own reader of files.

A data record has samples that no other one has, so that each can be looked for."""
import hashlib
from collections.abc import Collection, Iterable
from dataclasses import dataclass, replace
from datetime import datetime, timedelta
from typing import Any

from checks.lib.edf import Header, Signal, annotations_signal, data_record, keeping, tal

EPOCH = datetime(1970, 1, 1)
Held = tuple[int, bytes]        # a data record: its start, its samples


@dataclass(frozen=True)
class Recording:
    """A recorder's night: `records` data records from `start` on, one after the other."""
    start: datetime = datetime(2026, 11, 26, 22, 0)
    records: int = 960
    seconds: int = 30
    patient: str = "S-0118 F 02-MAY-1951 X"
    investigation: str = "N1"
    samples: tuple[int, ...] = (4, 2)
    seed: str = "r01"
    texts: int = 20             # samples of the annotations signal

    def at(self, nth: int) -> datetime:
        return self.start + timedelta(seconds=self.seconds * nth)

    def instant(self, nth: int) -> int:
        """Seconds of civil time."""
        return int((self.at(nth) - EPOCH).total_seconds())

    def samples_of(self, nth: int) -> bytes:
        text = f"{self.seed} {self.start} {nth}".encode()
        raw = b"".join(hashlib.sha256(text + bytes([more])).digest()
                       for more in range(1 + sum(self.samples) // 16))
        # The high byte stays small, so that every value is within the digital limits.
        return bytes(it if at % 2 == 0 else it % 8 for at, it in enumerate(raw))[
            :2 * sum(self.samples)]

    def header(self, first: int, count: str, reserved: str = "EDF+C") -> Header:
        at = self.at(first)
        day = f"{at:%d-%b-%Y}".upper()
        recording = f"Startdate {day} {self.investigation} T3 REC5"
        signals = [Signal(f"EEG {n}", samples=str(size)) for n, size in enumerate(self.samples)]
        return Header((*signals, annotations_signal(self.texts)), f"{at:%d.%m.%y}",
                      f"{at:%H.%M.%S}", self.patient, recording, reserved, count,
                      str(self.seconds))

    def piece(self, first: int = 0, end: int = 0, count: str = "",
              without: Collection[int] = (), changed: dict[int, bytes] | None = None) -> bytes:
        """A file of the data records from `first` to before `end`; `without` has the numbers of
        those that it lacks, `changed` other samples by their number."""
        numbers = [it for it in range(first, end or self.records) if it not in without]
        reserved = "EDF+D" if len(without) else "EDF+C"
        header = self.header(numbers[0], count or str(len(numbers)), reserved)
        data = [header.to_bytes()]
        for nth in numbers:
            onset = f"+{self.seconds * (nth - numbers[0])}"
            block = keeping(onset) + (tal(onset, f"Stage {nth}") if nth % 5 == 0 else b"")
            samples = (changed or {}).get(nth, self.samples_of(nth))
            data.append(data_record(header, samples, block))
        return b"".join(data)

    def pieces(self, size: int = 80) -> dict[str, bytes]:
        """All of it, a file each `size` data records."""
        return {f"part{first // size + 1:02}.edf": self.piece(first, first + size)
                for first in range(0, self.records, size)}

    def truth(self, numbers: Iterable[int] | None = None) -> dict[int, bytes]:
        """The samples of its data records, by their start."""
        return {self.instant(nth): self.samples_of(nth)
                for nth in (range(self.records) if numbers is None else numbers)}

    def later(self, **changes: Any) -> "Recording":
        return replace(self, **changes)


def records_in(data: bytes) -> list[Held]:
    """The start and the ordinary samples of each data record of a file, in order. It reads the
    fields of EDF+ by their offsets, and shares nothing with what makes them."""
    number = int(data[252:256])
    columns, at = {}, 256
    for name, width in (("label", 16), ("transducer", 80), ("dimension", 8), ("pmin", 8),
                        ("pmax", 8), ("dmin", 8), ("dmax", 8), ("filter", 80), ("samples", 8)):
        columns[name] = [data[at + n * width:at + (n + 1) * width].strip() for n in range(number)]
        at += number * width
    sizes = [2 * int(it) for it in columns["samples"]]
    began = datetime.strptime(data[168:184].decode(), "%d.%m.%y%H.%M.%S")
    base, body = (began - EPOCH).total_seconds(), data[256 * (number + 1):]
    found = []
    for start in range(0, len(body), sum(sizes)):
        samples, onset, place = b"", 0.0, start
        is_told = False
        for label, size in zip(columns["label"], sizes):
            part, place = body[place:place + size], place + size
            if label == b"EDF Annotations":
                onset = onset if is_told else float(part.split(b"\x14")[0])
                is_told = True
            else:
                samples += part
        found.append((int(base + onset), samples))
    return found


def codes_in(data: bytes) -> str:
    """The patient's code."""
    return data[8:88].decode().split(" ")[0]
