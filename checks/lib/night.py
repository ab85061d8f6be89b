"""Nights for the benches: a memory card and the fragments that a recorder sent of it, the same
bytes for the same seed.

A clinic night is 28,800 data records of 1 s, 20 signals of 64 to 256 Hz and an annotation in every
seventh record, 195 MB, and is sent as 96 fragments of five minutes. A night of long records is 960
of 30 s with 200 kB each, a short night 7,200 of 1 s with 1.7 kB each, as its instructions are
counted. Samples are slices of one pool of random bytes, so a night is made about as fast as it is
written.
"""
import random
from dataclasses import dataclass, replace
from datetime import datetime, timedelta
from pathlib import Path

from .edf import Header, Signal, annotations_signal, keeping, tal

POOL_BYTES = 8_388_608
CLINIC_RATES = (256,) * 8 + (128,) * 8 + (64,) * 4


@dataclass(frozen=True)
class Night:
    """A recording's night: `records` data records of `seconds` seconds with these samples a record
    and signal."""
    records: int = 28_800
    seconds: int = 1
    samples: tuple = CLINIC_RATES
    fragments: int = 96
    seed: int = 1
    start: datetime = datetime(2002, 3, 2, 22, 30)
    annotation_samples: int = 57
    limits: tuple = ("-440", "510", "-2048", "2047")    # physical and digital minimum and maximum
    patient: str = "P7 F 02-MAY-1951 X"

    @property
    def record_bytes(self) -> int:
        return 2 * sum(self.samples)

    def next_night(self, number: int) -> "Night":
        return replace(self, seed=self.seed + number, start=self.start + timedelta(days=number))

    def header(self, first: int, count: int, reserved: str) -> bytes:
        start = self.start + timedelta(seconds=self.seconds * first)
        low, high, digital_low, digital_high = self.limits
        signals = [Signal(f"EEG channel {n + 1}", physical_minimum=low, physical_maximum=high,
                          digital_minimum=digital_low, digital_maximum=digital_high,
                          samples=str(size)) for n, size in enumerate(self.samples)]
        day = start.strftime("%d-%b-%Y").upper()
        return Header((*signals, annotations_signal(self.annotation_samples)),
                      start.strftime("%d.%m.%y"), start.strftime("%H.%M.%S"), self.patient,
                      f"Startdate {day} N1 T3 REC5", reserved, str(count),
                      str(self.seconds)).to_bytes()

    def pool(self) -> bytes:
        return random.Random(self.seed).randbytes(POOL_BYTES + self.record_bytes)

    def block(self, nth: int, first: int) -> bytes:
        """The block of record `nth` in a file whose first record is `first`, numbered from 0 in the
        night."""
        onset = self.seconds * (nth - first)
        block = keeping(f"+{onset}")
        if nth % 7 == 0:
            block += tal(f"+{onset}.2500", "Spindle" if nth % 2 else "K-complex", duration="1.50")
        return block.ljust(2 * self.annotation_samples, b"\0")

    def records_of(self, pool: bytes, nths: range, first: int) -> bytes:
        """These records' bytes, in a file whose first record is `first`."""
        size, pieces = self.record_bytes, []
        for nth in nths:
            at = nth * 104_729 % POOL_BYTES
            pieces += (pool[at:at + size], self.block(nth, first))
        return b"".join(pieces)

    def card(self, path: Path) -> Path:
        pool, step = self.pool(), max(1, 16_000_000 // self.record_bytes)
        with open(path, "wb") as made:
            made.write(self.header(0, self.records, "EDF+C"))
            for at in range(0, self.records, step):
                made.write(self.records_of(pool, range(at, min(at + step, self.records)), 0))
        return path

    def parts(self, folder: Path) -> list:
        """The fragments as files, in order; every third says EDF+D."""
        pool, paths, name = self.pool(), [], f"part-{self.seed:02}"
        for part in range(self.fragments):
            first = part * self.records // self.fragments
            count = (part + 1) * self.records // self.fragments - first
            path = folder / f"{name}-{part:03}.edf"
            header = self.header(first, count, "EDF+C" if part % 3 else "EDF+D")
            path.write_bytes(header + self.records_of(pool, range(first, first + count), first))
            paths.append(path)
        return paths


CLINIC = Night()
SHORT = Night(records=7_200, samples=(256, 256, 128, 128, 64), fragments=18)
LONG_RECORDS = Night(records=960, seconds=30, samples=(10_000,) * 10, fragments=96,
                     annotation_samples=57)


def arrival(parts: list) -> list:
    """The fragments as they come: the last ten in reverse order."""
    return parts[:-10] + parts[:-11:-1]


def resent(parts: list) -> list:
    """Every tenth fragment, which is sent a second time."""
    return parts[9::10]
