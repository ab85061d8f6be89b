#!/usr/bin/env python3
"""Writes the files of this folder: a night of an oximeter as its card has it, card.edf, and as it
was sent, part1.edf to part6.edf of 80 minutes each. It needs Python 3 and checks/lib, which the
clone alone has. There:

    PYTHONPATH=. examples/oximeter/write.py [FOLDER]    # the files' folder where none is named

EDF+C, 960 data records of 30 s: the saturation and the pulse once a second, and the sleep stage of
each data record as an annotation."""
import math
import sys
from datetime import datetime, timedelta
from pathlib import Path

from checks.lib.edf import Header, Signal, annotations_signal, fragment, keeping, tal

SECONDS, RECORDS, PARTS = 30, 960, 6
START = datetime(2023, 11, 4, 22, 15)
STAGES = ("N1", "N2", "N2", "N3", "N3", "N2", "R", "R")


def signal(label: str, transducer: str, dimension: str, highest: int) -> Signal:
    most = str(highest)
    return Signal(label, transducer, dimension, "0", most, "0", most, "", str(SECONDS), "")


SIGNALS = (signal("SaO2", "finger clip", "%", 100), signal("Pulse", "finger clip", "bpm", 250),
           annotations_signal(16))


def stage(nth: int) -> str:
    """Awake at both ends and a few minutes in between; else eight stages of ten minutes each."""
    awake = nth < 30 or nth >= RECORDS - 14 or nth % 190 < 5
    return "W" if awake else STAGES[nth // 20 % len(STAGES)]


def samples(nth: int) -> bytes:
    """A saturation that sinks for half a minute now and then, and the pulse that follows."""
    seconds = range(SECONDS * nth, SECONDS * (nth + 1))
    sinks = nth % 11 < 2 and stage(nth) != "W"
    sunk = [max(0, round(9 * math.sin(second / 15))) if sinks else 0 for second in seconds]
    saturation = [97 - down for down in sunk]
    pulse = [58 + down + (14 if stage(nth) == "W" else 0) + round(2 * math.sin(second / 37))
             for down, second in zip(sunk, seconds)]
    return b"".join(value.to_bytes(2, "little") for value in saturation + pulse)


def block(nth: int, first: int) -> bytes:
    onset = f"+{SECONDS * (nth - first)}"
    return keeping(onset) + tal(onset, f"Sleep stage {stage(nth)}")


def file_of(nths: range) -> bytes:
    start = START + timedelta(seconds=SECONDS * nths[0])
    day = start.strftime("%d-%b-%Y").upper()
    header = Header(SIGNALS, start.strftime("%d.%m.%y"), start.strftime("%H.%M.%S"),
                    "S-0118 F 28-FEB-1979 Sleeper", f"Startdate {day} OX-7 AB oximeter", "EDF+C",
                    str(len(nths)), str(SECONDS))
    return fragment(header, [(samples(nth), block(nth, nths[0])) for nth in nths])


folder = Path(sys.argv[1]) if len(sys.argv) > 1 else Path(__file__).resolve().parent
folder.mkdir(parents=True, exist_ok=True)
size = RECORDS // PARTS
for part in range(PARTS):
    (folder / f"part{part + 1}.edf").write_bytes(file_of(range(size * part, size * (part + 1))))
(folder / "card.edf").write_bytes(file_of(range(RECORDS)))
