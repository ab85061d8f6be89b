"""Small files built field by field, and the comparing of what they are answered with what was
worked out by hand."""
import tempfile
from pathlib import Path

from . import faults, measure, model, printed
from .edf import (FIXED_WIDTHS, SIGNAL_WIDTHS, Header, Signal, annotations_signal, filled, fragment,
                  keeping, small_files, tal)

SAMPLES = b"\x01\x00\xff\xff"
EMPTY = keeping("+0")                   # 5 bytes
SNORE = tal("+0.5", "Snore")            # 12 bytes
# The fields of the fixed part, and those of a signal
(VERSION, PATIENT, RECORDING, STARTDATE, STARTTIME, HEADER_BYTES, RESERVED, COUNT, DURATION,
 SIGNALS) = range(10)
(LABEL, TRANSDUCER, DIMENSION, LOW, HIGH, DIGITAL_LOW, DIGITAL_HIGH, PREFILTERING, SIZE,
 REST) = range(10)

FILES = small_files()
Q, P5, R9, K, U, V, HALF, X, N1, N2, N3 = (
    FILES[name] for name in ("Q", "P5", "R9", "K", "U", "V", "half", "X", "N1", "N2", "N3"))
START = 541_727_990 * 10**9             # of Q and of most files here, 2002-03-02 23:59:50
MARCH_3 = {"startdate": "03.03.02", "recording": "Startdate 03-MAR-2002 N1 T3 REC5"}
LAST_SECOND = {"startdate": "31.12.yy", "starttime": "23.59.59",
               "recording": "Startdate 31-DEC-2184 N1 T3 REC5"}

# Answers in the short form of printed.answer
FIRST, KNOWN = (1, 0), (0, 1)
DIFFERS = faults.differs("2002-03-02T23:59:50")
OVERLAPS = faults.overlap("2002-03-02T23:59:50.5", "2002-03-02T23:59:50")


# Files

def field(data: bytes, which: int, text) -> bytes:
    """The file with another text in a field of the fixed part."""
    at = sum(FIXED_WIDTHS[:which])
    return data[:at] + filled(text, FIXED_WIDTHS[which]) + data[at + FIXED_WIDTHS[which]:]


def column(data: bytes, which: int, signal: int, text) -> bytes:
    """The file with another text in a field of a signal, counted from 1; the number of signals is
    that of the header."""
    ns = int(data[252:256])
    at = 256 + ns * sum(SIGNAL_WIDTHS[:which]) + (signal - 1) * SIGNAL_WIDTHS[which]
    return data[:at] + filled(text, SIGNAL_WIDTHS[which]) + data[at + SIGNAL_WIDTHS[which]:]


def unknown(data: bytes) -> bytes:
    """The file without its count of data records."""
    return field(data, COUNT, "-1")


def several(*records, order: str = "nEn", sizes=(), count: str = "", **fields) -> bytes:
    """A file of records, each the list of its blocks. `order` has a letter a signal: n for
    annotations, E and F for ordinary ones of 2 samples and of 1. `sizes` are the samples of the
    annotations signals, else as few as hold the longest block of each. The samples of a record
    begin as Q's."""
    needed = sizes or [max(1, (max(map(len, made)) + 1) // 2) for made in zip(*records)]
    noted = iter(needed)
    kinds = {"E": Signal(), "F": Signal("EMG chin", samples="1")}
    signals = tuple(annotations_signal(next(noted)) if letter == "n" else kinds[letter]
                    for letter in order)
    samples = (SAMPLES + b"\x07\x00")[:4 * order.count("E") + 2 * order.count("F")]
    return fragment(Header(signals, count=count or str(len(records)), **fields),
                    [(samples, made) for made in records])


def canonical(*records, **fields) -> bytes:
    """A file as exports are: one annotations signal, the last, with as few samples as hold the
    longest block."""
    most = max(len(block) for _, block in records)
    signals = (Signal(), annotations_signal((most + 1) // 2))
    return fragment(Header(signals, count=str(len(records)), **fields), records)


def sized(ordinary, noted) -> bytes:
    """A header alone, with these samples of its signals."""
    signals = [Signal(samples=str(size)) for size in ordinary]
    return Header((*signals, *map(annotations_signal, noted))).to_bytes()


def many(count: int, keeps_time: bool = False) -> bytes:
    """A list with so many annotations without text, after the time-keeping one where it keeps
    time."""
    return b"+0\x14" + b"\x14" * (count + keeps_time) + b"\0"


def long(size: int, keeps_time: bool = False) -> bytes:
    return b"+0\x14" + b"\x14" * keeps_time + b"a" * size + b"\x14\0"


# Answers

class Worked:
    """Compares, counts, and says what is wrong."""

    def __init__(self, program=None):
        self.program, self.done, self.failed = program, 0, 0

    def same(self, what: str, got, expected) -> None:
        self.done += 1
        if got != expected:
            self.failed += 1
            print(f"{what}: {got!r:.300}\n  by hand: {expected!r:.300}")

    def store(self, what: str, *given, exports=None, cap: int = 0) -> None:
        """A new store is given files in turn, each with its answer, and then has these exports."""
        answers = [printed.answer(text) for _, text in given]
        store = model.Store(cap) if cap else model.Store()
        for nth, ((data, _), answer) in enumerate(zip(given, answers), 1):
            self.same(f"{what}, file {nth}", store.take(data), answer)
        if exports is not None:
            self.same(f"{what}, exports",
                      [store.export(place) for place in range(1, len(store.held) + 1)],
                      list(exports))
        if self.program and not cap:
            self.ask(what, [data for data, _ in given], answers, exports)

    def ask(self, what: str, files: list, answers: list, exports) -> None:
        """The same of the program."""
        with tempfile.TemporaryDirectory(prefix="edfstore-worked-") as folder:
            program = measure.Program(self.program, folder)
            names = [str(nth) for nth in range(1, len(files) + 1)]
            for name, data in zip(names, files):
                Path(folder, name).write_bytes(data)
            lines = program.ran("take", "s.db", *names).out.decode().splitlines(keepends=True)
            for name, line, answer in zip(names, lines + [""] * len(names), answers):
                self.same(f"the program: {what}, file {name}", line, printed.line(name, answer))
            for place, export in enumerate(exports or (), 1):
                self.same(f"the program: {what}, export {place}",
                          program.ran("export", "s.db", place).out, export)

    def each(self, what: str, *given) -> None:
        """Each file in a store of its own."""
        for nth, (data, answer) in enumerate(given, 1):
            self.store(f"{what} ({nth})", (data, answer))
