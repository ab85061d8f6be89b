"""`edfmend` on files spoilt by hand: each fault alone, two and three faults, and ten at once.

    python3 -m checks.mend.run [--edfmend PATH] [--program PATH]

Each mended file is that of the plain model, byte for byte, with its lines, and is accepted by
`edfstore`. The lines name the fields that differ. What is mended once needs nothing the second
time. A good file becomes its canonical file; where a code is wanted, and none is given, nothing is
made.
"""
import itertools
import tempfile
from collections.abc import Collection
from pathlib import Path
from typing import Callable, Union

from checks.lib import (arguments, by_hand, measure, mended, mending, mending_fields, model,
                        printed)
from checks.lib.checks import Checks
from checks.lib.edf import Header, Signal, annotations_signal, fragment, keeping, tal

Words = tuple[str, ...]
Spoil = Callable[[bytes], bytes]
CODE = ("--patient", "S-0118")
SIGNALS = (Signal(), Signal("Resp nasal", "thermistor", "mV", "-3", "3", "-100", "100", "", "1"))
RECORDS = [(bytes([nth, 0, 5, 1, 9, nth]), keeping(f"+{nth}") + tal(f"+{nth}.5", "Snore"))
           for nth in range(3)]
GOOD = fragment(Header((*SIGNALS, annotations_signal(16)), count="3", reserved="EDF+C"), RECORDS)
BLOCK = slice(6, 38)                     # of a data record of GOOD
PLAIN = fragment(Header(SIGNALS, count="3", reserved=""), [(samples, []) for samples, _ in RECORDS])


def by_model(data: bytes, words: Words) -> Union[mending.Made, str]:
    """What the plain model makes, or why there is nothing."""
    try:
        return mending.mend(data, mending.wanted(words))
    except mending_fields.Refused as why:
        return str(why)


def at_field(which: int, text: Union[str, bytes]) -> Spoil:
    return lambda data: by_hand.field(data, which, text)


def at_column(which: int, signal: int, text: Union[str, bytes]) -> Spoil:
    return lambda data: by_hand.column(data, which, signal, text)


def in_block(nth: int, old: bytes, new: bytes) -> Spoil:
    """Other bytes in the annotations block of a data record of GOOD, counted from 0; its fill makes
    room for them."""
    def spoil(data: bytes) -> bytes:
        at = len(GOOD) - (3 - nth) * BLOCK.stop + BLOCK.start
        end = at + BLOCK.stop - BLOCK.start
        block = data[at:end].replace(old, new, 1).rstrip(b"\0") + b"\0"
        return data[:at] + block.ljust(end - at, b"\0") + data[end:]
    return spoil


def without_annotations(data: bytes) -> bytes:
    """The file without its last signal, which is that of annotations."""
    header = Header(SIGNALS, count="3", reserved="EDF+C")
    return fragment(header, [(samples, []) for samples, _ in RECORDS])


# A name, the field that a line names, if one does, and what spoils a good file. No two of one
# field.
FAULTS = (
    ("a dimension in Latin-1", "signal 1 dimension", at_column(by_hand.DIMENSION, 1, b"\xb5V")),
    ("a transducer in UTF-8", "signal 1 transducer",
     at_column(by_hand.TRANSDUCER, 1, "Müller 37°".encode())),
    ("a zero byte in a label", "signal 1 label", at_column(by_hand.LABEL, 1, b"EEG\0Fpz-Cz")),
    ("sex and month in small letters", "patient",
     at_field(by_hand.PATIENT, "P7 f 02-may-1951 X")),
    ("a recording that is a name", "recording", at_field(by_hand.RECORDING, "Night 1")),
    ("a comma", "signal 1 physical_minimum", at_column(by_hand.LOW, 1, "-440,5")),
    ("no digit before the dot", "signal 2 physical_maximum", at_column(by_hand.HIGH, 2, ".5")),
    ("digital limits that fall", "signal 2 digital_minimum",
     lambda data: by_hand.column(by_hand.column(data, by_hand.DIGITAL_LOW, 2, "100"),
                                 by_hand.DIGITAL_HIGH, 2, "-100")),
    ("other limits of annotations", "signal 3 digital_minimum",
     at_column(by_hand.DIGITAL_LOW, 3, "-2048")),
    ("a count of more", "count", at_field(by_hand.COUNT, "7")),
    ("a text in Latin-1", "annotations record=1", in_block(0, b"Snore", b"Sn\xf6re")),
    ("an onset finer than a nanosecond", "annotations record=3",
     in_block(2, b"+2.5", b"+2.5000000004")),
)
OTHERS = (
    ("a patient that is a name", "patient", at_field(by_hand.PATIENT, "Haagse Harry"), CODE),
    ("a name in Latin-1", "patient", at_field(by_hand.PATIENT, b"J\xfcrgen"), CODE),
    ("equal physical limits", "signal 1 physical_minimum", lambda data: by_hand.column(
        by_hand.column(data, by_hand.LOW, 1, "0"), by_hand.HIGH, 1, "0"), ()),
    ("no count, and a piece of a data record", "count",
     lambda data: by_hand.unknown(data) + b"abc", ()),
    ("EDF+C without an annotations signal", "signals", without_annotations, ()),
    ("a block filled with spaces", "",
     lambda data: data[:-12] + b" " * 12, ()),
    ("a duration finer than a nanosecond", "annotations record=2",
     in_block(1, b"+1.5", b"+1.5\x150.33333333333"), ()),
    ("a recording with a small month", "recording",
     at_field(by_hand.RECORDING, "Startdate 02-mar-2002 N1 T3 REC5"), ()),
)


ALMOST = by_hand.column(GOOD, by_hand.LABEL, 3, "EDF annotations")


def mend(checks: Checks, mender: mended.Mender, what: str, data: bytes, words: Words,
         fields: Collection[str]) -> bytes:
    """Mends a file and looks at what was made; lines name these fields."""
    ran = mender.mend(data, *words)
    checks.same(f"{what}: status and errors", (ran.status, ran.err), (0, b""))
    named = {line.split(" at=")[0] for line in ran.out.decode().splitlines()}
    checks.same(f"{what}: fields that no line names", set(fields) - {""} - named, set())
    made = mender.made.read_bytes() if mender.made.exists() else b""
    expected = by_model(data, words)
    if isinstance(expected, str):
        checks.same(f"{what}: the model makes nothing", expected, "")
        return made
    checks.same(f"{what}: the file is the model's", made == expected.out, True)
    checks.same(f"{what}: the lines", ran.out, expected.printed())
    again = mender.mend(made)
    checks.same(f"{what}: mended twice", (again.outcome(), mender.made.read_bytes() == made),
                ((b"in.edf needs nothing\n", b"", 0), True))
    return made


def each_fault(checks: Checks, mender: mended.Mender) -> list[bytes]:
    """The mended files."""
    checks.begin("each fault")
    made = [mend(checks, mender, what, spoil(GOOD), (), [field]) for what, field, spoil in FAULTS]
    made += [mend(checks, mender, what, spoil(GOOD), words, [field])
             for what, field, spoil, words in OTHERS]
    made.append(mend(checks, mender, "a plain file", PLAIN, (),
                     ["header_bytes", "reserved", "signals"]))
    made.append(mend(checks, mender, "a plain file of a name", by_hand.field(
        by_hand.field(PLAIN, by_hand.PATIENT, "Haagse Harry"), by_hand.RECORDING, "Night 1"),
                     CODE, ["patient", "recording"]))
    return made


def several(checks: Checks, mender: mended.Mender) -> list[bytes]:
    """Two, three, and all faults at once; the mended files."""
    made = []
    for count in (2, 3, len(FAULTS)):
        checks.begin(f"{count} faults at once")
        for chosen in itertools.combinations(FAULTS, count):
            data = GOOD
            for _, _, spoil in chosen:
                data = spoil(data)
            what = ", ".join(name for name, _, _ in chosen)
            made.append(mend(checks, mender, what, data, (), {field for _, field, _ in chosen}))
    return made


def untouched(checks: Checks, mender: mended.Mender) -> None:
    checks.begin("what needs nothing")
    for name, data in (("good", GOOD), *by_hand.FILES.items()):
        code = mending_fields.code_of(data[8:88]).decode()
        canonical = model.canonical(*model.read(data))
        for words in ((), ("--patient", code) if code else ()):
            ran = mender.mend(data, *words)
            checks.same(f"{name}: a good file", (ran.err, ran.status, mender.made.read_bytes()),
                        (b"", 0, canonical))
    named = by_hand.field(GOOD, by_hand.PATIENT, "Haagse Harry")
    ran = mender.mend(named)
    checks.same("without a code", (ran.status, mender.left()), (1, []))
    ran = mender.mend(b"no EDF at all")
    checks.same("no EDF", (ran.status, mender.left()), (1, []))
    mender.given.write_bytes(named)
    dry = measure.ran(mender.program, "in.edf", "--dry-run", *CODE, folder=mender.folder)
    wet = mender.mend(named, *CODE)
    checks.same("--dry-run: the same lines", dry.outcome(), wet.outcome())


def taken(checks: Checks, program: Path, folder: Path, made: list[bytes]) -> None:
    """Each mended file alone in an empty store."""
    checks.begin("edfstore")
    names = []
    for nth, data in enumerate(made):
        names.append(folder / f"mended {nth}.edf")
        names[-1].write_bytes(data)
    for at in range(0, len(names), 50):
        lines = measure.ran(program, "take", ":memory:", *names[at:at + 50]).out.decode()
        refused = [line for line in lines.splitlines() if printed.number(line) not in
                   ("", "E31")]
        checks.same("refused by its form", refused, [])


def main() -> None:
    given = arguments.Parser(__doc__, programs=("edfstore", "edfmend")).read()
    with tempfile.TemporaryDirectory(prefix="edfmend-checks-") as name:
        folder = Path(name) / "mending"
        folder.mkdir()
        checks = Checks(given.edfmend, Path(name) / "none", "edfmend")
        checks.folder.mkdir()
        mender = mended.Mender(given.edfmend, folder)
        made = each_fault(checks, mender) + several(checks, mender)
        untouched(checks, mender)
        taken(checks, given.program, Path(name), [data for data in made if data])
    checks.end()


if __name__ == "__main__":
    main()
