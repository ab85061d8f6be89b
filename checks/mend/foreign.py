"""Mends files that other programs wrote here, and has EDFlib and MNE read them before and after.

    python3 -m checks.mend.foreign [--edfmend PATH] [--program PATH]

The writers are BioSig's `save2gdf`, the biosig package of Octave, libxdffileio, EDFlib, and the
converter of ASCII in EDFbrowser, which is driven in a window, as Debian has them; each that is not
here is left out, and a line says so. A mended file is accepted by the plain model and by
`edfstore`. It says EDF+D, and has no gaps; of a copy that says EDF+C, MNE reads the same samples
and annotations as of the file that was mended, and EDFlib, which refuses most of those, what stands
there. Debian's own Python (/usr/bin/python3) has MNE.
"""
import shutil
import subprocess
import tempfile
import warnings
from argparse import Namespace
from pathlib import Path
from typing import Any, Callable

from checks.lib import arguments, by_hand, mending, mending_fields, measure, mended, model
from checks.lib.checks import Checks
from checks.mend.by_edfbrowser import TOOLS, by_edfbrowser

try:
    import mne  # type: ignore[import]
    import numpy
except ImportError:
    raise SystemExit("this needs python3-mne, and Debian's own python3 to run it") from None

HERE = Path(__file__).resolve().parent
EDFLIB_FILE = arguments.TOP / "examples/edflib.edf"
CODE = ("--patient", "S-0118")


def by_biosig(folder: Path) -> Path:
    made = folder / "biosig.edf"
    measure.done("save2gdf", "-f=EDF", EDFLIB_FILE, made)
    return made


def by_octave(folder: Path) -> Path:
    """Its process ends with an error after the file is whole."""
    measure.ran("octave-cli", "-q", HERE / "by_octave.m", folder=folder)
    return folder / "octave.edf"


def by_xdffileio(folder: Path) -> Path:
    made = folder / "xdffileio.edf"
    measure.done(measure.compiled(HERE / "by_xdffileio.c", folder, "-lxdffileio", "-lm"), made)
    return made


def by_edflib(folder: Path) -> Path:
    return Path(shutil.copy(EDFLIB_FILE, folder))


def has_octave() -> bool:
    return bool(shutil.which("octave-cli")) and Path("/usr/share/octave/site/m/biosig").is_dir()


def has_library(name: str) -> bool:
    return subprocess.run(["ld", f"-l{name}", "-o", "/dev/null", "--unresolved-symbols=ignore-all"],
                          capture_output=True, check=False).returncode == 0


WRITERS: tuple[tuple[str, Callable[[Path], Path], Callable[[], bool]], ...] = (
    ("BioSig", by_biosig, lambda: bool(shutil.which("save2gdf"))),
    ("Octave", by_octave, has_octave),
    ("libxdffileio", by_xdffileio, lambda: has_library("xdffileio")),
    ("EDFlib", by_edflib, lambda: True),
    ("EDFbrowser", by_edfbrowser, lambda: all(map(shutil.which, TOOLS))))


def by_mne(path: Path) -> tuple[list[Any], list[tuple[float, float, str]]]:
    """What MNE reads of each ordinary signal, in volts or as the file has it, and annotations."""
    with warnings.catch_warnings():
        warnings.simplefilter("ignore")
        raw = mne.io.read_raw_edf(path, preload=True, verbose="error")
    return ([raw.get_data(picks=[name])[0] for name in raw.ch_names],
            [(note["onset"], note["duration"], note["description"]) for note in raw.annotations])


def edflib_samples(dump: Path, path: Path, folder: Path) -> bytes:
    """What EDFlib reads of the ordinary signals, as its integers."""
    measure.done(dump, path, folder / "samples")
    return (folder / "samples").read_bytes()


def as_integers(data: bytes) -> bytes:
    """The ordinary samples of a file, signal by signal, as EDFlib has them."""
    parts = mending.opened(data, mending_fields.Wanted(set_patient=b"S-0118")).parts
    size, at, found = sum(width for _, width in parts), 0, []
    begins = range(256 * (len(parts) + 1), len(data) - size + 1, size)
    for is_block, width in parts:
        if not is_block:
            column = b"".join(data[begin + at:begin + at + width] for begin in begins)
            found.append(numpy.frombuffer(column, "<i2").astype("<i4").tobytes())
        at += width
    return b"".join(found)


def look(checks: Checks, given: Namespace, name: str, path: Path, dump: Path, folder: Path) -> None:
    mender = mended.Mender(given.edfmend, folder / name)
    mender.folder.mkdir()
    data = path.read_bytes()
    refused = model.refusal(data)
    ran = mender.mend(data)
    if ran.status == 1:
        ran = mender.mend(data, *CODE)
    made = mender.look(data, ran)
    fields = sorted({line.split(" at=")[0] for line in ran.out.decode().splitlines()})
    print(f"{name}: {refused or 'taken as it is'}; other fields: {', '.join(fields)}")
    checks.same(f"{name}: it is mended", bool(made), True)
    if not made:
        return
    taken = measure.ran(given.program, "take", ":memory:", mender.made)
    checks.same(f"{name}: edfstore takes it", taken.status, 0)
    shown = folder / f"{name} shown.edf"
    shown.write_bytes(by_hand.field(made, by_hand.RESERVED, "EDF+C"))
    (before, notes), (after, notes_after) = by_mne(path), by_mne(shown)
    checks.same(f"{name}: MNE's signals", len(after), len(before))
    checks.same(f"{name}: MNE's samples", all(map(numpy.array_equal, before, after)), True)
    checks.same(f"{name}: MNE's annotations", notes_after, notes)
    checks.same(f"{name}: EDFlib's samples", edflib_samples(dump, shown, folder)
                == as_integers(data), True)


def main() -> None:
    given = arguments.Parser(__doc__, programs=("edfstore", "edfmend")).read()
    with tempfile.TemporaryDirectory(prefix="edfmend-checks-") as name:
        folder = Path(name)
        checks = Checks(given.edfmend, folder, "edfmend")
        checks.case = "files of other programs"
        dump = measure.compiled(arguments.TOP / "checks/readers/dump.c", folder, "-ledf", "-lm")
        for writer, make, is_here in WRITERS:
            if is_here():
                look(checks, given, writer, make(folder), dump, folder)
            else:
                print(f"{writer}: not here, left out")
    checks.end()


if __name__ == "__main__":
    main()
