"""`edfmend` where it can't make its file: a line says why, and nothing has the name of OUT.

    python3 -m checks.mend.stops [--edfmend PATH]

OUT that is there, as a file, a link or IN itself; a folder that is not there; full disks, of which
root mounts one; IN that is a folder, a device or a pipe; IN that is another when it is read again;
and Ctrl-C. It needs cc.
"""
import os
import signal
import subprocess
import tempfile
from collections.abc import Sequence
from pathlib import Path
from typing import Optional

from checks.lib import arguments, by_hand, measure, mended, printed
from checks.lib.checks import Checks
from checks.lib.disks import Disk
from checks.lib.edf import Header, Signal, annotations_signal, fragment, keeping
from checks.mend.run import GOOD

CODE = ("--set-patient", "S-0118")
BAD = by_hand.field(GOOD, by_hand.COUNT, "7")
LONG = 1_000_000        # samples of a data record


def night(count: int, samples: int) -> bytes:
    header = Header((Signal(samples=str(samples)), annotations_signal(8)), count=str(count))
    return fragment(header, [(bytes(2 * samples), keeping(f"+{nth}")) for nth in range(count)])


def stops(checks: Checks, mender: mended.Mender, what: str, words: Sequence[str], said: str,
          status: int, left: Sequence[str], added: Optional[dict[str, str]] = None) -> None:
    """The words, the line on standard error, the status, and what is beside IN then."""
    ran = measure.ran(mender.program, *words, folder=mender.folder, added=added or {})
    checks.same(what, (ran.out, ran.err.decode(), ran.status, mender.left()),
                (b"", said, status, sorted(left)))


def taken_names(checks: Checks, mender: mended.Mender) -> None:
    checks.begin("OUT is there")
    mender.made.write_bytes(b"mine")
    (mender.folder / "link.edf").symlink_to("nothing")
    for out in ("out.edf", "link.edf", "in.edf", "./in.edf", "/dev/full", "."):
        stops(checks, mender, out, ("in.edf", out), printed.is_there(out), 1,
              ("link.edf", "out.edf"))
    checks.same("what was there", (mender.made.read_bytes(), mender.given.read_bytes() == BAD),
                (b"mine", True))
    for name in ("out.edf", "link.edf"):
        (mender.folder / name).unlink()
    stops(checks, mender, "no folder", ("in.edf", "none/out.edf"),
          printed.line("none/out.edf", printed.UNWRITTEN), 3, ())


def odd_inputs(checks: Checks, mender: mended.Mender) -> None:
    checks.begin("IN that is no regular file")
    os.mkfifo(mender.folder / "pipe")
    for name in (".", "/dev/zero", "pipe", "none.edf"):
        stops(checks, mender, name, (name, "out.edf"), printed.line(name, printed.UNREAD), 3,
              ("pipe",))
    (mender.folder / "pipe").unlink()


def full_disks(checks: Checks, mender: mended.Mender) -> None:
    checks.begin("full disks")
    with open("/dev/full", "wb") as full:
        ran = subprocess.run([mender.program, "in.edf", "out.edf"], stdout=full, check=False,
                             stderr=subprocess.PIPE, cwd=mender.folder)
    checks.same("standard output", (ran.returncode, ran.stderr.decode(), mender.left()),
                (3, printed.UNWRITTEN_OUTPUT, ["out.edf"]))
    mender.made.unlink()
    mender.given.write_bytes(night(10, 100_000))
    with Disk(mender.folder / "disk", 512) as disk:
        if disk.is_mounted:
            for words in ((), CODE):
                stops(checks, mender, f"OUT {words}", ("in.edf", "disk/out.edf", *words),
                      printed.line("disk/out.edf", printed.UNWRITTEN), 3, ("disk",))
                checks.same("the disk", list(disk.place.iterdir()), [])
    (mender.folder / "disk").rmdir()


def changes(checks: Checks, mender: mended.Mender) -> None:
    """At the last reading IN is another: a good one is read twice, and any other once more."""
    checks.begin("IN changes between its readings")
    library = measure.library(Path(__file__).with_name("changed.c"), checks.folder)
    other = by_hand.field(GOOD[:-38], by_hand.COUNT, "2")
    for what, data, words, at in (("good", GOOD, (), 2), ("with a fault", BAD, (), 3),
                                  ("with a code", BAD, ("--patient", "P7"), 2)):
        for out in ("--dry-run", "out.edf"):
            mender.given.write_bytes(data)
            (mender.folder / "other.edf").write_bytes(other)
            stops(checks, mender, f"{what}, {out}", ("in.edf", out, *words),
                  printed.changed("in.edf"), 3, (),
                  added={"LD_PRELOAD": str(library), "AT": str(at)})


def interrupted(checks: Checks, mender: mended.Mender) -> None:
    """A program that ends before the signal comes is begun again; it is slower than this one."""
    checks.begin("Ctrl-C")
    mender.given.write_bytes(night(60, LONG))
    part, status, nth = mender.folder / "out.edf.part", 0, 0
    while not status and nth < 10:
        mender.made.unlink(missing_ok=True)
        with subprocess.Popen(["nice", "-n", "19", mender.program, "in.edf", "out.edf"],
                              cwd=mender.folder, stdout=subprocess.DEVNULL) as child:
            while child.poll() is None and not part.exists():
                pass
            child.send_signal(signal.SIGINT)
        status, nth = child.returncode, nth + 1
    checks.same("what is left", (status, mender.left()), (-signal.SIGINT, ["out.edf.part"]))


def main() -> None:
    given = arguments.Parser(__doc__, programs=("edfmend",)).read()
    measure.need("cc")
    with tempfile.TemporaryDirectory(prefix="edfmend-stops-") as name:
        folder = Path(name) / "mending"
        folder.mkdir()
        mender = mended.Mender(given.edfmend, folder)
        checks = Checks(given.edfmend, Path(name) / "none", "edfmend")
        checks.folder.mkdir()
        for one in (taken_names, odd_inputs, full_disks, changes, interrupted):
            mender.given.write_bytes(BAD)
            one(checks, mender)
    checks.end()


if __name__ == "__main__":
    main()
