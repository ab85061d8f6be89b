"""Plays weeks of clinics by chance, whose truth is known, and tells what a week found.

    python3 -m checks.clinic.weeks [--program PATH] [--edfruns PATH] [--edfserve PATH]
                                   [--edfmend PATH] [--seed N] [COUNT]

COUNT weeks, from seed 0 on, 12 if left out; or that of seed N alone. A failure is told with its
seed and with what was done. Root gives files to uploaders, so it wants root.
"""
import os
import shutil
import sys
import tempfile
import traceback
from functools import partial
from multiprocessing import Pool
from pathlib import Path
from typing import Any

from checks.clinic.clinic import laid
from checks.clinic.week import Week
from checks.lib import arguments
from checks.lib.checks import end

FOUND, SHOWN = "found: ", 60


def played(seed: int, programs: Path, source: Path = arguments.TOP / "clinic",
           wanted: dict[str, Any] | None = None) -> str:
    """Why a week failed, or nothing. It begins with FOUND where a promise was not kept, and not
    where a program failed otherwise."""
    folder = Path(tempfile.mkdtemp(prefix="clinic-week-"))
    folder.chmod(0o755)
    week = Week(seed, folder, programs, source, wanted)
    try:
        week.play()
    except Exception as why:
        what = f"{FOUND * isinstance(why, AssertionError)}{why}, seed {seed}"
        said = "\n".join(week.said[:1] + week.said[-SHOWN:])
        return f"{what}\n{said}\n{traceback.format_exc()}{what}"
    finally:
        week.close()
        shutil.rmtree(folder, ignore_errors=True)
    return ""


def main() -> None:
    parser = arguments.Parser(__doc__, programs=arguments.PROGRAMS, count=12)
    parser.add_argument("--seed", type=int, metavar="N", help="this week alone")
    given = parser.read()
    if os.geteuid():
        sys.exit("this wants root, who gives files to uploaders")
    if "TMPDIR" in os.environ:      # users of the weeks go through it
        os.chmod(os.environ["TMPDIR"], 0o711)
    seeds = range(given.count) if given.seed is None else [given.seed]
    paths = {name: getattr(given, option) for name, option in arguments.OPTIONS.items()}
    with tempfile.TemporaryDirectory(prefix="clinic-programs-") as folder, \
            Pool(min(len(seeds), os.cpu_count() or 1)) as pool:
        programs = laid(Path(folder), paths)
        failures = [it for it in pool.imap(partial(played, programs=programs), seeds) if it]
    print("\n".join(failures))
    end(len(seeds), len(failures))


if __name__ == "__main__":
    main()
