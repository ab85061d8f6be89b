"""Each check as a test of pytest: it passes where its module ends with status 0 and its last line is
`N tried, 0 failed`, N not 0.

Scratch files are in TMPDIR, else in memory (/dev/shm) where 4 GB of it are free; kills and cuts of
power are tried on a disk, in TMPDIR or /tmp. What a check that failed left is kept.
"""
import os
import shutil
import signal
import subprocess
import sys
import tempfile
from pathlib import Path

from checks.lib import arguments, checks

MEMORY, ENOUGH = Path("/dev/shm"), 4e9
SHOWN = 40      # lines of the output of a check that failed


def scratch_place(is_on_disk: bool) -> str:
    given = os.environ.get("TMPDIR")
    if given or is_on_disk or not MEMORY.is_dir() or shutil.disk_usage(MEMORY).free < ENOUGH:
        return given or "/tmp"
    return str(MEMORY)


def ran(words: list, folder: Path) -> tuple:
    """The status and the output of a check, all of whose processes end with it."""
    with open(folder / "output", "w+b") as written:
        child = subprocess.Popen(
            words, start_new_session=True, stdin=subprocess.DEVNULL, stdout=written,
            stderr=subprocess.STDOUT,
            env={**os.environ, "PYTHONPATH": str(arguments.TOP), "TMPDIR": str(folder)})
        try:
            status = child.wait()
        finally:
            try:
                os.killpg(child.pid, signal.SIGKILL)
            except ProcessLookupError:
                pass
        written.seek(0)
        return status, written.read().decode(errors="replace")


def test_check(check, programs, pytestconfig, record_property):
    given = pytestconfig.option
    folder = Path(tempfile.mkdtemp(prefix=f"checks-{check.name}-",
                                   dir=scratch_place(check.is_on_disk)))
    words = [sys.executable, "-P", "-m", f"{check.folder}.{check.name}",
             *[f"--{option}={program}" for option, program in programs.items()],
             *map(str, check.counts[given.long:][:1])]
    status, output = ran(words, folder)
    count = checks.tried(output)
    for name, value in (("name", check.name), ("what", check.tried), ("tried", count)):
        record_property(name, value)
    if given.control:
        shutil.rmtree(folder, ignore_errors=True)
        assert status or not count, "it passes with programs that answer wrongly"
        return
    end = "\n".join(output.splitlines()[-SHOWN:])
    assert status == 0 and count, f"{end}\nstatus {status}; all of it is in {folder}/output"
    shutil.rmtree(folder, ignore_errors=True)
