"""Runs the tests of edfclinic by pytest, and counts them.

    python3 -m checks.clinic.run [--program PATH] [--edfruns PATH] [--edfserve PATH]
                                 [--edfmend PATH] [--bare FOLDER] [COUNT]

COUNT 2 takes the counts of docs/EVIDENCE.md. Root gives files to uploaders, so it wants root, and
Debian's python3-pytest. `test_real.py` wants OpenSSH's server, Samba and sudo, here or in the
Debian of FOLDER. A test that can't be run here is told as skipped.
"""
import os
import re
import sys
from pathlib import Path

from checks.lib import arguments, measure
from checks.lib.checks import end

HERE = Path(__file__).parent
COUNTS = re.compile(r"(\d+) (passed|failed|error|skipped)")


def main() -> None:
    parser = arguments.Parser(__doc__, programs=arguments.PROGRAMS, count=1)
    parser.add_argument("--bare", type=arguments.path, metavar="FOLDER", help="a Debian")
    given = parser.read()
    if "TMPDIR" in os.environ:      # users of the tests go through it
        os.chmod(os.environ["TMPDIR"], 0o711)
    words = [f"--{option}={getattr(given, option)}" for option in arguments.OPTIONS.values()]
    words += [f"--bare={given.bare}"] if given.bare else []
    words += ["--long"] if given.count > 1 else []
    it = measure.ran("/usr/bin/python3", "-P", "-m", "pytest", HERE, "-rs", *words)
    sys.stdout.write(it.out.decode(errors="replace") + it.err.decode(errors="replace"))
    counts = {kind: int(count) for count, kind in COUNTS.findall(it.out.decode())}
    failed = counts.get("failed", 0) + counts.get("error", 0)
    end(counts.get("passed", 0) + failed, failed or it.status)


if __name__ == "__main__":
    main()
