"""The examples that write by EDFlib, on a Debian that has the package.

That Debian lies in a folder, and does not boot.
"""
import shutil
from pathlib import Path

from checks.lib import measure
from checks.lib.arguments import TOP
from checks.lib.checks import Checks

SHARED = "/usr/share/doc/edfstore"
MOUNTED = 'mount -t proc proc "$0/proc" && exec chroot "$0" "$@"'
PLACE = ("PATH=/usr/local/sbin:/usr/sbin:/usr/bin:/sbin:/bin", "DEBIAN_FRONTEND=noninteractive")
NEEDS = b"examples/night/run needs cc, Python 3 and Debian's libedf-dev\n"
COMPARED = b"960 of 960 records have the start, the samples and the annotations of the card's"


class Machine:
    """A Debian in that folder."""

    def __init__(self, root: Path):
        self.root = root

    def run(self, *words) -> measure.Ran:
        return measure.ran("unshare", "--mount", "sh", "-c", MOUNTED, self.root, "env", "-i",
                           *PLACE, *words)

    def has_installed(self, *packages: str) -> bool:
        return not self.run("apt-get", "install", "--no-install-recommends", "--yes",
                            *packages).status


def written(checks: Checks, machine: Machine) -> None:
    """The file that write_sample.c writes."""
    checks.begin("the command that made edflib.edf")
    readme = (machine.root / f"{SHARED[1:]}/examples/README.md").read_text()
    line = readme.split("`cc ")[1].split("`")[0]
    # The compiler warns of names that a later EDFlib than Debian 12's calls otherwise.
    script = (f"cp {SHARED}/examples/write_sample.c .\n{{ cc {line}\n}} 2>/root/said\n"
              "edfstore take :memory: edflib.edf")
    checks.same(line, machine.run("bash", "-ec", f"cd /root\n{script}").outcome(),
                (b"edflib.edf accepted new=8 known=0\n", b"", 0))


def from_end_to_end(checks: Checks, machine: Machine) -> None:
    """The example that takes minutes, first without what it needs, from a folder like the clone,
    which alone has it."""
    checks.begin("examples/night/run")
    for name in ("examples/night", "checks/lib", "docs"):
        shutil.copytree(TOP / name, machine.root / "root/clone" / name)
    night = "/root/clone/examples/night/run"
    checks.same("what it needs", machine.run(night).outcome(), (b"", NEEDS, 3))
    there = machine.has_installed("gcc", "libc6-dev", "libedf-dev", "python3")
    checks.same("cc, EDFlib and Python", there, True)
    ran = machine.run(night)
    checks.same(night, (ran.status, ran.out.splitlines()[-1:]), (0, [COMPARED]))


def tried(checks: Checks, root: Path) -> None:
    machine = Machine(root)
    if machine.run("apt-get", "update").status:
        print("the examples were NOT run: no packages here")
        return
    from_end_to_end(checks, machine)
    written(checks, machine)
