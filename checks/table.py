"""The checks that `checks/run` runs: each is a module of this folder, or of another that it names,
with the programs that it takes, what it needs, and how often it tries."""
import os
import platform
import shutil
from dataclasses import dataclass
from importlib.util import find_spec
from pathlib import Path

from checks.lib import arguments, disks


def is_here(name: str) -> bool:
    """Whether this command or package is here, or what else a check needs."""
    if name == "root":
        return os.geteuid() == 0
    if name == "time":
        return Path("/usr/bin/time").exists()
    if name == "python3-mne":
        return find_spec("mne") is not None
    if name == "libedf-dev":
        return Path("/usr/include/edflib.h").exists()
    if name == "tmpfs":
        return disks.may_mount()
    if name == "x86-64":
        return platform.machine() == "x86_64"
    if name == "edfstore.html":
        return (arguments.TOP / "crates/edf_page_exports/out" / name).exists()
    return shutil.which(name) is not None


READERS = ("cc", "save2gdf", "edfbrowser", "Xvfb", "xdotool", "xwininfo", "python3-mne",
           "libedf-dev")
BROWSERS = ("chromium", "firefox-esr", "WebKitWebDriver", "Xvfb")
FOR_ARM64 = ("cc", "qemu-aarch64", "aarch64-linux-gnu-gcc")
# The options that name the programs
EDFSTORE, EDFRUNS, EDFSERVE, EDFMEND = "program", "edfruns", "edfserve", "edfmend"


@dataclass(frozen=True)
class Check:
    name: str                   # of its module, below its folder
    tried: str                  # what is counted
    programs: tuple = (EDFSTORE,)
    counts: tuple = ()          # how often, and how often with --long
    needs: tuple = ()
    is_on_disk: bool = False
    is_for_long: bool = False   # with --long alone
    folder: str = "checks"

    def missing(self) -> list:
        """What it needs and is not here."""
        return [name for name in self.needs if not is_here(name)]


# Those that take longest come first.
CHECKS = (
    Check("edits.run", "edits that the prover refuses", (), needs=("rt",), is_on_disk=True,
          is_for_long=True),
    Check("arm64.run", "answers of the arm64 programs under qemu",
          (EDFSTORE, EDFRUNS, EDFSERVE, EDFMEND),
          needs=(*FOR_ARM64, "dpkg-deb", "readelf", "sqlite3"), is_on_disk=True,
          is_for_long=True),
    Check("readers.of_runs", "runs of a night read by other programs", (EDFRUNS,),
          needs=READERS, is_for_long=True),
    Check("readers.of_filled", "filled nights read by other programs", (EDFRUNS,),
          counts=(40, 200), needs=READERS, is_for_long=True),
    Check("readers.apneas", "apneas read where they happened", (EDFRUNS,), needs=READERS,
          is_for_long=True),
    Check("readers.pieces", "pieces and a card of EDFlib, by onset", (EDFSTORE, EDFRUNS),
          needs=("cc", "libedf-dev"), is_for_long=True),
    Check("readers.one_raw", "nights with gaps as one Raw of MNE", (EDFRUNS,),
          needs=("python3-mne",), is_for_long=True),
    Check("readers.converter", "splits of nights, by edfruns and by EDFbrowser",
          (EDFSTORE, EDFRUNS), needs=READERS, is_for_long=True),
    Check("powercut.run", "states after a cut of power", (EDFSTORE, EDFSERVE),
          counts=(100, 1_000), needs=("cc",), is_on_disk=True),
    Check("kill.run", "stops at random moments", counts=(100, 1_000), is_on_disk=True),
    Check("refused.run", "allocations, reads, writes and syncs refused", counts=(50, 5),
          needs=("cc",)),
    Check("full", "nights onto small disks", (EDFSTORE, EDFSERVE), counts=(38, 186),
          needs=("tmpfs",)),
    Check("room", "what the system says of memory, less and less of it", (EDFSTORE, EDFSERVE),
          needs=("tmpfs", "unshare", "prlimit")),
    Check("instructions", "commands, by their instructions",
          (EDFSTORE, EDFRUNS, EDFSERVE, EDFMEND), needs=("valgrind", "x86-64"), folder="bench"),
    Check("fuzz.run", "random files against the model", counts=(20_000, 100_000)),
    Check("fuzz.sizes", "files of the greatest headers and records", needs=("time",)),
    Check("odd", "files that are no stores, foreign rows", needs=("time",)),
    Check("fuzz.split", "random files against the model of edfruns", (EDFRUNS,),
          counts=(5_000, 50_000)),
    Check("fuzz.terminal", "commands that would steer a terminal",
          (EDFSTORE, EDFRUNS, EDFSERVE, EDFMEND), counts=(1_000, 10_000)),
    Check("by_onset", "annotations that are spread by chance", (EDFSTORE, EDFRUNS),
          counts=(200, 2_000)),
    Check("worked", "answers worked out by hand"),
    Check("split", "lines and files of edfruns", (EDFSTORE, EDFRUNS)),
    Check("fill", "recordings by chance, filled, cut and compared", (EDFRUNS,),
          counts=(300, 3_000)),
    Check("upgrade", "stores that go on by another version", (EDFSTORE, EDFSERVE),
          needs=("git", "tar", "xz", "x86-64"), is_for_long=True),
    Check("filled_store", "a filled file beside its night and its card", (EDFSTORE, EDFRUNS)),
    Check("split_stops", "splits that are stopped", (EDFRUNS,), counts=(90, 900),
          is_on_disk=True),
    Check("lines.shell", "lines that a person may type", needs=("sqlite3",)),
    Check("lines.run", "exact lines, files and statuses"),
    Check("lines.terminal", "what is printed on a terminal alone",
          (EDFSTORE, EDFRUNS, EDFSERVE, EDFMEND), needs=("cc", "sqlite3")),
    Check("lines.causes", "causes in a log, and files for a terminal",
          (EDFSTORE, EDFRUNS, EDFSERVE, EDFMEND), needs=("cc", "sqlite3")),
    Check("rot", "changes of a store's files", counts=(100, 1_000)),
    Check("witness", "exports that examples/witness.py judges", counts=(40, 1_000)),
    Check("shown", "commands of README, GUIDE, REFUSALS", (EDFSTORE, EDFRUNS, EDFSERVE, EDFMEND)),
    Check("warned", "answers that the documents warn of", counts=(100, 1_000)),
    Check("picture", "nights by chance, drawn", (EDFRUNS,), counts=(200, 1_000)),
    Check("lines.stored", "stored runs", (EDFSTORE, EDFRUNS, EDFMEND)),
    Check("serve", "answers of edfserve to its clients, kills", (EDFSTORE, EDFSERVE),
          counts=(20, 100)),
    Check("page", "answers of the page in three browsers", (EDFSTORE, EDFRUNS, EDFMEND),
          counts=(2_000, 2_000), needs=(*BROWSERS, "edfstore.html"), is_on_disk=True,
          is_for_long=True),
    Check("lowered", "calls of a module for 32 bits", (), needs=BROWSERS, is_for_long=True),
    Check("clinic.weeks", "weeks of clinics by chance", (EDFSTORE, EDFRUNS, EDFSERVE, EDFMEND),
          counts=(12, 300), needs=("root",)),
    Check("clinic.run", "tests of edfclinic", (EDFSTORE, EDFRUNS, EDFSERVE, EDFMEND),
          counts=(1, 1), needs=("unshare",), is_for_long=True),
    Check("mend.run", "files spoilt by hand, mended", (EDFSTORE, EDFMEND)),
    Check("mend.table", "files where something could be guessed", (EDFMEND,)),
    Check("mend.stops", "files that can't be mended or made", (EDFMEND,), needs=("cc",)),
    Check("mend.people", "pairs of patients, mended", (EDFMEND,), counts=(300, 3_000)),
    Check("mend.fuzz", "files spoilt at random, mended", (EDFMEND,), counts=(2_000, 100_000)),
    Check("mend.foreign", "files of other programs, mended", (EDFSTORE, EDFMEND),
          needs=("cc", "save2gdf", "python3-mne", "libedf-dev"), is_for_long=True),
    Check("told", "faults of form as REFUSALS has them", ()),
    Check("documents", "files whose links and names stand", (), needs=("git",)),
    Check("promises", "contracts that PROMISES names", ()),
    Check("architecture", "crates and files that ARCHITECTURE has", (), needs=("git",)),
    Check("arm64.host", "answers of the C functions for arm64", (), needs=FOR_ARM64,
          is_for_long=True),
    Check("first_command", "first commands of a small clone", (), needs=("bash", "tar", "xz")),
    Check("edits.standing", "edits whose lines stand in the sources", ()),
    Check("released", "first commands and comparisons of clones", (),
          needs=("git", "tar", "xz"), is_for_long=True),
    Check("package", "facts of the Debian package", (),
          needs=("dpkg-deb", "lintian", "man", "readelf"), is_for_long=True),
)
