"""Runs the gate and samples what it costs, by crate and kind of work.

    python3 -m bench.gate [--processors N,N] [--every SECONDS] [--by FILE]
                          [--pid PID | COMMAND...]

The command is `rt ci` where none is given; `.ci/run` runs it so. Some builds of the toolchain keep
what a run passed, and do not do it again: there `rt ci --anew` begins from nothing. The others
always do, and do not know the word. --processors 0,1 runs the command on those two alone. --pid
looks at a run that has begun already, from now on.

Each second the processor time of each process below the command is read from /proc, so a process
that ended between two looks lacks up to that second. The line "in all" lacks nothing: it is what
the system says of the command and all below it. The kinds are the proof of a crate, that of its
tests with their build, its edits that must fail, the builds by the two compilers, and the runs of
programs and tests. Below stands the whole by the proof of the five lowest crates, by which hosts
compare. Before and after stands what twenty million additions take in Python (in a function, of
the processor): it tells a fast hour of the host from a slow one. --by writes lines of crate, kind
and seconds, with a tab between, to a file too.
"""
import argparse
import os
import resource
import subprocess
import sys
import time
from collections import defaultdict
from dataclasses import dataclass
from pathlib import Path

from checks.lib import arguments
from checks.lib.measure import loop

PROOF, TESTS, EDITS, BUILDS, RUNS, ITSELF = KINDS = (
    "proof", "tests", "edits", "builds", "runs", "rt itself")
ANY = "(any)"           # the crate of what works on none, or on all
LOWEST = "edf_time", "edf_field", "edf_header", "edf_tal", "edf_fragment"
TICK = os.sysconf("SC_CLK_TCK")


@dataclass(frozen=True)
class Work:
    crate: str
    kind: str


def value_after(words: list, name: str) -> str:
    return words[words.index(name) + 1] if name in words[:-1] else ""


def proved(words: list, folder: str) -> Work:
    """What the prover works on."""
    crate = value_after(words, "--crate-name") or ANY
    if "/rt-edit-" in folder:
        return Work(crate, EDITS)
    if "--test" in words:
        return Work(crate, TESTS)
    return Work(crate, BUILDS if "--backend" in words else PROOF)


def work_of(pid: str) -> Work:
    """What a process works on, by its words and by the folder that it runs in."""
    words = Path("/proc", pid, "cmdline").read_bytes().decode(errors="replace").split("\0")
    if not words[0]:
        raise ProcessLookupError(pid)       # it ends, and stays what it was
    folder = os.readlink(f"/proc/{pid}/cwd")
    if Path(words[0]).name == "rattle":
        return proved(words, folder)
    room = next((word for word in [folder, *words] if "/rt-run-" in word), "")
    if room:
        name = Path(words[0]).name.removesuffix("_tests") if "/rt-run-" in words[0] else ANY
        return Work(name, RUNS)
    if "/crates/" in folder:
        return Work(folder.partition("/crates/")[2].partition("/")[0], BUILDS)
    return Work(ANY, ITSELF)


def processes() -> dict:
    """Each process by its number: its parent, when it began, and its processor seconds."""
    found = {}
    for entry in os.scandir("/proc"):
        if entry.name.isdigit():
            try:
                words = Path(entry.path, "stat").read_text().rpartition(")")[2].split()
            except OSError:
                continue
            found[entry.name] = (words[1], words[19], (int(words[11]) + int(words[12])) / TICK)
    return found


class Sampler:
    """The processes below one, with what each worked on and how long."""

    def __init__(self, root: int):
        self.root, self.works, self.spent = str(root), {}, {}

    def look(self) -> None:
        found = processes()
        below, size = {self.root}, 0
        while size < len(below):
            size = len(below)
            below |= {pid for pid, (parent, _, _) in found.items() if parent in below}
        for pid in below & found.keys():
            _, begun, seconds = found[pid]
            self.spent[pid, begun] = seconds
            try:
                self.works[pid, begun] = work_of(pid)
            except (OSError, IndexError):
                self.works.setdefault((pid, begun), Work(ANY, ITSELF))

    def by_work(self) -> dict:
        found = defaultdict(float)
        for key, seconds in self.spent.items():
            found[self.works[key]] += seconds
        return found


def table(found: dict) -> str:
    """The crates, the one that costs most first, and the sums."""
    crates = defaultdict(lambda: defaultdict(float))
    for work, seconds in found.items():
        crates[work.crate][work.kind] += seconds
    lines = [f"| Crate | {' | '.join(KINDS)} | all |", "|---" * (len(KINDS) + 2) + "|"]
    for crate, kinds in sorted(crates.items(), key=lambda it: -sum(it[1].values())):
        cells = [f"{kinds[kind]:.0f}" if kinds[kind] >= 0.5 else "" for kind in KINDS]
        lines.append(f"| `{crate}` | {' | '.join(cells)} | {sum(kinds.values()):.0f} |")
    sums = [sum(kinds[kind] for kinds in crates.values()) for kind in KINDS]
    lines.append(f"| all | {' | '.join(f'{each:.0f}' for each in sums)} | {sum(sums):.0f} |")
    return "\n".join(lines)


def by_lowest(found: dict) -> str:
    """How often the proof seconds of the five lowest crates are in all seconds."""
    lowest = sum(found.get(Work(crate, PROOF), 0) for crate in LOWEST)
    if not lowest:
        return "none of the lowest crates was proved"
    times = sum(found.values()) / lowest
    return f"all is {times:.1f} times the proof of {', '.join(LOWEST)} ({lowest:.0f} seconds)"


def numbers(word: str) -> set:
    return {int(number) for number in word.split(",")}


def read() -> argparse.Namespace:
    parser = arguments.Parser(__doc__, programs=())
    parser.add_argument("--processors", type=numbers, metavar="N,N", help="run on these alone")
    parser.add_argument("--every", type=float, default=1.0, metavar="SECONDS")
    parser.add_argument("--by", type=arguments.path, metavar="FILE")
    parser.add_argument("--pid", type=int)
    parser.add_argument("command", nargs="...", metavar="COMMAND")
    given = parser.read()
    if given.pid and (given.processors or given.command):
        parser.error("--pid starts no command")
    return given


def started(given: argparse.Namespace) -> subprocess.Popen:
    """The command, on the processors that the words name."""
    def settle() -> None:
        if given.processors:
            os.sched_setaffinity(0, given.processors)

    return subprocess.Popen(given.command or ["rt", "ci"], preexec_fn=settle)


def main() -> int:
    given = read()
    before, begun = loop(), time.perf_counter()
    child = None if given.pid else started(given)
    root = child.pid if child else given.pid
    sampler, processors = Sampler(root), len(os.sched_getaffinity(root))
    while child.poll() is None if child else Path(f"/proc/{given.pid}").exists():
        sampler.look()
        time.sleep(given.every)
    clock, found = time.perf_counter() - begun, sampler.by_work()
    print(table(found))
    print(f"\n{by_lowest(found)}")
    print(f"{clock / 60:.0f} minutes of clock on {processors} processors; sampled "
          f"{sum(found.values()) / 60:.0f} processor minutes")
    if child:
        spent = resource.getrusage(resource.RUSAGE_CHILDREN)
        print(f"in all {(spent.ru_utime + spent.ru_stime) / 60:.0f} processor minutes; the command "
              f"ended with status {child.returncode}")
    print(f"the additions took {before:.1f} s before and {loop():.1f} s after")
    if given.by:
        lines = [f"{work.crate}\t{work.kind}\t{seconds:.1f}\n" for work, seconds in found.items()]
        given.by.write_text("".join(sorted(lines)))
    return child.returncode if child else 0


if __name__ == "__main__":
    sys.exit(main())
