"""Whether all pages of a store are kept in memory while it is open, by what the system says of
memory: then its file is read twice, and not seven times.

    python3 -m checks.room [--program PATH] [--edfserve PATH]

A night of 19 MB is listed where files of this check stand in place of /proc/meminfo,
/proc/self/cgroup and what is below /sys/fs/cgroup. All pages are kept where that takes up a quarter
at most of what is free there, and of what each limit leaves, of version 1 or 2 of the groups: a
kilobyte less, and they are not; nor where a number is missing or none. The list is the same. Then
the night is listed with less and less room for addresses: where the list is told without kept pages
it is told with them too, since an opening that lacks memory for them is tried without. A session
over a night has, once it has answered, little more memory than one over a new store: what its
opening took is given back, whatever its rows are. It needs root, who may mount, and a minute.
"""
import resource
import shutil
import sys
import time
from dataclasses import dataclass, replace
from pathlib import Path

from checks.lib import arguments, disks, measure, night, printed
from checks.lib.checks import Lost, compare, end
from checks.lib.serving import Client

# More than twice the 2,000 pages that are kept without room for all: of fewer, some reading is
# spared anyway.
NIGHT = replace(night.SHORT, records=9_000)
PAGE, SHARE = 4_096, 4
# What a session over a night may have more than one over a new store, which has its pages too
SPARE, SETTLED = 4_000_000, 0.2
# Nights of 20 MB, whose rows have 1.7 kB, 6.7 kB, and 200 kB
SESSIONS = {"short rows": NIGHT, "wide rows": replace(night.CLINIC, records=3_000, fragments=10),
            "very wide rows": replace(night.LONG_RECORDS, records=100, fragments=10)}
# From so many times its bytes on that are read, a store's pages were not kept.
PASSES = 4
MEMINFO = "MemTotal: 99999999 kB\nMemFree: 12 kB\nMemAvailable:{}\nBuffers: 7 kB\n"
NO_LIMIT = "9223372036854771712\n"
# Mounts the files of the first word over the system's, and runs the others.
INSIDE = """
mount --bind "$1/meminfo" /proc/meminfo && mount --bind "$1/sys" /sys/fs/cgroup &&
mount --bind "$1/cgroup" "/proc/$$/cgroup" || exit 99
shift
exec "$@"
"""


@dataclass(frozen=True)
class System:
    """What the system says: free memory, the groups of a process, and files below their folder."""
    name: str
    is_kept: bool
    free: str
    cgroup: bytes = b"0::/\n"
    files: tuple = ()


def limit(folder: str, most: str, used: str = "") -> tuple:
    """The files of a group of version 2 with a limit."""
    return ((f"{folder}memory.max", most), *([(f"{folder}memory.current", used)] if used else []))


def first_limit(folder: str, most: str, used: str) -> tuple:
    """Those of version 1."""
    return ((f"memory/{folder}memory.limit_in_bytes", most),
            (f"memory/{folder}memory.usage_in_bytes", used))


def systems(store: int) -> list:
    """Those that are tried, for a store of so many bytes."""
    wanted = SHARE * store
    free, less = f" {wanted // 1_024} kB", f" {wanted // 1_024 - 1} kB"
    much, used = f" {wanted} kB", 5_000_000
    just, short = f"{wanted + used}\n", f"{wanted + used - 1}\n"
    in_use, in_group = f"{used}\n", b"0::/a.slice/b\n"
    first = b"9:name=systemd:/\n4:cpu,memory:/a/b\n0::/\n"
    return [
        System("just enough is free", True, free),
        System("a kilobyte less is free", False, less),
        System("much is free", True, much),
        System("no limit", True, much, in_group,
               (*limit("", "max\n"), *limit("a.slice/b/", "max\n"))),
        System("a limit that leaves just enough", True, much, in_group,
               limit("a.slice/b/", just, in_use)),
        System("a limit that leaves a byte less", False, much, in_group,
               limit("a.slice/b/", short, in_use)),
        System("a limit of the group around it", False, much, in_group,
               (*limit("a.slice/b/", "max\n"), *limit("a.slice/", short, in_use))),
        System("a limit of the first group", False, much, in_group, limit("", short, in_use)),
        System("a limit that is exceeded", False, much, in_group,
               limit("a.slice/b/", "9\n", in_use)),
        System("version 1, no limit", True, much, first, first_limit("a/b/", NO_LIMIT, in_use)),
        System("version 1, just enough", True, much, first, first_limit("a/b/", just, in_use)),
        System("version 1, a byte less", False, much, first, first_limit("a/b/", short, in_use)),
        System("version 1, in a container", False, much, first, first_limit("", short, in_use)),
        System("version 1, whose line comes last", False, much, b"0::/\n4:memory:/a\n",
               first_limit("a/", short, in_use)),
        System("no groups", True, much, b""),
        System("nothing is said of what is free", False, "\nMemOther: 99999999 kB"),
        System("what is free is no number", False, " much kB"),
        System("what is free has another unit", False, " 99999999 MB"),
        System("what is free is too great a number", False, " 99999999999999999999 kB"),
        System("a limit that is no number", False, much, in_group,
               limit("", "much\n", in_use)),
        System("a limit and no use", False, much, in_group, limit("", just)),
        System("a use that is no number", False, much, in_group, limit("", just, "some\n")),
        System("a group that is no text", False, much, b"0::/\xff\n"),
    ]


def read_so_far() -> int:
    """A process that was waited for adds what it read to what this one did."""
    io = dict(line.split(": ") for line in Path("/proc/self/io").read_text("ascii").splitlines())
    return int(io["rchar"])


class Bench:
    def __init__(self, program: Path, folder: Path):
        self.program, self.folder, self.store = program, folder, folder / "s.db"
        parts = NIGHT.parts(folder)
        each = NIGHT.records // NIGHT.fragments
        taken = measure.ran(program, "take", self.store, *parts)
        compare("the night", taken.out.decode(),
                printed.lines(*((part, printed.accepted(each)) for part in parts)))
        self.listed = measure.ran(program, "list", self.store).out
        compare("its list", self.listed.count(b" records=%d " % NIGHT.records), 1)

    def lay(self, system: System) -> Path:
        """The files that stand in place of the system's."""
        place = self.folder / "system"
        shutil.rmtree(place, ignore_errors=True)
        (place / "sys").mkdir(parents=True)
        (place / "meminfo").write_text(MEMINFO.format(system.free))
        (place / "cgroup").write_bytes(system.cgroup)
        for name, text in system.files:
            (place / "sys" / name).parent.mkdir(parents=True, exist_ok=True)
            (place / "sys" / name).write_text(text)
        return place

    def ran(self, system: System, *before: str) -> tuple:
        """How a list ends there, and how many bytes were read."""
        words = ("unshare", "--mount", "sh", "-c", INSIDE, "sh", self.lay(system))
        begun = read_so_far()
        ran = measure.ran(*words, *before, self.program, "list", self.store)
        return ran, read_so_far() - begun

    def is_listed(self, system: System, bytes_of_room: int) -> bool:
        """Whether the night is listed with so much room for addresses."""
        ran, _ = self.ran(system, "prlimit", f"--as={bytes_of_room}", "--")
        if ran.status:
            compare("what was told for want of memory", (ran.status, ran.out), (3, b""))
        else:
            compare("the list", ran.out, self.listed)
        return not ran.status


def try_systems(bench: Bench, size: int) -> int:
    """Lists the night on each of them; how many there were."""
    tried = systems(size)
    for system in tried:
        ran, read = bench.ran(system)
        compare(system.name, (ran.status, ran.out, ran.err), (0, bench.listed, b""))
        compare(f"{system.name}: all pages were kept, of {size} bytes and {read} read",
                read < PASSES * size, system.is_kept)
    return len(tried)


def least(bench: Bench, system: System, rooms: range) -> int:
    """The least of these rooms for addresses with which the night is listed; how it is with all
    greater ones must be the same."""
    listed = [bench.is_listed(system, room) for room in rooms]
    compare(f"{system.name}: from one room on it is listed", listed, sorted(listed))
    compare(f"{system.name}: rooms that were too small, and others", set(listed), {False, True})
    return rooms[listed.index(True)]


def try_rooms(bench: Bench, size: int) -> int:
    """Lists the night with room for addresses from too little to more than enough; how often."""
    kept, other = systems(size)[:2]
    rooms = range(size, 6 * size, size // 8)
    wanted, without = least(bench, kept, rooms), least(bench, other, rooms)
    compare(f"with kept pages it needs no more room than without: {wanted} and {without}",
            wanted <= without + rooms.step, True)
    return 2 * len(rooms)


def held_over(program: Path, folder: Path) -> int:
    """The memory of a session over the store of a folder, once it has answered."""
    client = Client(program, folder)
    compare("how the list of a session ends", client.ask("list").endswith("status 0\n"), True)
    time.sleep(SETTLED)
    held = client.held()
    compare("how a session ends", client.end(), (0, "", ""))
    return held


def try_sessions(program: Path, bench: Bench) -> int:
    """Begins a session over a new store, and over nights with short, wide and very wide rows."""
    new = bench.folder / "new"
    new.mkdir()
    held = held_over(program, new)
    for name, kind in SESSIONS.items():
        folder = bench.folder / name
        folder.mkdir()
        parts = kind.parts(folder)
        measure.done(bench.program, "take", folder / "s.db", *parts)
        most = held_over(program, folder)
        compare(f"whether a session gave back what its opening took of {name}: {held} bytes over a "
                f"new store, {most} over this", most < held + SPARE, True)
        shutil.rmtree(folder)
    return 1 + len(SESSIONS)


def main():
    given = arguments.Parser(__doc__, programs=("edfstore", "edfserve")).read()
    if not disks.may_mount():
        sys.exit("this user may mount nothing")
    resource.setrlimit(resource.RLIMIT_CORE, (0, 0))
    try:
        with measure.scratch() as folder:
            bench = Bench(given.program, Path(folder))
            size = bench.store.stat().st_size
            compare("whole pages, more than twice as many as are kept without room for all",
                    (size % PAGE, size // PAGE > 4_000), (0, True))
            tried = try_sessions(given.edfserve, bench)
            tried += try_systems(bench, size)
            end(tried + try_rooms(bench, size), 0)
    except Lost as lost:
        print(lost)
        end(1, 1)


if __name__ == "__main__":
    main()
