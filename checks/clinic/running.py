"""A clinic that is played: its recorders, and edfclinic in children of this process, by a clock
that stands still while it runs."""
import importlib
import os
import select
import signal
import struct
import subprocess
import sys
import tempfile
import time
import traceback
import types
from collections.abc import Callable
from dataclasses import dataclass, field
from datetime import datetime, timedelta, timezone
from pathlib import Path
from typing import Any

from checks.clinic.clinic import SERVICE, Clinic
from checks.clinic.recordings import Recording
from checks.clinic.truth import quoted_away

START = datetime(2026, 11, 2)
LONGEST = 600       # real seconds of a step
FAILED = 70         # the status of what edfclinic itself does not catch
MARK = "MARK"       # in names of uploaders, which must stand in quotes
nap = time.sleep


class Broken(Exception):
    """A program failed, or did not end. That is no promise's, and finds no wrong one."""


@dataclass
class Clock:
    """Stands for the clocks of `time`. Who sleeps and has pipes writes a byte to one, and reads
    from the other what the clock is when it wakes."""
    seconds: float
    pipes: tuple[int, ...]

    def monotonic(self) -> float:
        return self.seconds

    def now(self, tz: Any = None) -> datetime:
        here = START.replace(tzinfo=timezone.utc) + timedelta(seconds=self.seconds)
        return here.astimezone(tz)

    def localtime(self) -> time.struct_time:
        return self.now(timezone.utc).timetuple()

    def sleep(self, seconds: float) -> None:
        if self.pipes:
            os.write(self.pipes[0], b".")
            self.seconds = struct.unpack("d", os.read(self.pipes[1], 8))[0]
        else:       # a command waits for another
            nap(seconds)
            self.seconds += seconds


@dataclass
class Writer:
    """A recorder that records onto the share: it keeps its file open."""
    fd: int
    path: Path
    night: Recording
    numbers: list[int]
    count: str          # what the header counts meanwhile: all, what is there, or nothing (-1)
    opened: float
    written: int = 0

    @property
    def records(self) -> set[bytes]:
        return {self.night.samples_of(it) for it in self.numbers}

    @property
    def is_part(self) -> bool:
        """Its name says that it has not come yet."""
        return self.path.suffix == ".part"

    @property
    def is_away(self) -> bool:
        return os.fstat(self.fd).st_nlink == 0


@dataclass
class Bed:
    name: str
    # Of receive: its sleep is read from the first, and it wakes by the last.
    pipes: tuple[int, ...] = field(default_factory=lambda: (*os.pipe(), *os.pipe()))
    receiving: int = 0
    since: float = 0.0          # receive runs
    nights: list[Recording] = field(default_factory=list)
    night: Recording = Recording()
    parts: list[list[int]] = field(default_factory=list)            # of the evening, as they come
    steps: list[Callable[[], object]] = field(default_factory=list)     # the first send the parts
    writers: list[Writer] = field(default_factory=list)
    cards: list[Path] = field(default_factory=list)     # of the morning
    late: list[Path] = field(default_factory=list)      # of a later one
    is_called: bool = True      # this morning


class Running:
    """Runs what a week asks for, and has what was done and said."""

    def __init__(self, clinic: Clinic, programs: Path):
        self.clinic, self.programs, self.clock = clinic, programs, 0.0
        self.beds, self.said = [Bed(it) for it in clinic.recorders], list[str]()
        self.outs, self.command = clinic.folder / "outs", 0
        clinic.make(self.outs, SERVICE, SERVICE, 0o755)

    def close(self) -> None:
        for child in [self.command, *(it.receiving for it in self.beds)]:
            if child:
                os.kill(child, signal.SIGKILL)
                os.waitpid(child, 0)
        for bed in self.beds:
            for fd in (*bed.pipes, *(it.fd for it in bed.writers)):
                os.close(fd)

    def say(self, what: str) -> None:
        self.said.append(f"{START + timedelta(seconds=self.clock):%d %H:%M:%S} {what}")

    def begun(self, words: tuple[Any, ...], out: str, pipes: tuple[int, ...] = ()) -> int:
        child = os.fork()
        if not child:
            status = FAILED
            try:
                status = self.edfclinic([*map(str, words)], str(self.outs / out), pipes)
            except BaseException:
                traceback.print_exc()
            finally:
                sys.stdout.flush()
                os._exit(status)
        return child

    def edfclinic(self, words: list[str], out: str, pipes: tuple[int, ...]) -> int:
        """In a child: becomes the service, and then edfclinic."""
        for number, name in ((0, ""), (1, ".out"), (2, ".err")):
            flags = os.O_WRONLY | os.O_CREAT | os.O_TRUNC if name else os.O_RDONLY
            os.dup2(os.open(f"{out}{name}" if name else "/dev/null", flags, 0o644), number)
        for fd in [it for it in map(int, os.listdir("/proc/self/fd")) if it > 2]:
            if fd not in pipes and os.path.exists(f"/proc/self/fd/{fd}"):
                os.close(fd)
        sys.stdout, sys.stderr = (open(fd, "w", encoding="utf-8") for fd in (1, 2))
        os.setgroups([self.clinic.uploader(it) for it in self.clinic.recorders])
        os.setgid(SERVICE)
        os.setuid(SERVICE)
        os.chdir("/")
        os.environ.clear()
        os.environ.update(PATH=f"{self.programs}:/usr/bin:/bin", LC_ALL="C.UTF-8", TZ="UTC")
        tempfile.tempdir, clock = None, Clock(self.clock, pipes)
        for name in ("monotonic", "localtime", "sleep"):
            setattr(time, name, getattr(clock, name))
        # Who waits for a program really sleeps.
        setattr(subprocess, "time", types.SimpleNamespace(sleep=nap))
        sys.pycache_prefix, sys.dont_write_bytecode = f"{self.outs}/cache", False
        sys.path.insert(0, str(self.clinic.source))
        main = importlib.import_module("edfclinic.__main__").main
        setattr(sys.modules["edfclinic.text"], "datetime", type(
            "Shown", (datetime,), {"now": lambda tz=None: clock.now(tz)}))
        sys.argv = ["edfclinic", "--config", str(self.clinic.config), *words]
        return int(main())

    def ended(self, child: int, wants_receive: bool = False) -> int:
        """Its status. Where it waits for receive, that is woken meanwhile."""
        end = time.monotonic() + LONGEST
        while (it := os.waitpid(child, os.WNOHANG)) == (0, 0):
            if time.monotonic() > end:
                raise Broken(f"a command did not end within {LONGEST} s")
            if wants_receive:
                self.tick()
            nap(0.02)
        return os.waitstatus_to_exitcode(it[1])

    def run(self, *words: Any) -> tuple[int, str]:
        """Its status, and what it said."""
        self.command = self.begun(words, "command")
        status, self.command = self.ended(self.command, words[0] == "morning"), 0
        said = "".join((self.outs / f"command.{it}").read_text() for it in ("out", "err"))
        self.say(f"{' '.join(map(str, words))}: {status}\n{said}")
        if status not in (0, 1):
            raise Broken(f"{words}: status {status}")
        assert MARK not in quoted_away(said), "an uploader's words stand without quotes"
        self.tick()     # receive has its session again
        return status, said

    def begin(self, bed: Bed) -> None:
        if not bed.receiving:
            bed.receiving = self.begun(("receive", bed.name), bed.name, bed.pipes[1:3])
            bed.since = self.clock
            self.wait_for(bed)
            self.tick()

    def end(self, bed: Bed, number: int = signal.SIGTERM) -> None:
        if not bed.receiving:
            return
        os.kill(bed.receiving, number)
        if number == signal.SIGTERM:
            os.write(bed.pipes[3], struct.pack("d", self.clock))
        status, bed.receiving = self.ended(bed.receiving), 0
        said = (self.outs / f"{bed.name}.err").read_text()
        self.say(f"receive of {bed.name} ended by {number}:\n{said}")
        if status not in (0, -signal.SIGKILL):
            raise Broken(f"receive: status {status}")
        assert MARK not in quoted_away(said), "an uploader's words stand without quotes"

    def wait_for(self, bed: Bed) -> None:
        if not select.select([bed.pipes[0]], [], [], LONGEST)[0]:
            raise Broken(f"receive of {bed.name} does not sleep")
        os.read(bed.pipes[0], 1)

    def tick(self) -> None:
        """Each receive wakes, sees the clock, and does what it does till it sleeps again."""
        running = [it for it in self.beds if it.receiving]
        for bed in running:
            os.write(bed.pipes[3], struct.pack("d", self.clock))
        for bed in running:
            self.wait_for(bed)

    def advance(self, seconds: float) -> None:
        for step in (2, seconds - 2):
            self.clock += step
            self.tick()

    def until(self, hour: float) -> None:
        """To the next such hour of a day."""
        self.advance(max(2, (hour * 3600 - self.clock) % 86_400))
