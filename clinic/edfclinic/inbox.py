"""The inbox of a recorder, whose uploader is hostile. What was taken out of it stays open for a
day: who writes it may go on, and what is written so is seen."""
import os
import stat
import time
from collections.abc import Iterator
from contextlib import contextmanager, nullcontext, suppress
from dataclasses import dataclass, field
from itertools import islice
from shutil import disk_usage

from . import files, text
from .config import Config
from .place import Line
from .programs import C_LIBRARY, accepted

SKIPPED = (".part", ".filepart", ".tmp", ".crdownload")
Key = tuple[int, int, int]
MOST = 200_000                      # entries looked at
MOST_OPEN, DAY = 64, 24 * 3600.0    # files that were taken out and stay open, and for how long
ASIDE, RENAME_NOREPLACE = ".edfclinic", 1       # a file that is just taken out


class Later(Exception):
    """A file that is in use, changed, or gone; with a reason one that is left alone."""


def key_of(status: os.stat_result) -> Key:
    return status.st_ino, status.st_size, status.st_mtime_ns


@dataclass
class Seen:
    """A file as it was when it was listed, and what became of it since."""
    name: str
    key: Key
    since: float = field(default_factory=time.monotonic)
    has_hole: bool = False
    left: str = ""              # why it is left alone, as it was listed,
    unread: str = ""            # or as it was opened
    line: Line | None = None    # of the last contents of this name that tonight has answered
    is_other: bool = False      # it is not what these were the beginning of
    kept: Line | None = None    # of these contents, which are kept
    answer: str = ""            # why it waits
    full: str = ""              # which room it wants
    not_before: float = 0.0

    @property
    def is_refused(self) -> bool:
        return self.kept is not None and not accepted(self.kept.answer)


@dataclass
class TakenOut(Seen):
    fd: int = -1
    at: str = ""
    begun: float = field(default_factory=time.monotonic)
    again: int = 0              # how often it was taken again
    is_changed: bool = False    # since it was taken
    is_written: bool = False    # it was changed at any time


class Inbox:
    def __init__(self, config: Config, name: str):
        self.config, self.name = config, name
        self.seen: dict[str, Seen] = {}
        self.taken_out: list[TakenOut] = []
        self.is_crowded = False

    def why_left(self, status: os.stat_result) -> str:
        if not stat.S_ISREG(status.st_mode):
            return "is a link" if stat.S_ISLNK(status.st_mode) else "is no regular file"
        if status.st_nlink != 1:
            return f"has {status.st_nlink} links"
        over = [it for it in ("largest_file", "largest_night")
                if status.st_size > getattr(self.config, it)]
        return f"has {status.st_size} bytes, more than {over[0]}" if over else ""

    @contextmanager
    def folder(self) -> Iterator[int]:
        with files.opened(self.config.inboxes, files.FOLDER) as root, \
                files.opened(self.name, files.FOLDER, root) as fd:
            yield fd

    def listed(self) -> Iterator[Seen]:
        now = time.monotonic()      # of all: who comes at once is taken by name
        with self.folder() as fd, os.scandir(fd) as entries:
            for name in islice((it.name for it in entries), MOST):
                if name == ASIDE:       # which a kill left
                    self.give_back(fd)
                if name.startswith(".") or name.lower().endswith(SKIPPED):
                    continue
                with suppress(FileNotFoundError):
                    status = os.stat(name, dir_fd=fd, follow_symlinks=False)
                    has_hole = status.st_blocks * 512 < status.st_size
                    yield Seen(name, key_of(status), now, has_hole, self.why_left(status))
            self.is_crowded = next(entries, None) is not None

    def look(self) -> list[Seen]:
        """Lists it; what did not change since stays as it was seen."""
        before, self.seen = self.seen, {it.name: it for it in self.listed()}
        for name, it in self.seen.items():
            old = before.get(name, it)
            if old.key == it.key:
                old.has_hole, old.left = it.has_hole, it.left
                self.seen[name] = old
            else:
                is_longer = old.key[0] == it.key[0] and old.key[1] <= it.key[1]
                it.line, it.is_other = old.line, old.is_other or not is_longer
        return [*self.seen.values()]

    def left(self) -> list[tuple[str, str]]:
        """What is left alone, and why."""
        found = [(text.spell(it.name), it.left or it.unread) for it in self.seen.values()]
        found += [("(others)", f"more than {MOST:,} are not looked at")] * self.is_crowded
        return [it for it in found if it[1]]

    def begin(self) -> None:
        """Another night: what the one before kept is not taken again."""
        self.seen = {name: it for name, it in self.seen.items() if it.kept}
        for it in [*self.seen.values(), *self.taken_out]:
            it.line, it.full, it.not_before = None, "", 0.0

    @contextmanager
    def opened(self, it: Seen) -> Iterator[int]:
        try:
            with self.folder() as folder:
                fd = os.open(it.name, files.READ, dir_fd=folder)
        except PermissionError:
            raise Later("can't be read: no permission") from None
        except OSError:                 # a lease, a link in its place, or gone
            raise Later from None
        try:
            status = os.fstat(fd)
            if self.why_left(status) or key_of(status) != it.key:
                raise Later
            yield fd
        finally:
            os.close(fd)

    def is_unclosed(self, it: Seen) -> bool:
        with self.opened(it) as fd:
            return it.has_hole or os.pread(fd, 8, 236).strip() == b"-1"     # its count

    def copy(self, it: Seen, target: str) -> str:
        """The sum of the copy, of a file that stays as it is meanwhile."""
        with nullcontext(it.fd) if isinstance(it, TakenOut) else self.opened(it) as fd:
            count, summed = files.copy(fd, target, it.key[1])
            if count != it.key[1] or key_of(os.fstat(fd)) != it.key:
                raise Later
        return summed

    def give_back(self, folder: int, name: str = "") -> None:
        """What was put aside gets its name again, or another one where that is used or unknown."""
        if not name or C_LIBRARY.renameat2(folder, os.fsencode(ASIDE), folder, os.fsencode(name),
                                           RENAME_NOREPLACE):
            new = f"again-{os.urandom(6).hex()}.edf"
            os.rename(ASIDE, new, src_dir_fd=folder, dst_dir_fd=folder)

    def take_out(self, it: Seen) -> None:
        """Another file may get its name at any time: so it is put aside, looked at, and removed."""
        try:
            with self.folder() as folder, suppress(FileNotFoundError):
                os.rename(it.name, ASIDE, src_dir_fd=folder, dst_dir_fd=folder)
                if key_of(os.stat(ASIDE, dir_fd=folder, follow_symlinks=False)) != it.key:
                    self.give_back(folder, it.name)
                    raise Later
                self.keep_open(folder, it)
                os.unlink(ASIDE, dir_fd=folder)
                os.fsync(folder)
        except OSError as why:      # told to everybody, and the name may have a patient's code
            raise OSError(why.errno, why.strerror, "a file of the inbox") from None
        self.seen.pop(it.name)

    def keep_open(self, folder: int, it: Seen) -> None:
        with suppress(OSError):     # a lease, or no permission
            fd = os.open(ASIDE, files.READ, dir_fd=folder)
            if os.fstat(fd).st_ino == it.key[0] and it.kept:
                self.taken_out.append(TakenOut(it.name, it.key, line=it.line, kept=it.kept, fd=fd,
                                               at=it.kept.at))
            else:
                os.close(fd)

    def lets_go(self, it: TakenOut) -> bool:
        behind = len(self.taken_out) - self.taken_out.index(it)
        is_first = behind == len(self.taken_out)
        is_full = disk_usage(self.config.inboxes).free < self.config.free_space
        return time.monotonic() - it.begun > DAY or behind > MOST_OPEN or is_first and is_full
