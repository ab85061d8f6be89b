"""Calls that change the file system. One that is killed leaves what the next clears or repeats."""
import fcntl
import hashlib
import json
import os
import shutil
import time
from collections.abc import Iterator
from contextlib import contextmanager, suppress
from typing import Any

from .text import Trouble

PIECE = 1 << 20
ZEROS = bytes(PIECE)
FOLDER = os.O_RDONLY | os.O_DIRECTORY | os.O_NOFOLLOW | os.O_CLOEXEC
READ = os.O_RDONLY | os.O_NOFOLLOW | os.O_NONBLOCK | os.O_NOCTTY | os.O_CLOEXEC
MADE = os.O_WRONLY | os.O_CREAT | os.O_EXCL | os.O_NOFOLLOW | os.O_CLOEXEC
LOCKED = os.O_RDWR | os.O_CREAT | os.O_NOFOLLOW | os.O_CLOEXEC
join, exists = os.path.join, os.path.lexists


@contextmanager
def opened(path: str, flags: int = READ, at: int | None = None) -> Iterator[int]:
    fd = os.open(path, flags, 0o640, dir_fd=at)
    try:
        yield fd
    finally:
        os.close(fd)


@contextmanager
def whole_or_none(path: str) -> Iterator[None]:
    """What is begun there goes where it isn't finished, so that a full disk has its room back."""
    try:
        yield
    except BaseException:
        with suppress(OSError):
            remove_tree(path) if os.path.isdir(path) else remove(path)
        raise


def sync_folder(path: str) -> None:
    with opened(path, FOLDER) as fd:
        os.fsync(fd)


def make_folder(path: str) -> None:
    if not exists(path):
        os.mkdir(path, 0o750)
        sync_folder(os.path.dirname(path))


def put(fd: int, data: bytes) -> None:
    left = memoryview(data)
    while left:
        left = left[os.write(fd, left):]


def replace(path: str, data: bytes) -> None:
    new = join(os.path.dirname(path), f".{os.path.basename(path)}.new")
    remove(new)
    with opened(new, MADE) as fd:
        put(fd, data)
        os.fsync(fd)
    rename(new, path)


def as_json(value: Any) -> bytes:
    return json.dumps(value, indent=1, sort_keys=True, ensure_ascii=False).encode() + b"\n"


def read(path: str) -> str | None:
    with suppress(FileNotFoundError), opened(path) as fd, open(fd, "rb", closefd=False) as file:
        return os.fsdecode(file.read())
    return None


def from_json(path: str) -> Any:
    with suppress(ValueError):
        return json.loads(read(path) or "null")
    return None


def rename(old: str, new: str) -> None:
    if exists(new) and os.path.isdir(old):
        raise Trouble(f"{new} is there already; nothing is written over")
    os.rename(old, new)
    for folder in {os.path.dirname(new), os.path.dirname(old)}:
        sync_folder(folder)


def remove(path: str) -> None:
    with suppress(FileNotFoundError):
        os.unlink(path)


def remove_tree(path: str) -> None:
    if exists(path):
        shutil.rmtree(path)
        sync_folder(os.path.dirname(path))


def copy(source: int, target: str, most: int) -> tuple[int, str]:
    """At most so many bytes to a new file, synced: their count and sum. Zeros stay a hole."""
    count, summed = 0, hashlib.sha256()
    with whole_or_none(target), opened(target, MADE) as fd:
        while count < most and (piece := os.pread(source, min(PIECE, most - count), count)):
            summed.update(piece)
            count += len(piece)
            if piece == ZEROS:
                os.lseek(fd, PIECE, os.SEEK_CUR)
            else:
                put(fd, piece)
        os.ftruncate(fd, count)
        os.fsync(fd)
    return count, summed.hexdigest()


def copy_file(source: str, target: str) -> None:
    with opened(source) as fd:
        copy(fd, target, os.fstat(fd).st_size)


def sum_of(fd: int) -> str:
    with open(fd, "rb", closefd=False) as file:
        file.seek(0)
        return hashlib.file_digest(file, "sha256").hexdigest()


def sum_of_file(path: str) -> str:
    with opened(path) as fd:
        return sum_of(fd)


def walk(path: str) -> Iterator[tuple[str, list[str], list[str]]]:
    """Its folders; one that can't be listed is an error, and not an empty one."""
    def fail(why: OSError) -> None:
        raise why
    return os.walk(path, topdown=False, onerror=fail)


def sync_tree(path: str) -> None:
    for above, _, listed in walk(path):
        for name in listed:
            with opened(join(above, name)) as fd:
                os.fsync(fd)
        sync_folder(above)


def below(path: str) -> list[str]:
    return sorted(os.path.relpath(join(above, name), path)
                  for above, _, listed in (walk(path) if exists(path) else ()) for name in listed)


def names(path: str) -> list[str]:
    return sorted(os.listdir(path)) if exists(path) else []


def lock(path: str, seconds: float, kind: int = fcntl.LOCK_EX) -> int | None:
    fd, end = os.open(path, LOCKED, 0o600), time.monotonic() + seconds
    while True:
        try:
            fcntl.flock(fd, kind | fcntl.LOCK_NB)
            return fd
        except BlockingIOError:
            if time.monotonic() >= end:
                os.close(fd)
                return None
            time.sleep(0.05)


def is_locked(path: str) -> bool:
    held = lock(path, 0.0, fcntl.LOCK_SH) if exists(path) else -1
    if held is not None and held >= 0:
        os.close(held)
    return held is None
