"""Small disks, to be filled: file systems in memory, which root may mount."""
import errno
import tempfile
from pathlib import Path

from . import measure

PIECE = 1 << 16


class Disk:
    """A disk of so many kilobytes (of 1,024 bytes) on a folder, until the `with` ends; where this
    user may mount none, the folder as it is."""

    def __init__(self, place: Path, kilobytes: int):
        self.place, self.filler = place, place / "filler"
        place.mkdir(exist_ok=True)
        self.is_mounted = not measure.ran("mount", "-t", "tmpfs", "-o", f"size={kilobytes}k",
                                          "edfstore", place).status

    def __enter__(self) -> "Disk":
        return self

    def __exit__(self, *_) -> None:
        self.end()

    def grow(self, kilobytes: int) -> None:
        measure.done("mount", "-o", f"remount,size={kilobytes}k", self.place)

    def fill(self) -> None:
        """Leaves no room on it, by a file; on an ordinary folder it does nothing."""
        if not self.is_mounted:
            return
        try:
            with open(self.filler, "wb", buffering=0) as made:
                while True:
                    made.write(bytes(PIECE))
        except OSError as why:
            if why.errno != errno.ENOSPC:
                raise

    def empty(self) -> None:
        """Makes the room again."""
        self.filler.unlink(missing_ok=True)

    def end(self) -> None:
        """Unmounts it, also while a program has a file of it open."""
        if self.is_mounted:
            measure.done("umount", "-l", self.place)
            self.is_mounted = False


def may_mount() -> bool:
    """Whether this user may mount one."""
    with tempfile.TemporaryDirectory() as folder, Disk(Path(folder) / "disk", 4) as disk:
        return disk.is_mounted
