"""What a disk may leave of a store's two files where the power is cut, by the calls that were made.

The files are numbered 0, the store's, and 1, its log; their folder is 2. What was synced is there.
Of what was not, each sector of 512 bytes below the synced length is old or new, as any of the
writes left it. The length is one of those that the file had since the sync, or between them. Past
the synced length a sector is new, zeros, or any bytes. A new file may be missing until its folder
is synced.
"""
import random
import struct
from dataclasses import dataclass, field
from pathlib import Path

STORE, LOG, FOLDER = range(3)
SECTOR = 512


@dataclass(frozen=True)
class Call:
    """A call as `calls.c` writes it: its letter, the number of the file, a number, and bytes."""
    letter: str
    file: int
    number: int
    data: bytes


def read_calls(path: Path) -> list:
    written, calls, at = path.read_bytes(), [], 0
    while at < len(written):
        letter, file, size, number = struct.unpack_from("<cBIQ", written, at)
        at += 14
        calls.append(Call(letter.decode(), file, number, written[at:at + size]))
        at += size
    return calls


def padded(content: bytes, sector: int) -> bytes:
    """A sector of a file, with zeros past the file's end."""
    return bytes(content[sector * SECTOR:(sector + 1) * SECTOR]).ljust(SECTOR, b"\0")


@dataclass
class File:
    """A file as a program sees it, and what of it lasts."""
    now: bytearray = None               # None where there is no such file
    synced: bytes = b""
    is_named: bool = False              # whether the folder was synced since the file was made
    lengths: list = field(default_factory=list)     # those since the sync, the synced one first
    versions: dict = field(default_factory=dict)    # of each sector changed since, in their order

    @staticmethod
    def of(content) -> "File":
        """A file that lasts as it is; None is no file."""
        if content is None:
            return File()
        return File(bytearray(content), bytes(content), True, [len(content)])

    def sync(self) -> None:
        self.synced, self.lengths, self.versions = bytes(self.now), [len(self.now)], {}

    def change(self, call: Call) -> None:
        """A write or a change of length."""
        end = call.number + len(call.data)
        self.now.extend(bytes(max(0, end - len(self.now))))
        if call.letter == "w":
            self.now[call.number:end] = call.data
        else:
            del self.now[end:]

    def change_unsynced(self, call: Call) -> None:
        """The same, where no sync is made before the power is cut."""
        end, was = call.number + len(call.data), len(self.now)
        self.change(call)
        self.lengths.append(len(self.now))
        for sector in range(min(call.number, was) // SECTOR, -(-max(end, was) // SECTOR)):
            is_below = (sector + 1) * SECTOR <= len(self.synced)
            versions = self.versions.get(sector, [padded(self.synced, sector)] if is_below else [])
            new = padded(self.now, sector)
            if sector * SECTOR < len(self.now) and versions[-1:] != [new]:
                self.versions.setdefault(sector, []).append(new)

    def lasting(self):
        """What is there where all that was not synced is lost: bytes, or None for no file."""
        return self.synced if self.is_named else None

    def torn(self, rng: random.Random):
        """One of the things that may be there: bytes, or None for no file."""
        if self.now is None or (not self.is_named and rng.random() < 0.5):
            return None
        end, length = len(self.synced), self.some_length(rng)
        sectors = sorted({*self.versions, *range(end // SECTOR, -(-length // SECTOR))})
        lost, earlier = some_share(len(sectors), rng), rng.choice((0, 0, 0.2, 0.5))
        left = bytearray(self.synced[:length].ljust(length, b"\0"))
        for sector in sectors:
            at, stop = sector * SECTOR, min((sector + 1) * SECTOR, length)
            if at >= length:
                continue
            versions = self.versions.get(sector)
            if versions and rng.random() >= lost:
                new = rng.choice(versions) if rng.random() < earlier else versions[-1]
                left[at:stop] = new[:stop - at]
            elif stop > end:
                begin = max(at, end)
                left[begin:stop] = rng.choice((bytes, rng.randbytes))(stop - begin)
        return bytes(left)

    def some_length(self, rng: random.Random) -> int:
        least, most = min(self.lengths), max(self.lengths)
        return rng.choice((most, most, rng.choice(self.lengths), rng.randint(least, most)))


def some_share(count: int, rng: random.Random) -> float:
    """How probable the loss of a sector is: of none, one, two, half, all but two or one, or all."""
    one = 1 / max(1, count)
    return rng.choice((0, 0, one, 2 * one, 0.5, 1 - 2 * one, 1 - one, 1, rng.random()))


@dataclass
class Run:
    """The calls of a run of a program to which files are given, from the call `first` on; those
    before are of one that was killed."""
    what: str
    way: str                # how the files are given
    begun: tuple            # what each file held at the start, or None for no file
    calls: list
    first: int = 0
    least: int = 0          # how many files of the list are held as the run begins, at least
    most: int = 0           # and at most

    def files(self, moment: int) -> list:
        """Both files after so many calls."""
        files = [File.of(content) for content in self.begun]
        last = {call.file: at for at, call in enumerate(self.calls[:moment]) if call.letter == "s"}
        for at, call in enumerate(self.calls[:moment]):
            if call.letter == "d":
                for file in files:
                    file.is_named = file.is_named or file.now is not None
            elif call.letter == "c":
                files[call.file].now, files[call.file].lengths = bytearray(), [0]
            elif call.letter == "s" and at == last[call.file]:
                files[call.file].sync()
            elif call.letter in "wt" and at < last.get(call.file, 0):
                files[call.file].change(call)
            elif call.letter in "wt":
                files[call.file].change_unsynced(call)
        return files

    def seen(self, moment: int) -> list:
        """What a program sees of both files after so many calls."""
        return [None if file.now is None else bytes(file.now) for file in self.files(moment)]

    def has_unsynced(self, moment: int) -> bool:
        """Whether a file was changed or made by then and not synced since, or its folder."""
        synced = set()
        for call in reversed(self.calls[:moment]):
            if call.letter in "ds":
                synced.add(call.file)
            elif call.letter in "wt" and call.file not in synced:
                return True
            elif call.letter == "c" and FOLDER not in synced:
                return True
        return False

    def last_sync(self, moment: int) -> int:
        """After how many calls all that lasts at that moment lasted."""
        while moment > 0 and self.calls[moment - 1].letter not in "ds":
            moment -= 1
        return moment

    def bounds(self) -> tuple:
        """Where it begins to open the store, to take files, and to end; and its end. It takes files
        from the first other one that it opens to what it prints after the last one."""
        places = range(self.first, len(self.calls))
        opened = [at for at in places if self.calls[at].letter == "i"]
        ending = next(at for at in places[opened[-1] - self.first:]
                      if self.calls[at].letter == "o")
        return self.first, opened[0], ending, len(self.calls)
