"""A night with gaps, as one EDF+D file of a producer, for the checks of runs. The annotations are
of all kinds that readers may treat each in its own way: with a duration and without, two in a data
record, texts beyond ASCII, and some that lie outside of the data record that has them; beside a gap
and at both ends of the night these lie outside of their run too."""
from dataclasses import dataclass
from pathlib import Path

from . import night
from .edf import keeping, tal

SECOND = 10**9


def decimal(nanoseconds: int) -> str:
    """Seconds as text, without sign and without zeros at the end."""
    seconds, rest = divmod(nanoseconds, SECOND)
    return str(seconds) + (f".{rest:09}".rstrip("0") if rest else "")


def onset(nanoseconds: int) -> str:
    return ("-" if nanoseconds < 0 else "+") + decimal(abs(nanoseconds))


@dataclass(frozen=True)
class Note:
    """An annotation; its onset counts from the start of its data record, in nanoseconds."""
    after: int
    duration: int       # 0: it has none
    text: str

    def to_bytes(self, start: int) -> bytes:
        return tal(onset(start + self.after), self.text,
                   duration=decimal(self.duration) if self.duration else "")


# The annotations of every seventh data record, in turn.
TURNS = ((Note(SECOND // 4, 3 * SECOND // 2, "Spindle"),),
         (Note(SECOND // 8, 0, "K-complex"),),
         (Note(0, 30 * SECOND, "Sleep stage N2"), Note(SECOND // 2, 13 * SECOND // 4, "Arousal")),
         (Note(-40 * SECOND, 10 * SECOND, "Apnea"),),
         (Note(61 * SECOND // 2, 0, "Schl\u00e4ft ruhig \u2013 rechts"),))


@dataclass(frozen=True)
class GappedNight(night.Night):
    """`gaps` has, by the number of a data record from 0, the nanoseconds between it and the one
    before."""
    gaps: tuple = ()

    def start_of(self, nth: int) -> int:
        """Nanoseconds after the night's start."""
        return nth * self.seconds * SECOND + sum(gap for before, gap in self.gaps if before <= nth)

    def block(self, nth: int, first: int) -> bytes:
        """The block of a data record in the whole night's file, whose `first` is 0."""
        start = self.start_of(nth)
        notes = TURNS[nth // 7 % len(TURNS)] if nth % 7 == 0 else ()
        block = keeping(onset(start)) + b"".join(note.to_bytes(start) for note in notes)
        return block.ljust(2 * self.annotation_samples, b"\0")

    def whole(self, path: Path) -> Path:
        pool = self.pool()
        path.write_bytes(self.header(0, self.records, "EDF+D") +
                         self.records_of(pool, range(self.records), 0))
        return path


# Three gaps: of twenty minutes, one after which a run begins at a quarter of a second, and a short
# one.
NIGHT = GappedNight(samples=(100, 100, 100, 25), limits=("-3276.8", "3276.7", "-32768", "32767"),
                    gaps=((9_121, 1_200 * SECOND), (18_256, 600 * SECOND + SECOND // 4),
                          (25_326, 7 * SECOND + 3 * SECOND // 4)))
