"""Nights by chance, for the stored run edfstore_stored_run: each is cut into six files that reach
into each other, and these are sent in some order, some of them again.

Night 3 is the file chance/3.edf, as it is exported, and the files cut from it are chance/3a.edf to
3f.edf. What each is answered is worked out by counting which data records came before.
"""
from dataclasses import dataclass

from . import edf, faults, stories
from .by_hand import MARCH_3, canonical
from .edf import Header, Signal, annotations_signal, keeping, tal
from .named import patched

NIGHTS = 8
BROKEN = 2              # so many of them are broken off after each file and sent again
LETTERS = "abcdef"
OTHER = "other"         # the first night with another byte in a sample


class Chance:
    """Pseudo-random numbers, the same in each run: a linear congruential generator."""

    def __init__(self, seed: int):
        self.state = seed

    def below(self, count: int) -> int:
        self.state = (1_664_525 * self.state + 1_013_904_223) % 2**32
        return (self.state >> 16) % count

    def choice(self, listed):
        return listed[self.below(len(listed))]

    def shuffled(self, listed: list) -> list:
        left, made = list(listed), []
        while left:
            made.append(left.pop(self.below(len(left))))
        return made


@dataclass(frozen=True)
class Second:
    """A data record: when it starts, in half seconds after 23:59:40 on March 2, its samples, and
    whether it has an annotation, whose onset is a second before it."""
    start: int
    samples: bytes
    is_noted: bool


def night(nth: int) -> list:
    """12 to 20 data records, which touch or have gaps, over midnight."""
    chance = Chance(nth)
    start, seconds = chance.below(2), []
    for number in range(12 + chance.below(9)):
        samples = bytes([chance.below(256), 1, number, 255])
        seconds.append(Second(start, samples, chance.below(3) == 0))
        start += 2 + chance.below(3)
    return seconds


def onset(halves: int) -> str:
    return ("-" if halves < 0 else "+") + str(abs(halves) // 2) + (".5" if halves % 2 else "")


def spelled(seconds: list) -> tuple:
    """The data records of a file, and the fields of its header that say when it starts."""
    begin = seconds[0].start // 2
    records = []
    for one in seconds:
        at = one.start - 2 * begin
        note = tal(onset(at - 2), "Snore") if one.is_noted else b""
        records.append((one.samples, keeping(onset(at)) + note))
    if begin < 20:
        return records, {"starttime": f"23.59.{40 + begin}"}
    return records, MARCH_3 | {"starttime": f"00.00.{begin - 20:02}"}


def whole(seconds: list) -> bytes:
    records, fields = spelled(seconds)
    return canonical(*records, **fields)


@dataclass(frozen=True)
class Cut:
    """A file of some data records of a night, as a recorder may send it, and their starts."""
    name: str
    data: bytes
    starts: frozenset


def cut_file(name: str, part: list, chance: Chance) -> Cut:
    """A file of these data records with spare annotations samples, which may not count them."""
    records, fields = spelled(part)
    samples = chance.below(4) + (max(len(block) for _, block in records) + 1) // 2
    header = Header((Signal(), annotations_signal(samples)),
                    count=chance.choice((str(len(part)), "-1")),
                    reserved=chance.choice(("EDF+C", "EDF+D")), **fields)
    return Cut(name, edf.fragment(header, records), frozenset(one.start for one in part))


def cut(nth, seconds: list, chance: Chance) -> list:
    """Six files that have each data record once or more: each reaches up to two into its
    neighbours."""
    edges = sorted(chance.shuffled(range(1, len(seconds)))[:len(LETTERS) - 1])
    made = []
    for letter, begin, end in zip(LETTERS, [0, *edges], [*edges, len(seconds)]):
        part = seconds[max(0, begin - chance.below(3)):end + chance.below(3)]
        made.append(cut_file(f"chance/{nth}{letter}.edf", part, chance))
    return made


def sent(files: list, chance: Chance) -> list:
    """Each file once, and up to six of them again, in some order."""
    return chance.shuffled(files + [chance.choice(files) for _ in range(chance.below(7))])


def nights() -> dict:
    """Of each night its data records, its files, and the order in which they are sent."""
    made = {}
    for nth in [*range(NIGHTS), OTHER]:
        seconds = night(0 if nth == OTHER else nth)
        if nth == OTHER:
            samples = patched(seconds[5].samples, 3, b"\0")
            seconds[5] = Second(seconds[5].start, samples, seconds[5].is_noted)
        chance = Chance(100 + len(made))
        files = cut(nth, seconds, chance)
        made[nth] = seconds, files, sent(files, chance)
    return made


def broken_off(name: str) -> str:
    """The name of a file that is cut by a byte."""
    return name.replace(".edf", "_cut.edf")


def files() -> dict:
    made = {}
    for nth, (seconds, cuts, _) in nights().items():
        made[f"chance/{nth}.edf"] = whole(seconds)
        made |= {one.name: one.data for one in cuts}
        if nth in range(BROKEN):
            made |= {broken_off(one.name): one.data[:-1] for one in cuts}
    return made


def given(listed: list, seen: set) -> list:
    """Each file with its answer, where these starts came before, to which its own are added."""
    answers = []
    for one in listed:
        answers.append(f"{one.name} {len(one.starts - seen)} {len(one.starts & seen)}")
        seen |= one.starts
    return answers


def break_off(script: stories.Script, nth, listed: list) -> None:
    """The list is broken off inside each of its files, and then sent again from its front."""
    for count, one in enumerate(listed):
        seen = set()
        script.empty()
        fault = faults.cut_record(len(one.starts))
        script.take(*given(listed[:count], seen), f"{broken_off(one.name)} {fault}")
        script.take(*given(listed, seen))
        script.export(f"chance/{nth}.edf")


def play(script: stories.Script) -> None:
    made = nights()
    script.title("nights that are cut and sent as if by chance end as the whole night")
    for nth, (_, _, listed) in made.items():
        script.over(*given(listed, set()), exports=[f"chance/{nth}.edf"])
    script.title("lists that broke off end alike when they are sent again")
    for nth in range(BROKEN):
        break_off(script, nth, made[nth][2])
