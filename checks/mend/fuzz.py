"""Spoils files at random and mends them: what comes is accepted, or nothing is left.

    python3 -m checks.mend.fuzz [--edfmend PATH] [--seed SEED] [--keep FOLDER] [COUNT]

2,000 files if left out. A file is a fragment of the fuzzer's or a good one of `mend.run`, spoilt in
up to four places: fields by texts as recorders write them, bytes of the header and of a block, its
length, or a fault of `mend.run`. One in ten is joined with another patient's file, of which nothing
may become samples. Half of them are mended with a code or a start, for others, or with all data
records that are there. What is made is what the plain model of `checks.lib.mending` makes, byte for
byte, with its lines, is accepted by that of the store, and means the same, signal by signal and
annotation by annotation; or neither makes anything. Of the file that fails first
the fewest places that still fail are looked for, and it is kept in FOLDER with these alone.
"""
import collections
import random
import sys
from dataclasses import dataclass, replace
from pathlib import Path

from checks.lib import arguments, by_hand, measure, mended
from checks.lib.checks import Lost, end
from checks.lib.edf import FIXED_WIDTHS, SIGNAL_WIDTHS, filled
from checks.lib.fewest import fewest
from checks.mend.run import CODE, FAULTS, GOOD, OTHERS, PLAIN, Spoil, Words, by_model

BASES = (GOOD, GOOD, GOOD, PLAIN, by_hand.K, by_hand.R9, by_hand.U, by_hand.V, by_hand.HALF)
PLACES = (0, 1, 1, 1, 1, 2, 2, 3, 4)                  # how many are spoilt
# Faults of GOOD, each of which is mended
KNOWN: tuple[Spoil, ...] = (*(each[2] for each in FAULTS), *(each[2] for each in OTHERS))
TEXTS = (b"", b"X", b"-1", b"0", b"3", b"99999999", b"1e3", b"-1.5E2", b".5", b"-,5", b"1,25",
         b"+5", b"m\xb5V", b"\x83\xcaV", b"\xecV", "Müller".encode(), b"\0", b"Haagse Harry",
         b"P7 f 2-may-1951 X", b"X X X X", b"MCH-0234567 F 02-MAY-1951 Haagse_Harry",
         b"Startdate X X X X", b"Startdate 02-MAR-2002 N1 T3 REC5", b"Startdate 02.03.2002",
         b"EDF+C", b"EDF+D", b"EDF", b"BIOSEMI", b"02.03.02", b"2.3.02", b"31.12.yy", b"24.00.00",
         b"23:59:50", b"0.5", b"EDF Annotations", b"EDF Annotations ", b"-32768", b"32767",
         b"-2048", b"2048")


def spoilt(rng: random.Random, data: bytes) -> bytes:
    """The file with one place spoilt."""
    way = rng.randrange(12)
    if way > 7 and len(data) == len(GOOD) and data[252:256] == GOOD[252:256]:
        return rng.choice(KNOWN)(data)
    way %= 8
    if way < 3:
        which = rng.randrange(len(FIXED_WIDTHS))
        return by_hand.field(data, which, rng.choice(TEXTS)[:FIXED_WIDTHS[which]])
    if way < 5 and data[252:256].strip().isdigit():
        which, count = rng.randrange(len(SIGNAL_WIDTHS)), int(data[252:256])
        at = 256 + count * sum(SIGNAL_WIDTHS[:which]) + \
            rng.randrange(max(1, count)) * SIGNAL_WIDTHS[which]
        text = filled(rng.choice(TEXTS)[:SIGNAL_WIDTHS[which]], SIGNAL_WIDTHS[which])
        return data[:at] + text + data[at + SIGNAL_WIDTHS[which]:]
    if way < 7:
        at = rng.randrange(len(data))
        return data[:at] + bytes([rng.choice((0, 20, 21, 32, 44, 46, 181, 252, 255,
                                              rng.randrange(256)))]) + data[at + 1:]
    return rng.choice((data[:rng.randrange(len(data))], data + rng.randbytes(rng.randrange(1, 9))))


STARTS = (("--startdate", "02.03.02"), ("--starttime", "23.59.50"), ("--starttime", "00.00.05"))
OF_OTHERS = ("--deidentify", "C-1")
NO_CODE = "names no code"
NAME = b"Second_Patient"
SECOND = by_hand.field(PLAIN, by_hand.PATIENT, b"P8 M X " + NAME)


def words_of(rng: random.Random) -> Words:
    """Words that ask for more, or for less, than a file without any."""
    words: Words = ()
    if rng.random() < 0.1:
        words += ("--all",)
    if rng.random() < 0.4:
        words += rng.choice((("--set-patient", "S-0118"), ("--patient", "P7"),
                             ("--set-patient", "P7"), OF_OTHERS))
    if rng.random() < 0.2:
        words += rng.choice(STARTS)
    return words


@dataclass(frozen=True)
class Case:
    """A file, the seeds of what spoils it, the words, and what is joined to it."""
    data: bytes
    seeds: list[float]
    words: Words
    behind: bytes

    def given(self) -> bytes:
        data = self.data
        for seed in self.seeds:
            if data:
                data = spoilt(random.Random(seed), data)
        # Behind a file that was cut to nothing the other patient's would be the file itself.
        return data and data + self.behind


def another(rng: random.Random) -> bytes:
    """Another patient's file, with a field of its header spoilt, but version and patient."""
    which = rng.randrange(2, len(FIXED_WIDTHS))
    text = rng.choice(TEXTS)[:FIXED_WIDTHS[which]]
    return by_hand.field(SECOND, which, text) if rng.random() < 0.7 else SECOND


def case(rng: random.Random) -> Case:
    return Case(rng.choice(BASES), [rng.random() for _ in range(rng.choice(PLACES))],
                words_of(rng) if rng.random() < 0.5 else (),
                another(rng) if rng.random() < 0.1 else b"")


def tried(mender: mended.Mender, of: Case) -> str:
    """Mends a file: how it went. The file is the model's, or neither makes one."""
    data, words = of.given(), of.words
    expected = by_model(data, words)
    if expected == NO_CODE and not words:
        words = CODE
        expected = by_model(data, words)
    ran = mender.mend(data, *words)
    if isinstance(expected, str):
        if ran.status != 1 or mender.left():
            raise Lost(f"{ran}, where the model refuses: {expected}")
        return "refused"
    if ran.status != 0:
        raise Lost(f"{ran}, where the model makes a file")
    made = mender.look(data, ran)
    if made != expected.out:
        raise Lost(f"made {made[:256]!r}, and the model {expected.out[:256]!r}")
    if ran.out != expected.printed():
        raise Lost(f"told {ran.out!r}, and the model {expected.printed()!r}")
    if NAME in made and "--all" not in words:
        raise Lost("another patient's file became samples")
    return "needs nothing" if ran.out == b"in.edf needs nothing\n" else "mended"


def fault_of(mender: mended.Mender, of: Case) -> str:
    """Why it fails; nothing where it doesn't."""
    try:
        tried(mender, of)
    except (Lost, ValueError) as why:
        return str(why)
    return ""


def shrunk(mender: mended.Mender, of: Case) -> Case:
    """The same with the fewest spoilt places that still fail."""
    return replace(of, seeds=fewest(
        of.seeds, lambda some: bool(fault_of(mender, replace(of, seeds=some)))))


def main() -> None:
    parser = arguments.Parser(__doc__, programs=("edfmend",), count=2_000)
    parser.add_argument("--seed", type=int, default=1, help="1 if left out")
    parser.add_argument("--keep", type=arguments.path, metavar="FOLDER", help="for what fails")
    given = parser.read()
    ways, rng = collections.Counter[str](), random.Random(given.seed)
    with measure.scratch() as name:
        mender = mended.Mender(given.edfmend, Path(name))
        for nth in range(given.count):
            of = case(rng)
            try:
                ways[tried(mender, of)] += 1
            except (Lost, ValueError) as why:
                print(f"file {nth + 1}, {of.words}: {why}")
                least = shrunk(mender, of)
                print(f"{len(least.seeds)} of its {len(of.seeds)} spoilt places fail: "
                      f"{fault_of(mender, least)}")
                if given.keep:
                    given.keep.mkdir(exist_ok=True)
                    (given.keep / "in.edf").write_bytes(mender.given.read_bytes())
                end(nth + 1, 1)
    print(", ".join(f"{count:,} {way}" for way, count in ways.most_common()))
    if given.count >= 100 and len(ways) < 3:
        sys.exit("files of only some kinds")
    end(given.count, 0)


if __name__ == "__main__":
    main()
