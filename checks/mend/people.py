"""Pairs of patients by chance, whose files are mended: no two ever share a recording, unless one
code was given for both by hand.

    python3 -m checks.mend.people [--edfmend PATH] [--seed SEED] [--model] [--control] [COUNT]

300 pairs if left out. Two patients have names, codes or investigations that differ in accents, in
Cyrillic letters, behind a first name or behind the code X, or both have the same words, as
`anonymous`, and codes that were given; or an investigation stands in the place of the date; or both
have good codes, and are asked for nothing. Each file is mended without a code, and then with a code
of its own. Where both are made, the plain model of the store must keep them apart. `--model` asks
the plain model of mending in place of the program; `--control` asks models that guess, each of
which must be found.
"""
import collections
import random
import tempfile
from dataclasses import dataclass, replace
from pathlib import Path
from typing import Callable, NoReturn, Optional

from checks.lib import arguments, by_hand, mending, mending_fields, mended, model
from checks.lib.checks import Lost, end
from checks.lib.mending_fields import Refused, Wanted, code_of
from checks.mend.run import GOOD

VOWELS = {"a": "aàáâãäå", "e": "eèéêë", "i": "iìíîï", "o": "oòóôõöø", "u": "uùúûü", "n": "nñ",
          "c": "cç", "y": "yýÿ"}
FIRST = ("Anna", "Mary", "John", "Zoe", "Rene", "Jose", "Andre", "Kevin", "Irina", "Sergio")
LAST = ("Smith", "Jones", "Muller", "Nunez", "Moller", "de Vries", "Hansen", "Doe")
CYRILLIC = "АБВГДЕЖЗИКЛМНОПРСТУФ"
WORDS = ("anonymous", "Anonymous X", "patient", "unknown unknown", "-", "N.N.", "test X X", "")
BLANKS = ("\xa0", "\t", "\x01", "\x7f", "\0")
ENCODINGS = ("utf-8", "latin-1", "cp1251")
NIGHT = "Startdate 02-MAR-2002 N1 T3 REC5"
SHOWN = 5


@dataclass(frozen=True)
class Person:
    """What a file says of its patient, and of its recording."""
    patient: bytes
    recording: bytes = NIGHT.encode()

    def file(self) -> bytes:
        data = by_hand.field(GOOD, by_hand.PATIENT, self.patient)
        return by_hand.field(data, by_hand.RECORDING, self.recording)


Pair = tuple[Person, ...]
Make = Callable[[Person, bytes], bytes]


def encoded(rng: random.Random, text: str) -> bytes:
    """In one of the encodings that have all its letters; not longer than a field."""
    for encoding in rng.sample(ENCODINGS, len(ENCODINGS)):
        try:
            return text.encode(encoding)[:80]
        except UnicodeEncodeError:
            continue
    return text.encode()[:80]


def accented(rng: random.Random, text: str) -> str:
    return "".join(rng.choice(VOWELS.get(one, one)) for one in text)


def two(make: Callable[[], str]) -> tuple[str, str]:
    """Two texts that differ."""
    first = second = make()
    while second == first:
        second = make()
    return first, second


def tail(rng: random.Random) -> str:
    return rng.choice((" F X X", " M X X", " X X X", " f 02-may-1951 X", " F 02-MAY-1951 Doe"))


# Each gives two patients

def of_codes(rng: random.Random) -> Pair:
    """Codes that differ in accents."""
    name, rest = rng.choice(FIRST), tail(rng)
    return tuple(Person(encoded(rng, text + rest)) for text in two(lambda: accented(rng, name)))


def of_cyrillic(rng: random.Random) -> Pair:
    """Codes, or names behind X, of Cyrillic letters."""
    front, rest = rng.choice((("", tail(rng)), ("X X X ", ""), ("X F 02-MAY-1951 ", "")))
    size = rng.randrange(1, 6)
    return tuple(Person(encoded(rng, front + text + rest)) for text in
                 two(lambda: "".join(rng.choices(CYRILLIC, k=size))))


def of_first_names(rng: random.Random) -> Pair:
    """A first name before a letter that is a sex too."""
    front = rng.choice(FIRST) + rng.choice((" M", " F", " X", " Female", " male", " m"))
    return tuple(Person(encoded(rng, f"{front} {text}")) for text in
                 two(lambda: accented(rng, rng.choice(LAST))))


def of_words(rng: random.Random) -> Pair:
    """Two patients of whom nothing is known."""
    word = rng.choice(WORDS)
    return Person(word.encode()), Person(word.encode())


def behind_x(rng: random.Random) -> Pair:
    """Names that differ in accents, or in a capital, behind a code that is none."""
    front = rng.choice(("X X X ", "x F X ", "X M 02-MAY-1951 ", "X X X Dr. "))
    name = rng.choice(FIRST) + rng.choice(("", " " + rng.choice(LAST)))
    if rng.random() < 0.2:
        return Person(f"X f X {name}".encode()), Person(f"X F X {name}".encode())
    return tuple(Person(encoded(rng, front + text)) for text in two(lambda: accented(rng, name)))


def of_investigations(rng: random.Random) -> Pair:
    """Patients without a code, whose investigations differ."""
    patient = rng.choice((b"X X X X", b"X F X X", b"x X X X"))
    if rng.random() < 0.3:
        text = rng.choice(("Night 1", "PSG É", "X X Ward"))
        return (Person(patient, encoded(rng, text)),
                Person(patient, f"Startdate 02-MAR-2002 X X X {text}".encode("latin-1", "replace")))
    front, back = rng.choice((("Startdate 02-MAR-2002 ", "-1 T3 REC5"),
                              ("startdate 02-mar-2002 N1 ", " REC5"), ("Startdate X X X ", "")))
    return tuple(Person(patient, encoded(rng, front + text + back)) for text in
                 two(lambda: accented(rng, rng.choice(FIRST))))


def of_dates(rng: random.Random) -> Pair:
    """Investigations in the place of the date, of patients who have no code, or two codes."""
    codes = rng.choice((("X", "X"), ("x", "x"), ("P-1", "P-2")))
    front, back = rng.choice((("NIGHT-", ""), ("N", "-2002"), ("2002-", ""), ("", ".MAR")))
    numbers = two(lambda: str(rng.randrange(32, 100)))
    return tuple(Person(f"{code} X X X".encode(),
                        f"Startdate {front}{number}{back} T3 REC5 Z".encode())
                 for code, number in zip(codes, numbers))


def of_blanks(rng: random.Random) -> Pair:
    """A blank that is no space in a code."""
    front, blank, rest = rng.choice(("AB", "P7", "S")), rng.choice(BLANKS), tail(rng)
    return tuple(Person((front + blank + text + rest).encode("latin-1")) for text in
                 two(lambda: str(rng.randrange(1000))))


def long_names(rng: random.Random) -> Pair:
    """Names that differ at their ends alone, where the field is full."""
    front = rng.choice(("", "X X X ")) + accented(rng, "Jose Andre Munoz ")
    width = 80 - len(front.encode()) - 1
    return tuple(Person(encoded(rng, front + "ä" * (width // 2) + text)[:80]) for text in
                 two(lambda: rng.choice("abcdef")))


def of_names(rng: random.Random) -> Pair:
    """Two good codes, before names that ASCII lacks: nobody is asked for anything."""
    name = accented(rng, rng.choice(FIRST) + "_" + rng.choice(LAST)) + "é"
    return tuple(Person(encoded(rng, f"{code} F X {name}")) for code in
                 two(lambda: f"P-{rng.randrange(100)}"))


KINDS = (of_codes, of_cyrillic, of_first_names, of_words, behind_x, of_investigations, of_dates,
         of_blanks, long_names, of_names)


def is_one(first: Person, second: Person) -> bool:
    """Whether both say the same, or name one patient by one code: then they are one."""
    codes = [code_of(one.patient.ljust(80)) for one in (first, second)]
    return first == second or (codes[0] == codes[1] and bool(codes[0]))


# What is made

def by_program(mender: mended.Mender, person: Person, code: bytes) -> bytes:
    ran = mender.mend(person.file(), *(("--patient", code.decode()) if code else ()))
    return mender.look(person.file(), ran)


def by_model(person: Person, code: bytes) -> bytes:
    try:
        return mending.mended(person.file(), Wanted(patient=code))
    except Refused:
        return b""


# Models that guess

def letters_of_codes(person: Person, code: bytes) -> bytes:
    """Codes are transliterated."""
    return by_model(replace(person, patient=mending_fields.spelling(person.patient)[:80]), code)


def any_codes(person: Person, code: bytes) -> bytes:
    """A field whose code is X is one of EDF+ like any other, whatever it names behind it."""
    parts = model.subfields(mending_fields.spelling(person.patient))
    if len(parts) > 3 and parts[0] in (b"X", b"x"):
        return by_model(replace(person, patient=b"X X X X"), code)
    return by_model(person, code)


def first_words(person: Person, code: bytes) -> bytes:
    """The first word is a code, and a code that is given is not used."""
    parts = model.subfields(mending_fields.spelling(person.patient))
    if len(parts) > 1 and parts[1][:1].upper() in (b"F", b"M", b"X"):
        patient = b" ".join([parts[0], parts[1][:1].upper(), b"X X"])
        return by_model(replace(person, patient=patient), b"")
    return by_model(person, code)


def no_codes(person: Person, code: bytes) -> bytes:
    """Where nothing is known the code is one that all have."""
    return by_model(person, code or b"nobody")


def other_codes(person: Person, code: bytes) -> bytes:
    """Behind a patient without a code the codes of the recording are lost."""
    parts = model.subfields(person.recording)
    if parts[:1] == [b"Startdate"] and len(parts) > 2:
        return by_model(replace(person, recording=b" ".join([*parts[:2], b"X X X"])), code)
    return by_model(person, code)


GUESSES = (letters_of_codes, any_codes, first_words, no_codes, other_codes)


def key(made: bytes) -> Optional[model.Key]:
    return model.read(made)[0] if made else None


def look(make: Make, pair: Pair, rng: random.Random) -> str:
    """Mends both files without a code, and with codes; how that went."""
    without = [key(make(one, b"")) for one in pair]
    if None not in without and without[0] == without[1] and not is_one(*pair):
        raise Lost(f"one recording of two patients: {pair}")
    is_night = all(b"Startdate 02-MAR-2002" in one.recording for one in pair)
    if None in without and is_night and all(code_of(one.patient.ljust(80)) for one in pair):
        raise Lost(f"a code is asked for, though both have one: {pair}")
    codes = [b"S-%d" % number for number in rng.sample(range(1000), 2)]
    given = [key(make(one, code)) for one, code in zip(pair, codes)]
    if None not in given and given[0] == given[1]:
        names = [code_of(one.patient.ljust(80)) for one in pair]
        if not names[0]:
            raise Lost(f"one recording of two patients, though codes were given: {pair}")
    return "mended" if None not in without else "asked for a code" if None not in given else \
        "refused"


def tried(make: Make, rng: random.Random, count: int) -> tuple[dict[str, int], int]:
    """Looks at so many pairs: how they went, and how many were lost."""
    ways, failed = collections.Counter[str](), 0
    for nth in range(count):
        kind = KINDS[nth % len(KINDS)]
        try:
            ways[f"{kind.__name__}: {look(make, kind(rng), rng)}"] += 1
        except Lost as why:
            failed += 1
            ways[f"{kind.__name__}: LOST"] += 1
            if failed <= SHOWN:
                print(f"pair {nth + 1}, {kind.__name__}: {why}")
    return ways, failed


def control(seed: int, count: int) -> NoReturn:
    """Each model that guesses must be found."""
    found = 0
    for guess in GUESSES:
        lost = tried(guess, random.Random(seed), count)[1]
        print(f"{guess.__name__}: {lost} of {count} pairs lost")
        found += lost > 0
    end(len(GUESSES), len(GUESSES) - found)


def main() -> None:
    parser = arguments.Parser(__doc__, programs=("edfmend",), count=300)
    parser.add_argument("--seed", type=int, default=1, help="1 if left out")
    parser.add_argument("--model", action="store_true", help="asks the plain model")
    parser.add_argument("--control", action="store_true", help="asks models that guess")
    given = parser.read()
    if given.control:
        control(given.seed, given.count)
    with tempfile.TemporaryDirectory(prefix="edfmend-people-") as name:
        mender = mended.Mender(given.edfmend, Path(name))

        def make(person: Person, code: bytes) -> bytes:
            return by_model(person, code) if given.model else by_program(mender, person, code)
        ways, failed = tried(make, random.Random(given.seed), given.count)
    print(", ".join(f"{count} {way}" for way, count in sorted(ways.items())))
    end(given.count, failed)


if __name__ == "__main__":
    main()
