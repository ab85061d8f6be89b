"""Whether `edfruns fill`, `cut` and `compare` do with recordings by chance what a plain model does.

    python3 -m checks.fill [--edfruns PATH] [--seed SEED] [--control] [COUNT]

COUNT recordings by chance (3,000 if left out; checks/lib/drifting.py) have gaps, clocks that drift
or jump, data records of 1/16 to 60 s, several annotations signals, physical limits turned round,
and dates after 2084. The file of each is filled, and a time of it is cut; two files of it are
compared, one of which lacks some data records, has others, or has moved ones. What is written, what
is told and the status are those of the model (checks/lib/filled.py, checks/lib/compared.py), byte
for byte.

--control runs programs that do something else; each must be found.
"""
import argparse
import random
from collections import Counter
from dataclasses import replace
from pathlib import Path
from typing import NoReturn

from checks.lib import arguments, compared, drifting, filled, measure, model
from checks.lib.checks import Lost, compare, end
from checks.lib.filled import Made

# What a program does that must be found
CONTROLS = {
    "writes the canonical file": '[ "$1" = fill ] && shift $(($# - 1)) && set -- canonical "$1"\n',
    "tells nothing": 'exec 2> /dev/null\n',
    "cuts everything": '[ "$1" = cut ] && set -- canonical "$2"\n',
    "compares a file with itself": '[ "$1" = compare ] && set -- compare "$2" "$2"\n',
}


def runs_so(program: measure.Program, words: list[str], made: Made) -> None:
    """The program does with these words what the model has; a word that asks for nothing is told in
    any words."""
    ran = program.ran(*words)
    err = made.err.encode() if made.status < 2 else ran.err
    compare(" ".join(words), ran.outcome(), (made.out, err, made.status))


def tried_fill(program: measure.Program, data: bytes, chance: random.Random) -> str:
    """What the file of the recording is counted as."""
    longest = chance.choice(("24", "24", "24", "0.001", "0.5", "100"))
    moved = chance.choice(("0.5", "0.5", "0.5", "30", "30", "0", "0.001"))
    made = filled.fill("night.edf", data, longest, moved)
    words = ["fill"]
    words += ["--longest-gap", longest] if longest != "24" or chance.random() < 0.1 else []
    words += ["--moved", moved] if moved != "0.5" or chance.random() < 0.1 else []
    runs_so(program, [*words, "night.edf"], made)
    if made.status:
        return "refused"
    if " gaps=0 " in made.err:
        return "without a gap"
    is_whole = model.read(made.out)[0].duration() == model.read(data)[0].duration()
    return "filled" if is_whole else "divided"


def edge(night: drifting.Night, chance: random.Random) -> str:
    """An instant at which something may turn, or none."""
    record = chance.choice(night.records)
    ends = record.start, record.start + night.key.duration()
    at = chance.choice(ends) + chance.choice((-1, 0, 0, 1))
    return model.instant_text(at) if 0 <= at < model.WINDOW and chance.random() < 0.85 else ""


def tried_cut(program: measure.Program, data: bytes, night: drifting.Night,
              chance: random.Random) -> str:
    begin, until = edge(night, chance), edge(night, chance)
    if begin > until > "" and chance.random() < 0.9:
        begin, until = until, begin
    words = [word for name, text in (("--from", begin), ("--to", until)) if text
             for word in (name, text)]
    made = compared.cut("night.edf", data, begin, until)
    runs_so(program, ["cut", "night.edf", *words], made)
    return ("cut", "cut refused", "cut misspelled")[made.status]


def changed(night: drifting.Night, chance: random.Random) -> drifting.Night:
    """The recording with some data records left out, others changed, and others moved."""
    records, low, kinds = [], 0, chance.choices((0, 1, 2, 3, 4), k=3)
    for record in night.records:
        kind = chance.choice((0, 0, 0, *kinds))
        if kind == 1:
            continue
        if kind == 2:
            record = replace(record, samples=record.samples[:-1] + b"\x55")
        if kind == 3:
            record = replace(record, start=record.start + chance.choice((1, -1, 10**6)))
        if kind == 4:
            record = replace(record, notes=record.notes[1:])
        if low <= record.start < model.WINDOW:
            records.append(record)
            low = record.start + night.key.duration()
    return replace(night, records=tuple(records) or night.records, spelling=f"{chance.random()}")


def is_dated(night: drifting.Night) -> bool:
    """Whether a header can name the start of its first data record."""
    return night.key.dated == b"D" or night.records[0].start // model.DAY not in model.LETTERS


def tried_compare(program: measure.Program, data: bytes, night: drifting.Night,
                  chance: random.Random) -> str:
    other = changed(night, chance)
    if chance.random() < 0.05:
        rows = night.key.rows[:-1] + (night.key.rows[-1][:231] + b"other".ljust(25),)
        other = replace(other, key=replace(night.key, rows=rows))
    if not is_dated(other):
        other = night
    files = {"night.edf": data, "card.edf": other.to_bytes()}
    (program.folder or Path()).joinpath("card.edf").write_bytes(files["card.edf"])
    one, two = chance.sample(list(files), 2)        # either may lack what the other has
    made = compared.compare(one, two, files[one], files[two])
    runs_so(program, ["compare", one, two], made)
    return "all known" if not made.status else "not all known"


def tried(program: measure.Program, nth: int, seed: str) -> list[str]:
    """What a recording is counted as."""
    chance = random.Random(f"{seed}/{nth}")
    night = drifting.any_night(chance)
    data = night.to_bytes()
    (program.folder or Path()).joinpath("night.edf").write_bytes(data)
    return [tried_fill(program, data, chance), tried_cut(program, data, night, chance),
            tried_compare(program, data, night, chance)]


def all_tried(program: measure.Program, given: argparse.Namespace) -> Counter[str]:
    """How many there were of each kind; the first that differs ends it."""
    kinds: Counter[str] = Counter()
    for nth in range(given.count):
        try:
            kinds.update(tried(program, nth, given.seed))
        except Lost as wrong:
            raise Lost(f"recording {nth} of seed {given.seed}: {wrong}") from wrong
    return kinds


def control(given: argparse.Namespace, folder: Path) -> NoReturn:
    missed = 0
    for what, turn in CONTROLS.items():
        wrong = folder / "wrong"
        wrong.write_text(f'#!/bin/bash\n{turn}exec "{given.edfruns}" "$@"\n')
        wrong.chmod(0o755)
        try:
            all_tried(measure.Program(wrong, folder), given)
            missed += 1
            print(f"NOT FOUND: a program that {what}")
        except Lost as found:
            print(f"found: a program that {what}: {str(found).splitlines()[0]}")
    end(len(CONTROLS), missed)


def main() -> None:
    parser = arguments.Parser(__doc__ or "", ("edfruns",), count=3_000)
    parser.add_argument("--seed", default="1", help="of the recordings, 1 if left out")
    parser.add_argument("--control", action="store_true", help="run wrong programs instead")
    given = parser.read()
    with measure.scratch() as name:
        folder = Path(name)
        if given.control:
            control(given, folder)
        try:
            kinds = all_tried(measure.Program(given.edfruns, folder), given)
        except Lost as wrong:
            print(wrong)
            end(given.count, 1)
    print(", ".join(f"{count} {kind}" for kind, count in sorted(kinds.items())))
    end(given.count, 0)


if __name__ == "__main__":
    main()
