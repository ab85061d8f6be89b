"""Whether pieces and their card are one recording by onset, however the annotations of each were
spread over its data records.

    python3 -m checks.by_onset [--program PATH] [--edfruns PATH] [--seed SEED] [--control] [COUNT]

COUNT nights by chance (200 if left out), with gaps, annotations at the first and last nanosecond of
data records among them, and some of them twice. Each is written as a card and as pieces that reach
into each other; in each file the annotations that happened in it are spread over its data records
by chance, in any order and grouping, and over one or two annotations signals. The files as
`edfruns canonical --by-onset` makes them are those of the plain model, byte for byte; nothing is
told as outside; `edfstore take` accepts each of them, in any order; and the export has each
annotation once, in the data record that has its onset. In every fourth night a piece has
annotations that did not happen in it: then ` outside=N` is told, and the answers are the model's.

--control leaves `--by-onset` out, and then tells no counts; both must be found.
"""
import random
from collections import Counter
from dataclasses import replace
from pathlib import Path

from checks.lib import arguments, edf, measure, model, printed, runs, spread
from checks.lib.checks import Lost, compare, end

TEXTS = ("Snore", "Apnea", "a", "A", "", "Lights off", "\u00e9", "\u65e5", "x" * 40)
DURATIONS = ("1", "0.5", "2", "0.1", "30")
STARTS = 541_727_990, 541_728_010      # seconds from 1985: before and after a midnight
# What a program does that must be found
CONTROLS = {
    "leaves annotations where they are": 'exec "{program}" canonical "$3"\n',
    "tells nothing of those outside": 'exec "{program}" "$@" 2> /dev/null\n',
}


def onset_in(start: int, duration: int, chance: random.Random) -> int:
    """An onset in a data record: any, or one of its first and last."""
    return start + chance.choice((0, duration - 1, duration // 2, chance.randrange(duration)))


def night(chance: random.Random) -> tuple:
    """How long a data record of a night lasts, and its data records, each with the annotations that
    happened in it."""
    duration = model.decimal(DURATIONS[chance.randrange(len(DURATIONS))].encode())
    start = chance.choice(STARTS) * model.SECOND + chance.choice((0, 0, 250_000_000))
    records = []
    for nth in range(chance.randint(2, 24)):
        notes = [(onset_in(start, duration, chance),
                  chance.choice((None, None, 0, 1, 2 * model.SECOND)),
                  chance.choice(TEXTS).encode())
                 for _ in range(chance.choice((0, 0, 1, 1, 2, 5)))]
        notes += notes[:1] if chance.random() < 0.1 else []
        records.append(model.Record(start, nth.to_bytes(4, "little"), tuple(notes)))
        start += duration + (chance.choice((1, 500_000_000, 7 * model.SECOND, 3_600 * model.SECOND))
                             if chance.random() < 0.2 else 0)
    return duration, records


def onset_text(nanoseconds: int) -> str:
    return ("-" if nanoseconds < 0 else "+") + model.shortest(abs(nanoseconds)).decode()


def listed(notes: list, base: int, chance: random.Random) -> bytes:
    """Annotations in this order; neighbours of one onset and duration are in one list, or not."""
    lists = []
    for onset, duration, text in notes:
        if lists and lists[-1][:2] == (onset, duration) and chance.random() < 0.5:
            lists[-1][2].append(text)
        else:
            lists.append((onset, duration, [text]))
    return b"".join(
        edf.tal(onset_text(onset - base), *texts,
                duration="" if duration is None else model.shortest(duration).decode())
        for onset, duration, texts in lists)


def file_of(duration: int, records: list, notes: list, chance: random.Random) -> bytes:
    """A file of these data records, over which these annotations are spread by chance."""
    base = records[0].start // model.SECOND * model.SECOND
    signals = chance.choice((1, 1, 2))
    spread_out = [[[] for _ in range(signals)] for _ in records]
    for note in chance.sample(notes, len(notes)):
        chance.choice(chance.choice(spread_out)).append(note)
    if chance.random() < 0.25:          # as EDFlib does: the n-th into the n-th
        spread_out = [[[] for _ in range(signals)] for _ in records]
        for nth, note in enumerate(notes):
            spread_out[min(nth, len(records) - 1)][0].append(note)
    blocks = [[edf.keeping(onset_text(record.start - base)) * (not nth) + listed(part, base, chance)
               for nth, part in enumerate(parts)] for record, parts in zip(records, spread_out)]
    sizes = [(max(len(block[nth]) for block in blocks) + 1) // 2 + chance.choice((0, 1, 5))
             for nth in range(signals)]
    day, hour, minute, second, _ = model.civil(base)
    month = model.MONTHS[day.month - 1].decode()
    header = edf.Header(
        (edf.Signal(), *(edf.annotations_signal(max(size, 1)) for size in sizes)),
        f"{day.day:02}.{day.month:02}.{day.year % 100:02}", f"{hour:02}.{minute:02}.{second:02}",
        recording=f"Startdate {day.day:02}-{month}-{day.year} N1 T3 REC5",
        count=chance.choice((str(len(records)), "-1")),
        duration=model.shortest(duration).decode())
    return edf.fragment(header, [(record.samples, block)
                                 for record, block in zip(records, blocks)])


def cut(records: list, chance: random.Random) -> list:
    """Pieces that have each data record once or more."""
    count = len(records)
    edges = sorted(chance.sample(range(1, count), chance.randint(1, min(5, count - 1))))
    return [records[max(0, begin - chance.randrange(3)):end + chance.randrange(3)]
            for begin, end in zip([0, *edges], [*edges, count])]


def tried(programs: spread.Programs, chance: random.Random, is_strayed: bool) -> str:
    """What the night is counted as."""
    duration, records = night(chance)
    key = replace(model.read(edf.small_files()["Q"])[0],
                  duration_text=edf.filled(model.shortest(duration).decode(), 8))
    parts = {"card.edf": records} | {
        f"piece{nth}.edf": part for nth, part in enumerate(cut(records, chance), 1)}
    notes = {name: spread.happened(key, records, part) for name, part in parts.items()}
    strays = [note for record in records for note in record.notes
              if not runs.lies_in(key, parts["piece1.edf"], note[0])] if is_strayed else []
    notes["piece1.edf"] = notes["piece1.edf"] + strays
    plain = {name: file_of(duration, part, notes[name], chance) for name, part in parts.items()}
    made = {name: spread.made_by_onset(programs, name, data) for name, data in plain.items()}
    compare("annotations outside", {name: outside for name, (_, outside) in made.items()},
            {name: len(strays) if name == "piece1.edf" else 0 for name in parts})
    files = {name: data for name, (data, _) in made.items()}
    answers = spread.taken(programs, files, chance.sample(list(parts), len(parts)))
    if strays:
        compare("a piece with strays beside its card",
                all(map(printed.is_accepted, answers)), False)
        return "with strays"
    compare("all accepted", all(map(printed.is_accepted, answers)), True)
    spread.has_each_once(programs.edfstore.ran("export", "night.db", "1").out, records)
    held = model.Store()
    is_one = all(printed.is_accepted(held.take(data)) for data in plain.values())
    return "accepted as they came too" if is_one else "refused as they came"


def all_tried(programs: spread.Programs, given) -> Counter:
    """How many nights there were of each kind; the first that fails ends it."""
    kinds = Counter()
    for nth in range(given.count):
        chance = random.Random(f"{given.seed}/{nth}")
        for path in programs.folder().glob("*.edf"):
            path.unlink()
        try:
            kinds[tried(programs, chance, nth % 4 == 3)] += 1
        except Lost as wrong:
            raise Lost(f"night {nth} of seed {given.seed}: {wrong}") from wrong
    return kinds


def control(given, folder: Path) -> None:
    missed = 0
    for what, turn in CONTROLS.items():
        wrong = folder / "wrong"
        wrong.write_text("#!/bin/bash\n" + turn.format(program=given.edfruns))
        wrong.chmod(0o755)
        try:
            all_tried(programs_in(given, wrong, folder), given)
            missed += 1
            print(f"NOT FOUND: a program that {what}")
        except Lost as found:
            print(f"found: a program that {what}: {str(found).splitlines()[0]}")
    end(len(CONTROLS), missed)


def programs_in(given, edfruns: Path, folder: Path) -> spread.Programs:
    return spread.Programs(measure.Program(given.program, folder), measure.Program(edfruns, folder))


def main() -> None:
    parser = arguments.Parser(__doc__, arguments.BOTH, count=200)
    parser.add_argument("--seed", default="1", help="of the nights, 1 if left out")
    parser.add_argument("--control", action="store_true", help="run wrong programs instead")
    given = parser.read()
    with measure.scratch() as name:
        folder = Path(name)
        if given.control:
            control(given, folder)
        try:
            kinds = all_tried(programs_in(given, given.edfruns, folder), given)
        except Lost as wrong:
            print(wrong)
            end(given.count, 1)
    print(", ".join(f"{count} {kind}" for kind, count in sorted(kinds.items())))
    end(kinds.total(), 0 if kinds["refused as they came"] else 1)


if __name__ == "__main__":
    main()
