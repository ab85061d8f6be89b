"""Draws random nights by `edfruns picture`, reads the pictures back, and compares each column with a
plain model (`lib.glance`): what is recorded, the stages of sleep, the lane of each text with its
count, and the least and the greatest value of each signal; and whose night it is and when, how many
gaps it has and which are listed. Each picture is well-formed, whatever bytes the file's texts have.

    python3 -m checks.picture [--edfruns PATH] [--seed SEED] [--seconds N] [COUNT]

1,000 nights if left out. Then it draws what is large: 200,000 distinct texts, a million
annotations, 639 signals, 30,000 gaps, 400 days; each within SECONDS of processor, or those of
--seconds, and within MEMORY, in a picture of at most LARGEST bytes. 0 draws these alone.
"""
import random
import shutil
import tempfile
from pathlib import Path

from checks.lib import arguments, checks, drawn, edf, glance, glance_nights, measure, model
from checks.lib.gapped import SECOND, decimal

SECONDS, MEMORY, LARGEST = 3, 300 << 20, 1_000_000


def label(at: int) -> str:
    """An instant as a picture has it."""
    return model.instant_text(at).replace("T", " ")


def length(nanos: int) -> str:
    """A length with all its decimals."""
    minutes, rest = divmod(nanos, 60 * SECOND)
    hours, minutes = divmod(minutes, 60)
    seconds = "0" * (rest < 10 * SECOND) + decimal(rest)
    if not hours and not minutes:
        return f"{decimal(rest)} s"
    return (f"{hours} h {minutes:02} min" if hours else f"{minutes} min") + f" {seconds} s"


def shown(text: str) -> str:
    """A text without what XML has no characters for, cut after 36 characters, or 28 where over nine
    are wide; a tab and what ends a line are spaces."""
    text = text.translate({9: " ", 10: " ", 13: " "})
    most = 28 if sum(one == "W" or one >= "\u2e80" for one in text) > 9 else 36
    kept = "".join(one for one in text[:most]
                   if " " <= one <= "~" or ("\xa0" <= one and one not in "\ufffe\uffff"))
    kept += "..." if len(text) > most else ""
    return kept if kept.strip(" ") else "(no text)"


def head_lines(night: glance.Night, patient: str, investigation: str) -> list[str]:
    """The lines above the axis."""
    first, last = night.axis()
    gaps = glance.gaps(night)
    word = "from" if gaps else "complete from"
    codes = [code if len(code) <= 38 else f"{code[:38]}..." for code in (patient, investigation)]
    lines = [f"Patient {codes[0]}", f"Investigation {codes[1]}",
             f"{word} {label(first)} to {label(last)}"]
    if not gaps:
        return lines + [length(last - first), "no gap"]
    missing = sum(end - start for start, end in gaps)
    longest = length(max(end - start for start, end in gaps))
    return lines + [f"{length(last - first)}, {length(last - first - missing)} recorded",
                    f"1 gap, {longest} long" if len(gaps) == 1
                    else f"{len(gaps)} gaps, the longest {longest}"]


def gap_lines(night: glance.Night) -> list[str]:
    more = len(glance.gaps(night)) - glance.LISTED
    lines = [f"{label(start)}, {length(end - start)}" for start, end in glance.listed_gaps(night)]
    first = "The twelve longest gaps:" if more > 0 else "Gaps:"
    return [first, *lines, *[f"and {more} more"] * (more > 0)] if lines else []


def lane_line(lane: glance.Lane) -> str:
    text, count, _ = lane
    if isinstance(text, int):
        return f"others: {count}, texts: {text}"
    return f"{count} \u00d7 {shown(text)}"


def differences(picture: str, night: glance.Night, patient: str, investigation: str) -> list[str]:
    """What a picture has otherwise than the model."""
    seen, head = drawn.read(picture), head_lines(night, patient, investigation)
    lanes, columns = glance.lanes(night), glance.hypnogram(night)
    bands = [glance.heights(glance.band(night, nth), night.signals[nth])
             for nth in range(min(len(night.signals), glance.DRAWN))]
    pairs = {
        "title": (seen.title, f"Patient {patient}, investigation {investigation}"),
        "description": (seen.described, f"{head[2]}. {head[3]}; {head[4]}."),
        "head": (seen.texts[:5], head),
        "gaps": ("\n".join(["", *gap_lines(night), ""]) in "\n".join(["", *seen.texts, ""]), True),
        "strip": (seen.strip, glance.strip(night)),
        "stages": (seen.stages, columns),
        "rem": (seen.rem, "".join("x" if stage == "R" else "." for stage in columns)),
        "lanes": (seen.lanes, [lane[2] for lane in lanes]),
        "counts": ([line for line in map(lane_line, lanes) if line not in seen.texts], []),
        "bands": (seen.bands, bands),
        "rest": (f"Signals not drawn: {len(night.signals) - 16}" in seen.texts,
                 len(night.signals) > 16),
    }
    return [f"{name}: {got!r:.400} is not {wanted!r:.400}"
            for name, (got, wanted) in pairs.items() if got != wanted]


def try_night(edfruns: Path, path: Path, seed: int, nth: int) -> list[str]:
    """What is otherwise in the picture of a night, with the patient code or without."""
    chance = random.Random(seed * 1_000_003 + nth)
    night = glance_nights.random_night(chance)
    patient, investigation = chance.choice(glance_nights.CODES), chance.choice(glance_nights.CODES)
    path.write_bytes(glance_nights.file_of(night, patient, investigation))
    options = chance.choice(((), ("--without-code",)))
    ran = measure.ran(edfruns, "picture", *options, path)
    if ran.status:
        return [f"status {ran.status}: {ran.err.decode()}"]
    return differences(ran.out.decode(), night, "code left out" if options else patient,
                       investigation)


def large_file(path: Path, starts: list[int], seconds: int, signals: int, texts: list[str]) -> None:
    """A file with data records of these starts, so many signals of one sample, and these texts."""
    each = -(-len(texts) // len(starts))
    size = max(64, 32 * each) // 2
    header = edf.Header((*[edf.Signal(samples="1")] * signals, edf.annotations_signal(size)),
                        startdate="02.03.02", starttime="22.00.00",
                        recording="Startdate 02-MAR-2002 N1 X X", count=str(len(starts)),
                        duration=str(seconds))
    with open(path, "wb") as file:
        file.write(header.to_bytes())
        for nth, start in enumerate(starts):
            some = texts[nth * each:(nth + 1) * each]
            block = edf.keeping(f"+{start}") + b"".join(edf.tal(f"+{start}", text) for text in some)
            file.write((nth % 65_536).to_bytes(2, "little") * signals + block.ljust(2 * size, b"\0"))


NIGHT = list(range(28_800))
# What is large: the starts of its data records, their seconds, its signals and its texts
LARGE: dict[str, tuple[list[int], int, int, list[str]]] = {
    "200,000 distinct texts": (NIGHT, 1, 1, [f"text {nth}" for nth in range(200_000)]),
    "1,000,000 annotations": (NIGHT, 1, 1, ["Hypopnea", "Arousal"] * 500_000),
    "639 signals": (NIGHT, 1, 639, []),
    "30,000 gaps": (list(range(0, 60_002, 2)), 1, 1, []),
    "400 days": (list(range(0, 400 * 86_400, 30)), 30, 1, [])}


def is_within(edfruns: Path, path: Path, name: str, seconds: float) -> bool:
    """Draws what is large, and prints how long that took, how much memory and how many bytes."""
    large_file(path, *LARGE[name])
    ran = measure.ran(edfruns, "picture", path, is_measured=True)
    is_well = bool(ran.status == 0 and ran.processor <= seconds and ran.peak <= MEMORY
                   and len(ran.out) <= LARGEST and drawn.read(ran.out.decode()).title)
    print(f"{name}: {ran.processor:.2f} s, {ran.peak >> 20} MB, {len(ran.out):,} bytes"
          + ("" if is_well else f", and that is too much: {ran.err.decode()}"))
    return is_well


def main() -> None:
    parser = arguments.Parser(__doc__, ("edfruns",), count=1_000)
    parser.add_argument("--seed", type=int, default=1, help="of the nights, 1 if left out")
    parser.add_argument("--seconds", type=float, default=SECONDS, metavar="N",
                        help=f"that a large one may take, {SECONDS} if left out")
    given = parser.read()
    folder = Path(tempfile.mkdtemp(prefix="picture-"))
    path = folder / "night.edf"
    for nth in range(given.count):
        wrong = try_night(given.edfruns, path, given.seed, nth)
        if wrong:
            print(f"{path}: night {nth} of seed {given.seed}", *wrong, sep="\n  ")
            checks.end(nth + 1, 1)
    failed = sum(not is_within(given.edfruns, path, name, given.seconds) for name in LARGE)
    shutil.rmtree(folder)
    checks.end(given.count + len(LARGE), failed)


if __name__ == "__main__":
    main()
