"""A technician and the page, by keyboard alone: what the page says only where it is so. What is
missing of a card that was cut, whether a mended file joins its night and how it is saved, in whose
recording a file that is not used is named, what goes out for another file, and how a field is
written that is refused. What it says is known by hand."""
from collections.abc import Sequence
from pathlib import Path
from typing import Any

from .edf import Header, Signal, annotations_signal, fragment, keeping
from .morning import plain
from .natively import written
from .second_thoughts import named, piece
from .technician import JOINS, TEXT, Technician

GAPS = 140_000
GAPPED = ("It has gaps, so it is saved as EDF+D, which EDFbrowser doesn't open. For a viewer use it "
          "here, then press “Save for viewing”.")
CONTRADICTS = ("It doesn't join its night: it contradicts a file that was added before it, and that "
               "one stays in use.")
CARDS = "[...document.querySelectorAll('article')].map((it) => it.innerText)"
FORM = slice(192, 197)


def spread(starts: Sequence[int]) -> bytes:
    """EDF+D of a second at each of these starts."""
    header = Header((Signal("EEG"), annotations_signal(6)), count=str(len(starts)),
                    starttime="22.00.00")
    samples = bytes(2 * int(header.signals[0].samples))
    return fragment(header, [(samples, keeping(f"+{start}")) for start in starts])


def never_says(it: Technician, *parts: str) -> None:
    text = " ".join(it.bench.browser.value(TEXT).split())
    for part in parts:
        it.same(f"{part!r} in {text!r}", part in text, False)


def cut_card(it: Technician) -> None:
    """Of a card of an hour 36 minutes are there, of another one 5, which a piece has too."""
    it.open()
    card, first = piece(3600, "22.00.00"), piece(600, "22.00.00")
    size = (len(card) - len(first)) // 3000
    head = len(card) - 3600 * size
    torn, short = card[:head + 2160 * size + 7], card[:head + 300 * size + 7]
    it.chooses("Choose files", written(it.folder / "cut", [
        ("first.edf", first), ("torn.edf", torn), ("short.edf", short)]))
    it.says("✕ 2 files It was cut.")
    never_says(it, "nothing is missing")
    it.press("Mend these 2…")
    it.says("torn.edf should last 1 h; 36 min are in it. short.edf should last 1 h; 5 min are "
            "in it.", JOINS)
    it.paths = [it.paths[0], *(it.made(f"{name} (mended)", it.mend(name, data)[1])
                               for name, data in (("torn.edf", torn), ("short.edf", short)))]
    it.press("Use these 2")
    it.gives("with what is there of the card")
    it.says("✓ 3 files in 1 recording.", "No gap from 22:00 to 22:36",
            "torn.edf (mended) should last 1 h; 36 min are in it.")
    never_says(it, "Everything on")
    it.looks("a cut card")


def saves_mended(it: Technician) -> None:
    """A mended file of one run is saved as EDF+C, one with a gap as EDF+D, which is said."""
    for name, starts in (("one", range(20)), ("gap", [*range(9), *range(60, 70)])):
        data = spread(starts)[:-5]
        it.open()
        it.chooses("Choose files", [it.made(f"{name}.edf", data)])
        it.press(f"Mend it: {name}.edf")
        ledger, mended = it.mend("mended.edf", data)
        if name == "one":
            never_says(it, GAPPED)
            it.saves_mended(name, ledger, "mended.edf")
        else:
            it.says(GAPPED)
            it.same("EDF+D", mended[FORM], b"EDF+D")
            it.saves("Save the mended file", f"{name}-mended.edf", mended)
        it.looks(f"to be saved, {name}")


def own_patient(it: Technician) -> None:
    """Files that are not used are named in their own patient's recording alone."""
    it.open()
    it.chooses("Choose files", written(it.folder / "patients", [
        ("seven.edf", piece(60, "22.00.00", **named("P7"))),
        ("eight.edf", piece(60, "22.00.00", **named("P8"))),
        ("cut.edf", piece(60, "22.02.00", **named("P7"))[:-5]), ("nobody.edf", plain(9))]))
    seven, eight = it.bench.browser.value(CARDS)
    it.same("the own patient's", "Without cut.edf: see below." in seven, True)
    it.same("another patient's", "Without" in eight, False)
    it.says("✕ nobody.edf This is plain EDF")
    it.looks("two patients")


def contradicts(it: Technician) -> None:
    """A mended file that contradicts its night does not join it; all of it differs, and what goes
    out for it is named."""
    it.open()
    other = piece(60, "22.00.00", 1, startdate="02/03/02", **named("P7"))
    it.chooses("Choose files", written(it.folder / "contradicts", [
        ("good.edf", piece(60, "22.00.00", **named("P7"))),
        ("later.edf", piece(60, "22.01.00", **named("P7"))), ("other.edf", other)]))
    it.says("✕ other.edf Its date is written 02/03/02, not 02.03.02.")
    it.press("Mend it: other.edf")
    it.says(CONTRADICTS)
    never_says(it, JOINS)
    it.looks("mended, it contradicts")
    it.paths[2] = it.made("other.edf (mended)", it.mend("other.edf", other)[1])
    it.press("Use it")
    it.gives("a mended file that contradicts")
    it.says("All of other.edf (mended) differs: another person, or another recorder?",
            "good.edf may go out, with all annotations there, if this file is used first.")
    never_says(it, "All else in it is used.")
    it.looks("all of it differs")
    it.press("Use this file first: other.edf (mended)")
    it.says("✕ good.edf It contradicts a file")


def spelled(it: Technician) -> None:
    """How a field is written that is refused: of a date only what the recording field has too."""
    it.open()
    it.chooses("Choose files", written(it.folder / "spelled", [
        ("comma.edf", piece(2, "22.00.00", duration="1,0")),
        *((f"strokes{nth}.edf", piece(2, "22.00.00", startdate=f"0{nth}/03/02", recording=
           f"Startdate 0{nth}-MAR-2002 N1 T3 R5")) for nth in (2, 3)),
        ("month.edf", piece(2, "22.00.00", startdate="03/02/02"))]))
    it.says("✕ comma.edf Its duration of a data record is written 1,0, not 1.0.",
            "✕ 2 files Its date is written like 02/03/02, not like 02.03.02.",
            "✕ month.edf Its start is no day as 31.12.23. Look at its spelling, and at the "
            "recorder's clock.")
    it.looks("how fields are written")


def many_gaps(it: Technician) -> None:
    """A recording with more gaps than a call of a script has arguments."""
    it.open()
    it.chooses("Choose files", [it.made("gaps.edf", spread(range(0, 2 * GAPS + 1, 2)))])
    it.says(f"with {GAPS:,} gaps, the longest of 1 s.")


def all_of_it(bench: Any, hands: Any, folder: Path, native: Any) -> None:
    it = Technician(bench, hands, folder / "claims", native)
    it.folder.mkdir(parents=True)
    for story in (cut_card, saves_mended, own_patient, contradicts, spelled, many_gaps):
        story(it)
