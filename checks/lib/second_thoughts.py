"""A technician and the page, by keyboard alone, where not all is well: files that contradict each
other, which are taken first or taken out; faulty fields and wrong answers; mended files that join
their night or don't; recordings of the same codes; and work that is not saved. What the page says
is known by hand, and what it gives is the programs'."""
from pathlib import Path

from .edf import Header, Signal, annotations_signal, fragment, keeping
from .natively import written
from .technician import GAPS, IS_OWN, JOINS, LEAVES, Technician, gaps

BY_ONSET = "Sort all annotations by their times"
DAY = "The day of its start: day, month and year as 31.12.23"
FIRST_STAYS = ("Of files that contradict each other the one that was added first is used. Keep "
               "this file, and the memory card.")
# The table that is unfolded of a file that contradicts
ROWS = """[...document.querySelectorAll("#results > section details[open] tbody tr")].map((row) =>
  [...row.cells].map((it) => it.textContent))"""
# Words that are for a terminal, in what the page knows of each number that a file can have
FOR_A_TERMINAL = """Object.entries(REFUSALS).filter(([number, { what, more }]) =>
  Number(number.slice(1)) < 40 && /edfmend|edfstore|edfruns|--[a-z]|printf|[Tt]erminal|store of/
    .test([what, ...more].join(" "))).map(([number]) => number)"""


def piece(count: int, start: str, value: int = 0, onset: float = 0, label: str = "EEG",
          **fields) -> bytes:
    """EDF+C of so many seconds from then on, with these samples."""
    header = Header((Signal(label), annotations_signal(8)), reserved="EDF+C", count=str(count),
                    starttime=start, **fields)
    samples = bytes([value]) * 2 * int(header.signals[0].samples)
    return fragment(header, [(samples, keeping(f"+{onset + nth:g}")) for nth in range(count)])


def named(code: str, technician: str = "T3", day: str = "02-MAR-2002") -> dict:
    return {"patient": f"{code} F 02-MAY-1951 X",
            "recording": f"Startdate {day} N1 {technician} R5"}


def contradictions(it: Technician) -> None:
    """A card that a faulty piece contradicts, which is taken first, and the piece taken out."""
    it.open()
    paths = written(it.folder / "contradict", [
        ("piece.edf", piece(60, "22.00.00")), ("faulty.edf", piece(60, "22.01.00", 1)),
        ("card.edf", piece(180, "22.00.00")), ("late.edf", piece(9, "22.00.30", onset=0.5))])
    piece_, faulty, card, late = paths
    it.chooses("Choose files", [piece_, faulty, card])
    it.says("✕ card.edf It contradicts a file that was added before it: at the same time it "
            "has other samples or annotations.", "Without card.edf: see below.",
            "1 min of card.edf differs from what is used.", FIRST_STAYS)
    it.unfold("Details")
    it.says("E31 Differs start=2002-03-02T22:01:00")
    it.same("onsets do not help", it.press(BY_ONSET), "done")
    it.same("no more such button", it.hands.has("button", BY_ONSET), False)
    it.unfold("2 files used")
    it.press("Use annotations as they came")
    it.gives("as they came")
    it.same("it is first", it.press("Use this file first: card.edf"), "done")
    it.paths = [card, piece_, faulty]
    it.gives("the card first")
    it.says("✓ 2 files in 1 recording. ✕ 1 file not used.")
    it.looks("the card first")
    takes_out_at_once(it, faulty)
    it.chooses("Add files", [late])
    it.says("✕ late.edf Its times contradict those of a file that was added before it.")
    it.unfold("Details")
    it.says("E30 Overlap start=2002-03-02T22:00:30.5 stored=2002-03-02T22:00:30")
    takes_out_at_once(it, late)
    takes_all_out(it, card, piece_)


def takes_missing(it: Technician) -> None:
    """Of a card that contradicts it is told for how long, and what it has alone is taken."""
    it.open()
    card = piece(180, "22.00.00")
    it.chooses("Choose files", written(it.folder / "missing", [
        ("piece.edf", piece(60, "22.00.00")), ("faulty.edf", piece(60, "22.01.00", 1)),
        ("card.edf", card)]))
    it.says("1 min of card.edf differs from what is used. Another 1 min is in it alone.")
    it.unfold("From when to when")
    it.same("from when to when", it.bench.browser.value(ROWS), [
        ["22:00 on 2 Mar 2002", "22:01 on 2 Mar 2002", "the same in both"],
        ["22:01 on 2 Mar 2002", "22:02 on 2 Mar 2002", "other samples or annotations"],
        ["22:02 on 2 Mar 2002", "22:03 on 2 Mar 2002", "in this file alone"]])
    it.looks("a card that contradicts")
    cut = it.native.run(it.native.edfruns, it.paths[2].parent, "cut", "card.edf",
                        "--from", "2002-03-02T22:02:00", "--to", "2002-03-02T22:03:00")
    it.paths.append(it.made("card.edf from 22:02", cut))
    it.press("Add the missing 1 min: card.edf")
    it.gives("with what was missing")
    it.says("✓ 3 files in 1 recording. ✕ 1 file not used.", "No gap from 22:00 to 22:03",
            "1 min of card.edf differs from what is used. All else in it is used.")


def takes_out_at_once(it: Technician, path: Path) -> None:
    """What the recording has nothing of alone goes without a job."""
    before = it.bench.browser.value("window.changes")
    it.hands.use("button", f"Remove: {path.name}")
    it.same("no job", it.bench.browser.value("window.changes"), before)
    it.paths.remove(path)
    it.gives(f"without {path.name}")


def takes_all_out(it: Technician, card: Path, known: Path) -> None:
    """The card, of which more is left then, and the last file after a question."""
    it.unfold("2 files used")
    it.press(f"Remove: {card.name}")
    it.paths = [known]
    it.gives("without the card")
    it.unfold("1 file used")
    it.hands.use("button", f"Remove: {known.name}")
    it.hands.use("button", "Throw it away")
    it.same("the state", it.bench.browser.value("document.body.dataset.state"), "idle")


def faulty_fields(it: Technician) -> None:
    """The texts of fields that are refused, as the files have them; and answers that are none."""
    it.open()
    files = {"E4": ({"patient": "P7"}, "Its patient field: P7"),
             "E5": ({"recording": "Night N1 T3"}, "Its recording field: Night N1 T3"),
             "E6": ({"startdate": "02-03-15", "recording": "Startdate 15-MAR-2002 N1 T3 R5"},
                    "Its startdate: 02-03-15"),
             "E7": ({}, "Its starttime: 22-61-00"),
             "E8": ({"startdate": "03.03.02"}, "Its startdate: 03.03.02. Its recording field: "
                    "Startdate 02-MAR-2002 N1 T3 REC5")}
    made = [(f"{number}.edf", piece(2, "22-61-00" if number == "E7" else "22.00.00", **fields))
            for number, (fields, _) in files.items()]
    twice = piece(2, "23.00.00")
    it.chooses("Choose files", written(it.folder / "fields", [
        *made, ("twice.edf", twice + twice),
        ("label.edf", twice.replace(b"EDF Annotations", b"EDF annotations"))]))
    for _ in range(len(files) + 1):
        it.unfold("Details")
    it.says(*(said for _, said in files.values()))
    for number in files:
        it.same(number, f"{number}.edf refused {number} " in it.taken, True)
    it.looks("faulty fields")
    it.press("Mend it: E6.edf")
    before = ""
    for answer, said in (("2002-03-15", "This is no date as the field wants it."),
                         ("14.03.02", "E6.edf: Its startdate and the one in its recording field")):
        it.answers(DAY, answer, before)
        it.says(said)
        before = answer
    closes(it)


def closes(it: Technician) -> None:
    """What may be another file's is asked for, what can't be mended is said, and what is shown can
    be closed."""
    it.press("Mend it: twice.edf")
    it.says("Its number of data records is wrong, or another file is behind it.",
            "All data records that are there belong to this file: use them")
    it.hands.use("button", "Close")
    it.press("Mend it: label.edf")
    said = "This page can't mend it: get it again, or remove it."
    it.says(said)
    it.looks("it can't be mended")
    it.hands.use("button", "Close")
    it.hands.use("button", "Close")
    text = it.bench.browser.value("document.getElementById('results').innerText")
    it.same("it is closed", [part in text for part in (said, "Mending")], [False, False])
    it.same("words of a terminal", it.bench.browser.value(FOR_A_TERMINAL), [])


def mended_or_not(it: Technician) -> None:
    """A piece whose date has strokes joins its night once it is mended; one whose field is mended
    does not, and it is said by what the two recordings differ."""
    it.open()
    strokes = piece(60, "22.01.00", startdate="02/03/02", **named("P7"))
    small = piece(60, "22.02.00", **named("P7", day="02-Mar-2002"))
    it.chooses("Choose files", written(it.folder / "joins", [
        ("good.edf", piece(60, "22.00.00", **named("P7"))), ("strokes.edf", strokes),
        ("small.edf", small)]))
    for nth, (name, data, said) in enumerate((("strokes", strokes, JOINS),
                                              ("small", small, IS_OWN)), 1):
        it.press(f"Mend it: {name}.edf")
        it.says(said)
        mended = it.made(f"{name}.edf (mended)", it.mend(f"{name}.edf", data)[1])
        it.paths = [*(path for path in it.paths if path.stem != name), mended]
        it.press("Use it")
        it.gives(f"{name} mended")
        it.same("recordings", len(it.bench.given()[2]), nth)
    it.says("There is another recording of these codes above: its recording field differs.")
    it.looks("two recordings")
    title = "Patient P7, born 2 May 1951, investigation N1"
    it.starts_over(title, title)


def mended_together(it: Technician) -> None:
    """Of pieces that are mended at once one joins the night that is there, by their names."""
    it.open()
    strokes = [piece(60, start, startdate="02/03/02", **named(code))
               for start, code in (("22.01.00", "P7"), ("22.02.00", "P8"))]
    it.chooses("Choose files", written(it.folder / "together", [
        ("good.edf", piece(60, "22.00.00", **named("P7"))),
        *zip(("own.edf", "other.edf"), strokes)]))
    it.press("Mend these 2…")
    it.says("own.edf P7, born 2 May 1951 22:01 on 2 Mar 2002", f"own.edf: {JOINS}")
    text = it.bench.browser.value("document.getElementById('results').innerText")
    it.same("the other one is of no night here",
            [part in text for part in (f"other.edf: {JOINS}", IS_OWN)], [False, False])
    it.starts_over("Patient P7, born 2 May 1951, investigation N1")


def alike(it: Technician) -> None:
    """Recordings of the same codes, and by what they differ from the first of these; gaps to the
    part of a second; and that it asks before it is left until all of them are saved."""
    it.open()
    other_sex = named("P7") | {"patient": "P7 M 02-MAY-1951 X"}
    late = piece(3, "22.00.04", onset=0.25, **named("P7"))
    it.chooses("Choose files", written(it.folder / "alike", [
        ("one.edf", piece(2, "22.00.00", **named("P7"))), ("late.edf", late),
        ("two.edf", piece(2, "22.00.00", **named("P7", "T4"))),
        ("three.edf", piece(2, "22.00.00", **other_sex)),
        ("four.edf", piece(2, "22.00.00", label="EOG", **named("P7"))),
        ("five.edf", piece(2, "22.00.00", **named("P7", day="X")))]))
    above = "There is another recording of these codes above: "
    it.says(*(f"{above}its {what} differs." for what in (
        "recording field", "patient field", "header of a signal")))
    runs = it.bench.given()[2][0][1]
    it.same("gaps", it.bench.browser.value(GAPS), gaps(runs))
    it.same("a gap of 2.25 s", gaps(runs), [
        ["22:00:02 on 2 Mar 2002", "22:00:04.25 on 2 Mar 2002", "2.25 s"]])
    it.looks("alike")
    for nth in range(1, 6):
        it.same("it asks before it is left", it.bench.browser.value(LEAVES), True)
        end = (f"_{nth}" if nth > 1 else "") + ("_exact" if nth == 1 else "")
        press = f"""[...document.querySelectorAll("article button.first")][{nth}].click()"""
        if nth > 1:
            it.after(lambda press=press: it.bench.browser.value(press))
        else:           # the first button of this one makes the copy for viewing
            it.bench.browser.value(press)
        it.hands.saved(f"N1_2002-03-02T22_00_00{end}.edf")
    it.same("all is saved", it.bench.browser.value(LEAVES), False)
    it.starts_over()


def all_of_it(bench, hands, folder: Path, native) -> None:
    it = Technician(bench, hands, folder / "second-thoughts", native)
    it.folder.mkdir(parents=True)
    contradictions(it)
    takes_missing(it)
    faulty_fields(it)
    mended_or_not(it)
    mended_together(it)
    alike(it)
