"""A technician and the page on a morning when not all is well, by keyboard alone: pieces of plain
EDF that are mended together, a torn piece beside its card, two nights without a code, files that
are no recordings, a card that is pulled out, a file that comes while another is read, and leaving
without having saved."""
import os
from pathlib import Path
from typing import Any

from . import page_files
from .edf import Header, Signal, annotations_signal, fragment, keeping
from .natively import written
from .technician import CODE, LEAVES, OXIMETER, Technician

MOST_ACTIONS = 8                # for 12 pieces of plain EDF
MOST_SECONDS = 0.1              # for a file that is no recording, beside what a job takes at all,
TRIES = 3                       # where other work delays it once or twice
MOST_MEMORY = 50_000_000        # bytes
VIDEO = 1 << 30                 # bytes
NONE = {"report.pdf": (b"%PDF-1.7\n%\xe2\xe3\xcf\xd3\n" + bytes(900), "a PDF"),
        "export.zip": (b"PK\3\4\x14\0\0\0" + bytes(900), "a ZIP file: unpack it first"),
        "photo.jpg": (b"\xff\xd8\xff\xe0\0\x10JFIF" + bytes(900), "a JPEG picture"),
        "night.bdf": (b"\xffBIOSEMI" + b" " * 900, "a BDF recording: export it as EDF+"),
        "video.mp4": (b"\0\0\0\x20ftypisom" + bytes(900), "a video")}


def plain(minute: int) -> bytes:
    """A minute of plain EDF."""
    header = Header((Signal("EEG"),), reserved="", count="60", starttime=f"22.{minute:02}.00",
                    patient="Haagse Harry", recording="night 1")
    return header.to_bytes() + bytes([minute, 0]) * int(header.signals[0].samples) * 60


def anonymous(day: str, month_day: str, value: int) -> bytes:
    """An hour of a night without codes."""
    header = Header((Signal("EEG"), annotations_signal(8)), reserved="EDF+C", count="60",
                    starttime="22.15.00", startdate=day, patient="X X X X",
                    recording=f"Startdate {month_day} X X X", duration="60")
    samples = bytes([value, 0]) * int(header.signals[0].samples)
    return fragment(header, [(samples, keeping(f"+{60 * nth}")) for nth in range(60)])


def plain_pieces(it: Technician) -> None:
    """Twelve pieces of plain EDF become one recording by one code."""
    it.open()
    actions = 0
    pieces = [(f"p{nth:02}.edf", plain(nth)) for nth in range(12)]
    it.chooses("Choose files", written(it.folder / "plain", pieces))
    it.says("✕ 12 files This is plain EDF, which names no recording.")
    it.looks("twelve pieces of plain EDF")
    it.press("Mend these 12…")
    it.says("p00.edf, p01.edf, p02.edf and 9 other files: It names no code of a patient: type the "
            "code.")
    it.answers(CODE, "S-9")
    it.says("p11.edf S-9, Haagse Harry 22:11 on 2 Mar 2002")
    it.looks("twelve pieces to be mended")
    it.paths = [it.made(f"{name} (mended)", it.mend(name, data, "--patient", "S-9")[1])
                for name, data in pieces]
    it.press("Use these 12")
    actions += 5            # a choice, a button, an answer and its button, a button
    it.gives("twelve mended pieces")
    it.says("✓ 12 files in 1 recording.", "No gap from 22:00 to 22:12 on 2 Mar 2002.")
    it.same(f"{actions} actions", actions <= MOST_ACTIONS, True)
    it.looks("twelve pieces, mended")


def torn(it: Technician) -> None:
    """A torn piece is no alarm where the card has all of it, whichever comes first."""
    it.open()
    part = (OXIMETER / "part2.edf").read_bytes()
    it.chooses("Choose files", written(it.folder / "torn", [
        ("part1.edf", (OXIMETER / "part1.edf").read_bytes()), ("torn.edf", part[:10_000])]))
    it.says("✕ torn.edf It was cut.")
    it.chooses("Add files", [it.made("card.edf", (OXIMETER / "card.edf").read_bytes())])
    it.says("✓ 2 files in 1 recording.", "1 torn file: nothing is missing because of that")
    it.same("no alarm", "✕" in it.bench.words(), False)
    it.looks("a torn piece beside its card")
    it.unfold("1 torn file: nothing is missing because of that")
    it.hands.use("button", "Remove: torn.edf")
    del it.paths[1]
    it.gives("without the torn piece")


def two_nights(it: Technician) -> None:
    """Two nights without a code are told apart before anything is saved."""
    it.open()
    rooms = written(it.folder / "rooms", [
        ("room1.edf", anonymous("04.11.23", "04-NOV-2023", 1)),
        ("room2.edf", anonymous("05.11.23", "05-NOV-2023", 2))])
    it.chooses("Choose files", rooms)
    it.says("Is this one night of one person? Between room1.edf and room2.edf is a gap of 23 h, "
            "and no file has the patient's code.")
    it.looks("two nights in one recording")
    it.press("Separate into two recordings")
    each = [it.native.given(it.folder, [path]) for path in rooms]
    it.same("two recordings", it.bench.given(), [
        "".join(taken for taken, _, _ in each), "".join(listed for _, listed, _ in each),
        [recording for _, _, recordings in each for recording in recordings]])
    it.says("✓ 2 files in 2 recordings.")
    it.looks("two nights apart")
    it.press("Put them together again")
    it.paths = rooms
    it.gives("two nights together again")
    it.press("Separate into two recordings")
    again = written(it.folder / "again", [("again.edf", rooms[1].read_bytes())])
    it.after(lambda: (it.hands.use("button", "Add files"), it.hands.give(again)))
    it.same("a later file comes to its own night", [line.split(" ", 1)[1] for line in
            it.bench.given()[0].splitlines()], ["accepted new=60 known=0"] * 2 +
            ["accepted new=0 known=60"])
    it.press("Put them together again")
    it.hands.use("button", "Keep together")
    it.same("it asks no more", it.hands.has("button", "Separate into two recordings"), False)


def filled(it: Technician) -> None:
    """A copy for viewing is put aside, and the exact recording taken."""
    it.open()
    exact = page_files.seconds(3)
    copy = exact[:88] + (exact[88:168].rstrip() + b" filled").ljust(80) + exact[168:]
    paths = written(it.folder / "filled", [("view.edf", copy), ("exact.edf", exact)])
    it.after(lambda: (it.hands.use("button", "Choose files"), it.hands.give(paths)))
    it.paths = paths[1:]
    it.gives("the exact one")
    it.says("1 other file left aside")
    it.unfold("1 other file left aside")
    it.says("view.edf a copy for viewing; drop the exact one")


def no_recordings(it: Technician) -> None:
    """Files of other formats are named by their first bytes, and are not read."""
    paths = written(it.folder / "none", [(name, data) for name, (data, _) in NONE.items()])
    os.truncate(paths[-1], VIDEO)
    good = written(it.folder / "none-good", [("good.edf", page_files.seconds(3))])
    costs = []
    for _ in range(TRIES):
        it.open()
        it.chooses("Choose files", good)
        before = it.bench.browser.value("window.cost")
        it.after(lambda: (it.hands.use("button", "Add files"), it.hands.give(paths)))
        cost = it.bench.browser.value("window.cost")
        costs.append([cost[name] - before[name] for name in ("milliseconds", "memory")])
    more, memory = min(costs)[0] / 1000, max(bytes_ for _, bytes_ in costs)
    it.same(f"{more:.2f} s more for five files", more <= MOST_SECONDS * len(paths), True)
    it.same(f"{memory:,} bytes more", memory <= MOST_MEMORY, True)
    it.says("✓ 1 file in 1 recording.", "5 other files left aside")
    it.unfold("5 other files left aside")
    it.says(*(f"{name} {what}" for name, (_, what) in NONE.items()))
    it.looks("other files left aside")
    it.hands.use("button", "Remove all 5")
    it.paths = good
    it.gives("without the other files")


def pulled_card(it: Technician) -> None:
    """What was read stays: a card that is pulled out, then a file that can't be read."""
    it.open()
    card, late = written(it.folder / "pulled", [
        ("card.edf", page_files.seconds(30)), ("late.edf", page_files.seconds(3, "01.00.00"))])
    it.chooses("Choose files", [card])
    kept = card.read_bytes()
    card.unlink()
    it.after(lambda: (it.hands.use("button", "Add files"), it.hands.give([late])))
    card.write_bytes(kept)
    it.paths.append(late)
    it.gives("a file beside a card that is pulled")
    it.unfold("Other files to save")
    it.hands.use("button", "Save the exact recording (2 kB)")
    it.hands.saved("N1_2002-03-02T01_00_00_exact.edf")
    it.same("it is saved", it.bench.browser.value(LEAVES), False)
    before = it.bench.given()
    it.unfold("2 files used")
    late.unlink()
    card.unlink()
    it.same("it can't be read", it.press("Remove: card.edf"), "failed")
    it.says("✕ Nothing was added: what is below stays as it was.", "late.edf can't be read, or "
            "changed since it was chosen.")
    it.same("the result", it.bench.given(), before)
    it.same("it is saved", it.bench.browser.value(LEAVES), False)
    it.looks("a pulled card")


def waits(it: Technician) -> None:
    """A file that is dropped while another is read waits, and is taken then. What was saved stays
    saved while its bytes are the same."""
    it.open()
    one, two, known = written(it.folder / "waits", [
        ("one.edf", page_files.seconds(4_000, "01.00.00")),
        ("two.edf", page_files.seconds(30, "03.00.00")),
        ("known.edf", page_files.seconds(30, "03.00.00"))])
    it.hands.use("button", "Choose files")
    it.hands.give([one])
    it.until("document.body.dataset.state === 'busy'")
    it.hands.drop([two])
    it.until("now.files.length === 2 && document.body.dataset.state === 'done'")
    it.paths = [one, two]
    it.gives("a file that waited")
    it.same("it asks", it.bench.browser.value(LEAVES), True)
    export = (it.folder / "export.edf").read_bytes()
    it.saves(f"Save the exact recording ({-(-len(export) // 1000)} kB)",
             "N1_2002-03-02T01_00_00_exact.edf", export)
    it.same("it is saved", it.bench.browser.value(LEAVES), False)
    it.chooses("Add files", [known])
    it.same("it is saved still", it.bench.browser.value(LEAVES), False)


def all_of_it(bench: Any, hands: Any, folder: Path, native: Any) -> None:
    it = Technician(bench, hands, folder / "morning", native)
    it.folder.mkdir(parents=True)
    for story in (plain_pieces, torn, two_nights, filled, no_recordings, pulled_card, waits):
        story(it)
