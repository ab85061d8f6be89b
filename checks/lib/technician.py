"""A technician and the page, by keyboard alone: a night in pieces with one that was cut, one of
other letters and a foreign one; why, and mending; the memory card; what is saved; cards of EDFlib;
cancelling; and files that change later. All that is given and saved must be the programs'."""
import json
import re
import time
from datetime import datetime, timedelta
from pathlib import Path

from . import looks, page_files
from .arguments import TOP
from .checks import Lost
from .edf import Header, Signal, annotations_signal, fragment, keeping, tal
from .hands import MOST_TABS
from .natively import sum_of, written

OXIMETER = TOP / "examples/oximeter"
NAME = "OX-7_2023-11-04T22_15_00"
# How often the page's state changed, so that a job's end is not taken for the state before it
WATCH = """(() => {
  window.changes = 0;
  new MutationObserver((all) => { window.changes += all.length; })
    .observe(document.body, { attributeFilter: ["data-state"] });
})()"""
SECONDS = 60            # that a step may take
TEXT = "document.getElementById('fault').innerText + document.getElementById('results').innerText"
GAPS = """[...document.querySelectorAll("article details tbody tr")].map(({ cells }) =>
  [...cells].map((it) => it.textContent))"""
# Where a line that folds something is from the focus: 0 there, 1 behind it, else -1
FOLD = """(() => {
  const it = [...document.querySelectorAll("summary")].find((one) =>
    !one.parentElement.open && one.checkVisibility() && one.textContent === TEXT);
  const at = document.activeElement;
  if (!it || it === at) return it ? 0 : null;
  return at === document.body || (it.compareDocumentPosition(at) & 2) ? 1 : -1;
})()"""
# The files that are chosen are held back, and then let go
HELD = """document.getElementById("files").addEventListener("change", (event) => {
  event.stopImmediatePropagation();
  window.chosen = [...event.target.files];
}, { capture: true, once: true })"""
LET_GO = "document.getElementById('files').dispatchEvent(new Event('change'))"
LEAVES = """(() => {
  const event = new Event("beforeunload", { cancelable: true });
  dispatchEvent(event);
  return event.defaultPrevented;
})()"""
IS_ASKED = "document.getElementById('question').open"
CODE = ("The patient's code: 1 to 60 letters, digits or signs, no accents, no space, and not X "
        "alone")
JOINS = "It joins its night."
IS_OWN = ("It doesn't join its night: what names its recording changes, and that then ends in "
          "“mended”.")


def names_file() -> bytes:
    """A file whose patient is spelled in Latin-1, without a code."""
    data = page_files.seconds(40, "23.10.00")
    return data[:8] + "Müller Hans".encode("latin-1").ljust(80) + data[88:]


def spread(starts: list, onsets: list) -> bytes:
    """Data records that start then, the n-th of which has the n-th annotation, as EDFlib has it."""
    header = Header((Signal("EEG"), annotations_signal(20)), count=str(len(starts)),
                    starttime=f"01.00.{starts[0]:02}", patient="P9 F 02-MAY-1951 X")
    samples = bytes(2 * int(header.signals[0].samples))
    records = [(samples, keeping(f"+{start - starts[0]}") + (
        tal(f"+{onsets[nth] - starts[0]}", "Snore") if nth < len(onsets) else b""))
        for nth, start in enumerate(starts)]
    return fragment(header, records)


def lasting(seconds: float) -> str:
    """Seconds as a person says them."""
    parts = (int(seconds // 3600), "h"), (int(seconds // 60 % 60), "min"), (seconds % 60, "s")
    return " ".join(f"{number:g} {unit}" for number, unit in parts if number)


def clock(at: datetime) -> str:
    """A time with its day, without seconds where there are none."""
    part = f".{at.microsecond:06}".rstrip("0") if at.microsecond else ""
    seconds = f":{at.second:02}{part}" if at.second or part else ""
    return f"{at.hour:02}:{at.minute:02}{seconds} on {at.day} {at:%b} {at.year}"


def gaps(runs: str) -> list:
    """What is missing by the lines of edfruns: from, to and how long."""
    found = []
    for line in runs.splitlines():
        told = dict(re.findall(r"(\w+)=(\S+)", line))
        if "gap" in told:
            gap = float(told["gap"])
            begin = datetime.fromisoformat(told["first"]) + timedelta(0, float(told["seconds"]))
            found.append([*map(clock, (begin, begin + timedelta(0, gap))), lasting(gap)])
    return found


class Technician:
    def __init__(self, bench, hands, folder: Path, native):
        self.bench, self.hands, self.native = bench, hands, native
        self.folder = folder / f"technician-{bench.name}"
        self.paths, self.taken = [], ""

    def open(self) -> None:
        self.bench.browser.open(self.bench.page)
        self.bench.browser.value(WATCH)
        self.hands.begin()
        self.paths = []

    def after(self, act) -> str:
        """The state once the job that this begins has ended."""
        before = self.bench.browser.value("window.changes")
        act()
        self.until(f"window.changes >= {before + 2}")
        return self.bench.wait()

    def until(self, test: str) -> None:
        """Waits until a script says so."""
        stop = time.monotonic() + SECONDS
        while not self.bench.browser.value(test):
            if time.monotonic() > stop:
                raise Lost(f"{self.bench.name}: never {test}")
            time.sleep(0.02)

    def press(self, name: str, role: str = "button", key: str = "Enter") -> str:
        return self.after(lambda: self.hands.use(role, name, key))

    def same(self, what: str, got, expected) -> None:
        self.bench.same(f"technician: {what}", got, expected)

    def gives(self, what: str, shown: list = ()) -> None:
        """The page's answer is the programs' of all files that it has."""
        expected = self.native.given(self.folder, self.paths, shown)
        self.taken = expected[0]
        self.same(what, self.bench.given(), expected)

    def starts_over(self, *asked: str) -> None:
        """It asks first where it is to name what is not saved."""
        before = self.bench.given()
        self.hands.use("button", "Start over")
        self.same("it asks", self.bench.browser.value(IS_ASKED), bool(asked))
        if asked:
            self.same("what is not saved", self.bench.browser.value(
                "document.getElementById('unsaved').textContent"), "; ".join(asked))
            self.looks("what is not saved")
            self.hands.use("button", "Keep it")
            self.same("it is kept", self.bench.given(), before)
            self.hands.use("button", "Start over")
            self.hands.use("button", "Throw it away")
        self.same("the state", self.bench.browser.value("document.body.dataset.state"), "idle")
        self.same("nothing is left", self.bench.given(), None)
        self.same("what has the focus", self.bench.browser.value("document.activeElement.id"),
                  "choose-files")
        self.paths = []

    def chooses(self, button: str, paths: list) -> None:
        def choose():
            self.hands.use("button", button)
            self.hands.give(paths)
        self.paths = self.paths + paths
        state = self.after(choose)
        self.same(f"files are taken: {self.bench.words() if state == 'failed' else ''}", state,
                  "done")
        self.gives(f"{button}, {len(paths)} files")

    def unfold(self, text: str) -> None:
        """Opens what is folded under this line."""
        for _ in range(MOST_TABS):
            where = self.bench.browser.value(FOLD.replace("TEXT", json.dumps(text)))
            if where is None:
                raise Lost(f"{self.bench.name}: nothing is folded under {text!r}")
            if where == 0:
                return self.hands.press("Enter")
            self.hands.press("Tab", shift=where < 0)
        raise Lost(f"{self.bench.name}: {text!r} is not within {MOST_TABS} presses of Tab")

    def saves(self, button: str, name: str, data: bytes) -> None:
        self.hands.use("button", button)
        self.same(f"{button}: {name}", sum_of(self.hands.saved(name)), sum_of(data))

    def looks(self, what: str) -> None:
        """Each state, by its names, and on both screens, light and dark."""
        self.same(f"{what}: controls without a name", self.hands.nameless(), [])
        self.same(f"{what}: words of a terminal", re.findall(
            r"edfmend|Usage|printf|--[a-z]+", self.bench.browser.value(TEXT)), [])
        for screen, (width, height) in looks.SIZES.items():
            for is_dark in (False, True):
                self.hands.screen(width, height, is_dark)
                shade = "dark" if is_dark else "light"
                self.same(f"{what}, {screen}, {shade}", looks.wrong(self.bench.browser), [])
                self.bench.shot(f"{what} {screen} {shade}")
        self.hands.screen(*looks.SIZES["wide"], False)

    def says(self, *parts: str) -> None:
        text = " ".join(self.bench.browser.value(TEXT).split())
        for part in parts:
            self.same(f"{part!r} in {text!r}", part in text, True)

    def answers(self, field: str, text: str, before: str = "") -> None:
        """Types an answer in place of the one before, and has the page look at it."""
        self.hands.go("textbox", field)
        for _ in before:
            self.hands.press("Backspace")
        self.hands.write(text)
        self.after(lambda: self.hands.press("Enter"))

    def mend(self, name: str, data: bytes, *words) -> tuple:
        """What edfmend tells and makes of a file."""
        folder = self.folder / "mend"
        folder.mkdir(exist_ok=True)
        (folder / "in.edf").write_bytes(data)
        (folder / name).unlink(missing_ok=True)
        ledger = self.native.run(self.native.edfmend, folder, "in.edf", name, *words)
        return ledger, (folder / name).read_bytes()

    def saves_mended(self, name: str, ledger: bytes, mended: str) -> None:
        """A mended file of one run is saved as EDF+C, as edfruns splits it, and its changes say so."""
        folder = self.folder / "mend"
        self.native.run(self.native.edfruns, folder, "split", mended, name)
        [path] = folder.glob(f"{name}-[0-9]*")
        self.same(f"{name}: EDF+C", path.read_bytes()[192:197], b"EDF+C")
        ledger = ledger.replace(b'reserved at=192 old="EDF+C" new="EDF+D"\n', b"")
        self.saves("Save the list of changes", f"{name}-changes.txt",
                   f"{name}.edf\n".encode() + ledger.replace(b'new="EDF+D"', b'new="EDF+C"'))
        self.saves("Save the mended file", f"{name}-mended.edf", path.read_bytes())

    def made(self, name: str, data: bytes) -> Path:
        return written(self.folder / f"made-{len(list(self.folder.iterdir()))}", [(name, data)])[0]


def first_look(it: Technician) -> None:
    """What a screen reader is told at first, and how it looks."""
    it.open()
    it.looks("idle")
    for role, name in (("button", "Choose files"), ("button", "Choose a folder"),
                       ("heading", "Drop the files of a night here")):
        it.same(f"{role} {name}", it.hands.has(role, name), True)


def night(it: Technician) -> None:
    parts = {nth: (OXIMETER / f"part{nth}.edf").read_bytes() for nth in (1, 2, 3, 6)}
    cut = parts[3][:10_000]
    it.chooses("Choose files", written(it.folder, [
        ("part2.edf", parts[2]), ("part1.edf", parts[1]), ("cut.edf", cut),
        ("notes.txt", b"no recording\n" * 40), ("names.edf", names_file()),
        ("part6.edf", parts[6]), ("part2.edf", parts[2])]))
    it.says("✓ 4 files in 1 recording. ✕ 2 files not used.",
            "Patient S-0118, Sleeper, born 28 Feb 1979, investigation OX-7",
            "✕ cut.edf It was cut. Get it again, or mend it: what is whole of it is used.",
            "✕ names.edf The patient's name has an “ü”, which EDF does not know.",
            "1 other file left aside")
    it.looks("refused")
    mends_cut(it, cut)
    mends_names(it)
    it.chooses("Add files", [it.made("card.edf", (OXIMETER / "card.edf").read_bytes())])
    it.says("✓ 7 files in 2 recordings.")
    it.looks("with the card")


def mends_cut(it: Technician, cut: bytes) -> None:
    """The file that was cut comes to its night."""
    it.same("mending is looked at", it.press("Mend it: cut.edf", key=" "), "done")
    ledger, front = it.mend("front.edf", cut)
    it.says(JOINS)
    it.saves_mended("cut", ledger, "front.edf")
    it.looks("mending")
    it.paths = [*it.paths[:2], *it.paths[3:], it.made("cut.edf (mended)", front)]
    it.same("it is taken", it.press("Use it"), "done")
    it.gives("with the mended file")


def mends_names(it: Technician) -> None:
    """What edfmend asks is asked, and answered with a wrong code first."""
    it.press("Mend it: names.edf")
    it.says("names.edf: It names no code of a patient: type the code.")
    it.looks("mending asks")
    it.answers(CODE, "S 1")
    it.says("This is no code as the field wants it.")
    it.same("no mended file", it.hands.has("button", "Save the mended file"), False)
    it.answers(CODE, "S-9", before="S 1")
    ledger, mended = it.mend("new.edf", names_file(), "--patient", "S-9")
    it.says("names.edf S-9, Mueller Hans 23:10 on 2 Mar 2002", IS_OWN)
    it.saves_mended("names", ledger, "new.edf")
    it.paths = [*it.paths[:3], *it.paths[4:], it.made("names.edf (mended)", mended)]
    it.press("Use it")
    it.gives("with both mended files")


def saves_all(it: Technician) -> None:
    """The oximeter's night alone: all that may be saved of it."""
    it.starts_over("Patient S-0118, Sleeper, born 28 Feb 1979, investigation OX-7",
                   "Patient S-9, Mueller Hans, investigation N1")
    it.chooses("Choose files", written(it.folder / "saved", [
        (f"part{nth}.edf", (OXIMETER / f"part{nth}.edf").read_bytes()) for nth in (2, 1, 6)]))
    export = (it.folder / "export.edf").read_bytes()
    runs = it.native.run(it.native.edfruns, it.folder, "list", "export.edf")
    picture = it.native.run(it.native.edfruns, it.folder, "picture", "export.edf")
    plain = it.native.run(it.native.edfruns, it.folder, "picture", "--without-code", "export.edf")
    filled = it.native.run(it.native.edfruns, it.folder, "fill", "export.edf")
    exact = f"Save the exact recording ({-(-len(export) // 1000)} kB)"
    it.says("Recorded from 22:15 on 4 Nov 2023 to 06:15 on 5 Nov 2023 with 1 gap of 4 h. These "
            "files can't show whether the recorder also ran before or after.")
    it.saves("Save for viewing (gaps are flat)", f"{NAME}_view.edf", filled)
    it.same("it asks still", it.bench.browser.value(LEAVES), True)
    it.saves(exact, f"{NAME}_exact.edf", export)
    it.same("it is saved", it.bench.browser.value(LEAVES), False)
    it.unfold("1 gap: from, to and how long")
    it.same("gaps", it.bench.browser.value(GAPS), gaps(runs.decode()))
    it.unfold("Other files to save")
    it.saves("Save the picture", f"{NAME}.svg", picture)
    it.saves("Save the picture without the patient's code", f"{NAME}-without-code.svg", plain)
    saves_runs(it, "Save 2 files, one for each stretch", "OX-7")
    it.looks("all that may be saved")
    it.hands.use("checkbox", "The patient's code in the names of saved files", " ")
    it.saves(exact, f"S-0118_{NAME}_exact.edf", export)
    it.hands.use("checkbox", "The patient's code in the names of saved files", " ")
    it.unfold("3 files used")
    it.saves("Save the list of files", "edfstore-answers.txt",
             "".join(it.bench.given()[:2]).encode())
    it.starts_over()


def saves_runs(it: Technician, button: str, name: str) -> None:
    """A file for each stretch, by its own start, with the annotations of its time."""
    folder = it.folder / "runs"
    folder.mkdir(exist_ok=True)
    (it.folder / "sorted.edf").write_bytes(it.native.run(
        it.native.edfruns, it.folder, "canonical", "--by-onset", "export.edf"))
    told = it.native.run(it.native.edfruns, it.folder, "split", "sorted.edf", "runs/run")
    it.hands.use("button", button)
    firsts = re.findall(r" first=(\S+)", told.decode())
    for first, path in zip(firsts, sorted(folder.iterdir()), strict=True):
        saved = it.hands.saved(f"{name}_{first.replace(':', '_')}_stretch.edf")
        it.same(f"{button}: {first}", sum_of(saved), sum_of(path.read_bytes()))
        path.unlink()


def by_onset(it: Technician) -> None:
    """A card and a piece whose annotations are spread as EDFlib has them: E31 as they are, and one
    recording by onset; and as they came again."""
    starts = [*range(0, 8), *range(20, 26)]
    files = [("card.edf", spread(starts, [2, 5, 6, 22])),
             ("piece.edf", spread(starts[4:8], [5, 6]))]
    unsorted = written(it.folder / "spread", files)
    it.chooses("Choose files", unsorted)
    it.says("✕ piece.edf It contradicts a file that was added before it")
    it.looks("refused beside its pieces")
    it.unfold("Other files to save")
    saves_runs(it, "Save 2 files, one for each stretch", "N1")
    it.same("it is sorted", it.press("Sort all annotations by their times"), "done")
    it.paths = written(it.folder / "sorted", [(path.name, it.native.run(
        it.native.edfruns, path.parent, "canonical", "--by-onset", path.name))
        for path in unsorted])
    it.gives("by onset")
    it.unfold("2 files used")
    it.press("Use annotations as they came")
    it.paths = unsorted
    it.gives("as they came again")


def cancels(it: Technician, big: Path) -> None:
    """A job that is cancelled leaves what was here before; Escape is enough."""
    before = it.bench.given()
    it.hands.use("button", "Add files")
    it.hands.give([big])
    it.until("document.body.dataset.state === 'busy'")
    it.bench.shot("busy")
    it.same("the button", it.hands.has("button", "Cancel"), True)
    it.hands.press("Escape")
    it.same("after it", it.bench.wait(), "done")
    it.same("what was here before", it.bench.given(), before)


def changes_later(it: Technician) -> None:
    """A file that changed since it was chosen is named, and nothing comes of it; then the others
    are taken."""
    it.open()
    good = page_files.seconds(40)
    paths = written(it.folder / "later", [("one.edf", page_files.seconds(3, "01.00.00")),
                                          ("changed.edf", good), ("two.edf", good[:-100])])
    it.bench.browser.value(HELD)
    it.hands.use("button", "Choose files")
    it.hands.give(paths)
    it.until("window.chosen")
    time.sleep(1.1)
    paths[1].write_bytes(good[:-50])
    it.same("a file that changed", it.after(lambda: it.bench.browser.value(LET_GO)), "failed")
    it.bench.offers_nothing("a file that changed", "changed.edf", "Nothing was added.")
    it.looks("a file that changed")
    it.paths = [paths[0], paths[2]]
    it.same("the others", it.press("Go on with 2 other files"), "done")
    it.gives("the others")


def drops(it: Technician) -> None:
    """What is dropped is as what is chosen; hidden files of a folder are left out."""
    it.open()
    it.paths = written(it.folder / "dropped", [
        (f"part{nth}.edf", (OXIMETER / f"part{nth}.edf").read_bytes()) for nth in (1, 2)])
    it.same("drop", it.after(lambda: it.hands.drop(it.paths)), "done")
    it.gives("dropped files")
    if not it.hands.has_folders:
        return
    (it.folder / "dropped/.DS_Store").write_bytes(bytes(300))
    it.after(lambda: it.hands.drop([it.folder / "dropped", it.paths[0]]))
    inside = [str(path.relative_to(it.folder)) for path in it.paths]
    it.paths = [*it.paths, *it.paths, it.paths[0]]
    it.gives("a dropped folder of folders, and a file",
             ["part1.edf", "part2.edf", *inside, "part1.edf"])


def all_of_it(bench, hands, folder: Path, native, big: Path | None = None) -> None:
    it = Technician(bench, hands, folder, native)
    it.folder.mkdir()
    first_look(it)
    night(it)
    saves_all(it)
    by_onset(it)
    if big:
        cancels(it, big)
    changes_later(it)
    drops(it)
