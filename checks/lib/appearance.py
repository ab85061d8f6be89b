"""How the page looks where a state does not show it: on paper, in its picture's letters, with long
names, while it works, in a screen's own colours, and under About; by keyboard alone."""
from __future__ import annotations

import re
import zlib
from pathlib import Path
from typing import Any

from . import looks, page_files
from .natively import written
from .night import Night
from .second_thoughts import named, piece
from .technician import OXIMETER, Technician, spread

A4 = (595.3, 841.9)             # points
PAGES, BOX = rb"/Type\s*/Page\b(?!s)", rb"/MediaBox\s*\[\s*0\s+0\s+([\d.]+)\s+([\d.]+)\s*\]"
LITTLE = Night(records=2_000, fragments=1)       # 13 MB
LEAST_LETTERS = 11              # pixels, of the picture
MANY = 200                      # data records with a gap behind each
# The picture as it is on the screen; and of the picture itself the letters, and how dark it is
WIDTH = "document.querySelector('.picture img').getBoundingClientRect().width"
LETTERS = """(() => {
  const texts = [...document.querySelectorAll("text")].filter((it) => it.getClientRects().length);
  const sizes = texts.map((it) => parseFloat(getComputedStyle(it).fontSize) * it.getScreenCTM().a);
  return [Math.min(...sizes), getComputedStyle(document.querySelector("rect.w")).fill,
    getComputedStyle(texts[0]).fill];
})()"""
BROKEN = """[...document.querySelectorAll("button")].filter((it) => it.checkVisibility() &&
  it.closest("table") && it.getBoundingClientRect().height > 44).map((it) => it.ariaLabel)"""
# What moves, and how far the bar is, in each phase of a job
PHASES = """(() => {
  const top = () => document.getElementById("results").getBoundingClientRect().top + scrollY;
  window.phases = [];
  new MutationObserver(() => window.phases.push([document.getElementById("doing").textContent,
    document.getElementById("progress").position >= 0, top()]))
    .observe(document.getElementById("doing"), { childList: true });
})()"""


def parts_of(data: bytes) -> bytes:
    """A PDF with what is deflated in it."""
    found = [data]
    for it in re.finditer(rb"stream\r?\n(.*?)\r?\nendstream", data, re.DOTALL):
        try:
            found.append(zlib.decompress(it[1]))
        except zlib.error:
            continue
    return b"\n".join(found)


def paper(it: Technician) -> None:
    """A page of A4 for each recording, with its picture; also of one with many gaps."""
    it.open()
    parts = [(f"part{nth}.edf", (OXIMETER / f"part{nth}.edf").read_bytes()) for nth in (1, 6)]
    gaps = [("gaps.edf", spread(list(range(0, 60 * MANY, 60)), []))]
    for what, files, pages in (("a night", parts, 1), ("a night with many gaps", gaps, 1),
                               ("two nights", [*parts, *gaps], 2)):
        it.open()
        it.chooses("Choose files", written(it.folder / what, files))
        printed = it.hands.printed()
        if not printed:
            return
        inside = parts_of(printed)
        it.same(f"{what}: pages", len(re.findall(PAGES, inside)), pages)
        sides = [[float(side) for side in box] for box in re.findall(BOX, inside)]
        it.same(f"{what}: {sides} is A4", bool(sides) and all(
            abs(side - own) < 1 for box in sides for side, own in zip(box, A4)), True)
        if it.bench.shots:
            (it.bench.shots / f"{it.bench.name}-{what.replace(' ', '-')}.pdf").write_bytes(printed)
        it.bench.browser.value("document.querySelectorAll('img').forEach((it) => it.remove())")
        it.same(f"{what}: the picture is on it", len(it.hands.printed()) < len(printed), True)


def letters(it: Technician) -> None:
    """The letters of the picture on each screen, and its colours with those of the screen."""
    it.open()
    it.chooses("Choose files", written(it.folder / "letters", [
        ("part1.edf", (OXIMETER / "part1.edf").read_bytes())]))
    widths = {}
    for screen, (width, height) in looks.SIZES.items():
        it.hands.screen(width, height, False)
        widths[screen] = round(it.bench.browser.value(WIDTH))
    picture = it.folder / "letters.svg"
    picture.write_text(it.bench.browser.value("window.answer.recordings[0].picture"))
    it.bench.browser.open(picture)
    for screen, width in widths.items():
        for is_dark in (False, True):
            it.hands.screen(width, 900, is_dark)
            least, back, letter = it.bench.browser.value(LETTERS)
            it.same(f"letters of {least} px, {screen}", least >= LEAST_LETTERS, True)
            it.same(f"{letter} on {back}, {screen}", back != letter, True)
            if is_dark and it.hands.has_colours:
                it.same("a dark picture", max(map(int, re.findall(r"\d+", back))) < 60, True)
    it.hands.screen(*looks.SIZES["wide"], False)


def long_names(it: Technician) -> None:
    """Names without a place to break, of files that are taken and that are not."""
    it.open()
    good = piece(60, "22.00.00", **named("P7"))
    it.chooses("Choose files", written(it.folder / "long", [
        ("n" * 180 + ".edf", good), ("c" * 180 + ".edf", good[:-100]),
        ("d" * 180 + ".edf", piece(60, "22.00.00", 1, **named("P7")))]))
    for text in ("1 file used", "Details", "1 torn file: nothing is missing because of that"):
        it.unfold(text)
    for screen, (width, height) in looks.SIZES.items():
        it.hands.screen(width, height, False)
        it.same(f"buttons that break, {screen}", it.bench.browser.value(BROKEN), [])
    it.looks("long names")


def phases(it: Technician) -> None:
    """While it works nothing moves, and in each phase the bar knows how far it is, or moves."""
    it.open()
    card = it.made("card.edf", b"")
    LITTLE.card(card)
    it.chooses("Choose files", [card])
    it.bench.browser.value(PHASES)
    it.chooses("Add files", written(it.folder / "phases", [("more.edf", page_files.seconds(9))]))
    told = it.bench.browser.value("window.phases")
    it.same(f"{told}: nothing moved", len({top for _, _, top in told}), 1)
    for words, knows in ((r"Reading .* of ", True), (r"Checking and joining ", False)):
        some = {knew for text, knew, _ in told if re.match(words, text)}
        it.same(f"{words}: {told}", some, {knows})


def about(it: Technician) -> None:
    """What the page is, in which browsers it was tried, this one among them, and the licences."""
    it.open()
    it.unfold("About this page")
    it.unfold("Licence and notices")
    text = " ".join(it.bench.browser.value("document.querySelector('footer').innerText").split())
    own = re.findall(r"(?:(Chrom)e|(Firefox))/(\d+)", it.bench.browser.value("navigator.userAgent"))
    for part in (r"edfstore \d+\.\d+\.\d+[^ ]*\.", "not in Safari or on an iPad",
                 "no medical device", "MIT License", "sqlite",
                 *(f"{one}{other}(?:ium)? {number}" for one, other, number in own)):
        it.same(f"{part!r} is under About", bool(re.search(part, text)), True)
    it.looks("about")


def own_colours(it: Technician) -> None:
    """With a screen's own colours, as people have them who see little."""
    it.open()
    it.chooses("Choose files", written(it.folder / "colours", [
        ("part1.edf", (OXIMETER / "part1.edf").read_bytes()), ("text.edf", b"no recording" * 90)]))
    if it.hands.has_colours:
        it.hands.colours("forced-colors", "active")
        it.same("forced colours", looks.wrong(it.bench.browser), [])
        it.bench.shot("forced colours")
        it.hands.screen(*looks.SIZES["wide"], False)


def all_of_it(bench: Any, hands: Any, folder: Path, native: Any) -> None:
    it = Technician(bench, hands, folder / "appearance", native)
    it.folder.mkdir(parents=True)
    for story in (paper, letters, long_names, phases, about, own_colours):
        story(it)
