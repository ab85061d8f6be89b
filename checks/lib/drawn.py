"""Reads a picture of a night back: who and when, the strip, the stages of sleep, the lanes and the
bands, column by column, from the shapes as they are drawn."""
import re
from dataclasses import dataclass
from xml.etree import ElementTree

from .glance import COLUMNS, Edges

SVG = "{http://www.w3.org/2000/svg}"
LEVELS = {0: "W", 15: "R", 30: "N1", 45: "N2", 60: "N3"}


@dataclass(frozen=True)
class Picture:
    """What a picture has; `texts` are all that are not over the axis, by class and place."""
    title: str
    described: str
    texts: list[str]
    strip: str
    stages: list[str]
    rem: str
    lanes: list[str]
    bands: list[Edges]


def columns_of(share: str) -> int:
    """Columns of a share of the axis, as `12.5%`."""
    return round(10 * float(share.removesuffix("%")))


def boxes(path: str, high: int) -> list[tuple[int, int, int]]:
    """The first column, how many, and the top of each box of this height in a path."""
    shape = rf"M(\d+) (\d+)h(\d+)v{high}h-\3z"
    return [(int(first), int(top), int(count)) for first, top, count in re.findall(shape, path)]


def marked(path: str, high: int) -> str:
    """A letter for each column: `x` where a box is."""
    letters = ["."] * COLUMNS
    for first, _, count in boxes(path, high):
        letters[first:first + count] = "x" * count
    return "".join(letters)


def strip_of(inner: ElementTree.Element) -> str:
    letters = ["r"] * COLUMNS
    for box in inner.iter(SVG + "rect"):
        kind = box.get("class")
        if kind in ("p", "g"):
            first, count = columns_of(box.get("x", "")), columns_of(box.get("width", ""))
            letters[first:first + count] = kind * count
    return "".join(letters)


def stages_of(path: str) -> list[str]:
    letters = [""] * COLUMNS
    for first, top, count in boxes(path, 3):
        letters[first:first + count] = [LEVELS[top]] * count
    return letters


def band_of(path: str) -> Edges:
    """The upper and the lower edge of each column that a band has."""
    found: Edges = [None] * COLUMNS
    for column, top, foot in re.findall(r"M(\d+)\.5 (\d+)V(\d+)", path):
        found[int(column)] = int(top), int(foot)
    return found


def read(picture: str) -> Picture:
    """What is in a picture; an error where it is not well-formed."""
    root = ElementTree.fromstring(picture)
    inner = root.find(SVG + "svg")
    paths: dict[str, list[str]] = {} if inner is None else {
        kind: [path.get("d", "") for path in inner.iter(SVG + "path") if path.get("class") == kind]
        for kind in "sqxa"}
    return Picture(
        root.findtext(SVG + "title", ""), root.findtext(SVG + "desc", ""),
        [text.text or "" for text in root.findall(SVG + "text")],
        "" if inner is None else strip_of(inner),
        stages_of(paths["s"][0]) if paths.get("s") else [""] * COLUMNS,
        marked(paths["q"][0], 7) if paths.get("q") else "." * COLUMNS,
        [marked(path, 9) for path in paths.get("x", [])],
        [band_of(path) for path in paths.get("a", [])])
