"""Reads the edits that must fail: those of the gate, and those beside it, which stand here.

An edit of the gate is a file crates/CRATE/must-fail/NAME.edit. The others of a crate are one text
of this folder, CRATE.edits, with a block for each: a line `== NAME`, and then the lines `file:`,
`old:` and `new:`, as such a file has them. A blank line parts two blocks.
"""
import re
import sys
from dataclasses import dataclass
from itertools import pairwise
from pathlib import Path

from checks.lib import arguments

HERE, CRATES = Path(__file__).resolve().parent, arguments.TOP / "crates"
HEADING = re.compile(r"^==(.*)\n", re.MULTILINE)
PART = re.compile(r"file: (.+)\n((?:old: .*\nnew: .*\n)+)")
PAIR = re.compile(r"old: (.*)\nnew: (.*)\n")


@dataclass(frozen=True, order=True)
class Edit:
    """An edit, the crate whose files it changes, and whether the gate tries it."""
    crate: str
    name: str
    text: str
    is_of_gate: bool

    def __str__(self) -> str:
        return f"{self.crate}/{self.name}"

    @property
    def is_well_formed(self) -> bool:
        return bool(self.text) and not PART.sub("", self.text)

    def changes(self) -> list:
        """The file, the old text and the new one of each of its pairs of lines."""
        return [(name, old, new) for name, pairs in PART.findall(self.text)
                for old, new in PAIR.findall(pairs)]


def of_gate() -> list:
    return [Edit(path.parents[1].name, path.stem, path.read_text(), True)
            for path in CRATES.glob("*/must-fail/*")]


def blocks(path: Path) -> list:
    """The edits of one text."""
    before, *parts = HEADING.split(path.read_text())
    names = parts[::2]
    if before or not names:
        sys.exit(f"{path} does not begin with a heading")
    for name in names:
        if not re.fullmatch(r" \w+", name):
            sys.exit(f"{path} has a heading that is no name: =={name}")
    return [Edit(path.stem, name[1:], block.rstrip("\n") + "\n", False)
            for name, block in zip(names, parts[1::2])]


def edits(crates: list) -> list:
    """All edits, or those of these crates, in the order of their crates and names."""
    beside = [edit for path in HERE.glob("*.edits") for edit in blocks(path)]
    found = sorted(of_gate() + beside)
    for edit, after in pairwise(found):
        if str(edit) == str(after):
            sys.exit(f"two edits have the name {edit}")
    return [edit for edit in found if not crates or edit.crate in crates]
