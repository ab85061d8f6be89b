"""Tells which functions an edit changes, and what a check of the crate says of a function."""
import re
from dataclasses import dataclass
from pathlib import Path

from .texts import CRATES, Edit

FUNCTION = re.compile(
    r"(\s*)(?:pub(?:\([^)]*\))? )?(?:const )?(?:unsafe )?(?:extern \"C\" )?fn (\w+)")
AT_SOURCE = re.compile(r"(?:note: )?(?:\./)?(src/[^\s:]+):(\d+):\d+: ")
# What the check says where a proof file only names what an edit took away, or where the edited text
# can't be read. Such an edit is left to `rt must-fail`, which says which it is.
IS_UNSURE = re.compile(r"has no field|is not in scope|has no `|was not admitted|is no name"
                       r"|operand is missing|expected the end|cannot continue")


@dataclass(frozen=True)
class Place:
    """A function of a file; a name that is empty is the rest of the file."""
    file: str
    function: str

    @property
    def module(self) -> str:
        """Its module below the crate, by its file: `a::b` of src/a/b.rt, nothing of the root."""
        words = Path(self.file).with_suffix("").parts[1:]
        return "" if words == ("lib",) else "::".join(words)

    def path(self, crate: str) -> str:
        """What a check is to look at: its module, or where that is the root, the function."""
        return f"{crate}::{self.module or self.function}"


def function_at(lines: list, number: int) -> str:
    """The function that has the line of this number, from 0; its doc comment is not in it."""
    for at in range(number, -1, -1):
        if found := FUNCTION.match(lines[at]):
            is_over = f"{found[1]}}}" in lines[at:number]
            return "" if is_over else found[2]
    return ""


def places(edit: Edit) -> set:
    """Where its old texts stand, each of which stands once in its file."""
    found = set()
    for file, old, _ in edit.changes():
        source = (CRATES / edit.crate / file).read_text()
        before, at, _ = source.partition(old)
        lines = source.split("\n")
        found.add(Place(file, function_at(lines, before.count("\n")) if at else ""))
    return found


def is_unproved(output: str, crate: str, place: Place) -> bool:
    """Whether the check's verdict on a function of this name is another than that it is proved.
    Its path may be that of its type, which can be in another file."""
    verdict = rf"^fn {crate}::(?:\S+::)?{place.function}: (?!proved$)"
    return bool(re.search(verdict, output, re.MULTILINE))


def refusals(output: str, crate: str, place: Place, source: str) -> list:
    """The lines of a check that refuse this function, which it leaves unproved: a goal of it is
    open, or an answer in its folder of proofs is rejected. `source` is the file as it was checked.
    """
    if not is_unproved(output, crate, place):
        return []
    folder = "/".join(("proofs", *place.module.split("::"))) if place.module else "proofs"
    answer = re.compile(rf"(?:note: )?(?:\./)?{folder}/(?:[^/\s:]+/)?{place.function}/\S+: error: ")
    lines, found = source.split("\n"), []
    for line in output.splitlines():
        at = AT_SOURCE.match(line)
        is_goal = at and at[1] == place.file \
            and function_at(lines, int(at[2]) - 1) == place.function
        if (is_goal or answer.match(line)) and not IS_UNSURE.search(line):
            found.append(line)
    return found
