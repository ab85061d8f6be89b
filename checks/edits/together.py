"""Tries edits of one crate together.

A function is proved by the contracts of those that it calls, and not by their bodies. So one check
of a crate with many wrong turns refuses each at its own function: it does for as many edits as
change functions of their own. What a check leaves, as where a function that it calls was changed
too, is tried again, with others and in the end alone, by `rt must-fail`.
"""
import os
import re
import shutil
from pathlib import Path

from checks.lib import arguments, measure

from .places import places, refusals
from .texts import CRATES

SAID = re.compile(r"^rt: must-fail \w+/(\S+)\.edit: (.*)$", re.MULTILINE)
REFUSED = "refused, as it must be"
VERDICT = re.compile(r"^fn \S+: ", re.MULTILINE)     # of each function, at the end of a check
SHOWN = 160     # letters of what the prover says


def needed(crate: str) -> list:
    """The lines of crates.txt of the crate and of all below it."""
    lines = {}
    for line in (arguments.TOP / "crates.txt").read_text().splitlines():
        name, _, below = line.partition(":")
        if not line.startswith("#") and name.strip():
            lines[name.split()[0]] = (line, below.split())
    found, left = {}, [crate]
    while left:
        name = left.pop()
        if name in lines and name not in found:
            found[name] = lines[name][0]
            left += lines[name][1]
    return found


def link_or_copy(source: str, target: str) -> None:
    """What was built is not changed in place, so a link will do; a source is copied."""
    if "/out/" in source:
        try:
            os.link(source, target)
            return
        except OSError:
            pass
    shutil.copy2(source, target)


def unlaid(folder: str, names: list) -> list:
    """What is left out: the gate's edits, and what was built, but for libraries."""
    within = Path(folder)
    return [name for name in names
            if name == "must-fail" or within.name == "out" and name != "rlib"]


class Trial:
    """A crate over those below it, in a folder of its own, and its edits."""

    def __init__(self, folder: Path, crate: str, found: list):
        self.folder, self.crate, self.found = folder, crate, found
        self.own = folder / "crates" / crate
        self.places = {edit: places(edit) for edit in found}
        self.said = {}

    def lay(self) -> None:
        """The crate and those below it as they are in this clone, with what was built of these."""
        lines = needed(self.crate)
        self.folder.mkdir()
        (self.folder / "crates.txt").write_text("\n".join(lines.values()) + "\n")
        shutil.copy(arguments.TOP / "HANDLES", self.folder)
        for name in lines:
            shutil.copytree(CRATES / name, self.folder / "crates" / name, ignore=unlaid,
                            copy_function=link_or_copy)

    def change(self, edits: list) -> dict:
        """The texts of the files that the edits change, once these are made."""
        texts = {}
        for edit in edits:
            for file, old, new in edit.changes():
                text = texts.get(file) or (CRATES / self.crate / file).read_text()
                texts[file] = text.replace(old, new)
        return texts

    def check(self, edits: list) -> tuple:
        """What `rt check` prints of the crate with these edits made, and the texts of the files."""
        texts = self.change(edits)
        for file, text in texts.items():
            (self.own / file).write_text(text)
        looked = sorted({place.path(self.crate) for edit in edits for place in self.places[edit]})
        words = [word for path in looked for word in ("--only", path)]
        ran = measure.ran("rt", "check", "--jobs", "1", *words, folder=self.own)
        for file in texts:
            shutil.copy(CRATES / self.crate / file, self.own / file)
        return (ran.out + ran.err).decode(errors="replace"), texts

    def together(self, edits: list) -> None:
        """Notes those of the edits that a check refuses each at its own function. Where the check
        comes to no verdict, as by an edit that is no program, each half is tried."""
        output, texts = self.check(edits)
        if not VERDICT.search(output):
            half = len(edits) // 2
            for part in (edits[:half], edits[half:]) if half else ():
                self.together(part)
            return
        for edit in edits:
            lines = [line for place in sorted(self.places[edit], key=str)
                     for line in refusals(output, self.crate, place, texts[place.file])]
            if lines:
                self.said[edit] = f"{REFUSED}: {lines[0][:SHOWN]}"

    def sets(self, edits: list) -> list:
        """The edits in sets, in each of which no two change one function."""
        found = []
        for edit in edits:
            own = self.places[edit]
            free = (it for it in found if not any(own & self.places[other] for other in it))
            if (fits := next(free, None)) is None:
                found.append([edit])
            else:
                fits.append(edit)
        return found

    def left(self) -> list:
        """Those of which nothing is known, and that change functions alone."""
        return [edit for edit in self.found if edit not in self.said
                and all(place.function for place in self.places[edit])]

    def alone(self) -> None:
        """Has `rt must-fail` try those that are left."""
        room = self.own / "must-fail"
        for edit in self.found:
            if edit not in self.said:
                room.mkdir(exist_ok=True)
                (room / f"{edit.name}.edit").write_text(edit.text)
        if room.is_dir():
            ran = measure.ran("rt", "must-fail", self.crate, folder=self.folder)
            output = (ran.out + ran.err).decode(errors="replace")
            said = dict(SAID.findall(output))
            for edit in self.found:
                self.said.setdefault(edit, said.get(edit.name, f"NOT TRIED: {output[-300:]}"))

    def run(self) -> dict:
        """What is said of each edit."""
        self.lay()
        before = None
        while (left := self.left()) and left != before:
            for edits in self.sets(left):
                self.together(edits)
            before = left
        self.alone()
        return self.said
