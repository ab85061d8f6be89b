"""Runs the commands of README, GUIDE and REFUSALS as printed, one after the other in one folder.

    python3 -m checks.shown [--program PATH] [--edfruns PATH] [--edfserve PATH] [--edfmend PATH]

Behind a prompt each command must write what stands below it. GUIDE's other blocks, and the commands
over files that its sentences name, must end with 0, or with the status that STATUS has. README's
first block runs by the `bin` of a clone, where these programs are. Its lines that install something
are tried by checks.package.
"""
import os
import re
import shutil
from pathlib import Path

from checks.lib import arguments, measure, sessions
from checks.lib.arguments import OPTIONS, TOP
from checks.lib.checks import end

PROMPTED = re.compile(r"^```\n(\$ .*?)^```$", re.MULTILINE | re.DOTALL)
SHOWN = re.compile(r"^```\n(?P<block>.*?)^```$|`(?P<words>[^`]+)`", re.MULTILINE | re.DOTALL)
COMMAND = re.compile(r"(?:edf(?:store|runs|serve|mend)|head|sha256sum) .*\w\.\w")
STATUS = {"edfruns list *.edf > runs": 1}       # a cut file is there
# What GUIDE supposes to be there
GIVEN = "cp night.db a.db; cp part1.edf in.edf; cp $TOP/examples/witness.py ."


class Shown:
    def __init__(self, folder: Path, programs: dict[str, Path]):
        self.folder, self.here, self.done, self.failed = folder, folder / "here", 0, 0
        self.variables = {"TOP": str(TOP), "TMPDIR": str(folder), "HERE": str(self.here),
                          "PATH": f"{folder}/bin:{os.environ['PATH']}"}
        (folder / "bin").mkdir()
        for name, path in programs.items():
            (folder / "bin" / name).symlink_to(path)
        self.night = folder / "first"
        shutil.copytree(TOP / "examples/oximeter", self.night)

    def shell(self, script: str, folder: Path, **others: str) -> measure.Ran:
        return measure.ran("bash", "-o", "pipefail", "-c", script, folder=folder,
                           added=self.variables | others)

    def same(self, what: str, got: object, expected: object) -> None:
        self.done += 1
        if got != expected:
            self.failed += 1
            print(f"{what}: {got!r}, not {expected!r}")

    def session(self, block: str, folder: Path) -> None:
        """Each command writes what the page says, and the next block goes on where this one ends."""
        shown = sessions.session(block)
        written = self.shell(f'{shown.script}pwd > "$HERE"', folder).out.decode()
        for line in shown.differences(written):
            self.same(line, "is written", "what the page says")
        self.done += len(shown.steps)
        self.night = Path(self.here.read_text().strip())

    def readme(self) -> None:
        page = TOP / "README.md"
        (self.folder / "examples").symlink_to(TOP / "examples")
        lines, = sessions.commands(page, tuple(OPTIONS))
        ran = self.shell(f"set -e\n{lines}", self.folder, PATH=os.environ["PATH"])
        self.same(lines, ran.outcome()[1:], (b"", 0))
        for block in PROMPTED.findall(page.read_text()):
            self.session(block, TOP)

    def guide(self) -> None:
        self.same(GIVEN, self.shell(GIVEN, self.night).status, 0)
        for found in SHOWN.finditer((TOP / "docs/GUIDE.md").read_text()):
            block, words = found["block"], " ".join((found["words"] or "").split())
            if block and block.startswith("$ "):
                self.session(block, self.night)
            elif block or COMMAND.match(words):
                ran = self.shell(block or words, self.night)
                self.same(block or words, (ran.status, ran.err if block else b""),
                          (STATUS.get(words, 0), b""))

    def refusals(self) -> None:
        for block in PROMPTED.findall((TOP / "docs/REFUSALS.md").read_text()):
            self.session(block, self.night)


def main() -> None:
    given = arguments.Parser(__doc__, programs=tuple(OPTIONS)).read()
    with measure.scratch() as name:
        shown = Shown(Path(name), {it: getattr(given, OPTIONS[it]) for it in OPTIONS})
        shown.readme()
        shown.guide()
        shown.refusals()
    end(shown.done, shown.failed)


if __name__ == "__main__":
    main()
