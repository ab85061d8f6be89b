"""The commands that a document shows, and what it says that they print."""
import re
from dataclasses import dataclass
from pathlib import Path

FENCED = re.compile(r"^```\n(.*?)^```$", re.MULTILINE | re.DOTALL)
UNFILLED = re.compile(r"^\.nf\n(.*?)^\.fi$", re.MULTILINE | re.DOTALL)
PROMPT, MARK, CLONE = "$ ", "== a command ended", "PATH=$PWD/bin:$PATH; "


@dataclass(frozen=True)
class Session:
    """Commands in their order, each with what comes after it."""
    steps: tuple

    @property
    def script(self) -> str:
        """What a shell runs: after each command comes a line that ends its output."""
        return "".join(f"{{ {words}\n}} 2>&1\necho '{MARK}'\n" for words, _ in self.steps)

    def differences(self, written: str) -> list:
        """The commands that wrote something else than the document says."""
        wrote = written.split(f"{MARK}\n")
        return [f"{words}: {got!r}" for (words, expected), got in zip(self.steps, wrote)
                if got != expected] + [f"{words}: did not end" for words, _ in
                                       self.steps[len(wrote) - 1:]]


def session(block: str) -> Session:
    steps = []
    for line in block.splitlines():
        if line.startswith(PROMPT):
            steps.append([line.removeprefix(PROMPT), ""])
        elif steps:
            steps[-1][1] += f"{line}\n"
    return Session(tuple(map(tuple, steps)))


def blocks(document: Path) -> list:
    return FENCED.findall(document.read_text())


def of_manual(page: Path) -> list:
    """The blocks of a man page."""
    return [block.replace("\\-", "-") for block in UNFILLED.findall(page.read_text())]


def sessions(document: Path) -> list:
    """The blocks whose commands stand after a prompt."""
    return [session(block) for block in blocks(document) if block.startswith(PROMPT)]


def commands(document: Path, programs: tuple) -> list:
    """The blocks without a prompt whose every line runs one of these programs, the first maybe
    after it has set PATH."""
    return [block for block in blocks(document)
            if all(line.removeprefix(CLONE).split(" ")[0] in programs
                   for line in block.splitlines())]
