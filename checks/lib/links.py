"""The links of documents in Markdown, and those that name nothing."""
import re
from pathlib import Path
from urllib.parse import unquote

LINK = re.compile(r"\]\(\s*<?([^)\s>]+)>?(?:\s+\"[^\"]*\")?\s*\)")
FENCE = re.compile(r"^ {0,3}(```|~~~)")
HEADING = re.compile(r"^#{1,6}\s+(.*?)\s*#*$")
ELSEWHERE = ("http://", "https://", "mailto:")


def lines_of(text: str) -> list:
    """The lines outside of fenced code."""
    found, is_code = [], False
    for line in text.splitlines():
        if FENCE.match(line):
            is_code = not is_code
        elif not is_code:
            found.append(line)
    return found


def anchor(heading: str) -> str:
    """The name by which a link names that heading."""
    plain = re.sub(r"\[([^\]]*)\]\([^)]*\)", r"\1", heading).replace("`", "").replace("*", "")
    return re.sub(r"[^\w\- ]", "", plain.lower()).replace(" ", "-")


def anchors(path: Path) -> set:
    found = {}
    for line in lines_of(path.read_text()):
        heading = HEADING.match(line)
        if heading:
            name = anchor(heading.group(1))
            found[name] = found.get(name, -1) + 1
    return {name if nth == 0 else f"{name}-{nth}" for name, last in found.items()
            for nth in range(last + 1)}


def is_dead(link: str, document: Path, top: Path) -> bool:
    """Whether a link of that document names no file below `top`, or no heading of its file."""
    path, _, name = unquote(link).partition("#")
    target = (document.parent / path).resolve() if path else document.resolve()
    if not target.is_relative_to(top.resolve()) or not target.exists():
        return True
    return bool(name) and target.suffix == ".md" and name not in anchors(target)


def dead(documents: list, top: Path) -> list:
    """The dead links of these documents, each after its document's path below `top`."""
    return [f"{document.relative_to(top)}: {link}" for document in documents
            for link in LINK.findall("\n".join(lines_of(document.read_text())))
            if not link.startswith(ELSEWHERE) and is_dead(link, document, top)]
