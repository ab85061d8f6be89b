"""Counts the lines of the repository, and compares them with checks/weight.txt.

    python3 -m checks.weight [--write]

A line of the table has the most lines that a crate may have: of src (`.rt`), of specs and of proofs
(`.antt`); the line `all` has those of all crates. `crates` is how many crates there may be,
`python` how many lines of Python: files that end in `.py` or begin with Python's line; `javascript`
how many the page's script has. A file of src has LONGEST lines at most. A line tells each excess,
and then the status is 1. Functions of more than ARGUMENTS arguments are counted alone.

--write prints today's lines of the crates with the room of ROOM that each gets. A change that needs
more raises its line by hand in the same commit, with the reason behind `#`. It needs Python alone,
and no git.
"""
import argparse
import math
import re
import sys
from pathlib import Path

TOP = Path(__file__).resolve().parents[1]
TABLE = TOP / "checks/weight.txt"
PARTS = {"src": "*.rt", "specs": "*.antt", "proofs": "*.antt"}
ALL, CRATES, PYTHON, JAVASCRIPT = "all", "crates", "python", "javascript"
ROOM, LONGEST, ARGUMENTS = 1.02, 500, 6
NOT_OURS = {".git", "out", "__pycache__"}
FUNCTION = re.compile(r"^ *(?:pub(?:\(\w+\))? )?(?:const )?fn \w+", re.MULTILINE)
MOST_SIGNATURE = 2_000      # letters behind the name
BRACKETS = re.compile(r"<[^<>]*>|\[[^\[\]]*\]")
INNER = re.compile(r"\((?:[^()]|\([^()]*\))*\)")
PARENTHESES = re.compile(rf"\s*\(((?:[^()]|{INNER.pattern})*)\)")

Counts = dict[str, tuple[int, ...]]


def lines_of(path: Path) -> int:
    return path.read_bytes().count(b"\n")


def crates() -> Counts:
    """The lines of src, specs and proofs of each crate."""
    return {src.parent.name: tuple(sum(map(lines_of, (src.parent / part).rglob(files)))
                                   for part, files in PARTS.items())
            for src in sorted(TOP.glob("crates/*/src"))}


def is_python(path: Path) -> bool:
    if path.suffix == ".py":
        return True
    with open(path, "rb") as opened:
        first = opened.readline(80)
    return first.startswith(b"#!") and b"python" in first


def files_below(folder: Path) -> list[Path]:
    """All files but those that are built, and git's own."""
    found = []
    for path in folder.iterdir():
        if path.is_dir() and not path.is_symlink():
            found += files_below(path) if path.name not in NOT_OURS else []
        elif path.is_file():
            found.append(path)
    return found


def today() -> Counts:
    own = crates()
    python = sum(lines_of(path) for path in files_below(TOP) if is_python(path))
    script = sum(map(lines_of, TOP.glob("page/*.js")))
    return own | {ALL: tuple(map(sum, zip(*own.values()))), CRATES: (len(own),),
                  PYTHON: (python,), JAVASCRIPT: (script,)}


def allowed() -> Counts:
    """The table, without its reasons."""
    texts = (line.partition("#")[0].split() for line in TABLE.read_text().splitlines())
    return {name: tuple(int(number.replace(",", "")) for number in numbers)
            for name, *numbers in filter(None, texts)}


def excesses(counts: Counts, most: Counts) -> list[str]:
    found = [f"{name}: a line of {TABLE.name}, and no crate here" for name in most.keys() - counts]
    for name, numbers in counts.items():
        if len(most.get(name, ())) != len(numbers):
            found.append(f"{name}: {TABLE.name} has no line for it of {len(numbers)} numbers")
            continue
        for part, number, limit in zip(PARTS, numbers, most[name]):
            what = f"{name}, {part}" if len(numbers) > 1 else name
            if number > limit:
                found.append(f"{what}: {number:,}, and at most {limit:,} may be")
    return sorted(found)


def long_files() -> list[str]:
    counts = {path: lines_of(path) for path in sorted(TOP.glob("crates/*/src/**/*.rt"))}
    return [f"{path.relative_to(TOP)}: {count} lines, and at most {LONGEST} may be"
            for path, count in counts.items() if count > LONGEST]


def arguments_of(text: str) -> int:
    """How many a function has, by the text behind its name."""
    text, before = text.replace("->", ""), ""
    while text != before:
        before, text = text, BRACKETS.sub("", text)
    found = PARENTHESES.match(text)
    own = INNER.sub("", found[1]) if found else ""
    return sum(bool(argument.strip()) for argument in own.split(","))


def wide_functions() -> int:
    """How many functions have more than ARGUMENTS arguments."""
    texts = (path.read_text() for path in TOP.glob("crates/*/src/**/*.rt"))
    return sum(arguments_of(text[it.end():it.end() + MOST_SIGNATURE]) > ARGUMENTS
               for text in texts for it in FUNCTION.finditer(text))


def written(counts: Counts) -> None:
    for name, numbers in counts.items():
        if len(numbers) == len(PARTS) and name != ALL:
            print(f"{name:<22}" + "".join(f"{math.ceil(ROOM * it):>8,}" for it in numbers))


def main() -> int:
    parser = argparse.ArgumentParser(prog="python3 -m checks.weight", description=__doc__,
                                     formatter_class=argparse.RawDescriptionHelpFormatter)
    parser.add_argument("--write", action="store_true", help="print today's lines of the crates")
    given, counts = parser.parse_args(), today()
    if given.write:
        written(counts)
        return 0
    faults = excesses(counts, allowed()) + long_files()
    for line in faults:
        print(f"weight: {line}")
    src, specs, proofs = counts[ALL]
    print(f"weight: {counts[CRATES][0]} crates, src {src:,} lines, specs {specs:,}, proofs "
          f"{proofs:,}; Python {counts[PYTHON][0]:,}; {wide_functions()} functions of more than "
          f"{ARGUMENTS} arguments")
    return 1 if faults else 0


if __name__ == "__main__":
    sys.exit(main())
