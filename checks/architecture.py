"""Compares what docs/ARCHITECTURE.md says of the tree with the tree.

    python3 -m checks.architecture [--control]

Each crate of crates.txt has its row, behind those that it uses, and the sign of a crate without
definitions just where it has none. Each file of definitions, but for those of private contracts,
stands once in the list of them; from the third group on it stands behind those that it uses. Each
file that the page names is there: by its path from `docs`, `checks`, `crates` or a crate on, or by
its name alone. A public function, or one of a public trait, with more than MOST_CLAUSES clauses of
`ensures` is named in the paragraph that says why, and no other is. A line tells each place where it
is not so. With --control pages are looked at that are wrong in one place: each must be found wrong.
"""
import re

from checks.lib import arguments, checks, measure
from checks.lib.arguments import TOP

PAGE = TOP / "docs/ARCHITECTURE.md"
CRATES = TOP / "crates"
ROW = re.compile(r"^\| `(edf\w+)`( \\\*)? \|", re.MULTILINE)
LIST = re.compile(r"^## The definitions.*?^```\n(.*?)^```", re.MULTILINE | re.DOTALL)
GROUP = re.compile(r"^(?=\w)", re.MULTILINE)
OF_CRATE = re.compile(r"(edf\w+): ([^;]*)")
USED = re.compile(r"\bRattle\.(edf\w+)\.specs\.(\w+)\b")
FILE = re.compile(r"`((?:[\w-]+/)*[\w-]+\.(?:antt|rt|py|md|edits|txt|1))`")
UNORDERED = 2       # groups, of which the first reads ahead
MOST_CLAUSES = 8
LONG = re.compile(r"^\*\*[^*]*public contract[^*]*more than eight clauses\*\*(.*?)\n\n",
                  re.MULTILINE | re.DOTALL)
FUNCTION = re.compile(r"^ *(pub )?(?:pub\(\w+\) )?(?:const )?fn (\w+)")


def uses() -> dict:
    """The crates that each uses."""
    lines = (TOP / "crates.txt").read_text().splitlines()
    parts = [line.split(":") for line in lines if ":" in line and not line.startswith("#")]
    return {name.split()[0]: set(used.split()) for name, used in parts}


def definitions() -> set:
    """The files that public contracts cite, as crate and name."""
    return {(path.parts[-3], path.stem) for path in CRATES.glob("*/specs/*.antt")
            if path.stem != "Lib" and not path.stem.startswith("Inside")}


def of_rows(page: str) -> list:
    used, found, before = uses(), [], set()
    for name, is_bare in ROW.findall(page):
        if name not in used or name in before:
            found.append(f"{name}: a row of no crate, or a second one")
            continue
        found += [f"{name} stands before {it}, which it uses"
                  for it in sorted((used[name] & used.keys()) - before)]
        if bool(is_bare) == (CRATES / name / "specs").exists():
            found.append(f"{name}: whether it has definitions")
        before.add(name)
    return found + [f"{name} has no row" for name in sorted(used.keys() - before)]


def of_order(page: str) -> list:
    found, before, wanted = [], set(), definitions()
    for nth, group in enumerate(GROUP.split(LIST.search(page)[1])[1:]):
        for crate, names in OF_CRATE.findall(" ".join(group.split())):
            for name in names.split():
                it = (crate, name)
                if it not in wanted or it in before:
                    found.append(f"{crate} {name}: no such file, or a second time")
                    continue
                text = (CRATES / crate / f"specs/{name}.antt").read_text()
                behind = (set(USED.findall(text)) & wanted) - before - {it}
                if nth >= UNORDERED:
                    found += [f"{crate} {name} stands before {' '.join(other)}"
                              for other in sorted(behind)]
                before.add(it)
    return found + [f"{crate} {name} is not in the order" for crate, name in sorted(wanted - before)]


def of_files(page: str, tracked: list) -> list:
    places = ("", "crates/", "docs/", "checks/", *(f"crates/{name}/" for name in uses()))
    names = {path.rsplit("/", 1)[-1] for path in tracked}
    return [f"{name} is no file" for name in FILE.findall(page)
            if (name not in names if "/" not in name
                else not any((TOP / f"{place}{name}").is_file() for place in places))]


def long_contracts(text: str) -> set:
    """The public functions of a source that have more than MOST_CLAUSES clauses of `ensures`."""
    found, name, count, in_trait = set(), None, 0, False
    for line in text.splitlines():
        in_trait = (in_trait or line.startswith("pub trait ")) and line != "}"
        if begun := FUNCTION.match(line):
            name, count = begun[2] if begun[1] or in_trait else None, 0
        elif name and re.match(r"\s+ensures\b", line):
            count += 1
            found |= {name} if count > MOST_CLAUSES else set()
    return found


def of_clauses(page: str) -> list:
    long = {f"{path.relative_to(CRATES).parts[0]}::{path.stem}::{name}"
            for path in CRATES.glob("*/src/**/*.rt") for name in long_contracts(path.read_text())}
    told = set(re.findall(r"`(edf\w+::[\w:]+)`", LONG.search(page)[1]))
    return [*(f"{name} has more than {MOST_CLAUSES} clauses" for name in sorted(long - told)),
            *(f"{name} has no more than {MOST_CLAUSES} clauses" for name in sorted(told - long))]


def look(page: str, tracked: list) -> list:
    return of_rows(page) + of_order(page) + of_files(page, tracked) + of_clauses(page)


# The control: what stands in the page, and what in its place
WRONG = (("| `edf_tal` |", "| `edf_tall` |"), ("| `edf_serve` |", "| `edf_serve` \\* |"),
         ("| `edf_time` |", "| `edf_mend` |"), ("`edf_sample` \\*", "`edf_sample`"),
         ("Walk;", ";"), ("Cut CutFiles ", "CutFiles Cut Cut "),
         ("Exchange Session ", "Session Exchange "), ("Civil Decimal", "Civic Decimal"),
         ("`edf_tal/src/check.rt`", "`edf_tal/src/checks.rt`"), ("`checks/told.py`", "`checks/tolled.py`"),
         ("`Summaries.antt`", "`Summary.antt`"), ("meaning::intake`", "meaning::take`"))


def main() -> None:
    parser = arguments.Parser(__doc__, ())
    parser.add_argument("--control", action="store_true", help="pages that are wrong")
    is_control = parser.parse_args().control
    page = PAGE.read_text()
    tracked = measure.done("git", "-C", TOP, "ls-files").out.decode().splitlines()
    if not is_control:
        found = look(page, tracked)
        for line in found:
            print(line)
        checks.end(len(uses()) + len(definitions()) + len(FILE.findall(page)), len(found))
    missed = [old for old, new in WRONG
              if old not in page or not look(page.replace(old, new, 1), tracked)]
    for old in missed:
        print(f"not found: another text in place of {old}")
    checks.end(len(WRONG), len(missed))


if __name__ == "__main__":
    main()
