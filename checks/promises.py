"""Looks for what docs/PROMISES.md names: functions, their clauses, words and files.

    python3 -m checks.promises [--control]

`crate::function`, or `crate::Type::function`, is in that crate; and what brackets behind it name,
in the same point of a list, are its clauses. A word, as `FilesHold`, is one of `specs/`, or a type
that the sources know, and `IsRunDone.closed` a clause of a word. `some_name` and `Type::function`
are in some crate, and a path names a file. Whether what the page says of them is so, it can't tell.
With --control each name has another letter in its turn: it must be missed then, and nothing else.
"""
import re
from dataclasses import dataclass, field

from checks.lib import arguments, checks

PAGE = arguments.TOP / "docs/PROMISES.md"
CRATES = arguments.TOP / "crates"
FUNCTION = re.compile(r"^\s*(?:pub(?:\([a-z]+\))? )?(?:extern \"C\" )?fn (\w+)")
CLAUSE = re.compile(r"^\s*(?:ensures|requires) (\w+) \{")
TYPE = re.compile(r"^\s*(?:pub(?:\([a-z]+\))? )?(?:struct|enum|trait|type|mod) (\w+)")
WORD = re.compile(r"^\s*(?:abbrev|(?:pub )?record|(?:pub )?data)(?: pub)? ([A-Za-z]\w*)")
FIELD = re.compile(r"^\s+pub (\w+) :")
TOKEN = re.compile(r"`([^`]+)`|([()])")


@dataclass
class Crate:
    clauses: dict = field(default_factory=dict)     # of each function
    types: set = field(default_factory=set)         # and modules


class Sources:
    def __init__(self):
        self.crates = {path.name: Crate() for path in CRATES.iterdir()}
        self.words = {}             # the clauses of each
        self.borrowed = set()       # what is imported
        for path in CRATES.glob("*/src/**/*.rt"):
            self.read_code(self.crates[path.relative_to(CRATES).parts[0]], path.read_text())
        for path in CRATES.glob("*/specs/**/*.antt"):
            self.read_words(path.read_text())

    def read_code(self, crate: Crate, text: str) -> None:
        inside = set()
        for line in text.splitlines():
            if found := FUNCTION.match(line):
                inside = crate.clauses.setdefault(found[1], set())
            elif found := CLAUSE.match(line):
                inside.add(found[1])
            elif found := TYPE.match(line):
                crate.types.add(found[1])
            elif line.startswith("use "):
                self.borrowed |= set(re.findall(r"\w+", line))

    def read_words(self, text: str) -> None:
        inside = set()
        for line in text.splitlines():
            if found := WORD.match(line):
                inside = self.words.setdefault(found[1], set())
            elif found := FIELD.match(line):
                inside.add(found[1])
            elif line.startswith("use "):
                self.borrowed |= set(re.findall(r"\w+", line))

    def in_crate(self, name: str, crates: list) -> bool:
        """Whether one of these crates has such a function or type, of that type or module."""
        *owners, last = name.split("::")
        return any((last in crate.clauses or last in crate.types)
                   and all(owner in crate.types for owner in owners) for crate in crates)

    def somewhere(self, name: str) -> bool:
        word, _, clause = name.partition(".")
        if clause:
            return clause in self.words.get(word, ())
        known = self.words.keys() | self.borrowed | self.crates.keys()
        clauses = {name for crate in self.crates.values() for names in crate.clauses.values()
                   for name in names}
        return name in known | clauses or self.in_crate(name, self.crates.values())


def paragraphs(text: str) -> list:
    """The rows of tables, the points of lists, and else what stands between empty lines."""
    return re.split(r"\n(?=- |\|)|\n\s*\n", text)


def contracts(text: str, sources: Sources) -> list:
    """Each name, where it begins, and whether it is one."""
    found, depth, clauses = [], 0, None
    for token in TOKEN.finditer(text):
        name, bracket = token[1], token[2]
        depth += {"(": 1, ")": -1}.get(bracket, 0)
        if not name or not re.fullmatch(r"[\w.:/]*\w", name):
            continue
        crate, _, rest = name.partition("::")
        if rest and crate in sources.crates:
            is_one = sources.in_crate(rest, [sources.crates[crate]])
            clauses = sources.crates[crate].clauses.get(rest.split("::")[-1], set())
        elif "/" in name:
            is_one = any((place / name).exists() for place in (arguments.TOP, CRATES))
        elif depth and clauses is not None and re.fullmatch(r"[a-z_]+", name) \
                and name not in sources.crates:
            is_one = name in clauses
        elif "_" in name or "::" in name or re.fullmatch(r"[A-Z]\w*[a-z]\w*(\.\w+)?", name):
            is_one = sources.somewhere(name)
        else:
            continue
        found.append((name, token.start(1), is_one))
    return found


def missed(text: str, sources: Sources) -> list:
    return [name for name, _, is_one in contracts(text, sources) if not is_one]


def main() -> None:
    parser = arguments.Parser(__doc__, ())
    parser.add_argument("--control", action="store_true", help="with other names")
    is_control = parser.parse_args().control
    sources, tried, failed = Sources(), 0, 0
    for text in paragraphs(PAGE.read_text()):
        for name, at, is_one in contracts(text, sources):
            tried += 1
            if is_control:
                wrong = f"{name[:-1]}{'y' if name[-1] != 'y' else 'z'}"
                changed = text[:at] + wrong + text[at + len(name):]
                is_one = wrong in missed(changed, sources)
            if not is_one:
                failed += 1
                print(f"{name}: {'not missed' if is_control else 'there is no such name'}")
    checks.end(tried, failed)


if __name__ == "__main__":
    main()
