"""Reads the documents, and finds links that name nothing, pages that are too long, long sentences,
what stands in two pages, and commands that may do harm.

    python3 -m checks.documents [--control] [PAGE]...

Each link of a document names a file or a heading that is there, and each document that another file
names, as a man page or a script does, is there. The ten pages of PAGES have no more lines than each
may have, and MOST_LINES together; no line of a document has more than COLUMNS, but for THIRD-PARTY,
which has lines of others. In these pages and in those of ALSO_READ a sentence has MOST_WORDS at
most, and on average those that its page may have; and no AGAIN words in a row stand in two, but for
what a page quotes, tables and code. No document and no man page shows a command that runs what
stands in a store, changes the owner of what a link names, or writes to a name in /tmp that others
know. Where pages are named their lengths, their sentences and what they say twice are looked at
alone. Where the toolchain of the release is here, THIRD-PARTY is what bin/notices prints. A line
tells each place where it is not so. --control looks at documents that are wrong in one place: each
must be found, and then the status is 0. It needs git.
"""
import re
import shutil
from dataclasses import dataclass
from functools import cache
from pathlib import Path

from checks.lib import arguments, links, measure, prose
from checks.lib.arguments import TOP
from checks.lib.checks import end

MOST_LINES, COLUMNS, MOST_WORDS, AGAIN = 1_500, 100, 40, 8


@dataclass(frozen=True)
class Page:
    path: str
    lines: int = MOST_LINES
    words: int = MOST_WORDS     # of a sentence, on average


PAGES = (Page("README.md", 80, 20), Page("CONTRIBUTING.md", 100), Page("docs/GUIDE.md", 160, 20),
         Page("docs/REFUSALS.md", 200), Page("docs/FORMAT.md", 168), Page("docs/GLOSSARY.md", 54),
         Page("docs/PROMISES.md", 226, 18), Page("docs/EVIDENCE.md", 140),
         Page("docs/ARCHITECTURE.md", 161), Page("docs/DECISIONS.md", 112),
         Page("docs/ASSURANCE.md", 100, 20))
# Pages that may have any number of lines
ALSO_READ = ("examples/", "checks/", "bench/", "clinic/")
# What has no names of documents, or those of earlier ones
NOT_READ = ("crates/", "release/", "CHANGELOG.md", "checks/edits/", "checks/documents.py")
HARMFUL = re.compile(r"\.dump \|(?! grep \\?-av '\^\[\.\]' \|)|\bchown (?!\\?-h )[\w:-]+|/tmp/\w+")
NOTICES = "THIRD-PARTY.md"
NAMED = re.compile(r"(?<![\w/.-])((?:docs|examples|checks|bench|clinic)/(?:\w+/)*\w+\.md)(#[\w-]+)?")


def tracked(top: Path) -> list:
    """The files of the repository, by their paths below it."""
    return measure.done("git", "-C", top, "ls-files").out.decode().splitlines()


def printed(*words) -> str:
    return measure.done(*words).out.decode()


@cache
def is_toolchain_here() -> bool:
    """Whether that of the release is: another may have other crates."""
    return shutil.which("rt") is not None \
        and printed("rt", "version") == (TOP / "release/TOOLCHAIN").read_text()


class Documents:
    def __init__(self, top: Path, names: list):
        self.top, self.names = top, [name for name in names if (top / name).is_file()]
        self.found = []

    def text(self, name: str) -> str:
        return (self.top / name).read_text()

    def pages(self, named: list) -> list:
        """Those that are named, or all, as far as they are there."""
        others = [Page(name) for name in self.documents() if name.startswith(ALSO_READ)]
        return [page for page in (*PAGES, *others)
                if (not named or page.path in named) and (self.top / page.path).is_file()]

    def look(self, named: list) -> list:
        """A line for each place where something is not so, in these pages or in all."""
        self.found = [f"{page.path} is not there" for page in PAGES
                      if not (self.top / page.path).is_file()]
        pages = self.pages(named)
        self.links()
        self.mentions()
        self.columns()
        self.harm()
        self.lengths([page for page in pages if page in PAGES], not named)
        self.sentences(pages)
        self.said_twice(pages)
        if not named:
            self.notices()
        return self.found

    def documents(self) -> list:
        return [name for name in self.names if name.endswith(".md")]

    def links(self) -> None:
        paths = [self.top / name for name in self.documents()]
        self.found += [f"{line} names nothing" for line in links.dead(paths, self.top)]

    def mentions(self) -> None:
        """What a file names without a link."""
        for name in self.names:
            if name.startswith(NOT_READ):
                continue
            try:
                text = links.LINK.sub("", self.text(name))
            except UnicodeDecodeError:
                continue
            for path, anchor in sorted(set(NAMED.findall(text))):
                if links.is_dead(path + anchor, self.top / "README.md", self.top):
                    self.found.append(f"{name} speaks of {path}{anchor}, which is not there")

    def columns(self) -> None:
        for name in self.documents():
            if name == NOTICES:
                continue
            for number, line in enumerate(self.text(name).splitlines(), 1):
                if len(line) > COLUMNS:
                    self.found.append(f"{name}:{number} has {len(line)} columns")

    def harm(self) -> None:
        for name in [*self.documents(), *(name for name in self.names
                                          if re.fullmatch(r"docs/\w+\.1", name))]:
            self.found += [f"{name} shows what may do harm: {found}"
                           for found in HARMFUL.findall(self.text(name))]

    def notices(self) -> None:
        """Whether THIRD-PARTY is of these crates, by the toolchain that the release is of."""
        if is_toolchain_here() and self.text(NOTICES) != printed(self.top / "bin/notices"):
            self.found.append(f"{NOTICES} is not what bin/notices prints")

    def lengths(self, pages: list, is_all: bool) -> None:
        total = 0
        for page in pages:
            count = len(self.text(page.path).splitlines())
            total += count
            if count > page.lines:
                self.found.append(f"{page.path} has {count} lines, and may have {page.lines}")
        if is_all and total > MOST_LINES:
            self.found.append(f"all pages have {total} lines, and may have {MOST_LINES}")

    def sentences(self, pages: list) -> None:
        for page in pages:
            counts = []
            for sentence in prose.sentences(self.text(page.path)):
                counts.append(len(prose.words(sentence)))
                if counts[-1] > MOST_WORDS:
                    self.found.append(f"{page.path}: {counts[-1]} words: {sentence:.60}")
            mean = sum(counts) / len(counts)
            if mean > page.words:
                self.found.append(f"{page.path} has {mean:.1f} words a sentence, and may have "
                                  f"{page.words}")

    def said_twice(self, pages: list) -> None:
        first, quoted = {}, set()
        for page in pages:
            quoted |= prose.quotes(self.text(page.path), AGAIN)
        for page in pages:
            again = None        # the page in which the row before stands too
            for row, words in prose.rows_of_words(self.text(page.path), AGAIN).items():
                other = first.setdefault(row, page.path)
                if other != page.path and row not in quoted:
                    if again != other:
                        self.found.append(f"{page.path} says as {other} does: {words}")
                    again = other
                else:
                    again = None


# The control: a change of one file, and what a line must say of it.
LONG = "This sentence goes on " + "and on " * 30 + "to its end.\n"
WRONG = (
    ("README.md", "[none](docs/NONE.md)\n", "names nothing"),
    ("examples/README.md", "[none](../README.md#no-such-heading)\n", "names nothing"),
    ("docs/edfstore.1", ".I docs/NONE.md\n", "speaks of docs/NONE.md"),
    ("docs/edfruns.1", ".I docs/REFUSALS.md#none\n", "speaks of docs/REFUSALS.md#none"),
    ("examples/README.md", f"{'x' * (COLUMNS + 1)}\n", "columns"),
    ("docs/GLOSSARY.md", "\n" * 500, "lines, and may have 54"),
    ("docs/GLOSSARY.md", "\n" * 2_000, "all pages have"),
    ("docs/GUIDE.md", f"\n{LONG}", "words: This sentence goes on"),
    ("docs/GUIDE.md", f"\n{LONG}" * 200, "words a sentence"),
    ("docs/FORMAT.md", "\nOne says this of eight beams in a row.\n", "says as"),
    ("docs/edfstore.1", ".B sqlite3 \\-safe s.db .dump | sqlite3 \\-safe new.db\n", "may do harm"),
    ("examples/README.md", "\n    chown r01: night.db*\n", "may do harm"),
    ("README.md", "\n    edfstore export night.db 1 > /tmp/night.edf\n", "may do harm"),
    ("docs/GUIDE.md", None, "is not there"),
)
OF_NOTICES = ((NOTICES, "\nMore.\n", "is not what bin/notices prints"),
              ("crates.txt", "edfstore: memchr\n", "is not what bin/notices prints"))
ALSO = {"docs/FORMAT.md": "docs/GLOSSARY.md"}       # gets the same change
# What may stand in two pages.
RIGHT = ("| a row of a table with more than eight words in it |",
         "> A page quotes more than eight words in a row.",
         "```\na line of code with more than eight words in it\n```",
         "`a piece of code with more than eight words in it`")


def copied(names: list, folder: Path) -> None:
    for name in names:
        if (TOP / name).is_file() and not name.startswith(("crates/", "release/")):
            (folder / name).parent.mkdir(parents=True, exist_ok=True)
            shutil.copy(TOP / name, folder / name)
    for name in ("crates", "release"):
        (folder / name).symlink_to(TOP / name)


def said_of(name: str, added, names: list, folder: Path) -> set:
    """The lines of the documents after a change, which is undone."""
    paths = [folder / it for it in (name, ALSO.get(name)) if it]
    before = {path: path.read_text() for path in paths}
    for path, text in before.items():
        path.write_text(text + added) if added else path.unlink()
    found = set(Documents(folder, names).look([]))
    for path, text in before.items():
        path.write_text(text)
    return found


def control(names: list) -> None:
    missed = 0
    with measure.scratch() as scratch:
        folder = Path(scratch)
        copied(names, folder)
        known = set(Documents(folder, names).look([]))
        wrong = (*WRONG, *(OF_NOTICES if is_toolchain_here() else ()))
        for name, added, wanted in wrong:
            if not any(wanted in line for line in said_of(name, added, names, folder) - known):
                missed += 1
                print(f"not found in {name}: {wanted}")
        for added in RIGHT:
            lines = said_of("docs/FORMAT.md", f"\n{added}\n", names, folder) - known
            if any("says as" in line for line in lines):
                missed += 1
                print(f"found, though it may stand in two pages: {added}")
    end(len(wrong) + len(RIGHT), missed)


def main() -> None:
    parser = arguments.Parser(__doc__, programs=())
    parser.add_argument("--control", action="store_true", help="documents that are wrong")
    parser.add_argument("pages", nargs="*", metavar="PAGE", help="all if left out")
    given = parser.read()
    measure.need("git")
    names = tracked(TOP)
    if given.control:
        control(names)
    found = Documents(TOP, names).look(given.pages)
    for line in found:
        print(line)
    end(len(names), len(found))


if __name__ == "__main__":
    main()
