"""Gives names, codes, labels, texts and words that would steer a terminal to all four programs on a
pseudo-terminal, and looks at what that gets.

    python3 -m checks.fuzz.terminal [--program PATH] [--edfruns PATH] [--edfserve PATH]
                                    [--edfmend PATH] [--seed SEED] [COUNT]

1,000 commands if left out. Of names and texts are made file names, stores, prefixes of new files,
codes, labels, annotations, words of a command line and lines of a session: with control characters,
marks of direction, letters of several bytes and parts of them. A terminal gets none of these but as
`\\x1b`, apart from lines of progress, which are the programs' own, and no line that a name made.
Where one stream is a terminal and the other is none, the one gets what it gets elsewhere, escaped,
and the other just that. The first command that fails ends the check.
"""
import collections
import os
import random
import shutil
import time
from collections.abc import Callable
from pathlib import Path

from checks.lib import arguments, by_hand, edf, measure, screens
from checks.lib.checks import Lost, compare, end

FORGED = "forged.edf accepted new=9 known=0"
STEERING = ("\x1b]52;c;QUFB\x07", "\x1b[2J", "\r", f"\r{FORGED}", "\b\b", "\t", "\x7f", "\x9b31m",
            "\x85", "\u202e", "\u2066", "\u200f", "\u061c", "\x01")
LINES = ("\n", f"\n{FORGED}", f"\n{FORGED}\n")
LETTERS = ("a", "night 1", "\xe9", "\u4f60", "\U0001f634", "\\x1b", "'", "--", "\u20ac", "\x80")
# No letters: bytes of some, without the others
BYTES = (b"\xff", b"\xc3", b"\xe2\x80", b"\xf0\x9f\x98", b"\xc0\x9b", b"\xed\xa0\x80", b"\x80")
Command = tuple[str, list[bytes], bytes]        # the program, its words, and what it reads


def text_of(chance: random.Random, lines: float = 0.1, raw: float = 0.0) -> bytes:
    """A text of some letters, some of which would steer a terminal."""
    pieces = []
    for _ in range(chance.randint(1, 5)):
        kind = chance.random()
        if kind < lines:
            pieces.append(chance.choice(LINES).encode())
        elif kind < lines + raw:
            pieces.append(chance.choice(BYTES))
        else:
            pieces.append(chance.choice(STEERING if kind < 0.7 else LETTERS).encode())
    return b"".join(pieces)


def name_of(chance: random.Random) -> bytes:
    """The same as the name of a file."""
    return text_of(chance, raw=0.03).replace(b"/", b"_")[:200]


def with_annotation(text: bytes) -> bytes:
    """A file whose one annotation has that text."""
    block = edf.keeping("+0") + edf.tal("+0.5", text.replace(b"\0", b"").replace(b"\x14", b""))
    header = edf.Header((edf.Signal(), edf.annotations_signal(len(block) // 2 + 1)))
    return edf.fragment(header, [(by_hand.SAMPLES, block)])


def file_of(chance: random.Random) -> bytes:
    """A file: a good one, or one that has such a text somewhere."""
    text = text_of(chance, raw=0.2)
    which = chance.choice((by_hand.PATIENT, by_hand.RECORDING, by_hand.RESERVED, by_hand.STARTDATE))
    made: tuple[Callable[[], bytes], ...] = (
        lambda: by_hand.Q,
        lambda: by_hand.R9,
        lambda: with_annotation(text),
        lambda: by_hand.field(by_hand.Q, by_hand.PATIENT,
                              b"P" + text.replace(b" ", b"")[:40] + b" F 02-MAY-1951 X"),
        lambda: by_hand.field(by_hand.Q, which, text[:edf.FIXED_WIDTHS[which]]),
        lambda: by_hand.column(by_hand.Q, by_hand.LABEL, 1, text[:16]),
        lambda: by_hand.field(by_hand.Q, by_hand.RESERVED, ""),
        lambda: by_hand.Q[:-chance.randint(1, 9)],
        lambda: text,
    )
    return chance.choice(made)()


def of_store(chance: random.Random, name: bytes) -> Command:
    word = text_of(chance)
    ways: tuple[tuple[list[bytes], bytes], ...] = (
        ([b"take", b":memory:", name, b"none" + name], b""),
        ([b"take", b"s.db", name, name], b""),
        ([b"take", word, b"a.edf", name], b""),
        ([b"list", word], b""),
        ([b"list", name], b""),
        ([b"export", word, b"1"], b""),
        ([b"export", b"s.db", word], b""),
        ([b"convert", name], b""),
        ([b"convert", b"-"], text_of(chance, raw=0.2)),
        ([word], b""),
        ([b"--" + word, name], b""),
        ([], text_of(chance, raw=0.2)),
    )
    return "edfstore", *chance.choice(ways)


def of_runs(chance: random.Random, name: bytes) -> Command:
    word = text_of(chance).replace(b"/", b"_")
    ways = ([b"list", name], [b"list", name, b"a.edf", word], [b"split", name, word],
            [b"split", b"a.edf", word], [b"split", b"a.edf", b"none/" + word],
            [b"canonical", name], [b"canonical", b"--by-onset", name], [b"picture", name],
            [b"picture", b"--without-code", name], [word, name], [b"list", b"--" + word])
    return "edfruns", chance.choice(ways), b""


def of_mend(chance: random.Random, name: bytes) -> Command:
    word = text_of(chance).replace(b"/", b"_")
    ways = ([name, b"--dry-run"], [name, word], [b"a.edf", word], [b"a.edf", b"a.edf" + word],
            [name, b"--dry-run", b"--patient", word], [name, b"--dry-run", b"--startdate", word],
            [b"a.edf", b"none/" + word], [b"--" + word], [name, word, word])
    return "edfmend", chance.choice(ways), b""


def of_serve(chance: random.Random, name: bytes) -> Command:
    line = b"take " + name.replace(b"\n", b"_") + b"\n"
    lines = chance.choice((line, text_of(chance, raw=0.2) + b"\n" + line, b"list\n" + line))
    words = chance.choice(([b"s.db"], [text_of(chance)], [b"--from", b".", b"s.db"],
                           [b"--from", text_of(chance), b"s.db"], [b"--" + text_of(chance)]))
    return "edfserve", words, lines


def emptied(folder: Path, files: dict[bytes, bytes]) -> None:
    """A folder with these files alone, but for names that no file may have."""
    shutil.rmtree(folder, ignore_errors=True)
    folder.mkdir()
    for name, data in files.items():
        try:
            (folder / os.fsdecode(name)).write_bytes(data)
        except OSError:
            continue


def is_for_file(command: Command) -> bool:
    """Whether its words may ask for an EDF+ file on standard output."""
    name, words, _ = command
    if name == "edfstore":
        return not words or words[0] in (b"convert", b"export")
    return name == "edfruns" and words[0] == b"canonical"


def look_at(what: str, data: bytes) -> None:
    """Whether a terminal may get this."""
    rest = screens.without_progress(data)
    compare(f"what the terminal got of {what}", rest, screens.escaped(rest))
    for line in rest.split(b"\n"):
        if line.startswith(FORGED.encode()):
            raise Lost(f"a name made a line of {what}: {line!r}")


def compare_output(raw: screens.Seen, got: screens.Seen, command: Command) -> None:
    """Whether standard output, a terminal, got what it gets elsewhere, escaped."""
    if is_for_file(command):
        compare("status and output of a file for a terminal", (got.status, got.out), (2, b""))
        return
    compare("status and standard error", (got.status, got.err), (raw.status, raw.err))
    if b"\n" not in b"".join(command[1]):
        compare("standard output", got.out, screens.escaped(raw.out))


def tried(program: Path, command: Command, files: dict[bytes, bytes], folder: Path,
          on_terminal: tuple[bool, bool]) -> None:
    """Runs a command where these streams are terminals, and then elsewhere."""
    _, words, given = command
    emptied(folder, files)
    got = screens.seen(program, words, folder, given, on_terminal)
    for is_terminal, what, data in zip(on_terminal, ("standard output", "standard error"),
                                       (got.out, got.err)):
        if is_terminal:
            look_at(what, data)
    if all(on_terminal):
        return
    emptied(folder, files)
    raw = screens.seen(program, words, folder, given, (False, False))
    if on_terminal[0]:
        compare_output(raw, got, command)
    else:
        compare("status and standard output", (got.status, got.out), (raw.status, raw.out))


def words() -> arguments.Parser:
    parser = arguments.Parser(__doc__, arguments.PROGRAMS, count=1_000)
    parser.add_argument("--seed", default="1", help="of the commands, 1 if left out")
    return parser


def main() -> None:
    given = words().read()
    programs = {name: getattr(given, arguments.OPTIONS[name]) for name in arguments.PROGRAMS}
    kinds: collections.Counter[str] = collections.Counter()
    begun = time.perf_counter()
    with measure.scratch() as scratch:
        folder = Path(scratch) / "folder"
        for nth in range(given.count):
            chance = random.Random(f"{given.seed}/{nth}")
            name = name_of(chance)
            command = chance.choice((of_store, of_runs, of_mend, of_serve))(chance, name)
            on_terminal = chance.choice(((True, True), (True, False), (False, True)))
            try:
                tried(programs[command[0]], command,
                      {b"a.edf": by_hand.Q, name: file_of(chance)}, folder, on_terminal)
            except Lost as wrong:
                print(f"command {nth} of seed {given.seed}, {command}: {wrong}")
                end(nth + 1, 1)
            kinds[command[0]] += 1
    print(f"{time.perf_counter() - begun:.0f} s, seed {given.seed}:",
          ", ".join(f"{number} of {name}" for name, number in sorted(kinds.items())))
    end(kinds.total(), 0)


if __name__ == "__main__":
    main()
