"""Programs on a pseudo-terminal: what it gets of them, and what it may get."""
import os
import pty
import re
import selectors
import subprocess
import tty
import unicodedata
from dataclasses import dataclass
from pathlib import Path

# What a person sees of a letter that may not reach a terminal is each of its bytes, so.
ESCAPED = "\\x{:02x}"
# These marks have no class of their own: each has the one of a letter.
MARKS = ("ARABIC LETTER MARK", "LEFT-TO-RIGHT MARK", "RIGHT-TO-LEFT MARK")
DIRECTIONS = ("LRE", "RLE", "LRO", "RLO", "PDF", "LRI", "RLI", "FSI", "PDI")
# A line of progress, and what wipes it
PROGRESS = re.compile(rb"\r(?:(?:file|reading) \d+ of \d+, \d+(?: of \d+)? MB read| {60}\r)")


@dataclass(frozen=True)
class Seen:
    """How a program ended, and what its streams got."""
    status: int
    out: bytes
    err: bytes


def is_hidden(letter: str) -> bool:
    """Whether a letter may steer a terminal, by Unicode's own tables."""
    return (unicodedata.category(letter) == "Cc" or unicodedata.name(letter, "") in MARKS
            or unicodedata.bidirectional(letter) in DIRECTIONS)


def letter_at(data: bytes, at: int) -> str:
    """The letter that begins there, or none where the bytes are no UTF-8."""
    for size in range(1, 5):
        try:
            return data[at:at + size].decode()
        except UnicodeDecodeError:
            continue
    return ""


def escaped(data: bytes, keeps_lines: bool = True) -> bytes:
    """What a terminal gets of these bytes."""
    pieces, at = [], 0
    while at < len(data):
        letter = letter_at(data, at)
        size = len(letter.encode()) or 1
        if letter == "\n" and keeps_lines or letter and not is_hidden(letter):
            pieces.append(data[at:at + size])
        else:
            pieces.append("".join(map(ESCAPED.format, data[at:at + size])).encode())
        at += size
    return b"".join(pieces)


def without_progress(data: bytes) -> bytes:
    """What a terminal got beside the lines of progress."""
    return PROGRESS.sub(b"", data)


def opened(is_terminal: bool) -> tuple[int, int]:
    """The ends of a stream: that which is read here, and that which a program gets."""
    if not is_terminal:
        return os.pipe()
    ours, inside = pty.openpty()
    tty.setraw(inside)
    return ours, inside


def read_all(ours: list[int]) -> list[bytes]:
    """What comes from each until nobody writes to it any more."""
    got: dict[int, bytes] = dict.fromkeys(ours, b"")
    with selectors.DefaultSelector() as waiting:
        for number in ours:
            waiting.register(number, selectors.EVENT_READ)
        while waiting.get_map():
            for key, _ in waiting.select():
                try:
                    piece = os.read(key.fd, 65_536)
                except OSError:         # a terminal that nobody has open
                    piece = b""
                got[key.fd] += piece
                if not piece:
                    waiting.unregister(key.fd)
    return [got[number] for number in ours]


def seen(program: Path, words: list[bytes], folder: Path, given: bytes = b"",
         on_terminal: tuple[bool, bool] = (True, True)) -> Seen:
    """Runs a program in a folder. Of standard output and standard error those are terminals that
    `on_terminal` has; `given` is what it reads, and fits a pipe."""
    out, err = map(opened, on_terminal)
    source, feeding = os.pipe()
    os.write(feeding, given)
    os.close(feeding)
    child = subprocess.Popen([os.fsencode(program), *words], stdin=source, stdout=out[1],
                             stderr=err[1], cwd=folder)
    for number in (source, out[1], err[1]):
        os.close(number)
    written, said = read_all([out[0], err[0]])
    for number in (out[0], err[0]):
        os.close(number)
    return Seen(child.wait(), written, said)
