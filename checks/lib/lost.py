"""Stores that are removed, replaced or cut under a running session of `edfserve`: the next file is
not accepted, and the session ends with trouble. What leaves the files as they are changes nothing.
"""
import os
import shutil
from pathlib import Path

from . import faults, measure, model, night, printed
from .checks import Checks
from .serving import Client, status

# A file has 180 kB: the log grows by more than it was cut.
PARTS = night.Night(records=480, samples=(256, 128), fragments=2)
# The log has 8,000 pages, 33 MB, after two thirds of the files.
LONG = night.Night(records=12_000, samples=(1_024, 1_024), fragments=16)
ENDED = printed.line("store", f"not closed {faults.store()}") + printed.cause("s.db", printed.LOST)


def removed(folder: Path) -> None:
    (folder / "s.db").unlink()
    (folder / "s.db-wal").unlink()


def removed_store(folder: Path) -> None:
    (folder / "s.db").unlink()


def removed_log(folder: Path) -> None:
    (folder / "s.db-wal").unlink()


def cut_to_nothing(folder: Path) -> None:
    os.truncate(folder / "s.db-wal", 0)


def cut_to_its_header(folder: Path) -> None:
    os.truncate(folder / "s.db-wal", 41)


def cut_by_half(folder: Path) -> None:
    os.truncate(folder / "s.db-wal", (folder / "s.db-wal").stat().st_size // 2)


def replaced(folder: Path) -> None:
    """By copies of both, each renamed over its file."""
    for name in ("s.db", "s.db-wal"):
        shutil.copy(folder / name, folder / "copy")
        (folder / "copy").rename(folder / name)


def replaced_log(folder: Path) -> None:
    shutil.copy(folder / "s.db-wal", folder / "copy")
    (folder / "copy").rename(folder / "s.db-wal")


def moved_away(folder: Path) -> None:
    (folder / "s.db").rename(folder / "old.db")
    (folder / "s.db-wal").rename(folder / "old.db-wal")


def replaced_by_a_folder(folder: Path) -> None:
    (folder / "s.db").rename(folder / "old.db")
    (folder / "s.db").mkdir()


LOSSES = (removed, removed_store, removed_log, cut_to_nothing, cut_to_its_header, cut_by_half,
          replaced, replaced_log, moved_away, replaced_by_a_folder)


def accepted(held: model.Store, path: Path) -> str:
    return printed.line(path.name, held.take(path.read_bytes())) + status(0)


def a_loss(checks: Checks, given, lose) -> None:
    """Of two files the first is taken before the store is lost."""
    checks.begin(f"a store that is lost under a session: {lose.__name__}")
    first, second = PARTS.parts(checks.folder)
    held = model.Store()
    client = Client(given.edfserve, checks.folder)
    checks.same("the file before", client.ask(f"take {first.name}"), accepted(held, first))
    lose(checks.folder)
    checks.same("list", client.ask("list"), held.lines() + status(0))
    checks.same("the file after", client.ask(f"take {second.name}"),
                printed.fault(second.name, faults.store()) + status(3))
    checks.same("the end", client.end(), (3, "", ENDED))


def a_loss_before_the_end(checks: Checks, given) -> None:
    checks.begin("a store that is lost, and no file comes after")
    first, _ = PARTS.parts(checks.folder)
    client, held = Client(given.edfserve, checks.folder), model.Store()
    checks.same("the file", client.ask(f"take {first.name}"), accepted(held, first))
    removed(checks.folder)
    checks.same("list", client.ask("list"), held.lines() + status(0))
    checks.same("the end", client.end(), (3, "", ENDED))
    checks.same("no store was made", (checks.folder / "s.db").exists(), False)


def a_link_that_leads_elsewhere(checks: Checks, given) -> None:
    checks.begin("a link to a store that leads to another")
    first, second = PARTS.parts(checks.folder)
    (checks.folder / "s.db").symlink_to("one.db")
    for name in ("one.db", "two.db"):
        measure.done(given.program, "take", name, first, folder=checks.folder)
    client = Client(given.edfserve, checks.folder)
    checks.same("the file before", client.ask(f"take {first.name}"),
                printed.line(first.name, f"{printed.ACCEPTED} new=0 known=240") + status(0))
    (checks.folder / "s.db").unlink()
    (checks.folder / "s.db").symlink_to("two.db")
    checks.same("the file after", client.ask(f"take {second.name}"),
                printed.fault(second.name, faults.store()) + status(3))
    checks.same("the end", client.end(), (3, "", ENDED))


def no_loss(checks: Checks, given) -> None:
    """The session copies its own log, others read and name the files, and their folder, in which
    the session runs, gets another name: nothing is refused."""
    checks.begin("a long session whose files stand")
    folder, moved = checks.folder / "here", checks.folder / "there"
    folder.mkdir()
    parts = LONG.parts(checks.folder)
    held, client = model.Store(), Client(given.edfserve, folder)
    for nth, path in enumerate(parts):
        answer = printed.line(f"../{path.name}", held.take(path.read_bytes())) + status(0)
        checks.same(path.name, client.ask(f"take ../{path.name}"), answer)
        if nth == 4:
            os.link(folder / "s.db", folder / "link.db")
            os.chmod(folder / "s.db", 0o600)
            shutil.copy(folder / "s.db", folder / "copy.db")
            os.utime(folder / "s.db-wal")
        if nth == 8:
            (folder / "link.db").unlink()
            folder.rename(moved)
    checks.same("the log was copied meanwhile", (moved / "s.db").stat().st_size > 1_000_000, True)
    checks.same("a file again", client.ask(f"take ../{parts[0].name}"),
                printed.line(f"../{parts[0].name}", held.take(parts[0].read_bytes())) + status(0))
    checks.same("the end", client.end(), (0, "", ""))
    ran = measure.done(given.program, "export", "s.db", 1, folder=moved)
    checks.same("the export", ran.out == held.export(1), True)


def run(checks: Checks, given) -> None:
    for lose in LOSSES:
        a_loss(checks, given, lose)
    a_loss_before_the_end(checks, given)
    a_link_that_leads_elsewhere(checks, given)
    no_loss(checks, given)
