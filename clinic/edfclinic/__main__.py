"""The words of edfclinic."""
import argparse
import io
import os
import sys
from collections.abc import Callable
from typing import Any

from . import (VERSION, backup, config, forget, morning, nights, place, receive, recode, status,
               text, thin)

HELP = """In the morning, with the memory card in this computer:
  sudo edfclinic morning r01 --card /media/CARD/NIGHT.EDF
Of two files or two cards of r01: --card FILE --card FILE. It says what became of each.
"look:" asks something: answer it by the report, or ask the engineer, who set edfclinic up.
"edfclinic:" says what went wrong: mend it, and call again. Calling twice does no harm.
Nights lie in /srv/nights. Exit status: 0 done, 1 look, 2 wrong words, 3 trouble."""
FLAG: dict[str, Any] = {"action": "store_true"}
RECORDER, NIGHT, CODE = ({"metavar": it} for it in ("RECORDER", "RECORDER/NAME", "CODE"))
CARD = {"action": "append", "default": [], "metavar": "FILE", "help": "a file of the card"}
# Of each command what it does, and its words as argparse has them.
COMMANDS: dict[str, tuple[str, dict[str, dict[str, Any]]]] = {
    "receive": ("take what recorders send, without an end; --all: of each",
                {"recorder": {"nargs": "?", **RECORDER}, "--all": FLAG}),
    "status": ("how each recorder is", {"--json": FLAG, "--html": FLAG, "--tell": FLAG}),
    "morning": ("put the night away", {"recorder": RECORDER, "--card": CARD}),
    "nights": ("list the archive", {"--json": FLAG}),
    "seen": ("answer the looks of a night, by what you found",
             {"night": NIGHT, "--why": {"required": True, "metavar": "TEXT"}}),
    "recode": ("make a night anew under another patient's code",
               {"night": NIGHT, "--patient": {"required": True, **CODE}}),
    "forget": ("list all of a patient; --yes removes it", {"code": CODE, "--yes": FLAG}),
    "thin": ("leave of old nights night.edf, report.txt and night.json alone",
             {"--older": {"required": True, "metavar": "AGE", "help": "as 400d or 1y"}}),
    "verify": ("say which files changed since", {"night": {"nargs": "*", **NIGHT}}),
    "backup": ("copy the nights that the backup lacks", {}),
    "help": ("print this, or more of a command", {"of": {"nargs": "?", "metavar": "COMMAND"}})}


def words() -> argparse.ArgumentParser:
    parser = argparse.ArgumentParser(prog="edfclinic", description=HELP, allow_abbrev=False,
                                     formatter_class=argparse.RawDescriptionHelpFormatter)
    parser.add_argument("--config", default=config.DEFAULT, metavar="FILE",
                        help=f"in place of {config.DEFAULT}")
    parser.add_argument("--version", action="version", version=f"edfclinic {VERSION}")
    every = parser.add_subparsers(dest="command", required=True, metavar="COMMAND")
    for name, (does, given) in COMMANDS.items():
        command = every.add_parser(name, help=does, description=does, allow_abbrev=False)
        for word, how in given.items():
            command.add_argument(word, **how)
    return parser


def run(given: argparse.Namespace) -> int:
    if given.command == "help":
        words().parse_args([*filter(None, [given.of]), "--help"])
    try:
        read = config.read(given.config, os.geteuid() == 0)
    except text.Wrong as why:
        if getattr(given, "tell", False):
            status.tell_wrong(given.config, why)
        raise
    if given.command == "receive" and bool(given.recorder) == given.all:
        raise text.Wrong("receive wants a RECORDER, or --all")
    if getattr(given, "recorder", None):
        read.recorder(given.recorder)
    cards = place.open_cards(getattr(given, "card", []))
    place.become(read)
    does: dict[str, Callable[[], int]] = {
        "receive": lambda: receive.receive(read, given.recorder),
        "status": lambda: status.status(read, given.json, given.html, given.tell),
        "morning": lambda: morning.Morning(read, given.recorder, cards).run(),
        "nights": lambda: nights.nights(read, given.json),
        "seen": lambda: nights.seen(read, given.night, given.why),
        "thin": lambda: thin.thin(read, given.older),
        "recode": lambda: recode.recode(read, given.night, given.patient),
        "forget": lambda: forget.forget(read, given.code, given.yes),
        "verify": lambda: nights.verify(read, given.night), "backup": lambda: backup.backup(read)}
    return does[given.command]()


def main() -> int:
    if sys.stdout is None or sys.stderr is None:    # they are closed
        return text.TROUBLE
    for stream in (sys.stdout, sys.stderr):
        if isinstance(stream, io.TextIOWrapper):
            stream.reconfigure(errors="backslashreplace")
    try:
        try:
            return run(words().parse_args())
        finally:
            sys.stdout.flush()
    except (Exception, KeyboardInterrupt) as why:
        text.say(f"edfclinic: {text.why(why)}")
        for stream in (sys.stdout, sys.stderr):     # what it did not take goes nowhere
            os.dup2(os.open(os.devnull, os.O_WRONLY), stream.fileno())
        return getattr(why, "status", text.TROUBLE)


if __name__ == "__main__":
    sys.exit(main())
