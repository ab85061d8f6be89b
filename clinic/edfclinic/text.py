"""How names, instants, amounts and faults are written and read."""
import errno
import os
import re
import sys
from contextlib import suppress
from datetime import datetime, timedelta, timezone

FULL = (errno.ENOSPC, errno.EDQUOT)
SECOND, MINUTE, HOUR = 10**9, 60 * 10**9, 3600 * 10**9
EPOCH = datetime(1970, 1, 1)
# Control bytes, marks that turn the direction, separators, what is no UTF-8, what nobody sees.
UNSEEN = "\x00-\x1f\x7f-\x9f\xad\u061c\u200b-\u200f\u2028-\u202e\u2060-\u2069\ufeff\ud800-\udfff"
UNSAFE, UNQUOTED = re.compile(rf"[\\{UNSEEN}]"), re.compile(f'["{UNSEEN}]')
AT = "%Y-%m-%dT%H:%M:%SZ"
DONE, LOOK, WRONG, TROUBLE = 0, 1, 2, 3     # what a command ends with


class Trouble(Exception):
    """A disk, a store, a lock or a program that failed; calling again may do."""
    status = TROUBLE


class Full(Trouble):
    """A disk, or tonight, that has no room."""


class Wrong(Exception):
    """Words, a code, a config or a user that nothing can be done with."""
    status = WRONG


def bytes_of(found: re.Match[str]) -> str:
    return "".join(f"\\x{byte:02x}" for byte in os.fsencode(found[0]))


def spell(text: str) -> str:
    return UNSAFE.sub(bytes_of, text)


def named(word: str, name: str) -> str:
    """A name that was spelled, which an uploader chose, in quotes behind a word of ours."""
    return f'{word} "{UNQUOTED.sub(bytes_of, name)}"'


def spell_lines(raw: bytes) -> list[str]:
    return [spell(line) for line in os.fsdecode(raw).split("\n") if line]


def why(error: BaseException) -> str:
    if isinstance(error, OSError) and error.strerror:
        room = "; make room" if error.errno in FULL else ""
        named = isinstance(error.filename, (str, bytes))    # else it is a number, or none
        where = os.fsdecode(error.filename) if named else "trouble"
        return spell(f"{where}: {error.strerror}{room}")
    return spell(str(error) or type(error).__name__)


def say(text: str) -> None:
    with suppress(OSError):
        print(text, file=sys.stderr, flush=True)


def nanoseconds(text: str) -> int:
    whole, _, part = text.partition(".")
    return int(whole) * SECOND + int(part[:9].ljust(9, "0"))


def instant(text: str) -> int:
    whole, _, part = text.partition(".")
    seconds = (datetime.fromisoformat(whole) - EPOCH) // timedelta(seconds=1)
    return nanoseconds(f"{seconds}.{part}")


def shown(nanos: int) -> str:
    seconds, rest = divmod(nanos, SECOND)
    fraction = f".{rest:09}".rstrip("0") if rest else ""
    return (EPOCH + timedelta(seconds=seconds)).isoformat() + fraction


def minutes(nanos: int) -> float:
    return max(round(nanos / MINUTE, 2), 0.01) if nanos else 0.0


def now() -> str:
    return datetime.now(timezone.utc).strftime(AT)


def moment(told: str) -> datetime:
    return datetime.strptime(told, AT).replace(tzinfo=timezone.utc)


def seconds_since(told: str) -> float:
    return (datetime.now(timezone.utc) - moment(told)).total_seconds()


def here(told: str) -> str:
    """By this host's clock, as everybody reads it."""
    return moment(told).astimezone().strftime("%H:%M on %Y-%m-%d")
