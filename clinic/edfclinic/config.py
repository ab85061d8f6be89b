"""Reads the config, of which each key but the recorders may be left out."""
import os
import re
import tomllib
from contextlib import suppress
from dataclasses import dataclass, fields
from typing import Any

from .text import Wrong

DEFAULT = "/etc/edfclinic.toml"
SIZES = {"B": 1, "kB": 10**3, "MB": 10**6, "GB": 10**9, "TB": 10**12}
TIMES = {"s": 1, "min": 60, "h": 3600}
WORDS = 'words, as ["mail", "root"]'
NAME = re.compile(r"[a-z0-9][a-z0-9-]{0,31}")
AMOUNT, CLOCK = re.compile(r"(\d{1,9}(?:\.\d{1,3})?) ?([A-Za-z]+)"), re.compile(r"(\d\d):([0-5]\d)")


@dataclass(frozen=True)
class Recorder:
    name: str
    by_onset: bool = False
    expected: bool = False                  # each night: where nothing comes, that is told
    mend: tuple[str, ...] | None = None     # the words for edfmend
    pause: float = 6 * 3600
    ends: int = 12 * 60                     # minutes after midnight


@dataclass(frozen=True)
class Config:
    recorders: dict[str, Recorder]
    inboxes: str = "/srv/inbox"
    data: str = "/srv/edfclinic"
    nights: str = "/srv/nights"
    free_space: int = 20 * 10**9
    largest_file: int = 4 * 10**9
    largest_night: int = 4 * 10**9
    largest_export: int = 4 * 10**9
    silent: float = 30 * 60
    watch: tuple[int, int] = (22 * 60, 6 * 60)
    alarm: tuple[str, ...] = ()
    backup: str = ""
    still: float = 10
    unclosed: float = 2 * 60
    refuse: float = 10 * 60

    def recorder(self, name: str) -> Recorder:
        if name not in self.recorders:
            raise Wrong(f"no recorder has this name; there are {', '.join(self.recorders)}")
        return self.recorders[name]


def amount(given: Any, units: dict[str, int]) -> float:
    found = AMOUNT.fullmatch(str(given))
    if not found or found[2] not in units:
        raise ValueError(f'wants a number and one of {", ".join(units)}, as "10 {list(units)[1]}"')
    return float(found[1]) * units[found[2]]


def clock(given: str) -> int:
    found = CLOCK.fullmatch(given)
    if not found or int(found[1]) * 60 + int(found[2]) > 24 * 60:
        raise ValueError('wants a time, as "12:00"; for watch two, as "22:00-06:00"')
    return int(found[1]) * 60 + int(found[2])


def value(name: str, given: Any) -> Any:
    if name in ("free_space", "largest_file", "largest_night", "largest_export"):
        return int(amount(given, SIZES))
    if name in ("silent", "still", "unclosed", "refuse", "pause"):
        return amount(given, TIMES)
    if name in ("watch", "ends"):
        begin, _, end = str(given).partition("-")
        return (clock(begin), clock(end)) if name == "watch" else clock(str(given))
    if name in ("alarm", "mend") and isinstance(given, list) and {*map(type, given)} <= {str}:
        return tuple(given)
    if name in ("by_onset", "expected", "mend") and isinstance(given, bool):
        return given if name != "mend" else () if given else None
    if name in ("alarm", "by_onset", "expected", "mend"):
        raise ValueError("wants " + {"alarm": WORDS, "mend": f"true, false or {WORDS}"}.get(
            name, "true or false"))
    if name == "backup" and given == "":
        return given
    if not isinstance(given, str) or not given.startswith("/") or "\0" in given:
        raise ValueError("wants a path that begins with /")
    return os.path.normpath(given)


def values(given: dict[str, Any], kind: type, where: str) -> dict[str, Any]:
    for name in given:
        try:
            if name not in {it.name for it in fields(kind)} - {"name", "recorders"}:
                raise ValueError("is no key")
            given[name] = value(name, given[name])
        except ValueError as why:
            raise Wrong(f"config: {where}{name!r} {why}") from None
    return given


def readable(path: str) -> dict[str, Any]:
    """Of a config that is wrong the values that can be read."""
    found: dict[str, Any] = {}
    with suppress(OSError, ValueError), open(path, "rb") as file:
        for name, given in tomllib.load(file).items():
            with suppress(ValueError):
                found[name] = value(name, given)
    return found


def read(path: str, is_root: bool) -> Config:
    try:
        with open(os.open(path, os.O_RDONLY | os.O_CLOEXEC | os.O_NONBLOCK), "rb") as file:
            above = os.stat(os.path.dirname(os.path.realpath(path)))
            for status in (os.fstat(file.fileno()), above) if is_root else ():
                if status.st_uid != 0 or status.st_mode & 0o022:
                    raise Wrong(f"config: others than root may write {path} or its folder")
            given = tomllib.loads(file.read(1 << 20).decode())
    except (OSError, ValueError) as why:
        raise Wrong(f"config: {path}: {getattr(why, 'strerror', None) or why}") from None
    tables, recorders = given.pop("recorder", None), {}
    if not isinstance(tables, dict) or not tables:
        raise Wrong("config: it has no recorder, as [recorder.r01]")
    for name, table in sorted(tables.items()):
        if not NAME.fullmatch(name) or not isinstance(table, dict):
            raise Wrong(f"config: {name!r} is no recorder: small letters, digits and -")
        recorders[name] = Recorder(name, **values(table, Recorder, f"[recorder.{name}] "))
    return Config(recorders, **values(given, Config, ""))
