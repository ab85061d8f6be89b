"""status: how each recorder is, from what `receive` wrote. It opens no store and no inbox."""
import os
import re
import subprocess
import time
from collections.abc import Iterator, Sequence
from shutil import disk_usage
from typing import Any

from . import config as configs
from . import files, nights, text
from .config import Config
from .place import Place, check
from .text import DONE, LOOK, Trouble, Wrong, named

UNTOLD, ALARM_SECONDS = 300, 60     # after which nothing is known, or an alarm is ended
DAY, WEEK = 24 * 3600.0, 7 * 24 * 3600.0
LISTS, ACCEPTED = ("refused", "waiting", "left", "written"), re.compile(
    r"^accepted new=(\d+) known=(\d+)$")
# What receive counts, and what is to be done.
COUNTED = {"refused": "of its files: give its card to morning",
           "left": "in its inbox: its uploader must remove them",
           "written": "of its files were written to after they were taken: have the recorder write "
                      "elsewhere and upload, or use .part"}
Cause = dict[str, str | None]
HEAD = """<!doctype html><html lang="en"><meta charset="utf-8"><meta http-equiv="refresh"
content="60"><title>Recorders</title>"""


def minutes_since(clock: int) -> int:
    """Since this time of the day, in minutes after midnight, was last on this host's clock."""
    here = time.localtime()
    return (here.tm_hour * 60 + here.tm_min - clock) % (24 * 60)


def state_of(config: Config, place: Place, told: dict[str, Any]) -> tuple[str, str]:
    begin, end = config.watch
    watched = minutes_since(begin)
    is_watched = watched < ((end - begin) % (24 * 60) or 24 * 60)
    unit = f"edfclinic-receive@{place.name}"
    age = text.seconds_since(told["told"]) if told else 0
    if not files.is_locked(place.session):
        return "stopped", f"no receive runs: systemctl start {unit}"
    if not told or abs(age) > UNTOLD:       # also where the host's clock was set back
        return "unknown", f"nothing was told for 5 minutes: systemctl restart {unit}"
    if told["trouble"]:
        return "unknown", f"{told['trouble']}; if it lasts, ask the engineer"
    is_expected = config.recorders[place.name].expected
    silence = told["silence"] + age if told["last"] else 60 * watched * is_expected
    if silence > config.silent and is_watched:
        return "silent", f"no file came for {silence / 60:.0f} minutes: look at the recorder"
    return ("alive" if told["last"] else "idle"), ""


def causes_of(config: Config, place: Place, told: dict[str, Any]) -> Iterator[tuple[str, str]]:
    """Why somebody must look, and what to do. It is mailed: so no name of a file is in it."""
    name, begun = place.name, told.get("begun")
    is_full = disk_usage(config.data).free < files.PIECE
    if full := told.get("full") or "make room on disk" * is_full:
        yield "full", f"{full}; it goes on by itself"
    if files.exists(place.morning) and not files.is_locked(place.changing):
        yield "morning", f"call edfclinic morning {name} again, with the same --card FILE if a " \
            "card was given"
    for kind, what in COUNTED.items():
        if count := told.get(f"{kind}_count"):
            yield kind, f"{count} {what}"
    if begun and text.seconds_since(begun) > 60 * minutes_since(config.recorder(name).ends):
        yield "waiting", f"what came since {text.here(begun)} is not put away: " \
            f"call edfclinic morning {name}"
    for folder in nights.strays(place):
        yield "rest", f"{folder} has files of patients who had no night: read its answers.log, " \
            f"then edfclinic seen {name}/{os.path.basename(folder)} --why TEXT"


def recorder(config: Config, place: Place) -> dict[str, Any]:
    told = files.from_json(place.told) or {}
    state, why = state_of(config, place, told)
    numbers = ("accepted", "refused_minutes", "gap_minutes", *(f"{it}_count" for it in LISTS))
    return {"state": state, "last": told.get("last"),
            "causes": [*([(state, why)] if why else []), *causes_of(config, place, told)],
            **{it: told.get(it, []) for it in LISTS}, **{it: told.get(it, 0) for it in numbers}}


def why_not_run(config: Config, command: str) -> str:
    """Of one that a timer calls, which writes how it ended. It is due from the first morning on."""
    last = files.from_json(os.path.join(config.data, f"{command}.json")) or {}
    locks = [Place(config, it).changing for it in config.recorders]
    begun = [os.stat(it).st_mtime for it in locks if files.exists(it)]
    age = time.time() - min(begun, default=time.time())
    age = text.seconds_since(last["at"]) if "at" in last else age
    return last.get("failed") or "it did not run for a week" * (age > WEEK)


def of_the_archive(config: Config, free: int) -> Iterator[tuple[str, str]]:
    if free < config.free_space:
        yield "free_space", f"{free / 1e9:.1f} GB are free: make room"
    try:
        check(config.data, config.nights)
    except Trouble as why:
        yield "trouble", str(why)
    if failed := why_not_run(config, "verify"):
        yield "verify", f"{failed}: call edfclinic verify, and ask the engineer"
    is_there = os.path.ismount(config.backup)
    failed = why_not_run(config, "backup") if is_there else f"{config.backup} is not mounted"
    if config.backup and failed:
        yield "backup", f"{failed}: mend that, then call edfclinic backup"


def look(config: Config) -> dict[str, Any]:
    free = min(disk_usage(it).free for it in (config.inboxes, config.data, config.nights))
    recorders = {name: recorder(config, Place(config, name)) for name in config.recorders}
    causes = [(name, *pair) for name, it in recorders.items() for pair in it.pop("causes")]
    causes += [(None, *pair) for pair in of_the_archive(config, free)]
    return {"free_bytes": free, "recorders": recorders,
            "causes": [dict(zip(("recorder", "cause", "text"), it)) for it in causes]}


def status(config: Config, is_json: bool, is_html: bool, is_telling: bool) -> int:
    try:
        found = look(config)
    except Exception as why:
        if is_telling:
            tell(config.alarm, config.data, [cause_of("trouble", why)])
        raise
    print(files.as_json(found).decode() if is_json else "\n".join(lines(found)))
    try:
        if is_telling:
            tell(config.alarm, config.data, found["causes"])
    finally:
        if is_html:
            files.replace(os.path.join(config.nights, "status.html"), page(found).encode())
    return LOOK if found["causes"] else DONE


def cause_of(what: str, why: Exception) -> Cause:
    return {"recorder": None, "cause": what, "text": text.why(why).removeprefix(f"{what}: ")}


def cause(it: Cause) -> str:
    return f"{it['recorder'] or 'all'} {it['cause']}: {it['text']}"


def lines(found: dict[str, Any]) -> list[str]:
    said = []
    for name, it in found["recorders"].items():
        said.append(f"{name} {it['state']}: {it['accepted']} accepted, {it['refused_count']} "
                    f"refused, {it['waiting_count']} waiting, {it['left_count']} left alone, "
                    f"{it['gap_minutes']} minutes of gaps")
        told = [("last", it["last"])] if it["last"] else []
        told += [(kind, of) for kind in LISTS for of in it[kind]]
        said += [f"  {kind}: {named('file', of['name'])}: " + ACCEPTED.sub(
            r"accepted, \1 data records new, \2 known", of["answer"]) for kind, of in told]
    said += [f"look: {cause(it)}" for it in found["causes"]]
    return said + [f"{found['free_bytes'] / 1e9:.1f} GB are free"]


def page(found: dict[str, Any]) -> str:
    rows = [f"<b>{name} {it['state']}</b>: {it['accepted']} accepted, {it['refused_count']} refused"
            f", {it['gap_minutes']} minutes of gaps, last file {(it['last'] or {}).get('at', '')}"
            for name, it in found["recorders"].items()]
    rows += [f"look: {it['recorder'] or 'all'} {it['cause']}" for it in found["causes"]]
    return f"{HEAD}<h1>Recorders, {text.now()}</h1><p>{'<p>'.join(rows)}" \
        f"<p>{found['free_bytes'] / 1e9:.1f} GB are free.\n"


def tell(alarm: Sequence[str], data: str, causes: list[Cause]) -> None:
    """Runs `alarm` for each cause, once a day as long as it lasts. One that it failed to tell is
    new the next time. So is each where nobody is told."""
    path, failed, known = os.path.join(data, "told.json"), "", []
    before = files.from_json(path)
    told = before["told"] if isinstance(before, dict) else []
    for it in causes if alarm else []:
        key = [it["recorder"], it["cause"]]
        last = next((of[2] for of in told if of[:2] == key), "")
        try:
            if not last or abs(text.seconds_since(last)) >= DAY:
                files.replace(path, files.as_json(before))      # else it were told each minute
                subprocess.run(alarm, input=f"edfclinic: {cause(it)}\n".encode(),
                               check=True, timeout=ALARM_SECONDS, stdout=subprocess.DEVNULL)
                last = text.now()
            known.append([*key, last])
        except (OSError, subprocess.SubprocessError) as why:
            failed = text.why(why)
    if before != {"alarm": [*alarm], "told": known}:
        files.replace(path, files.as_json({"alarm": [*alarm], "told": known}))
    if failed:
        raise Trouble(f"alarm: {failed}")


def tell_wrong(path: str, why: Wrong) -> None:
    """Of a config that can't be read: by its alarm, where that can be, else by the last one."""
    given = configs.readable(path)
    data = given.get("data", Config.data)
    if os.geteuid() and files.exists(data) and os.stat(data).st_uid == os.geteuid():
        before = files.from_json(os.path.join(data, "told.json"))
        last = before["alarm"] if isinstance(before, dict) else []
        tell(given.get("alarm", last), data, [cause_of("config", why)])
