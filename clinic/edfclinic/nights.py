"""The folders of the archive, their names and their sums. nights, seen and verify tell what there
is, that a look was answered, and whether it is as it was put away."""
import os
import re
from itertools import chain, count
from typing import Any

from . import files, text
from .config import Config, Recorder
from .files import join
from .place import Place, places
from .programs import Run
from .text import DONE, LOOK, Wrong

NIGHT, PIECES, REPORT = "night.edf", "pieces", "report.txt"
FACTS, SUMS, SEEN, NONE = "night.json", "SHA256SUMS", "seen.txt", "there is no"
REPLACES, WHOSE = "replaces", "whose.json"      # the night that was recoded; what is of others
PLAN, THINNED = "plan.json", "thinned"      # of a morning; the sums of cards that thin removed
REST = ".rest"      # behind a date, as no code gives it: what is of no night of its morning
FORGOTTEN, PATIENT = "forgotten", "patient "    # for a file's name; before an owner's code


def is_cut(before: Run, after: Run, recorder: Recorder) -> bool:
    gap = after.first - before.end
    ends = before.end + (recorder.ends * text.MINUTE - before.end) % (24 * text.HOUR)
    return gap >= recorder.pause * text.SECOND or gap >= 30 * text.MINUTE and ends <= after.first


def name_of(day: str, code: str) -> str:
    plain = re.sub(r"\\x5c|[^A-Za-z0-9-]", "_", code)      # a spelled backslash is one letter
    return f"{day}-{plain[:40]}"


def free_name(base: str, used: set[str]) -> str:
    name = next(it for it in chain([base], (f"{base}.{nth}" for nth in count(2))) if it not in used)
    used.add(name)
    return name


def used_names(place: Place) -> set[str]:
    """Also those of nights that somebody removed by hand, while others still tell of them."""
    whose = [files.from_json(join(it, WHOSE)) or {} for it in folders(place)]
    told = {night for it in whose for of in it.values() for night in of}
    told |= {(files.read(join(it, REPLACES)) or "").strip() for it in folders(place)}
    return told.union(files.names(place.archive), files.names(place.replaced))


def line(facts: dict[str, Any]) -> str:
    lacks = f"{facts['gap_minutes']} minutes of gaps" if facts["gap_minutes"] else "without a gap"
    return f"{facts['recorder']}/{facts['night']}: {facts['first']} to {facts['last']}, {lacks}"


def folders(place: Place, is_all: bool = True, root: str = "") -> list[str]:
    root = root or place.archive
    return [join(above, name) for above in (root, join(root, "replaced"))[:1 + is_all]
            for name in files.names(above) if name[:1].isdigit()]


def read_facts(folder: str) -> dict[str, Any]:
    found = files.from_json(join(folder, FACTS))
    return found if isinstance(found, dict) else {}


def span(facts: dict[str, Any]) -> Run:
    return Run(text.instant(facts["first"]), text.instant(facts["last"]))


def sums(folder: str) -> dict[str, str]:
    written = files.read(join(folder, SUMS)) or ""
    return {it[66:]: it[:64] for it in written.split("\n") if it[64:66] == "  "}


def card_sums(folder: str) -> dict[str, str]:
    """Of the cards that it has, or had before it was thinned."""
    known = {**(read_facts(folder).get(THINNED) or {}), **sums(folder)}
    return {it: of for it, of in known.items() if it.startswith("card-")}


def planned(place: Place) -> set[str]:
    """The folder of what is of none, where an unfinished morning will make one."""
    plan = files.from_json(join(place.morning, PLAN)) or {"rest": []}
    return {os.path.basename(it["facts"]["night"]) for it in plan["rest"]}


def write_sums(folder: str, known: dict[str, str], *anew: str) -> None:
    """These, and those of the files that were written anew."""
    known |= {it: files.sum_of_file(join(folder, it)) for it in anew}
    lines = "".join(f"{known[it]}  {it}\n" for it in sorted(known))
    files.replace(join(folder, SUMS), lines.encode())


def answers(folder: str) -> list[str]:
    """What `seen` wrote, the newest last."""
    return (files.read(join(folder, SEEN)) or "").split("\n")[:-1]


def is_rest(folder: str) -> bool:
    """Those of 2.0.0 have -rest behind the date, as a code may, but no facts."""
    behind = os.path.basename(folder)[10:]
    return behind.startswith(REST) or behind.startswith("-rest") and not read_facts(folder)


def strays(place: Place) -> list[str]:
    """The folders of files whose patients had no night of their morning, which nobody has seen."""
    return [it for it in folders(place) if is_rest(it) and not answers(it) and any(
        PATIENT in of[0] and files.exists(join(it, name))
        for name, of in (files.from_json(join(it, WHOSE)) or {}).items())]


def find(config: Config, night: str, is_all: bool = False) -> tuple[Place, str]:
    """Its place, and its folder."""
    known = {f"{place.name}/{os.path.basename(it)}": (place, it) for place in places(config)
             for it in reversed(folders(place, is_all))}
    if night not in known:
        raise Wrong(f"{night} is no night; edfclinic nights has them, as r01/2026-11-26-S-0118")
    return known[night]


def check_code(code: str) -> None:
    if not re.fullmatch("(?!-|X$)[!-~]{1,60}", code):
        raise Wrong("a code has 1 to 60 printable characters without a space, and is not X: "
                    "a night of X is forgotten by the code that recode gives it")


def nights(config: Config, is_json: bool) -> int:
    listed = [{**read_facts(it), "folder": it, "seen": answers(it)} for place in places(config)
              for it in folders(place, False)]
    whole = [it for it in listed if "night" in it]
    said = [line(it) + (f"; look answered: {it['seen'][-1]}" if it["look"] and it["seen"] else
                        f"; look: read {it['folder']}/{REPORT}" * bool(it["look"])) for it in whole]
    print(files.as_json(whole).decode() if is_json else
          "\n".join(said or ["no night was put away yet"]))
    for it in [it for it in listed if "night" not in it]:
        text.say(f"{it['folder']} has no {FACTS}")
    rest = [it for place in places(config) for it in strays(place)]
    for folder in rest:
        text.say(f"look: {folder} has files of patients who had no night")
    is_open = any(it["look"] and not it["seen"] for it in whole)
    return LOOK if is_open or rest or len(whole) < len(listed) else DONE


def seen(config: Config, night: str, why: str) -> int:
    """Writes beside the report what somebody who looked found."""
    place, folder = find(config, night, True)
    if not 1 <= len(why.strip()) <= 500:
        raise Wrong("--why has 1 to 500 letters, as 'as on paper, AB'")
    with open(place.lock_nights()):
        said = [*answers(folder), f"{text.now()} {text.spell(why.strip())}"]
        files.replace(join(folder, SEEN), "".join(f"{it}\n" for it in said).encode())
        write_sums(folder, sums(folder), SEEN)
    print(f"{night}: {said[-1]}")
    return DONE


def differing(folder: str, listed: str) -> list[str]:
    """What is not as its sums say, or those of the other folder, which may have fewer."""
    wanted, there = {**sums(folder), **sums(listed)}, set(files.below(folder)) - {SUMS}
    wrong = [f"{name}: missing" for name in sorted(set(wanted) - there)]
    wrong += [f"{name}: has no sum" for name in sorted(there - set(wanted))]
    for name in sorted(there & set(wanted)):
        try:
            is_same = files.sum_of_file(join(folder, name)) == wanted[name]
            wrong += [] if is_same else [f"{name}: differs"]
        except OSError as why:
            wrong.append(f"{name}: {why.strerror}")
    return [text.spell(f"{folder}/{it}") for it in (wrong if sums(listed) else [f"{SUMS}: none"])]


def verify(config: Config, given: list[str]) -> int:
    known = [it for place in places(config) for it in folders(place)]
    chosen = [folder for _, folder in map(lambda it: find(config, it), given)]
    wrong = [said for folder in chosen or known for said in differing(folder, folder)]
    said = f"{len(wrong)} files changed"
    print("\n".join([*wrong, f"{len(chosen or known)} nights, {said}"]))
    if not chosen:      # for status; told to everybody, so without names
        told = {"at": text.now(), "failed": said * bool(wrong)}
        files.replace(join(config.data, "verify.json"), files.as_json(told))
    return LOOK if wrong else DONE
