"""Makes the folder of a night in `.new`, whole and synced, until it gets its name by one rename.
What a night says of itself."""
import os
import re
from collections.abc import Iterator, Sequence
from contextlib import contextmanager
from typing import Any

from . import files, programs, text
from .config import Recorder
from .files import join
from .nights import (FACTS, FORGOTTEN, NIGHT, NONE, PIECES, REPORT, THINNED, WHOSE, folders, is_cut,
                     line, read_facts, span, sums, write_sums)
from .place import LOG, REFUSED, TAKEN, Place
from .text import Trouble, named

LINE = re.compile(r"(known|differs|new|lacking|\d+) records=(\d+) \w+=(\S+) \w+=(\S+)")
COMPARED = {"known": "are alike in both", "differs": "differ", "new": "are not in night.edf",
            "lacking": "are in night.edf alone"}
MOST_LINES, MOST_SAME = 1_000, 10   # of a program's in a report; nights that are compared
# Of another night of the evening: whether it has all of this one, and this one all of it.
USE = {(True, False): "has all of this one: use that", (False, True): "has no more: use this",
       (True, True): "has the same as this one",
       (False, False): "each has what the other lacks: use what agrees with the paper"}


@contextmanager
def new_folder(place: Place) -> Iterator[str]:
    path = join(place.archive, ".new")
    files.remove_tree(path)
    with files.whole_or_none(path):
        files.make_folder(path)
        yield path


def make(place: Place, night: dict[str, Any]) -> dict[str, Any]:
    """Of a night, or of what is of none, which has its lines of the log, and no facts."""
    facts = night["facts"]
    target = join(place.archive, facts["night"])
    if not files.exists(target):
        files.make_folder(os.path.dirname(target))
        with new_folder(place) as new:
            for folder in (TAKEN, REFUSED):
                files.make_folder(join(new, folder))
            for name, path in night["files"].items():
                files.copy_file(path, join(new, name))
            if night["whose"]:
                files.replace(join(new, WHOSE), files.as_json(night["whose"]))
            if "log" in facts:
                lines = "".join("\t".join(it) + "\n" for it in facts["log"])
                files.replace(join(new, LOG), lines.encode())
                put(new, target)
            else:
                finish(place, new, facts)
    made = read_facts(target)
    tell_others(place, made)
    return made


def put(new: str, target: str) -> None:
    write_sums(new, {}, *files.below(new))
    files.sync_tree(new)
    files.rename(new, target)


def finish(place: Place, new: str, facts: dict[str, Any]) -> dict[str, Any]:
    look, night = list(facts["look"]), join(new, NIGHT)
    for name, command, room in (
            ("view.edf", "fill", (place.config.largest_file, programs.MEMORY)),
            ("night.svg", "picture", (1 << 26, 1 << 30))) if files.exists(night) else ():
        ran = programs.run(["edfruns", command, NIGHT], new, night, (), name, room)
        if ran.status == 3 and b" refused E41" not in ran.err:
            raise Trouble(f"edfruns {command}: {ran.why}")
        if ran.status:
            files.remove(join(new, name))
            look.append(f"{NONE} {name}: {ran.why}; show the night to the engineer")
    made: dict[str, Any] = {**facts, "look": look, "same_night": same_nights(place, new, facts)}
    write_facts(new, made)
    put(new, join(place.archive, made["night"]))
    return made


def has_all(folder: str, other: str) -> bool:
    """Whether the night in this folder has each data record of that in the other."""
    paths = [join(it, NIGHT) for it in (folder, other)]
    return all(map(files.exists, paths)) and not programs.run(
        ["edfruns", "compare", *paths], folder, max(paths, key=os.path.getsize)).status


def same_nights(place: Place, new: str, facts: dict[str, Any]) -> list[dict[str, Any]]:
    """Others of this code and evening, with less than a pause between; and which has all of the
    other."""
    found, name = list[dict[str, Any]](), place.name
    recorder = place.config.recorders.get(name, Recorder(name))
    there = [it for it in folders(place, False) if os.path.basename(it)[:10] == facts["night"][:10]]
    for folder in there:
        other = read_facts(folder)
        if other.get("patient") == facts["patient"] and len(found) < MOST_SAME:
            before, after = sorted((span(facts), span(other)))
            found += [] if is_cut(before, after, recorder) else [
                {"night": other["night"], "has_all": has_all(folder, new),
                 "all_here": has_all(new, folder)}]
    return found


def tell_others(place: Place, made: dict[str, Any], is_there: bool = True) -> None:
    """The others of its evening tell of this night, or no longer; a second call changes nothing."""
    for it in made.get("same_night", ()):
        folder = join(place.archive, it["night"])
        if facts := read_facts(folder):
            same = [of for of in facts.get("same_night", ()) if of["night"] != made["night"]]
            same += [{"night": made["night"], "has_all": it["all_here"],
                      "all_here": it["has_all"]}] * is_there
            same.sort(key=lambda of: str(of["night"]))
            write_facts(folder, {**facts, "same_night": same})
            write_sums(folder, sums(folder), FACTS, REPORT)


def refused(file: dict[str, Any]) -> str:
    known = "it can't be read, so nobody knows which minutes it has" if file["minutes"] is None \
        else f"the night lacks {file['missing']} of its {file['minutes']} minutes"
    return f"{'all of it is in the night' if file['resent'] else known} ({file['answer']})"


def told(facts: dict[str, Any], seen: Sequence[str] = (), is_clear: bool = True) -> list[str]:
    """`seen` has what its looks were answered. It is clear where no file waits in the inbox, and
    receive runs."""
    kept = "it may be erased if the paper agrees" if is_clear and (seen or not facts["look"]) else \
        "keep it till each look is answered"
    cards = [named("card", it["name"]) + f", here card-{nth}.edf" * (THINNED not in facts) + (
             f": all of it is put away; {kept}" if programs.accepted(it["answer"]) else
             f", was {it['answer']}: none of it is put away")
             for nth, it in enumerate(facts["card"], 1) if it["name"] != FORGOTTEN]
    looks = [f"look: {it}" for it in facts["look"]] + [f"answered: {it}" for it in seen]
    clear = f"files of patients who had no night are in {facts['rest']}" if "rest" in facts else \
        "nothing that came before morning was called is missing"
    clear += ": compare begin, end and gaps with the paper"
    same = [f"{it['night']} is there too, of this code and evening, and "
            f"{USE[it['has_all'], it['all_here']]}; keep both"
            for it in facts.get("same_night", ())]
    none = "what came of it is with the night that it replaces, and so is its card" \
        if "recoded" in facts else "no card is in it"
    return [line(facts), *same, *(cards or [none]), *(looks or [clear] * is_clear)]


def report(folder: str, facts: dict[str, Any]) -> str:
    is_there = files.exists(join(folder, NIGHT))
    lines = [*told(facts), f"patient {facts['patient']}, investigation {facts['investigation']}"]
    lines += [f"view.edf is for EDFbrowser, night.svg a picture, {NIGHT} all data for programs"
              ] * (is_there and THINNED not in facts)
    lines += ["it was thinned: what came, its cards, view.edf and night.svg were removed"
              ] * (THINNED in facts)
    lines += [f"{named('file', it['name'])}{differs}: {refused(it)}" for kind, differs in (
        ("refused", ""), ("differs", " differs from the card")) for it in facts[kind]]
    pieces = [["compare", NIGHT, it] for it in files.names(folder) if it.startswith(PIECES)]
    for words in [["list", NIGHT], *pieces] if is_there else []:
        ran = programs.run(["edfruns", *words], folder, join(folder, NIGHT))
        said, of = text.spell_lines(ran.out or ran.err), ", which was received," * len(words[2:])
        lines += ["", f"edfruns {' '.join(words)}{of} tells:", *(LINE.sub(
            lambda it: f"from {it[3]} for {it[4]} seconds: {it[2]} data records, no gap"
            if it[1].isdigit() else f"{it[3]} to {it[4]}: {it[2]} data records {COMPARED[it[1]]}",
            one) for one in said[:MOST_LINES])]
    return "\n".join(lines) + "\n"


def write_facts(folder: str, facts: dict[str, Any]) -> None:
    files.replace(join(folder, REPORT), report(folder, facts).encode())
    files.replace(join(folder, FACTS), files.as_json(facts))
