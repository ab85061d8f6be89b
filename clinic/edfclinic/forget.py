"""forget: lists what a patient has, and removes it. What is another's, or may be, and what tonight
has stays, and is told. A kill leaves what the next call finds again."""
import hashlib
import os

from . import files, making, nights, programs
from .config import Config
from .files import join
from .nights import FACTS, PATIENT, REPORT, REST, SEEN, SUMS, WHOSE, check_code, free_name
from .place import LOG, REFUSED, Place, places, read_log
from .text import DONE, LOOK, Trouble, say, spell

BEYOND = "not looked at: inboxes, cards, the config, the journal (names of files), other copies"
Whose = dict[str, list[str]]


def files_of(folder: str, code: str, mend: tuple[str, ...] = ()) -> list[str]:
    """Those with the code in their head, or that get it."""
    paths = [join(folder, name) for name in files.below(folder) if name.endswith(".edf")]
    return [it for it in paths if programs.code_of(it) == code or code in mend]


def strip(folder: str, doomed: set[str], whose: Whose) -> None:
    """Removes these files and their names. Till WHOSE, the last, is written a call goes on here."""
    numbers, lines = {os.path.basename(it) for it in doomed}, read_log(join(folder, LOG))
    stay = [it for it in lines if it.file not in numbers]
    for name in doomed - {FACTS}:
        files.remove(join(folder, name))
    made, last = dict[str, bytes](), {WHOSE: files.as_json(whose)} if whose else {}
    if FACTS not in doomed and (facts := nights.read_facts(folder)):
        gone = {it[2:4] for it in lines} - {it[2:4] for it in stay}
        lost = [it for it in facts["refused"] if (it["name"], it["answer"]) in gone]
        lost += [it for nth, it in enumerate(facts["card"], 1) if f"card-{nth}.edf" in doomed]
        for it in lost:
            it["name"] = nights.FORGOTTEN
        for name in doomed & {*facts.get(nights.THINNED, ())}:
            facts[nights.THINNED].pop(name)
        made = {FACTS: files.as_json(facts), REPORT: making.report(folder, facts).encode()}
    made |= {LOG: "".join("\t".join(it) + "\n" for it in stay).encode()} if lines else {}
    sums = {it: of for it, of in nights.sums(folder).items() if it not in doomed | {WHOSE}}
    sums |= {it: hashlib.sha256(data).hexdigest() for it, data in (made | last).items()}
    made[SUMS] = "".join(f"{sums[it]}  {it}\n" for it in sorted(sums)).encode()
    for name, data in (made | last).items():
        files.replace(join(folder, name), data)
    for name in ({WHOSE} - last.keys()) | ({FACTS} & doomed):
        files.remove(join(folder, name))


def rest_of(place: Place, folder: str) -> str:
    """A name without the code for what stays of a night."""
    above, night = os.path.split(folder)
    replaced = join(above.removesuffix("/replaced"), "replaced")
    name = free_name(f"{night[:10]}{REST}", {*files.names(replaced)} | nights.planned(place))
    return folder if nights.is_rest(folder) else join(replaced, name)


class Forgetting:
    """Of one recorder: what the patient has in archive and backup."""

    def __init__(self, place: Place, roots: list[str], code: str, is_meant: bool):
        self.place, self.code, self.is_meant = place, spell(code), is_meant
        self.lines = set[str]()
        for above in [join(root, name) for root in roots for name in ("", "replaced")]:
            files.remove_tree(join(above, ".new"))      # what a kill left, also of a backup
        files.remove_tree(join(place.root, "gone"))
        self.facts = {it: nights.read_facts(it) for root in roots
                      for it in nights.folders(place, True, root)}
        later = {files.read(join(it, nights.REPLACES)): it for it in self.facts}
        self.night = {it: of.get("night", os.path.basename(it)) for it, of in self.facts.items()}
        self.made_of = {it: later.get(f"{night}\n", "") for it, night in self.night.items()}
        # What a call that was killed had found is found again by its names.
        self.begun = join(place.root, "forgetting.json")
        before = files.from_json(self.begun) or [code]
        if before[0] != code:
            raise Trouble(f"call edfclinic forget {before[0]} --yes again: it was not finished")
        self.gone = {f"{PATIENT}{self.code}", *before[1:]}
        self.going = [it for it, of in self.facts.items() if self.night[it] in self.gone
                      or of.get("patient") == self.code and not self.made_of[it]]
        for folder in self.going:       # and those that it was made of, when it was recoded
            self.going += {it for it in self.facts if self.made_of[it] == folder} - {*self.going}
        self.gone |= {self.night[it] for it in self.going}

    def visit(self, folder: str, is_going: bool) -> None:
        """Parts what is the patient's from what stays, tells both, and if it is meant does it."""
        whose: Whose = files.from_json(join(folder, WHOSE)) or {}
        facts = self.facts[folder]
        if is_going and "same_night" not in facts:      # of 2.0.0, which did not tell of each
            codes = {it: programs.code_of(join(folder, it)) for it in files.below(folder)
                     if it.startswith(REFUSED) and it not in whose}
            whose |= {it: [f"{PATIENT}{code}"] for it, code in codes.items()
                      if code not in ("", "X", facts.get("patient"))}
        rest = {it: [night for night in whose[it] if night not in self.gone] for it in whose}
        there = [it for it in whose if files.exists(join(folder, it))]
        doomed, to = {it for it in rest if not rest[it]}, folder
        if is_going:
            doomed |= {*files.below(folder), *nights.sums(folder)} - {*rest, LOG, SUMS, WHOSE}
            to = rest_of(self.place, folder)
        at, does = (to, "removed") if self.is_meant else (folder, "has")
        heads = {*files_of(folder, self.code)} - {join(folder, it) for it in there}
        if is_going:
            self.lines.add(f"{does} {folder}")
        elif heads:
            of = self.made_of[folder] or self.facts[folder].get("patient", "nobody known")
            self.lines.add(f"look: {folder} stays: files in it have this code, but are of {of}")
        for name in there:
            path, of = join(at, name), " or ".join(rest[name])
            if not of and not is_going:
                self.lines.add(f"{does} {path}")
            elif of and rest[name] != whose[name]:
                self.lines.add(f"look: {path} stays: it is of this patient, of {of}, or of both")
            elif of and is_going:
                self.lines.add(f"stays {path}: it is of {of}")
        is_left = {*files.below(folder)} <= {SUMS, LOG, SEEN}
        if self.is_meant and (is_going or rest != whose or is_left):
            self.part(folder, to, doomed, {it: rest[it] for it in rest if rest[it]})

    def part(self, folder: str, to: str, doomed: set[str], stay: Whose) -> None:
        files.make_folder(os.path.dirname(to))
        if to != folder:
            files.rename(folder, to)
        strip(to, doomed, {it: stay[it] for it in stay if stay[it] != [os.path.basename(to)]})
        # Where no file stays the log does, for the names of others.
        if {*files.below(to)} <= {SUMS, LOG, SEEN} and not read_log(join(to, LOG)):
            files.remove_tree(to)


def forget(config: Config, code: str, is_meant: bool) -> int:
    check_code(code)
    is_missing, said = bool(config.backup) and not os.path.ismount(config.backup), list[str]()
    roots = [config.nights] if is_missing or not config.backup else [config.nights, config.backup]
    for place in places(config, config.data, *roots[1:]):
        mend = getattr(config.recorders.get(place.name), "mend", None) or ()
        with open(place.lock_nights()):
            of = Forgetting(place, [join(it, place.name) for it in roots], code, is_meant)
            if is_meant:
                files.replace(of.begun, files.as_json([code, *sorted(of.gone)]))
            for folder in sorted(of.facts, key=lambda it: not nights.is_rest(it)):
                of.visit(folder, folder in of.going)
            if is_meant:
                files.remove(of.begun)
            of.lines |= {f"stays until its morning: {it}" for root in (place.tonight, place.morning)
                         for it in files_of(root, of.code, mend)}
        said += sorted(of.lines)
        print("".join(f"{spell(it)}\n" for it in sorted(of.lines)), end="")
    say(BEYOND if said else f"nothing has exactly the code {code}")
    if is_missing:
        print(f"{config.backup} is not mounted: what it has stays; mount it, and call again")
    is_look = any(it.startswith(("look: ", "stays until ")) for it in said)
    return LOOK if is_look or is_missing else DONE
