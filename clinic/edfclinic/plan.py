"""Plans a morning: takes what came and the cards into a store, exports it, cuts it into nights, and
says which file goes into which. It changes nothing but its working folder."""
import os
from contextlib import closing
from datetime import timedelta
from typing import Any

from . import files, nights, programs, text
from .config import Recorder
from .files import join
from .giving import File, Giving, Part, Span, looks
from .nights import is_cut
from .place import LOG, REFUSED, TAKEN, Line, Place, came_whole, read_log
from .programs import CONFLICTS, Held, Run, accepted
from .text import Trouble, named
from .tonight import merged

CARDS, MOST_NAMED, MOST_NIGHTS = "cards", 1_000, 100
Exports = list[tuple[str, Held, list[Run]]]


class NoExport(Exception):
    """A program was ended over it, as it would be each time."""


def recording(path: str) -> list[str]:
    """The words of the recording field."""
    with files.opened(path) as fd:
        return [text.spell(os.fsdecode(it)) for it in os.pread(fd, 80, 88).split(b" ")]


class Planning:
    def __init__(self, recorder: Recorder, place: Place):
        self.recorder, self.place, self.folder = recorder, place, place.morning
        for name in files.names(self.folder):
            if name.startswith("work"):
                files.remove_tree(join(self.folder, name))
        self.name, self.cuts = f"work.{os.urandom(6).hex()}", 0
        self.work = join(self.folder, self.name)
        files.make_folder(self.work)

    def plan(self, before: list[Span], waiting: list[str]) -> dict[str, Any]:
        """`before` are cards that were put away before; `waiting` tells of the inbox."""
        log = read_log(join(self.folder, LOG))
        taken = self.known(TAKEN, {line.file: line for line in log})
        cards, pieces, why = self.known(CARDS, {}), list[File](), ""
        self.exports: Exports = []
        try:
            self.exports, pieces = self.whole(taken, cards)
            parts = [part for it in self.exports for part in self.parts(*it)]
            self.compare(parts, [it[0] for it in self.exports], [*taken, *cards])
        except NoExport as ended:
            self.exports, parts, why = [], self.raw([*taken, *cards]), str(ended)
        parts.sort(key=lambda it: (it.runs[0].first, it.held.patient, it.path))
        rest: list[Part] = []
        if parts:
            self.name_nights(parts, why, waiting)
            rest = self.give_out(parts, taken, cards, pieces, log, before)
        files.sync_tree(self.work)
        told = [[{"files": it.files, "facts": it.facts, "whose": it.whose} for it in of]
                for of in (parts, rest)]
        return {"cards": [f"{named('card', it.name)} was {it.answer}" for it in cards],
                "nights": told[0], "rest": told[1]}

    def known(self, folder: str, log: dict[str, Line]) -> list[File]:
        found, work = [], join(self.work, folder)
        files.make_folder(work)
        for name in [it for it in files.names(join(self.folder, folder)) if it.endswith(".edf")]:
            path, line = join(self.folder, folder, name), log.get(name)
            card = files.from_json(f"{path[:-4]}.json") or {}
            told = (line.name, line.answer) if line else (card.get("name", name), "")
            given = programs.prepared(path, work, self.recorder)
            found.append(File(path, *told, given, programs.outline(given), programs.code_of(given)))
        return found

    def whole(self, taken: list[File], cards: list[File]) -> tuple[Exports, list[File]]:
        """The exports; where a card contradicts what came, also of what came."""
        exports = self.export("first.db", self.store("first.db", [*taken, *cards]))
        if not any(it.answer.startswith(CONFLICTS) for it in cards):
            return exports, []
        before = exports
        exports = self.export("second.db", self.store("second.db", [*cards, *taken]))
        sums = {files.sum_of_file(path) for path, _, _ in exports}
        return exports, [File(path, "", "", "", runs, it.patient) for path, it, runs in before
                         if files.sum_of_file(path) not in sums]

    def store(self, name: str, given: list[File]) -> list[Held]:
        with closing(programs.Session(self.folder, f"{self.name}/{name}")) as session:
            for file in given:
                is_fit = len(file.runs or ()) <= programs.MOST_RUNS
                file.answer = session.take(file.given) if is_fit else programs.TOO_MANY
                if programs.is_trouble(file.answer):
                    raise Trouble(f"{file.name}: {file.answer} {session.why()}")
            return session.held()

    def make(self, words: list[str], of: str, name: str) -> str:
        most = max(self.place.config.largest_export, programs.room_of(of)[0])
        ran = programs.run(words, self.work, of, (), name, (most, programs.MEMORY))
        if ran.status < 0 or b" refused E41" in ran.err:
            raise NoExport(f"{' '.join(words[:2])}: {ran.why}")
        if ran.status:
            raise Trouble(f"{' '.join(words[:2])}: {ran.why}")
        return join(self.work, name)

    def export(self, store: str, held: list[Held]) -> Exports:
        found = []
        for it in held:
            path = self.make(["edfstore", "export", store, str(it.place)], join(self.work, store),
                             f"{store[:-3]}-{it.place}.edf")
            runs = programs.outline(path)
            if not runs:
                raise Trouble(f"an export of {self.place.name} can't be read")
            found.append((path, it, runs))
        return found

    def cut(self, runs: list[Run]) -> list[tuple[int, int]]:
        """From which to which of these runs each night goes."""
        at = [nth for nth in range(1, len(runs)) if is_cut(runs[nth - 1], runs[nth], self.recorder)]
        self.cuts += len(at)
        at = [] if self.cuts >= MOST_NIGHTS else at
        return list(zip([0, *at], [*at, len(runs)]))

    def parts(self, path: str, held: Held, runs: list[Run]) -> list[Part]:
        found, nights_of = [], self.cut(runs)
        for begin, end in nights_of:
            words = ["edfruns", "cut", path, "--from", text.shown(runs[begin].first)]
            words += ["--to", text.shown(runs[end].first)] if end < len(runs) else []
            name = f"{os.path.basename(path)[:-4]}.{begin}.edf"
            night = self.make(words, path, name) if len(nights_of) > 1 else path
            found.append(Part(night, held, runs[begin:end]))
        return found

    def raw(self, given: list[File]) -> list[Part]:
        """Nights without an export, by the outlines of what came."""
        found = []
        for code in sorted({it.code for it in given if it.runs}):
            runs = merged([run for it in given if it.code == code for run in it.runs or ()])
            found += [Part("", Held(0, code, ""), runs[begin:end]) for begin, end in self.cut(runs)]
        return found

    def compare(self, parts: list[Part], exports: list[str], given: list[File]) -> None:
        """Stops where the nights, taken back, are not what was exported, or lack what came."""
        with closing(programs.Session(self.folder, f"{self.name}/back.db")) as session:
            for part in parts:
                if not accepted(answer := session.take(part.path)):
                    raise Trouble(f"a night can't be taken back: {answer}")
            for file in given:
                if accepted(file.answer) and " new=0 " not in session.take(file.given):
                    raise Trouble(f"the night lacks data records of {file.name}")
            held = session.held()
        back = [files.sum_of_file(path) for path, _, _ in self.export("back.db", held)]
        if back != [files.sum_of_file(path) for path in exports]:
            raise Trouble("the nights, taken back, are not what was exported")

    def name_nights(self, parts: list[Part], why: str, waiting: list[str]) -> None:
        used = nights.used_names(self.place)
        for part in parts:
            runs, lists = part.runs, ("card", "refused", "differs", "look")
            evening = runs[0].first // text.MINUTE - self.recorder.ends
            day = text.EPOCH + timedelta(minutes=evening)
            part.files = {nights.NIGHT: part.path} if part.path else {}
            lacks = sum(after.first - before.end for before, after in zip(runs, runs[1:]))
            name = nights.free_name(nights.name_of(f"{day:%Y-%m-%d}", part.held.patient), used)
            part.facts = {"night": name, "recorder": self.place.name, "patient": part.held.patient,
                          "investigation": part.held.investigation,
                          "first": text.shown(runs[0].first), "last": text.shown(runs[-1].end),
                          "gap_minutes": text.minutes(lacks), **{name: [] for name in lists}}
            if why:
                part.facts["look"].append(f"{nights.NONE} {nights.NIGHT}: {why}; what came is in "
                                          f"{TAKEN}: ask the engineer")
            part.facts["look"] += waiting
        self.tell_why_many(parts)

    def tell_why_many(self, parts: list[Part]) -> None:
        """Of two recordings of a patient and an evening the field that differs; else the count."""
        count = len(parts)
        for nth, part in enumerate(parts):
            other = next((it for it in parts[:nth] if it.held.place != part.held.place and (
                it.held.patient, it.night[:10]) == (part.held.patient, part.night[:10])), None)
            if other:
                count -= 1
                why = f"two recordings of {part.held.patient}: {self.difference(other, part)}: " \
                    "right if the recorder was exchanged; else ask the engineer"
                for it in (other, part):
                    it.facts["look"] += [why] * (why not in it.facts["look"])
        for part in parts if count > 1 else []:
            part.facts["look"].append(
                f"this call made {len(parts)} nights: right if no morning was called for days, or "
                "if two slept here; else ask the engineer")

    def difference(self, one: Part, other: Part) -> str:
        """As `edfruns compare` has it; of the recording field also the words that differ."""
        ran = programs.run(["edfruns", "compare", one.path, other.path], self.work, one.path)
        pairs = [it for it in zip(recording(one.path), recording(other.path)) if it[0] != it[1]]
        told = f" ({'; '.join(map(', '.join, pairs))})" if pairs else ""
        return ran.why.rpartition(": ")[2] + told

    def give_out(self, parts: list[Part], taken: list[File], cards: list[File], pieces: list[File],
                 log: list[Line], before: list[Span]) -> list[Part]:
        """Gives each file to its night. What is of none of them is the last."""
        used = nights.used_names(self.place)
        rest = nights.free_name(f"{parts[0].night[:10]}{nights.REST}", used)
        giving = Giving(parts, f"replaced/{rest}", self.has_all, came_whole(log, self.folder))
        lines, refused = {it.file: it for it in log}, [it for it in log if not accepted(it.answer)]
        for file in cards:
            giving.card(file)
        for file in pieces:
            giving.card(file, nights.PIECES)
        for file in taken:
            name = os.path.basename(file.path)
            is_there = accepted(file.answer) or not self.exports
            giving.give(file, TAKEN, "" if is_there else "differs",
                        lines.get(name, Line("", name, file.name, file.answer)))
        there = {os.path.basename(it.path): it for it in self.known(REFUSED, lines)}
        for line in refused[:MOST_NAMED]:
            giving.give(there.get(line.file) or File("", line.name, line.answer), REFUSED, REFUSED,
                        line)
        giving.strange(before, cards)
        parts[0].files |= {LOG: join(self.folder, LOG)} if log else {}
        for part in parts:
            part.facts["look"] += looks(part.facts)
            part.facts["look"] += [f"{len(refused)} files were refused, of which {MOST_NAMED} were "
                                   f"looked at: see the {LOG} of the first night of this morning"
                                   ] * (len(refused) > MOST_NAMED)
        if not giving.rest.facts["log"]:
            return []
        for part in parts:
            part.facts["rest"] = giving.rest.night
        return [giving.rest]

    def has_all(self, file: File) -> bool:
        return any(it.patient == file.code and not programs.run(
            ["edfruns", "compare", path, file.given], self.work, path).status
            for path, it, _ in self.exports)
