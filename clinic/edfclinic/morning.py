"""morning: plans, and puts the night away by renames. A kill between two leaves what the next call
goes on with: a `morning` without a plan, which takes cards, or with one, which is finished."""
import os
import time
from contextlib import suppress
from typing import Any

from . import files, making, nights, text
from .config import Config
from .files import join
from .inbox import Inbox
from .nights import PLAN
from .place import LOG, REFUSED, TAKEN, Card, Line, Place, check, read_log
from .plan import CARDS, Planning
from .programs import accepted
from .text import DONE, LOOK, Trouble, named

WAIT, RUNS = 120.0, 3.0         # seconds for which receive is busy, or begins
NAMED = 3                                       # names that are told
Sums = list[tuple[Card, str]]


def is_receiving(place: Place) -> bool:
    end = time.monotonic() + RUNS
    while not (is_locked := files.is_locked(place.session)) and time.monotonic() < end:
        time.sleep(0.05)
    return is_locked


def in_inbox(place: Place) -> list[str]:
    """The names of what lies there and in no night. What was answered is told by its night; but a
    kill leaves what was accepted, and is not kept yet."""
    known = {(it.size, it.sum) for above in (place.morning, place.tonight)
             for it in read_log(join(above, LOG))
             if not accepted(it.answer) or files.exists(join(above, TAKEN, it.file))}
    sizes, found = {size for size, _ in known}, list[str]()
    with Inbox(place.config, place.name).folder() as fd:
        for name in sorted(os.listdir(fd)):
            with suppress(FileNotFoundError):
                size = str(os.stat(name, dir_fd=fd, follow_symlinks=False).st_size)
                summed = ""
                with suppress(OSError), files.opened(name, files.READ, fd) as file:
                    summed = files.sum_of(file) if size in sizes else ""
                found += [text.spell(name)] * ((size, summed) not in known)
    return found


def shown(names: list[str]) -> str:
    return ", ".join([named("file", it) for it in names[:NAMED]] + [".."] * (len(names) > NAMED))


class Morning:
    def __init__(self, config: Config, name: str, cards: list[Card]):
        self.recorder, self.cards = config.recorder(name), cards
        self.place = Place(config, name)
        check(config.data, config.nights)
        self.lock = self.place.lock_nights()
        self.gone, self.known = join(self.place.root, "gone"), list[tuple[str, str]]()
        self.looks = list[str]()        # why somebody must look, of no night
        self.waiting = list[str]()      # what each night tells of the inbox

    def run(self) -> int:
        files.make_folder(self.place.archive)
        files.remove_tree(self.gone)
        if not is_receiving(self.place):
            self.looks.append("receive does not run: systemctl start "
                              f"edfclinic-receive@{self.place.name}")
        status = self.put_away_or_tell()
        status = max(status, self.tell_known())     # when all looks are known
        print("".join(f"look: {it}\n" for it in self.looks), end="")
        return LOOK if self.looks else status

    def put_away_or_tell(self) -> int:
        if plan := files.from_json(join(self.place.morning, PLAN)):
            self.look_at_inbox()
            status = self.put_away(plan)
            self.looks += [f"{named('card', card.name)}: an earlier morning was finished; "
                           "call again with the card" for card, _ in self.unknown_cards()]
            return status
        cards = self.unknown_cards()
        is_staged = self.stage(cards)
        self.look_at_inbox()
        if not is_staged:
            return self.tell_refused()
        self.copy_cards(cards)
        planning = Planning(self.recorder, self.place)
        with files.whole_or_none(planning.work):
            known = [nights.read_facts(folder) for _, folder in self.known]
            plan = planning.plan([(it["night"][:10], nights.span(it)) for it in known
                                  if "first" in it], self.waiting)
        if plan["nights"]:
            files.replace(join(self.place.morning, PLAN), files.as_json(plan))
            return self.put_away(plan)
        self.looks += [f"{it}; ask the engineer" for it in plan["cards"]]
        return self.give_back()

    def look_at_inbox(self) -> None:
        """Behind the staging: what came before it is in the morning, or here, or was answered
        since. Then tonight, which is looked at last, has it."""
        waits, since = list[str](), list[Line]()
        try:
            waits = in_inbox(self.place)
        except OSError as why:
            self.looks.append(f"its inbox can't be read, {why.strerror}: ask the engineer")
            self.waiting.append("its inbox could not be read when morning was called: ask the "
                                "engineer whether files wait there")
        if files.exists(self.place.morning):
            staged, now = (read_log(join(it, LOG)) for it in (self.place.morning,
                                                              self.place.tonight))
            since = [it for it in now if it not in staged]
        self.looks += [f"{len(waits)} files wait in its inbox and are in no night of this morning: "
                       f"{shown(waits)}: call again in 10 minutes; if they stay, ask the engineer"
                       ] * bool(waits)
        self.looks += [f"{len(since)} files are of the next night: call again"] * bool(since)
        if count := len(waits) + len(since):
            self.waiting.append(f"{count} files were in its inbox when morning was called, and are "
                                "not in it: call morning again")

    def tell_refused(self) -> int:
        print(f"{self.place.name}: nothing was accepted since the last morning; nothing is done")
        lines = [it for it in read_log(join(self.place.tonight, LOG)) if not accepted(it.answer)]
        self.looks += [f"{len(lines)} files were refused, and are in no night: "
                       f"{shown([it.name for it in lines])}: call morning with their card, or ask "
                       "the engineer"] * bool(lines)
        return DONE

    def unknown_cards(self) -> Sums:
        """Those that no night has; `known` gets the others."""
        known = {summed: night for night in nights.folders(self.place)
                 for summed in nights.card_sums(night).values()}
        found: Sums = []
        for card in self.cards:
            try:
                summed = files.sum_of(card.fd)
            except OSError as why:
                raise Trouble(f"{card.name} can't be read: {why.strerror}") from None
            if summed in known:
                self.known.append((card.name, known[summed]))
            else:
                found.append((card, summed))
        return found

    def tell_known(self) -> int:
        status = DONE
        for name, night in self.known:
            facts, seen = nights.read_facts(night), nights.answers(night)
            is_one = os.path.dirname(night) == self.place.archive
            said = making.told(facts, seen, not self.looks) if is_one else [f"it is in {night}"]
            print(f"{named('card', name)} was put away before:", "\n  ".join(said))
            status = LOOK if is_one and facts["look"] and not seen else status
        return status

    def stage(self, cards: Sums) -> bool:
        tonight, morning = self.place.tonight, self.place.morning
        if files.exists(morning) or not cards and not files.names(join(tonight, TAKEN)):
            return files.exists(morning)
        with self.place.taken_session(WAIT):
            if files.exists(tonight):
                files.rename(tonight, morning)
            files.make_folder(morning)
            files.remove(self.place.told)
        return True

    def copy_cards(self, cards: Sums) -> None:
        folder = join(self.place.morning, CARDS)
        files.make_folder(folder)
        there = [join(folder, it) for it in files.names(folder) if it.endswith(".edf")]
        known = {*map(files.sum_of_file, there)}
        for card, summed in cards:
            if summed in known:
                continue
            known.add(summed)
            path = join(folder, f"{len(known):03}")
            files.remove(f"{path}.part")
            files.replace(f"{path}.json", files.as_json({"name": card.name}))
            size = os.fstat(card.fd).st_size
            if files.copy(card.fd, f"{path}.part", size) != (size, summed):
                raise Trouble(f"{card.name} changed while it was read")
            files.rename(f"{path}.part", f"{path}.edf")

    def put_away(self, plan: dict[str, Any]) -> int:
        looks = []
        for rest in plan["rest"]:
            making.make(self.place, rest)
            self.looks += rest["facts"]["look"]
        for night in plan["nights"]:
            made = making.make(self.place, night)
            folder = join(self.place.archive, made["night"])
            said = making.told(made, (), not self.looks)
            said += [f"report: {join(folder, nights.REPORT)}"] if made["look"] else []
            print("\n  ".join(said))
            looks += made["look"]
        files.rename(self.place.morning, self.gone)
        files.remove_tree(self.gone)
        return LOOK if looks else DONE

    def give_back(self) -> int:
        """Of a morning without a recording: what was refused waits in tonight, by its number."""
        morning, tonight = self.place.morning, self.place.tonight
        with self.place.taken_session(WAIT):
            files.make_folder(tonight)
            files.make_folder(join(tonight, REFUSED))
            both = read_log(join(morning, LOG)) + read_log(join(tonight, LOG))
            lines = {it.file: it for it in both}
            log = "".join("\t".join(it) + "\n" for it in lines.values())
            files.replace(join(tonight, LOG), log.encode())
            for name in files.names(join(morning, REFUSED)):
                files.rename(join(morning, REFUSED, name), join(tonight, REFUSED, name))
            files.rename(morning, self.gone)
            files.remove_tree(self.gone)
        print(f"{self.place.name}: no night was put away; what was refused waits for its night")
        return LOOK
