"""receive: takes what arrives, in the foreground, till SIGTERM. Files are copied, never moved, for
the owner of a moved one still writes to it; taken by edfserve, told in the log, renamed into
`taken`, synced, and only then removed from the inbox."""
import os
import signal
import time
from contextlib import closing, suppress
from multiprocessing import Process
from shutil import disk_usage
from typing import Any

from . import files, programs, text
from .config import Config, Recorder
from .inbox import Inbox, Later, Seen, TakenOut, key_of
from .place import STILL_WRITTEN, STORE, WORK, Line, Place, check
from .programs import accepted
from .text import DONE, Full, Trouble
from .tonight import Came, Tonight

SHOWN = 20                                  # names told
MOST_FILES, MOST_RECORDINGS = 50_000, 100       # of a night
AGAIN, TURN = 10.0, 5.0         # seconds to another try of a file, and to another listing
PUT_OFF = "it is tried again: "
TICK, TELL, RESTART = 2.0, 60.0, 5.0    # seconds from a listing, a telling, a start to the next
NOTHING = {"trouble": "", "silence": 0.0, "last": None}     # came yet


class Taking:
    def __init__(self, config: Config, recorder: Recorder, place: Place, inbox: Inbox):
        self.config, self.place, self.inbox = config, place, inbox
        self.session: programs.Session | None = None
        self.recordings = 0
        self.tonight = Tonight(recorder, place)
        inbox.begin()
        lines = self.tonight.lines
        self.silent_since = time.monotonic() - (text.seconds_since(lines[-1].at) if lines else 0)

    def turn(self) -> None:
        now = time.monotonic()
        self.look_back()
        try:
            listed = self.inbox.look()
        except OSError as why:
            raise Trouble(f"its inbox can't be read: {why.strerror}") from None
        for it in sorted(listed, key=lambda it: (it.since, it.name)):
            age = self.config.refuse if it.is_refused else self.config.still
            is_old = now - it.since >= age and now >= it.not_before
            if is_old and not it.left and time.monotonic() - now <= TURN:
                self.try_to_take(it)

    def try_to_take(self, it: Seen) -> None:
        try:
            unclosed = it.since + self.config.unclosed
            if not it.kept and time.monotonic() < unclosed and self.inbox.is_unclosed(it):
                it.not_before = unclosed
                return
            if not it.kept:
                it.kept = it.line = self.take(it)
                it.answer, it.full = it.kept.answer if it.is_refused else "", ""
            if not it.is_refused or time.monotonic() - it.since >= self.config.refuse:
                self.inbox.take_out(it)
        except Later as why:
            self.inbox.seen[it.name] = Seen(it.name, it.key, unread=str(why), line=it.line,
                                            is_other=it.is_other)
        except (Trouble, OSError) as why:
            self.put_off(it, why)

    def put_off(self, it: Seen, why: Exception) -> None:
        is_full = isinstance(why, OSError) and why.errno in text.FULL
        if is_full or disk_usage(self.config.data).free < files.PIECE:
            why = Full(f"the disk of {self.config.data} is full: make room")
        it.full = str(why) if isinstance(why, Full) else ""
        it.answer = PUT_OFF + text.why(why)
        it.not_before = time.monotonic() + AGAIN
        self.end_session()

    def look_back(self, is_last: bool = False) -> None:
        """Whoever had open what was taken out may have gone on."""
        for it in [*self.inbox.taken_out]:
            ends = self.inbox.lets_go(it)
            self.look_at(it, is_last or ends)
            if ends:
                self.inbox.taken_out.remove(it)
                os.close(it.fd)

    def look_at(self, it: TakenOut, is_last: bool) -> None:
        """It is taken again once it is still, each time for twice as long. What is not taken of it
        in the end is told."""
        key, now = key_of(os.fstat(it.fd)), time.monotonic()
        if key != it.key:
            it.is_written |= key[1] != it.key[1]
            it.key, it.since, it.is_changed = key, now, True
        still = self.config.still * (1 if is_last else 2**it.again)
        is_fit = now >= it.not_before and key[1] <= self.config.largest_file
        if it.is_changed and is_fit and now - it.since >= still:
            try:
                line = self.take(it)
                is_more = line is not it.kept
                it.kept = it.line = line
                it.is_written, it.again = it.is_written or is_more, it.again + is_more
                it.is_changed, it.answer, it.full = False, "", ""
            except Later:
                it.since = time.monotonic()
            except (Trouble, OSError) as why:
                self.put_off(it, why)
        if it.is_changed and is_last:
            line = Line("", self.tonight.name(), text.spell(it.name), STILL_WRITTEN)
            self.tonight.add(Came(self.tonight.tell(line)))

    def take(self, it: Seen) -> Line:
        """Copies it, has it answered, tells that and keeps it, unless it has the same contents."""
        tonight, size = self.tonight, it.key[1]
        is_many = len(tonight.lines) >= MOST_FILES or self.recordings >= MOST_RECORDINGS
        if is_many or tonight.size() + size > self.config.largest_night:
            most = f"{MOST_FILES:,} files, or {MOST_RECORDINGS} recordings"
            raise Full(f"tonight has {most if is_many else 'no room below largest_night'}: "
                       f"call edfclinic morning {self.place.name}")
        file = tonight.name()
        copied = tonight.path(WORK, file)
        try:
            line = Line("", file, text.spell(it.name), "", str(size), self.inbox.copy(it, copied))
            if it.kept and it.kept.sum == line.sum:
                return it.kept
            came = tonight.outlined(line, copied)
            answer = tonight.why_not(came, self.config.largest_export) or self.answer(came.given)
            line = tonight.keep(came._replace(line=line._replace(answer=answer)), it.line)
        finally:
            tonight.clear_work()
        self.silent_since = time.monotonic()
        return line

    def answer(self, given: str) -> str:
        if self.session is None or self.session.child.poll() is not None:
            self.end_session()
            self.session = programs.Session(self.place.tonight, STORE)
        answer = self.session.take(given)
        if programs.is_trouble(answer):
            raise Trouble(f"{answer} {self.session.why()}".strip())
        if accepted(answer):
            self.recordings = len(self.session.held())
        return answer

    def end_session(self) -> None:
        ending, self.session = self.session, None
        try:
            if ending:
                ending.close()
        except Trouble as why:
            text.say(f"{self.place.name}: {why}")

    def close(self) -> None:
        try:
            self.look_back(is_last=True)
        finally:
            self.end_session()
            os.close(self.tonight.log.fd)

    def state(self) -> dict[str, Any]:
        lines, inbox, tonight = self.tonight.lines, self.inbox, self.tonight
        tonight.reckon()
        here = [*inbox.seen.values()]
        waiting = [it for it in [*here, *inbox.taken_out] if it.answer]
        full = next((it.full for it in waiting if it.full), "")
        put_off = next((it.answer for it in waiting if it.answer.startswith(PUT_OFF)), "")
        # What was refused of a file in the inbox may be the beginning of more.
        pending = {it.line.file for it in here if it.line and (it.answer or not it.is_other)}
        refused = [it for file, it in tonight.lacking.items() if file not in pending]
        lists = {"refused": [(it.line.name, it.line.answer) for it in refused],
                 "waiting": [(text.spell(it.name), it.answer) for it in waiting],
                 "left": inbox.left(), "written": [
                     (text.spell(it.name), f"taken at {text.here(it.at)}")
                     for it in inbox.taken_out if it.is_written]}
        told: dict[str, Any] = {
            "accepted": sum(accepted(it.answer) for it in lines),
            "begun": next((it.at for it in lines if accepted(it.answer)), ""),
            "last": lines[-1]._asdict() if lines else None,
            "full": full, "trouble": "" if full else put_off,
            "gap_minutes": text.minutes(tonight.gap),
            "refused_minutes": text.minutes(sum(run.end - run.first for it in refused
                                                for run in it.runs))}
        for kind, those in lists.items():
            told[kind] = [dict(name=name, answer=answer) for name, answer in those[-SHOWN:]]
            told[f"{kind}_count"] = len(those)
        return told


def until_signalled() -> list[int]:
    came: list[int] = []
    for number in (signal.SIGTERM, signal.SIGINT):
        signal.signal(number, lambda *_: came.append(number))
    return came


class Receive:
    def __init__(self, config: Config, recorder: Recorder):
        self.config, self.recorder = config, recorder
        self.place = Place(config, recorder.name)
        self.inbox = Inbox(config, recorder.name)
        self.said, self.told_at = "", 0.0
        self.told: dict[str, Any] = {}
        self.ended = until_signalled()

    def say(self, why: str) -> None:
        if why and why != self.said:
            text.say(f"{self.recorder.name}: {why}")
        self.said = why

    def run(self) -> int:
        while not self.ended:
            try:
                check(self.config.data)
                files.make_folder(self.place.root)
                self.hold()
            except (Trouble, OSError) as why:
                self.say(text.why(why))
                self.sleep(TICK)
        return DONE

    def sleep(self, seconds: float) -> None:
        end = time.monotonic() + seconds
        while not self.ended and time.monotonic() < end and not files.is_locked(self.place.wanted):
            time.sleep(min(0.1, seconds))

    def hold(self) -> None:
        held = None if files.is_locked(self.place.wanted) else files.lock(self.place.session, 0.0)
        if held is None:
            return time.sleep(min(0.1, TICK))
        self.told = {}
        try:
            if not files.exists(self.place.told):       # a morning took it away
                files.replace(self.place.told, files.as_json({**NOTHING, "told": text.now()}))
            with suppress(Later), closing(Taking(self.config, self.recorder, self.place,
                                                 self.inbox)) as taking:
                while not self.ended and not files.is_locked(self.place.wanted):
                    self.turn(taking)
                    self.sleep(TICK)
        finally:
            os.close(held)

    def turn(self, taking: Taking) -> None:
        trouble = ""
        try:
            taking.turn()
        except (Trouble, OSError) as why:
            trouble = text.why(why)
        state = taking.state()
        state["trouble"] = trouble or state["trouble"]
        if state == self.told and time.monotonic() - self.told_at < TELL:
            return
        self.told, self.told_at = state, time.monotonic()
        told = {**state, "silence": time.monotonic() - taking.silent_since, "told": text.now()}
        try:
            files.replace(self.place.told, files.as_json(told))
            self.say(trouble)
        except OSError as why:
            self.say(text.why(why))


def receive(config: Config, name: str | None) -> int:
    """Of all a process a recorder, begun again where it ends; daemons end with this."""
    if name:
        return Receive(config, config.recorder(name)).run()
    ended = until_signalled()
    running: dict[str, Process] = {}
    begin = {name: 0.0 for name in config.recorders}
    while not ended:
        for name in begin:
            is_there = name in running and running[name].is_alive()
            if not is_there and time.monotonic() >= begin[name]:
                running[name] = Process(target=receive, args=(config, name), daemon=True)
                running[name].start()
                begin[name] = time.monotonic() + RESTART
        time.sleep(0.1)
    return DONE
