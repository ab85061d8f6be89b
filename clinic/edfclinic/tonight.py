"""What a night has so far: its log, its files, and which of the refused ones it lacks."""
import os
from typing import NamedTuple

from . import files, programs, text
from .config import Recorder
from .files import join
from .inbox import Later
from .place import LOG, REFUSED, STORE, TAKEN, WORK, Line, Log, Place, begun_by, read_log
from .programs import CONFLICTS, Run, accepted, missing

KEPT = 1_000                # refused files
STAMP = 32                  # bytes by which an export may widen each data record besides


class Came(NamedTuple):
    """Contents as they were answered: the file that was given to the session, its patient's code,
    the bytes of its data records (of their signals, and with their texts), its runs."""
    line: Line
    given: str = ""
    code: str = ""
    widths: tuple[int, int] = 0, 0
    runs: tuple[Run, ...] = ()


def merged(runs: list[Run]) -> list[Run]:
    found = list[Run]()
    for run in sorted(runs):
        if found and run.first <= found[-1].end:
            run = Run(found[-1].first, max(found.pop().end, run.end))
        found.append(run)
    return found


class Tonight:
    def __init__(self, recorder: Recorder, place: Place):
        self.recorder, self.place = recorder, place
        files.make_folder(place.tonight)
        for name in (WORK, TAKEN, REFUSED):
            files.make_folder(self.path(name))
        self.lines = read_log(self.path(LOG))
        for line in self.lines[-1:]:        # where a kill came between it and its file
            copied = self.path(WORK, line.file)
            if files.exists(copied) and not files.exists(self.kept_as(line)):
                files.rename(copied, self.kept_as(line))
        self.clear_work()
        self.known = {it[2:]: it for it in self.lines if not accepted(it.answer)}
        names = [(of, it) for of in (TAKEN, REFUSED) for it in files.names(self.path(of))]
        self.bytes = sum(os.stat(self.path(*it)).st_size for it in names)
        self.kept = sum(of == REFUSED for of, _ in names)
        used = [*(it for _, it in names), *(it.file for it in [*self.lines, *read_log(
            join(place.morning, LOG))])]
        self.next = 1 + max((int(name[:-4]) for name in used if name[:-4].isdigit()), default=0)
        self.runs: dict[str, list[Run]] = {}        # by the patient's code
        # By it and the bytes of the signals: how many data records, and the widest.
        self.records: dict[tuple[str, int], tuple[int, int]] = {}
        self.lacking: dict[str, Came] = {}          # what was refused, by our names
        self.gap, self.is_reckoned = 0, False
        for line in self.lines:
            self.add(self.again(line))
        self.log = Log(self.path(LOG))

    def path(self, *names: str) -> str:
        return join(self.place.tonight, *names)

    def name(self) -> str:
        return f"{self.next:06}.edf"

    def kept_as(self, line: Line) -> str:
        return self.path(TAKEN if accepted(line.answer) else REFUSED, line.file)

    def again(self, line: Line) -> Came:
        """What was answered before this began. A morning need not wait till all is known."""
        if files.is_locked(self.place.wanted):
            raise Later
        path = self.kept_as(line)
        came = self.outlined(line, path) if files.exists(path) else Came(line)
        self.clear_work()
        return came

    def outlined(self, line: Line, path: str) -> Came:
        given = programs.prepared(path, self.path(WORK), self.recorder)
        return Came(line, given, programs.code_of(given), programs.widths(given),
                    tuple(programs.outline(given) or ()))

    def clear_work(self) -> None:
        for name in files.names(self.path(WORK)):
            files.remove(self.path(WORK, name))

    def size(self) -> int:
        """With the store, for its opening takes nearly as many bytes of memory."""
        store = [it for it in files.names(self.path()) if it.startswith(STORE)]
        return self.bytes + sum(os.stat(self.path(it)).st_size for it in store)

    def why_not(self, came: Came, largest: int) -> str:
        """The refusal of what a morning might not put away. Each data record of an export has the
        room of the widest, and those of other signals are of another export."""
        if sum(map(len, self.runs.values())) + len(came.runs) > programs.MOST_RUNS:
            return programs.TOO_MANY
        signals, width = came.widths
        held, widest = self.records.get((came.code, signals), (0, 0))
        count = held + os.stat(came.given).st_size // max(1, width)
        is_large = count * (max(widest, width) + STAMP) > largest
        return programs.TOO_LARGE if came.runs and is_large else ""

    def add(self, came: Came) -> None:
        """What was refused is lacked till an accepted file begins with all of it. Of how many runs
        that has there is a limit; of what has more nobody reckons minutes."""
        line, self.is_reckoned = came.line, False
        if new := programs.NEW.match(line.answer):
            self.runs[came.code] = merged([*self.runs.get(came.code, ()), *came.runs])
            of, width = (came.code, came.widths[0]), came.widths[1]
            held, widest = self.records.get(of, (0, 0))
            self.records[of] = held + int(new[1]), max(widest, width)
            refused = (it.line for it in self.lacking.values())
            for file in begun_by(refused, line, self.kept_as(line)):
                self.lacking.pop(file)
        else:
            is_known = not came.runs or programs.MOST_RUNS >= len(came.runs) + sum(
                len(it.runs) for it in self.lacking.values())
            self.lacking[line.file] = came if is_known else came._replace(runs=())

    def reckon(self) -> None:
        """Minutes that nobody sent, and what was refused of which the night lacks something."""
        if self.is_reckoned:
            return
        runs = merged([run for those in self.runs.values() for run in those])
        lacks = [after.first - before.end for before, after in zip(runs, runs[1:])]
        self.gap = sum(it for it in lacks if it < self.recorder.pause * text.SECOND)
        self.lacking = {file: it for file, it in self.lacking.items()
                        if not it.runs or it.line.answer.startswith(CONFLICTS)
                        or missing(it.runs, self.runs.get(it.code, []))}
        self.is_reckoned = True

    def keep(self, came: Came, before: Line | None) -> Line:
        """Tells it, and then keeps it; the same contents of a name are refused once. What they had
        before, and begin with, goes. Of what is refused 1,000 files are kept."""
        is_accepted = accepted(came.line.answer)
        line = self.known.get(came.line[2:]) or self.tell(came.line)
        path = self.kept_as(line)
        if is_accepted or self.kept < KEPT and not files.exists(path):
            files.rename(self.path(WORK, came.line.file), path)
            self.bytes, self.kept = self.bytes + int(line.size), self.kept + (not is_accepted)
        self.add(came._replace(line=line))
        old = self.path(REFUSED, before.file) if before and before.file != line.file else ""
        if before and files.exists(old) and begun_by([before], line, path):
            files.remove(old)
            self.bytes, self.kept = self.bytes - int(before.size), self.kept - 1
            self.lacking.pop(before.file, None)
        return line

    def tell(self, told: Line) -> Line:
        line = self.log.add(*told[1:])
        self.lines.append(line)
        self.next += 1
        if not accepted(line.answer):
            self.known[line[2:]] = line
        text.say(f"{self.place.name}: {text.named('file', line.name)}: {line.answer}")
        return line
