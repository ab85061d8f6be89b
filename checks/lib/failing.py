"""Sessions of `edfserve` one of whose calls of the system fails, each in turn: reads, writes, syncs
and cuts. Where the store fails the session ends with status 3, and another goes on. What was
accepted is held, and no store is made in place of one that is lost.
"""
import itertools
from collections import Counter
from pathlib import Path

from . import faults, lost, measure, model, named, printed
from .arguments import TOP
from .checks import Checks
from .serving import Client, status

NAMES = ("q.edf", "p5.edf", "n1.edf", "n2.edf", "n3.edf")       # a data record each
LOST = printed.NO_STORE + printed.cause("s.db", printed.LOST)
READ, STORE = (printed.refused(fault) for fault in (faults.read(), faults.store()))


class Failing:
    """Sessions one of whose calls fails: the nth, from the first on, until none is met."""

    def __init__(self, checks: Checks, given, library: Path):
        self.checks, self.given, self.library = checks, given, library
        self.met = checks.folder / "met"

    def clients(self, what: str):
        for nth in itertools.count(1):
            self.checks.begin(f"{what}, and call {nth} of the system fails")
            for name in NAMES:
                self.checks.file(name, named.files()[name])
            added = {"LD_PRELOAD": str(self.library), "REFUSE": f"disk:{nth}",
                     "MET": str(self.met)}
            yield Client(self.given.edfserve, self.checks.folder, added=added)
            if not self.met.exists():
                return


def answers(checks: Checks, client: Client) -> dict:
    """What a session answers to each file: as the model, or E40 or E42 with status 3; or nothing,
    or a front of an answer, where it has ended."""
    told, held = {}, model.Store()
    for name in NAMES:
        told[name] = client.try_to_ask(f"take {name}")
        data = (checks.folder / name).read_bytes()
        if told[name].endswith(status(0)):
            expected = printed.line(name, held.take(data)) + status(0)
            checks.same(f"the answer to {name}", told[name], expected)
        elif told[name].endswith(status(3)):
            may = [printed.line(name, answer) + status(3) for answer in (READ, STORE)]
            checks.same(f"the answer to {name}", told[name] in may, True)
    return told


def goes_on(checks: Checks, given, told: dict) -> None:
    """Another session knows what was accepted, and takes the rest."""
    client, held = Client(given.edfserve, checks.folder), model.Store()
    for name in NAMES:
        data = (checks.folder / name).read_bytes()
        if told[name].endswith(status(0)):
            held.take(data)
        answer = client.ask(f"take {name}")
        if told[name].endswith(status(0)):
            checks.same(f"{name} again", answer, printed.line(name, printed.KNOWN) + status(0))
        else:
            checks.same(f"{name} then", answer.endswith(status(0)), True)
            held.take(data)
    checks.same("the list", client.ask("list"), held.lines() + status(0))
    checks.same("the end of the other", client.end(), (0, "", ""))


def ends(failing: Failing, client: Client) -> str:
    """What becomes of a session."""
    checks = failing.checks
    told = answers(checks, client)
    status_of, _, err = client.end()
    answered = "".join(told.values())
    is_answered = not err and answered.count(status(0)) == len(NAMES)
    is_well = is_answered and status_of == 0
    # Where all is answered, and no line says why, the read that finds the end of the input failed.
    checks.same("the status", status_of, 0 if is_well else 3)
    goes_on(checks, failing.given, told)
    if is_answered and not is_well:
        return "unread"
    if STORE in answered:
        checks.same("it was the last answer", answered.rstrip().split("\n")[-2].endswith(STORE),
                    True)
        return "E42"
    return "E40" if READ in answered else "well" if is_well else "closed" if answered else "refused"


def lost_meanwhile(failing: Failing, client: Client) -> str:
    """Removes the store under a session; its errors."""
    checks = failing.checks
    is_open = client.try_to_ask("list") == status(0) and not failing.met.exists()
    if is_open:
        lost.removed(checks.folder)
        for name in NAMES[:2]:
            checks.same("nothing is accepted",
                        printed.ACCEPTED in client.try_to_ask(f"take {name}"), False)
    status_of, _, err = client.end()
    if is_open:
        checks.same("the end", status_of, 3)
        # Where the call that fails is a write of this, a front of it is told.
        is_told = err.endswith(printed.cause("s.db", printed.LOST)) or any(
            text.startswith(err) for text in (lost.ENDED, LOST))
        checks.same("it is told", is_told, True)
        checks.same("no store was made", (checks.folder / "s.db").exists(), False)
    return err


def run(checks: Checks, given) -> None:
    with measure.scratch() as folder:
        failing = Failing(checks, given,
                          measure.library(TOP / "checks/refused/refused.c", Path(folder)))
        met = Counter(ends(failing, it) for it in failing.clients("a session"))
        without = Counter(lost_meanwhile(failing, it)
                          for it in failing.clients("a store that is removed"))
    print(f"a call that failed: {met['E42']} sessions ended at E42, {met['closed']} as the store "
          f"was closed, {met['refused']} as it was opened, and {met['E40']} went on; "
          f"{without[lost.ENDED]} whose store was removed")
    for what, count in (*met.items(), ("is lost", without[lost.ENDED])):
        checks.same(f"some session: {what}", count > 0, True)
    checks.same("sessions that ended at E42", met["E42"] > 0, True)
    checks.same("sessions whose input's end was not read", met["unread"], 1)
