"""What goes wrong in a week of the model, by names."""
from __future__ import annotations

import signal
from collections.abc import Callable
from datetime import timedelta
from functools import partial
from typing import TYPE_CHECKING

from checks.clinic.running import MARK, Bed

if TYPE_CHECKING:
    from checks.clinic.week import Week

CODES = ("S-0118", "S-118", "P-1", "P-10", "../x", "X", "rest", "rest-7", "a_b", "a/b", "1")
ODD = (f'a "b" {MARK}.edf', f"{MARK} accepted new=60 known=0", f"card {MARK}.EDF, here card-1.edf: "
       "all of it is put away; it may be erased if the paper agrees",
       f"{MARK}: nothing that came is missing: compare", f"look: call 555-0100 {MARK}")

DAMAGES = "cut", "half", "date", "no head", "sample", "overlaps"


# Of an evening: each changes its steps. What a part comes by in another way is no step any more.

def pauses(week: Week, bed: Bed) -> None:
    """A recorder that records onto the share pauses longer than receive waits, and goes on."""
    nth = week.chance.randrange(len(bed.parts))
    part, kind = bed.parts[nth], week.draw("kind", "", "", "", ".part")

    def begin() -> None:
        it = week.open_writer(bed, f"n{bed.night.start:%d%H%M}.edf{kind}", part,
                              week.draw("count", "right", "right", "open", "all"))
        week.write(bed, it, week.chance.randrange(1, max(2, len(part))))
    bed.steps[nth] = begin
    if week.draw("ends", True, True, False):
        bed.steps.append(partial(week.end_writers, bed))


def one_name(week: Week, bed: Bed) -> None:
    """Each piece has the same name, and one of them is damaged."""
    wrong = week.draw("part", *range(len(bed.parts)))
    bed.steps[:] = [partial(damaged, week, bed, "CURRENT.EDF", part, nth == wrong)
                    for nth, part in enumerate(bed.parts)]


def damaged(week: Week, bed: Bed, name: str, part: list[int], is_wrong: bool = True) -> None:
    """Cut, of another date or nothing in its head, or with another sample in a data record."""
    kind, changed = week.draw("damage", *DAMAGES) if is_wrong else "", dict[int, bytes]()
    end = {"cut": -week.chance.randrange(1, 9), "half": -week.chance.randrange(40, 400)}.get(kind)
    if kind == "overlaps" and part[0]:      # the one before came otherwise, where it came
        part = [part[0] - 1, *part]
    if kind in ("sample", "overlaps"):
        changed = {part[0]: week.flipped(bed.night, part[0])}
    week.put(bed, name, week.truth.file(bed.night, part, changed, spoil=lambda data: {
        "date": data[:168] + data[168:176].replace(b".", b"/") + data[176:],
        "no head": bytes(256) + data[256:]}.get(kind, data[:end])))


def wrong_piece(week: Week, bed: Bed) -> None:
    """A piece comes damaged, and sometimes whole before or behind."""
    nth = week.chance.randrange(len(bed.parts))
    name = week.chance.choice((f"piece{nth}.edf", *ODD))
    bed.steps[nth] = partial(damaged, week, bed, name, bed.parts[nth])
    if week.chance.random() < 0.5:
        bed.steps.insert(week.chance.randrange(len(bed.steps) + 1),
                         partial(damaged, week, bed, name, bed.parts[nth], False))


def stopped(week: Week, bed: Bed) -> None:
    """receive ends, and maybe nobody starts it again before the morning."""
    at = len(bed.steps) + week.draw("stops", *range(-len(bed.steps), 1))
    number = week.chance.choice((signal.SIGTERM, signal.SIGKILL))
    bed.steps.insert(at, partial(week.end, bed, number))
    if week.draw("starts", True, False):
        bed.steps.append(partial(week.begin, bed))


def other_person(week: Week, bed: Bed) -> None:
    """A file of another person, whole or not, mostly the only one of theirs."""
    code = week.chance.choice([it for it in CODES if it != bed.night.patient.split()[0]])
    start = bed.night.start + timedelta(hours=week.draw("hours", -3, 0, 2))
    night = bed.night.later(patient=f"{code} X X X", seed=f"{bed.night.seed} {code}", start=start,
                            records=9)
    bed.nights.append(night)
    end = week.draw("lacks", None, -3, -3)
    data = week.truth.file(night, spoil=lambda it: it[:end])
    bed.steps.insert(week.chance.randrange(len(bed.steps) + 1),
                     partial(week.put, bed, "other.edf", data))


def other_night(week: Week, bed: Bed) -> None:
    """A piece of an earlier night comes, for the first time or again."""
    night = week.chance.choice(bed.nights)
    data = week.truth.file(night, list(range(week.chance.randrange(1, night.records))))
    bed.steps.append(partial(week.put, bed, "again.edf", data))


def mistyped(week: Week, bed: Bed) -> None:
    """The code is corrected during the night."""
    other = bed.night.later(patient=f"{week.chance.choice(CODES)} X X X",
                            seed=f"{bed.night.seed} corrected")
    bed.nights.append(other)
    bed.steps.insert(len(bed.steps) // 2, lambda: setattr(bed, "night", other))


def left_alone(week: Week, bed: Bed) -> None:
    """A file that its uploader lets nobody read."""
    name = f"left{bed.night.start:%d}.edf"      # nobody could know of one that is written over
    data = week.truth.file(bed.night, bed.parts[0])
    bed.steps[0] = lambda: week.put(bed, name, data).chmod(0o600)


def nothing(_: Week, bed: Bed) -> None:
    bed.steps[:] = [lambda: None for _ in bed.steps]


# Of a morning: each changes its cards.

def late_card(week: Week, bed: Bed) -> None:
    """It comes with a later morning, or with one of its own."""
    bed.late, bed.cards = [week.card(bed, week.truth.file(bed.night))], bed.late


def wrong_card(week: Week, bed: Bed) -> None:
    """With another sample; cut, or no card at all, maybe beside the right one."""
    kind, nth = week.chance.choice(("flipped", "cut", "junk")), week.chance.randrange(12)
    if kind == "flipped":
        changed = {nth: week.flipped(bed.night, nth)}
        bed.cards = [week.card(bed, week.truth.file(bed.night, changed=changed))]
    else:
        bed.cards.insert(0, week.card(bed, week.truth.file(
            bed.night, spoil=lambda data: data[:-5] if kind == "cut" else b"no card")))


def other_card(week: Week, bed: Bed) -> None:
    """Of another night, of another recorder's, of another person; maybe beside the right one."""
    nights = week.chance.choice(week.beds).nights
    night = nights[week.draw("night", *range(-len(nights), 0))]
    bed.cards.append(week.card(bed, week.truth.file(night)))


def forgotten(_: Week, bed: Bed) -> None:
    """Nobody calls it; the cards come with a later one."""
    bed.late, bed.is_called = [*bed.late, *bed.cards], False


Fault = Callable[["Week", Bed], None]
FAULTS: dict[str, Fault] = {
    "pauses": pauses, "one name": one_name, "wrong piece": wrong_piece, "stopped": stopped,
    "other person": other_person, "other night": other_night, "mistyped": mistyped,
    "left": left_alone, "nothing": nothing}
CARDS: dict[str, Fault] = {
    "late card": late_card, "wrong card": wrong_card, "other card": other_card,
    "forgotten": forgotten}
