"""Commands are killed before and behind their calls that change the file system, and begun again:
the nights are the same, byte for byte, as of one that ran through."""
import random
import shutil
import signal
import time
from datetime import datetime
from itertools import product
from typing import Any

import pytest

from checks.clinic.clinic import Clinic, tree
from checks.clinic.recordings import Recording
from checks.clinic.test_archive import two_patients

PLACES = 24             # each before and behind; with --long all
AT_ONCE = {"morning.RUNS": 0}   # no receive is waited for: as many calls each time
SIDES = "before", "behind"
FIRST = Recording(records=40, start=datetime(2026, 11, 25, 22, 0))
SECOND = Recording(records=60, start=datetime(2026, 11, 26, 22, 0))
STRANGE = SECOND.later(patient="S-0777 X X X").piece()[:-20]    # of nobody who has a night
MORNING = "morning", "r01"


def evening(clinic: Clinic) -> tuple[Any, ...]:
    """Two nights that wait for their morning: a refused file, and a card that contradicts one of
    the second. Also what the words of the morning are."""
    flipped = bytearray(SECOND.samples_of(7))
    flipped[2] ^= 4
    clinic.night_took({"a.edf": FIRST.piece(), "b.edf": SECOND.piece(0, 20),
                       "c.edf": SECOND.piece(20, 40), "d.edf": SECOND.piece(40)[:-3]})
    card = clinic.card(SECOND.piece(changed={7: bytes(flipped)}))
    return "morning", "r01", "--card", card


def outcome(clinic: Clinic) -> dict[str, tuple[str, bytes]]:
    """The nights, and what is left of the morning."""
    left = {path: data for path, data in tree(clinic.data / "r01").items()
            if not path.endswith((".lock", "now.json"))}
    return {**tree(clinic.nights), **left}


def again(clinic: Clinic, words: tuple[Any, ...]) -> None:
    """Begins it again, as often as it says that it isn't done."""
    for _ in range(3):
        ran = clinic.run(*words)
        assert ran.status in (0, 1) or ran.status == 2 and words[0] == "recode", ran
        if b"call again" not in ran.out:
            return
    raise AssertionError("it is never done")


class Through:
    """A command that ran through, in a copy of the clinic: its calls, and what it left."""
    def __init__(self, clinic: Clinic, words: tuple[Any, ...], status: int = 1):
        self.clinic, self.words, self.copied = clinic, words, clinic.copied("through")
        self.calls = self.copied.calls(*words, status=status, alone=True, set=AT_ONCE)
        self.left = outcome(self.copied)

    def renames(self, end: str) -> list[int]:
        """The numbers of the calls that rename something whose path has this end."""
        return [nth for nth, line in enumerate(self.calls, 1)
                if line.split()[1] == "rename" and line.endswith(end)]

    def killed(self, nth: int, side: str) -> Clinic:
        """A copy in which it was killed at this call."""
        other = self.clinic.copied(f"{nth}{side}")
        ran = other.run(*self.words, kill=[nth, side], set=AT_ONCE)
        assert ran.status == -signal.SIGKILL, ran
        return other

    def assert_same_where_killed(self, nth: int, side: str) -> None:
        other = self.killed(nth, side)
        again(other, self.words)
        assert outcome(other) == self.left, f"killed {side} {self.calls[nth - 1]}"
        shutil.rmtree(other.folder)


def test_killed_at_any_call_it_makes_the_same(clinic: Clinic, is_long: bool) -> None:
    through = Through(clinic, evening(clinic))
    first, second = "r01/2026-11-25-S-0118", "r01/2026-11-26-S-0118"
    assert {f"{first}/night.edf", f"{first}/pieces.edf", f"{first}/refused/000004.edf",
            f"{second}/night.edf", f"{second}/taken/000003.edf"} <= through.left.keys()
    count = len(through.calls)
    assert count >= 200 and len({line.split()[1] for line in through.calls}) >= 8
    chosen = range(1, count + 1)
    few = {1, count} | set(random.Random(1).sample(chosen, PLACES))
    for nth, side in product(chosen if is_long else sorted(few), SIDES):
        through.assert_same_where_killed(nth, side)


def test_killed_where_the_morning_ends(clinic: Clinic) -> None:
    """Behind each of the last calls, with which what was put away is removed."""
    through = Through(clinic, evening(clinic)[:2])
    last = through.renames("")[-1]
    for nth in range(last - 3, last + 4):
        through.assert_same_where_killed(nth, "behind")


@pytest.mark.parametrize("words, status, step", [
    (("recode", "r01/2026-11-26-S-0119", "--patient", "S-0300"), 0, 3),
    (("forget", "S-0119", "--yes"), 1, 1), (("forget", "S-0200", "--yes"), 1, 1)])
def test_recode_and_forget_killed_anywhere_and_called_again_leave_the_same(
        clinic: Clinic, words: tuple[str, ...], status: int, step: int) -> None:
    two_patients(clinic)
    clinic.done("recode", "r01/2026-11-26-S-0118", "--patient", "S-0200")
    through = Through(clinic, words, status)
    for nth in range(1, len(through.calls) + 1, step):
        through.assert_same_where_killed(nth, SIDES[nth % 2])


def test_what_is_of_no_night_is_put_away_before_a_night_is_told(clinic: Clinic) -> None:
    """Killed between, no night is there while what came of another lies nowhere."""
    clinic.night_took({"a.edf": SECOND.piece(), "b.edf": STRANGE})
    through, rest = Through(clinic, MORNING), "r01/replaced/2026-11-26.rest/refused/000002.edf"
    first, second = through.renames("/.new")
    report = through.left["r01/2026-11-26-S-0118/report.txt"][1].decode()
    assert through.left[rest][1] == STRANGE
    assert "is missing" not in report and "look: " not in report
    assert "files of patients who had no night are in replaced/2026-11-26.rest: compare" in report
    for nth, side in product((first, first + 1, second - 1, second), SIDES):
        other = through.killed(nth, side)
        is_there = (other.nights / rest).exists()
        assert is_there == ((nth, side) != (first, "before")) and (is_there or not other.archive())
        said = other.morning(status=1)
        assert 'look: file "b.edf"' in said and "is missing" not in said
        assert outcome(other) == through.left


def test_forget_leaves_the_folder_that_an_unfinished_morning_will_make(clinic: Clinic) -> None:
    """Both are what is of no night of this evening: of the one before, and of this one."""
    other, third = (SECOND.later(patient=f"{it} X X X").piece() for it in ("S-0119", "S-0120"))
    clinic.put_away({"a.edf": SECOND.piece(), "b.edf": other, "junk.edf": b"junk"}, status=1)
    clinic.night_took({"c.edf": third, "d.edf": STRANGE})
    through = Through(clinic, MORNING)
    killed = through.killed(through.renames("/morning/.plan.json.new")[0], "behind")
    assert (killed.data / "r01/morning/plan.json").exists()
    killed.done("forget", "S-0118", "--yes", status=1)
    killed.morning(status=1)
    assert {STRANGE, b"junk", other, third} <= {it.read_bytes() for it in
                                                killed.nights.rglob("*.edf")}


@pytest.mark.parametrize("words, answer", [
    (("thin", "--older", "30d"), "as on paper, AB"),
    (("seen", "r01/2025-11-26-S-0118", "--why", "again"), "again")])
def test_thin_and_seen_killed_anywhere_and_called_again(
        clinic: Clinic, words: tuple[str, ...], answer: str, is_long: bool) -> None:
    """A card contradicts what came, and a file may be of two nights: all is there to be thinned."""
    old = SECOND.later(start=datetime(2025, 11, 26, 22, 0))
    other = old.later(patient="S-0119 X X X", seed="other")
    files = {"a.edf": old.piece(0, 40), "b.edf": other.piece(), "S-0119.edf": b"junk"}
    for night in clinic.put_away(files, old.piece(changed={7: bytes(12)}), status=1):
        clinic.done("seen", f"r01/{night.name}", "--why", "as on paper, AB")
    through = Through(clinic, words, 0)
    chosen, is_thin = range(1, len(through.calls) + 1), words[0] == "thin"
    for nth in chosen if is_long else random.Random(3).sample(chosen, 12):
        it = through.killed(nth, SIDES[nth % 2])
        it.done(*words)
        assert it.done("verify").endswith(" 0 files changed\n"), through.calls[nth - 1]
        assert not is_thin or outcome(it) == through.left, through.calls[nth - 1]
        assert (it.archive()[0] / "seen.txt").read_text().endswith(f" {answer}\n")
        shutil.rmtree(it.folder)
    said = through.copied.morning(clinic.folder / "card0.edf")
    assert "put away before" in said and ("here card-1.edf" in said) != is_thin
    if is_thin:
        assert {it.name for it in through.copied.archive()[0].iterdir()} == {
            "night.edf", "report.txt", "night.json", "seen.txt", "SHA256SUMS", "answers.log",
            "whose.json"}
        for code in ("S-0118", "S-0119"):
            through.copied.done("forget", code, "--yes")
        assert not any(b"S-0119" in it for _, it in tree(through.copied.nights).values())
        assert through.copied.archive() == []


def test_killed_at_any_moment_while_receive_runs(clinic: Clinic, is_long: bool) -> None:
    """The same by a signal from outside, at moments by chance, with all that it began."""
    words = evening(clinic)
    through = clinic.copied("through")
    begun = time.monotonic()
    through.done(*words, status=1, alone=True)
    lasts, expected = time.monotonic() - begun, tree(through.nights)
    chance = random.Random(2)
    for nth in range(100 if is_long else 12):
        other = clinic.copied(f"moment{nth}")
        other.receive()
        child = other.started(*words)
        time.sleep(chance.random() * lasts)
        other.stop(child, number=signal.SIGKILL)
        again(other, words)
        assert tree(other.nights) == expected
        other.put("next.edf", FIRST.later(seed="next").piece())
        other.until_taken()
        other.stop()
        shutil.rmtree(other.folder)


def test_two_mornings_at_once_make_each_night_once(clinic: Clinic) -> None:
    words = evening(clinic)
    children = [clinic.started(*words) for _ in range(3)]
    said = [child.communicate(timeout=120) for child in children]
    statuses = sorted(child.returncode for child in children)
    again(clinic, words)
    assert statuses[0] in (0, 1) and set(statuses) <= {0, 1, 3}, said
    assert [it.name for it in clinic.archive()] == ["2026-11-25-S-0118", "2026-11-26-S-0118"]
