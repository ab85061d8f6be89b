"""Mornings, each with what it must make by hand, and the own reader's look at it."""
import fcntl
import os
import time
from datetime import datetime
from pathlib import Path

import pytest

from checks.clinic.clinic import SERVICE, Clinic, facts
from checks.clinic.nights import ALWAYS, assert_all_is_there, came, exported, starts
from checks.clinic.recordings import Recording

NIGHT = Recording(records=960)
NAME = "2026-11-26-S-0118"
FILES = {name: data for name, data in NIGHT.pieces().items() if name != "part05.edf"}


def test_a_night_and_its_card(clinic: Clinic) -> None:
    clinic.night_took(FILES)
    said = clinic.morning(NIGHT.piece())
    assert said.splitlines()[1:] == [
        "  card \"card0.edf\", here card-1.edf: all of it is put away; "
        "it may be erased if the paper agrees",
        "  nothing that came before morning was called is missing: "
        "compare begin, end and gaps with the paper"]
    night, = clinic.archive()
    assert night.name == NAME and {it.name for it in night.iterdir()} == ALWAYS | {
        "taken", "refused", "card-1.edf", "answers.log"}
    assert facts(night) == {
        "recorder": "r01", "night": NAME, "patient": "S-0118", "investigation": "N1",
        "first": "2026-11-26T22:00:00", "last": "2026-11-27T06:00:00", "gap_minutes": 0.0,
        "card": [{"name": "card0.edf", "answer": "accepted new=80 known=880"}],
        "refused": [], "differs": [], "look": [], "same_night": []}
    assert_all_is_there([night], ("S-0118", NIGHT.truth()))
    assert sorted(it.read_bytes() for it in (night / "taken").iterdir()) == sorted(FILES.values())
    assert not (clinic.data / "r01/morning").exists()
    assert {oct(it.stat().st_mode & 0o7777) for it in night.rglob("*")} == {"0o640", "0o2750"}


def test_without_a_card_the_gap_is_told(clinic: Clinic) -> None:
    night, = clinic.put_away(FILES)
    assert (facts(night)["gap_minutes"], facts(night)["look"]) == (40.0, [])
    view = (night / "view.edf").read_bytes()
    assert view[192:197] == b"EDF+C"
    assert int(view[236:244]) * float(view[244:252]) == 8 * 3600, "the gap is filled"


def test_a_card_with_a_flipped_bit(clinic: Clinic) -> None:
    """The card comes first then; the piece that differs is told, and nothing of it is lost."""
    flipped = bytearray(NIGHT.samples_of(100))
    flipped[0] ^= 1
    card = NIGHT.piece(changed={100: bytes(flipped)})
    night, = clinic.put_away(FILES, card, status=1)
    told = facts(night)
    assert [it["name"] for it in told["differs"]] == ["part02.edf"]
    assert told["differs"][0]["answer"].startswith("refused E31 Differs start=2026-11-26T22:50:00")
    assert (told["differs"][0]["minutes"], told["differs"][0]["missing"]) == (40.0, 0.0)
    assert told["card"][0]["answer"] == "accepted new=960 known=0"
    said = clinic.morning(card, status=1)
    assert "look: 1 files differ" in said and "keep it till" in said, "it is said again"
    found = set(exported(night))        # of two exports: each data record that came is in one
    recorded = [*NIGHT.truth().items(), (NIGHT.instant(100), bytes(flipped))]
    assert found == came(night) == {("S-0118", *it) for it in recorded}
    text = (night / "report.txt").read_text()
    assert "2026-11-26T22:50:00 to 2026-11-26T22:50:30: 1 data records differ" in text
    assert "from 2026-11-26T22:00:00 for 28800 seconds: 960 data records, no gap" in text


def test_a_clock_that_is_set_back_by_two_seconds(clinic: Clinic) -> None:
    files = dict(list(NIGHT.pieces().items())[:4])
    back = NIGHT.later(start=datetime(2026, 11, 27, 0, 39, 58), records=80, seed="back")
    night, = clinic.put_away({**files, "z.edf": back.piece()}, status=1)
    refused = facts(night)["refused"]
    assert [(it["name"], it["answer"].split()[1], it["minutes"], it["missing"], it["resent"])
            for it in refused] == [("z.edf", "E30", 40.0, 39.97, False)]
    assert facts(night)["look"][0].startswith("39.97 minutes were refused, and are missing")


def test_a_clock_that_is_set_back_by_an_hour(clinic: Clinic) -> None:
    files = dict(list(NIGHT.pieces().items())[:6])
    again = NIGHT.later(start=datetime(2026, 11, 27, 1, 0), records=80, seed="again")
    night, = clinic.put_away({**files, "z.edf": again.piece()}, status=1)
    assert [(it["answer"].split()[1], it["missing"]) for it in facts(night)["refused"]] == [
        ("E31", 0.0)]
    assert facts(night)["look"][0].startswith("1 refused files contradict the night: ")
    assert [it.read_bytes() for it in (night / "refused").iterdir()] == [again.piece()]


def test_the_evenings_date_after_midnight_is_a_night_of_its_own(clinic: Clinic) -> None:
    evening, late = NIGHT.later(records=240), \
        NIGHT.later(start=datetime(2026, 11, 26, 0, 0), records=240, seed="late")
    nights = clinic.put_away({"a.edf": evening.piece(), "b.edf": late.piece()}, status=1)
    assert [it.name for it in nights] == ["2026-11-25-S-0118", NAME]
    assert [len(starts(it)) for it in nights] == [240, 240]
    assert_all_is_there(nights, ("S-0118", {**evening.truth(), **late.truth()}))
    assert [len(facts(it)["look"]) for it in nights] == [1, 1]
    assert facts(nights[0])["look"][0].startswith("this call made 2 nights: ")
    assert (nights[0] / "answers.log").exists() and not (nights[1] / "answers.log").exists()
    assert [len(list((it / "taken").iterdir())) for it in nights] == [1, 1]


def test_a_nap_and_a_night_of_one_day_have_two_names(clinic: Clinic) -> None:
    nap = NIGHT.later(start=datetime(2026, 11, 26, 13, 0), records=240)
    nights = clinic.put_away({"nap.edf": nap.piece(), "n.edf": NIGHT.piece()}, status=1)
    assert [(it.name, len(starts(it))) for it in nights] == [(NAME, 240), (f"{NAME}.2", 960)]
    assert_all_is_there(nights, ("S-0118", {**nap.truth(), **NIGHT.truth()}))


def test_a_gap_of_half_an_hour_with_noon_in_it_parts_two_nights(clinic: Clinic) -> None:
    """11:50 to 12:20 is cut; a gap of four hours elsewhere is not."""
    first = NIGHT.later(start=datetime(2026, 11, 26, 9, 50), records=240)
    second = NIGHT.later(start=datetime(2026, 11, 26, 12, 20), records=120)
    third = NIGHT.later(start=datetime(2026, 11, 26, 17, 20), records=120)
    files = {f"{nth}.edf": it.piece() for nth, it in enumerate((first, second, third))}
    nights = clinic.put_away(files, status=1)
    assert [(it.name, len(starts(it)), facts(it)["gap_minutes"]) for it in nights] == [
        ("2026-11-25-S-0118", 240, 0.0), (NAME, 240, 240.0)]


def test_two_nights_of_code_x_are_not_joined(clinic: Clinic) -> None:
    people = [NIGHT.later(patient="X X X X", investigation="X", seed=str(day),
                          start=datetime(2026, 11, day, 22, 0)) for day in (26, 27)]
    nights = clinic.put_away({f"{it.seed}.edf": it.piece() for it in people},
                      people[1].piece(), status=1)
    assert [it.name for it in nights] == ["2026-11-26-X", "2026-11-27-X"]
    assert_all_is_there(nights, ("X", {**people[0].truth(), **people[1].truth()}))


def test_two_patients_of_one_morning_and_a_code_with_odd_letters(clinic: Clinic) -> None:
    other = NIGHT.later(patient="../S'7\\e M X X", investigation="N2",
                        start=datetime(2026, 11, 26, 23, 0), records=80)
    nights = clinic.put_away({"a.edf": NIGHT.piece(), "b.edf": other.piece()}, status=1)
    assert [it.name for it in nights] == [NAME, "2026-11-26-___S_7_e"]
    assert facts(nights[1])["patient"] == r"../S'7\x5ce"
    assert [len(list((it / "taken").iterdir())) for it in nights] == [1, 1]
    assert_all_is_there(nights, ("S-0118", NIGHT.truth()), ("../S'7\\e", other.truth()))


def test_a_card_twice_and_a_late_file(clinic: Clinic) -> None:
    clinic.put_away({"a.edf": NIGHT.piece(0, 480)}, NIGHT.piece())
    said = clinic.morning(NIGHT.piece())
    assert "put away before" in said and "nothing was accepted" in said
    assert [it.name for it in clinic.archive()] == [NAME]
    nights = clinic.put_away({"late.edf": NIGHT.piece(480, 560)}, NIGHT.piece())
    assert [it.name for it in nights] == [NAME, f"{NAME}.2"]
    report = (nights[1] / "report.txt").read_text().splitlines()
    assert report[1].startswith(f"{NAME} is there too") and report[2] == "no card is in it"
    assert [facts(it)["same_night"] for it in nights] == [
        [{"night": f"{NAME}.2", "has_all": False, "all_here": True}],
        [{"night": NAME, "has_all": True, "all_here": False}]]
    assert len(starts(nights[1])) == 80, "a card that a night has was joined again"


def test_refused_files_stay_for_the_night_that_they_are_of(clinic: Clinic) -> None:
    """All pieces are E8; in the morning a card that is none changes nothing; then the right one."""
    assert "nothing was accepted" in clinic.morning()
    wrong = NIGHT.piece(0, 80)
    wrong = wrong[:168] + b"25.11.26" + wrong[176:]
    clinic.night_took({"a.edf": wrong})
    said = clinic.morning(status=1)
    assert "look: 1 files were refused, and are in no night: file \"a.edf\"" in said
    said = clinic.morning(b"no card", status=1)
    assert 'card "card0.edf" was refused E1 Cut' in said and clinic.archive() == []
    assert not (clinic.data / "r01/morning").exists()
    assert [line[2] for line in clinic.log()] == ["a.edf"]
    clinic.morning(NIGHT.piece(), status=1)
    night, = clinic.archive()
    assert [(it["name"], it["minutes"], it["missing"]) for it in facts(night)["refused"]] == [
        ("a.edf", None, None)]
    assert (night / "refused/000001.edf").read_bytes() == wrong
    assert_all_is_there([night], ("S-0118", NIGHT.truth()))


def test_a_name_that_came_again_is_resent(clinic: Clinic) -> None:
    clinic.night_took({"a.edf": NIGHT.piece(0, 80)[:-5]},
                      {"a.edf": NIGHT.piece(0, 80), "b.edf": NIGHT.piece(80, 960)})
    clinic.morning()
    refused = facts(clinic.archive()[0])["refused"]
    assert [(it["name"], it["resent"], it["minutes"]) for it in refused] == [("a.edf", True, None)]


def test_what_waits_in_the_inbox_is_of_the_next_night(clinic: Clinic) -> None:
    clinic.receive()
    clinic.put("a.edf", NIGHT.piece(0, 480))
    clinic.until_taken()
    part = clinic.put("b.edf.part", NIGHT.piece(480))
    assert '"b.edf.part"' in clinic.morning(status=1)
    part.rename(part.with_name("b.edf"))
    clinic.until_taken()
    clinic.morning()
    assert [len(starts(it)) for it in clinic.archive()] == [480, 480]
    assert facts(clinic.archive()[1])["look"] == []


@pytest.mark.parametrize("command, name, why", [
    ("fill", "view.edf", "exit 2"), ("picture", "night.svg", "echo x refused E41 >&2; exit 3")])
def test_an_edfruns_that_fails_puts_the_night_away_too(clinic: Clinic, command: str, name: str,
                                                       why: str) -> None:
    """An older one, or one for whom memory ran out: there is no such file, and it is told."""
    clinic.wrap("edfruns", f'if [ "$1" = {command} ]; then {why}; fi')
    night, = clinic.put_away({"a.edf": NIGHT.piece()}, status=1)
    assert facts(night)["look"][0].startswith(f"there is no {name}: ")
    assert not (night / name).exists()
    assert_all_is_there([night], ("S-0118", NIGHT.truth()))


@pytest.mark.parametrize("words", [["morning", "r09"], ["morning"], ["nights", "--config", "x"],
                                   ["morning", "r01", "--card", "/dev/zero"], ["receive"],
                                   ["recode", "r01/x", "--patient", "A"], ["Morning", "r01"]])
def test_wrong_words_are_status_2(clinic: Clinic, words: list[str]) -> None:
    assert "--card FILE" in clinic.done("help", "morning")
    clinic.done(*words, status=2)


def test_a_file_that_comes_beside_a_bad_card_has_its_morning(clinic: Clinic) -> None:
    """The morning of a refused file and a bad card ended behind its first step; then one came."""
    clinic.night_took({"bad.edf": b"no EDF"})
    (clinic.data / "r01/tonight").rename(clinic.data / "r01/morning")
    clinic.night_took({"a.edf": NIGHT.piece(), "worse.edf": b"neither"})
    clinic.morning(b"no card", status=1)
    assert [line[1:3] for line in clinic.log()] == [
        ["000001.edf", "bad.edf"], ["000002.edf", "a.edf"], ["000003.edf", "worse.edf"]]
    clinic.morning(status=1)
    night, = clinic.archive()
    assert {it.name: it.read_bytes() for it in (night / "refused").iterdir()} == {
        "000001.edf": b"no EDF", "000003.edf": b"neither"}
    assert_all_is_there([night], ("S-0118", NIGHT.truth()))


def test_it_waits_for_another_that_has_the_nights(clinic: Clinic) -> None:
    clinic.night_took({"a.edf": NIGHT.piece()})
    with open(clinic.data / "r01/nights.lock", "w") as held:
        os.chown(held.fileno(), SERVICE, SERVICE)
        fcntl.flock(held, fcntl.LOCK_EX)
        child = clinic.started("morning", "r01")
        fds = Path(f"/proc/{child.pid}/fd")
        clinic.until(lambda: "nights.lock" in [it.resolve().name for it in fds.iterdir()], "a try")
        time.sleep(1)
        assert child.poll() is None
    assert child.wait(60) == 1 and len(clinic.archive()) == 1
