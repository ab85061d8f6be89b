"""What a morning says is so: of what came, whose it is, what waits, and of a night put away."""
import json
import os
from datetime import datetime

import pytest

from checks.clinic.clinic import Clinic, facts, tree
from checks.clinic.recordings import Recording, codes_in

NIGHT = Recording(records=40)
OTHER = NIGHT.later(patient="S-0119 F 02-MAY-1951 X", seed="other")
NAME, OTHERS = "2026-11-26-S-0118", "2026-11-26-S-0119"
CLEAR, ERASED = "nothing that came before morning was called is missing", "it may be erased"


def test_a_name_that_is_used_again_says_nothing_of_contents(clinic: Clinic) -> None:
    """Piece 2 of three of one name contradicts piece 1; and of the same file that came again."""
    wrong = NIGHT.piece(9, 20, changed={9: bytes(12)})
    clinic.night_took(*({"CURRENT.EDF": it} for it in (
        NIGHT.piece(0, 10), wrong, NIGHT.piece(20, 40), NIGHT.piece(20, 40)[:-3])))
    assert CLEAR not in clinic.morning(status=1)
    told = {it["answer"].split()[1]: it for it in facts(clinic.archive()[0])["refused"]}
    assert (told["E31"]["resent"], told["E31"]["missing"]) == (False, 5.0)
    assert told["E21"]["resent"] is False, "an earlier file is none that came again"
    assert "5.0 minutes were refused, and are missing" in str(facts(clinic.archive()[0])["look"])


def test_what_a_card_has_of_a_refused_file_is_in_the_night(clinic: Clinic) -> None:
    files = {"a.edf": NIGHT.piece(0, 10, changed={9: bytes(12)})}, {"b.edf": NIGHT.piece(9, 20)}
    clinic.night_took(*files)
    clinic.morning(NIGHT.piece(), status=1)
    told = facts(clinic.archive()[0])
    assert [(it["name"], it["resent"]) for it in told["refused"]] == [("b.edf", True)]
    assert [it["name"] for it in told["differs"]] == ["a.edf"] and len(told["look"]) == 1


def test_what_waits_is_told_and_a_receive_that_does_not_run(clinic: Clinic) -> None:
    clinic.night_took({"a.edf": NIGHT.piece(0, 20)})
    for name in ("part1.edf", 'x"\n.edf', "c.part"):
        clinic.put(name, NIGHT.piece(20))
    said = clinic.morning(NIGHT.piece(), alone=True, status=1)
    assert "look: receive does not run: systemctl start edfclinic-receive@r01\n" in said
    assert "look: 3 files wait in its inbox and are in no night of this morning: file " \
        "\"c.part\", file \"part1.edf\", file \"x\\x22\\x0a.edf\": call again in 10 minutes" in said
    assert CLEAR not in said and ERASED not in said and "keep it till" in said
    assert "3 files were in its inbox" in str(facts(clinic.archive()[0])["look"])
    assert CLEAR not in (clinic.archive()[0] / "report.txt").read_text()
    for name in clinic.inbox():
        (clinic.inboxes / "r01" / name).unlink()
    assert "receive does not run" in clinic.morning(alone=True, status=1)
    os.symlink("/etc/passwd", clinic.inboxes / "r01/link.edf")
    assert "\"link.edf\"" in clinic.morning(status=1)


def test_what_came_behind_the_staging_is_of_the_next_night(clinic: Clinic) -> None:
    """A morning was killed behind its first step. Then a file was refused."""
    clinic.night_took({"a.edf": NIGHT.piece(0, 20)})
    (clinic.data / "r01/tonight").rename(clinic.data / "r01/morning")
    clinic.night_took({"b.edf": NIGHT.piece(20)[:-3]})
    said = clinic.morning(status=1)
    assert "look: 1 files are of the next night: call again\n" in said and CLEAR not in said
    assert CLEAR not in (clinic.archive()[0] / "report.txt").read_text()


def test_what_was_accepted_and_is_not_kept_yet_waits(clinic: Clinic) -> None:
    """receive was killed behind its line in the log."""
    clinic.night_took({"a.edf": NIGHT.piece(0, 20)}, {"b.edf": NIGHT.piece(20)})
    (clinic.data / "r01/tonight/taken/000002.edf").unlink()
    clinic.put("b.edf", NIGHT.piece(20))
    said = clinic.morning(status=1)
    assert "look: 1 files wait in its inbox" in said and CLEAR not in said


def test_an_inbox_that_could_not_be_read_is_no_clear_one(clinic: Clinic) -> None:
    clinic.night_took({"a.edf": NIGHT.piece(0, 20)})
    inbox = clinic.inboxes / "r01"
    inbox.chmod(0)
    said = clinic.morning(NIGHT.piece(), status=1)
    inbox.chmod(0o3770)
    said += clinic.morning(NIGHT.piece(), status=1)
    said += (clinic.archive()[0] / "report.txt").read_text()
    assert CLEAR not in said and ERASED not in said
    assert "look: its inbox can't be read, Permission denied: ask the engineer\n" in said


def test_a_card_that_is_known_is_told_when_all_looks_are(clinic: Clinic) -> None:
    clinic.morning(NIGHT.piece())
    for name, data in (("cut.edf", NIGHT.piece()[:-3]), ("b.edf", OTHER.piece())):
        clinic.night_took({name: data})
        said = clinic.morning(NIGHT.piece(), status=1)
        assert "put away before" in said and CLEAR not in said and ERASED not in said


@pytest.mark.parametrize("mend", [False, True])
def test_a_refused_file_goes_to_its_owner_alone(clinic: Clinic, mend: bool) -> None:
    """Its patient has a night of this morning, or none: then nobody's folder has it."""
    third = NIGHT.later(patient="S-0120 X X X")
    clinic.write_config({"r01": {"mend": mend}})
    clinic.night_took({"a.edf": NIGHT.piece(), "b.edf": OTHER.piece()[:-20],
                       "c.edf": third.piece(0, 9), "d.edf": third.piece(9)[:-20]})
    said = clinic.morning(status=1)
    rest = clinic.nights / "r01/replaced/2026-11-26.rest"
    assert [codes_in(it.read_bytes()) for it in rest.rglob("*.edf")] == ["S-0119"]
    assert "look: file \"b.edf\", refused E21 CutRecord record=40, is of patient S-0119, who has " \
        "no night of this morning: it is in replaced/2026-11-26.rest\n" in said
    assert {codes_in(it.read_bytes()) for it in clinic.archive()[1].rglob("*.edf")} == {"S-0120"}
    assert str(rest) in clinic.causes()["rest"]
    clinic.done("forget", "S-0118", "--yes")
    assert list(rest.rglob("*.edf")) and clinic.done("verify").endswith(" 0 files changed\n")
    clinic.done("seen", "r01/2026-11-26-S-0120", "--why", "as on paper, AB")
    clinic.done("nights", status=1)
    clinic.done("seen", "r01/2026-11-26.rest", "--why", "told the ward, AB")
    clinic.done("nights")
    assert "rest" not in clinic.causes()
    clinic.done("forget", "S-0119", "--yes")
    assert not rest.exists() and len(clinic.archive()) == 1
    last, other = clinic.archive()[0], OTHER.piece()[:-20]      # as 2.0.0 left it
    told = {key: it for key, it in facts(last).items() if key != "same_night"}
    (last / "night.json").write_text(json.dumps(told))
    (last / "refused/000009.edf").write_bytes(other)
    clinic.done("forget", "S-0120", "--yes")
    assert [it.read_bytes() for it in clinic.nights.rglob("*.edf")] == [other]


def test_what_may_be_of_two_nights_is_told_by_both(clinic: Clinic) -> None:
    files = {"a.edf": NIGHT.piece(), "b.edf": OTHER.piece(), "junk.edf": b"junk"}
    nights = clinic.put_away(files, status=1)
    assert not any(CLEAR in (it / "report.txt").read_text() for it in nights)
    assert "a refused file that may be of this night too lies with another night of this morning" \
        in str(facts(nights[1])["look"])


def test_what_has_code_x_lies_in_nobodys_night(clinic: Clinic) -> None:
    """It may be anybody's, who stays unforgotten: so it is told, and nobody's forget takes it."""
    cut, card = (NIGHT.later(patient="X X X X", seed=it).piece()[:-20] for it in ("cut", "card"))
    clinic.night_took({"a.edf": NIGHT.piece(), "x.edf": cut})
    said = clinic.morning(card, status=1)
    rest = clinic.nights / "r01/replaced/2026-11-26.rest"
    held = {str(it.relative_to(rest)): it.read_bytes() for it in rest.rglob("*.edf")}
    assert held == {"refused/000002.edf": cut, "card-1.edf": card} and CLEAR not in said
    assert str(facts(clinic.archive()[0])["look"]).count(
        "that may be of this night too lies in replaced/2026-11-26.rest") == 2
    assert "rest" in clinic.causes()
    said = clinic.done("forget", "S-0118", "--yes", status=1)
    for name in held:
        assert f"look: {rest}/{name} stays: it is of this patient, of patient X, or of both" in said
    assert {it.read_bytes() for it in clinic.nights.rglob("*.edf")} == {cut, card}
    assert clinic.done("verify").endswith(" 0 files changed\n")
    clinic.put_away({"b.edf": NIGHT.later(patient="X X X X").piece(), "y.edf": cut}, status=1)
    assert (clinic.nights / "r01/2026-11-26-X/refused/000002.edf").read_bytes() == cut


def test_a_patient_whose_code_is_rest_is_forgotten(clinic: Clinic) -> None:
    files = {"a.edf": NIGHT.later(patient="rest X X X").piece(), "junk.edf": b"junk"}
    nights = clinic.put_away(files, NIGHT.piece(), status=1)
    assert [it.name for it in nights] == [NAME, "2026-11-26-rest"]
    clinic.done("forget", "S-0118", "--yes", status=1)
    clinic.done("forget", "rest", "--yes")
    assert clinic.archive() == [] and os.listdir(clinic.nights / "r01/replaced") == []


def test_a_card_lies_with_the_night_that_it_is_of(clinic: Clinic) -> None:
    clinic.night_took({"a.edf": NIGHT.piece(), "b.edf": OTHER.piece(0, 20)})
    said = clinic.morning(OTHER.piece(), b"junk", status=1)
    first, second = clinic.archive()
    assert (second / "card-1.edf").read_bytes() == OTHER.piece()
    assert (first / "card-1.edf").read_bytes() == b"junk" and said.count("was refused E1 Cut") == 3
    assert facts(second)["card"] == [{"name": "card0.edf", "answer": "accepted new=20 known=20"}]
    assert facts(first)["card"] == [{"name": "card1.edf", "answer": "refused E1 Cut"}]
    assert "a card was refused E1 Cut" in str(facts(first)["look"])


def test_a_card_of_another_night_is_a_look(clinic: Clinic) -> None:
    before = NIGHT.later(start=datetime(2026, 11, 24, 22, 0))
    known, new = before.piece(0, 20), before.piece(0, 30)
    clinic.morning(known)
    for nth, card in enumerate((known, new)):
        clinic.night_took({"a.edf": NIGHT.later(seed=str(nth)).piece()})
        said = clinic.morning(card, status=1)
        assert "look: a card is of 2026-11-24, and not of this night" in said


def test_a_morning_whose_export_fails_puts_away_what_came(clinic: Clinic) -> None:
    clinic.wrap("edfstore", '[ "$1" = export ] && kill -XFSZ $$')
    files = {"a.edf": NIGHT.piece(0, 10), "b.edf": NIGHT.piece(20), "c.edf": OTHER.piece()}
    clinic.night_took(files)
    said = clinic.morning(NIGHT.piece(0, 5), status=1)
    assert "look: there is no night.edf: edfstore export: " in said
    assert [it.name for it in clinic.archive()] == [NAME, OTHERS]
    assert sorted(it.read_bytes() for it in clinic.nights.rglob("taken/*")) \
        == sorted(files.values())
    told = facts(clinic.archive()[0])
    assert (told["first"], told["last"], told["gap_minutes"]) == (
        "2026-11-26T22:00:00", "2026-11-26T22:20:00", 5.0)
    assert clinic.done("verify").endswith(" 0 files changed\n")
    assert "nothing was accepted" in clinic.morning()
    clinic.done("recode", f"r01/{NAME}", "--patient", "S-1", status=2)


def test_two_nights_of_an_evening_name_each_other(clinic: Clinic) -> None:
    clinic.put_away({"a.edf": NIGHT.piece(0, 20)})
    said = clinic.morning(NIGHT.piece())
    assert f"{NAME} is there too, of this code and evening, and has no more: use this" in said
    first, second = clinic.archive()
    assert facts(first)["same_night"] == [
        {"night": f"{NAME}.2", "has_all": True, "all_here": False}]
    assert facts(second)["same_night"] == [{"night": NAME, "has_all": False, "all_here": True}]
    assert f"{NAME}.2 is there too" in (first / "report.txt").read_text()
    clinic.done("recode", f"r01/{NAME}", "--patient", "S-0200")
    assert facts(second)["same_night"] == []
    assert clinic.done("verify").endswith(" 0 files changed\n")


def test_an_exchanged_recorder_is_told_by_its_field(clinic: Clinic) -> None:
    second = NIGHT.later(start=datetime(2026, 11, 26, 22, 30), investigation="OxiB-77", records=20)
    nights = clinic.put_away({"a.edf": NIGHT.piece(), "b.edf": second.piece()}, status=1)
    assert [facts(it)["look"] for it in nights] == 2 * [[
        "two recordings of S-0118: the recording differs (N1, OxiB-77): right if the recorder was "
        "exchanged; else ask the engineer"]]


def test_a_look_is_answered_and_an_old_night_is_thinned(clinic: Clinic) -> None:
    files = {"a.edf": NIGHT.piece(0, 20), "b.edf": NIGHT.piece(20)[:-3]}
    night, = clinic.put_away(files, NIGHT.piece(), status=1)
    clinic.done("nights", status=1)
    assert "stays: a look" in clinic.done("thin", "--older", "1d", status=1)
    clinic.done("seen", f"r01/{NAME}", "--why", "as on\npaper, AB")
    said = clinic.done("nights")
    assert "; look answered: 20" in said and r"as on\x0apaper, AB" in said
    assert clinic.done("verify").endswith(" 0 files changed\n")
    assert json.loads(clinic.done("nights", "--json"))[0]["seen"][0].endswith("paper, AB")
    place = clinic.folder / "backup"
    with clinic.disk(place):
        clinic.write_config({}, backup=str(place))
        clinic.done("backup")
        clinic.done("seen", f"r01/{NAME}", "--why", "again")
        kept = tree(night)
        assert clinic.done("thin", "--older", "9y") == "" and tree(night) == kept
        assert clinic.done("thin", "--older", "1d") == f"thinned {night}\n"
        assert {it.name for it in night.iterdir()} == {"night.edf", "report.txt", "night.json",
                                                       "seen.txt", "SHA256SUMS"}
        said = clinic.morning(clinic.folder / "card0.edf")
        assert 'card "card0.edf": all of it is put away; it may be erased' in said
        report = (night / "report.txt").read_text()
        assert "card-1.edf" not in said + report and "view.edf is for" not in report
        assert clinic.done("verify") == "1 nights, 0 files changed\n"
        assert clinic.done("backup") == ""
        assert tree(place / "r01" / NAME).keys() == kept.keys()
        assert clinic.done("thin", "--older", "1d") == ""
    clinic.done("thin", "--older", "1 week", status=2)
