"""The archive: nights, verify, recode, forget, backup."""
import json
import os
import shutil
import subprocess
from datetime import datetime

import pytest

from checks.clinic.clinic import SERVICE, Clinic, facts, tree
from checks.clinic.recordings import Recording, codes_in, records_in

NIGHT = Recording(records=80)
NEXT = NIGHT.later(patient="S-0119 F 02-MAY-1951 X", start=datetime(2026, 11, 27, 22, 0))
OTHER = NEXT.later(start=datetime(2026, 11, 26, 23, 0))
NAME, NEXTS, OTHERS = "2026-11-26-S-0118", "2026-11-27-S-0119", "2026-11-26-S-0119"


@pytest.fixture
def archive(clinic: Clinic) -> Clinic:
    """Two nights of two patients; a file of the first was cut."""
    files = {"a.edf": NIGHT.piece(0, 40), "b.edf": NIGHT.piece(40)[:-3]}
    clinic.put_away(files, NIGHT.piece(), status=1)
    clinic.put_away({"c.edf": NEXT.piece()})
    return clinic


def test_nights_lists_what_each_night_tells(archive: Clinic) -> None:
    listed = json.loads(archive.done("nights", "--json", status=1))
    assert [{key: it[key] for key in it if key not in ("folder", "seen")} for it in listed] \
        == [facts(night) for night in archive.archive()]
    assert [(it["folder"], it["patient"], it["first"], it["gap_minutes"]) for it in listed] == [
        (f"{archive.nights}/r01/{NAME}", "S-0118", "2026-11-26T22:00:00", 0.0),
        (f"{archive.nights}/r01/{NEXTS}", "S-0119", "2026-11-27T22:00:00", 0.0)]
    assert archive.done("nights", status=1).splitlines()[1] == \
        f"r01/{NEXTS}: 2026-11-27T22:00:00 to 2026-11-27T22:40:00, without a gap"


def test_verify_names_what_differs(archive: Clinic) -> None:
    assert archive.done("verify") == "2 nights, 0 files changed\n"
    first, second = archive.archive()
    data = (first / "night.edf").read_bytes()
    (first / "night.edf").write_bytes(data[:-1] + bytes([data[-1] ^ 1]))
    (first / "taken/000001.edf").unlink()
    (second / "more").write_bytes(b"")
    said = archive.done("verify", status=1).splitlines()
    assert said == [f"{first}/taken/000001.edf: missing", f"{first}/night.edf: differs",
                    f"{second}/more: has no sum", "2 nights, 3 files changed"]
    assert archive.done("verify", f"r01/{NEXTS}", status=1).count("\n") == 2
    archive.done("verify", "r01/../r01", status=2)
    own = subprocess.run(["sha256sum", "--quiet", "-c", "SHA256SUMS"], cwd=second, check=False)
    assert own.returncode == 0, "the sums are those of sha256sum"


def test_recode_makes_the_night_anew_and_keeps_the_old_one(archive: Clinic) -> None:
    old = archive.archive()[0]
    archive.done("recode", f"r01/{NAME}", "--patient", "S-0200")
    new = archive.archive()[0]
    assert new.name == "2026-11-26-S-0200"
    assert {it.name for it in new.iterdir()} == {"night.edf", "view.edf", "night.svg",
                                                 "report.txt", "night.json", "SHA256SUMS",
                                                 "replaces"}
    assert codes_in((new / "night.edf").read_bytes()) == facts(new)["patient"] == "S-0200"
    assert dict(records_in((new / "night.edf").read_bytes())) == NIGHT.truth()
    assert all(b"S-0118" not in (new / name).read_bytes()
               for name in ("night.edf", "view.edf", "night.svg", "night.json"))
    kept = old.parent / "replaced" / NAME
    assert (kept / "card-1.edf").exists() and (kept / "refused/000002.edf").exists()
    assert archive.done("verify") == "3 nights, 0 files changed\n"
    assert "put away before" in archive.morning(NIGHT.piece())
    archive.done("recode", f"r01/{NAME}", "--patient", "S-0200", status=2)
    for code in ("X", "two words", "--dry-run", "", "é"):
        archive.done("recode", "r01/2026-11-26-S-0200", f"--patient={code}", status=2)


def test_forget_lists_and_then_removes_all_of_a_patient(archive: Clinic) -> None:
    archive.done("recode", f"r01/{NAME}", "--patient", "S-0200")
    archive.night_took({"d.edf": NEXT.later(patient="S-0200 X X X").piece()})
    listed = archive.done("forget", "S-0200", status=1).splitlines()
    folder = archive.nights / "r01"
    assert listed[:2] == [f"has {folder}/2026-11-26-S-0200", f"has {folder}/replaced/{NAME}"]
    assert listed[2].startswith(f"stays until its morning: {archive.data}/r01/tonight/taken/")
    assert len(archive.archive()) == 2
    archive.done("forget", "S-0200", "--yes", status=1)
    assert [it.name for it in archive.archive()] == [NEXTS]
    assert os.listdir(folder / "replaced") == []


@pytest.mark.parametrize("is_gone", [False, True])
def test_forget_leaves_a_new_night_of_the_code_that_a_recoded_one_had(
        clinic: Clinic, is_gone: bool) -> None:
    """Also where somebody removed the old night by hand, so that its name seems to be free."""
    clinic.morning(NIGHT.piece(0, 40))
    clinic.done("recode", f"r01/{NAME}", "--patient", "S-0301")
    old = clinic.nights / "r01/replaced" / NAME
    said = clinic.done("forget", "S-0118", "--yes", status=1)
    assert "removed" not in said and old.exists()
    if is_gone:
        shutil.rmtree(old)
    clinic.morning(NIGHT.piece())
    new = clinic.nights / "r01" / f"{NAME}.2"
    before = tree(new)
    clinic.done("forget", "S-0301", "--yes")
    assert before and tree(new) == before and clinic.archive() == [new]
    assert not old.exists()


def test_forget_by_half_a_code_or_none_removes_nothing(archive: Clinic) -> None:
    """Also no file of the first patient that was refused, in whose head the code is a word."""
    for code in ("S-9999", "S-01", "0118", "118", "S-011"):
        assert archive.done("forget", code, "--yes") == ""
    for code in ("X", "", "two words"):
        archive.done("forget", code, "--yes", status=2)
    assert archive.done("verify") == "2 nights, 0 files changed\n"
    (archive.archive()[1] / "night.json").write_text("{")       # as a disk may leave it
    before = tree(archive.nights)
    assert archive.done("forget", "S-9999", "--yes") == "" and tree(archive.nights) == before


def two_patients(clinic: Clinic) -> None:
    """Two patients of one morning, and a file of which nobody knows whose it is."""
    clinic.night_took({"a.edf": NIGHT.piece(), "S-0118.edf": NIGHT.piece()[:-3],
                       "b.edf": OTHER.piece(0, 40), "S-0119.edf": OTHER.piece(40)[:-3],
                       "junk.edf": b"no EDF"})
    flipped = OTHER.piece(changed={3: NIGHT.samples_of(3)})
    clinic.morning(clinic.card(NIGHT.piece(), "S-0118.EDF"), clinic.card(flipped, "S-0119.EDF"),
                   status=1)


def trace(clinic: Clinic, code: str) -> list[str]:
    """Where below the archive a code stands, in names and in bytes."""
    return [path for path, (_, data) in tree(clinic.nights).items()
            if code in path or code.encode() in data]


def test_forget_of_the_first_patient_leaves_what_is_the_seconds(clinic: Clinic) -> None:
    two_patients(clinic)
    folder, second = clinic.nights / "r01", tree(clinic.archive()[1])
    assert {"card-1.edf", "pieces.edf"} <= second.keys()
    said = clinic.done("forget", "S-0118", status=1).splitlines()
    assert said[0] == f"has {folder}/2026-11-26-S-0118" and len(said) == 2, said
    assert said[1].startswith(f"look: {said[0][4:]}/refused/00000") and "or of both" in said[1]
    clinic.done("forget", "S-0118", "--yes", status=1)
    rest = folder / "replaced/2026-11-26.rest"
    assert [it.read_bytes() for it in rest.rglob("*.edf")] == [b"no EDF"]
    names = {line.split("\t")[2] for line in (rest / "answers.log").read_text().splitlines()}
    assert names == {"b.edf", "S-0119.edf", "junk.edf"}
    assert tree(clinic.archive()[0]) == second and trace(clinic, "S-0118") == []
    assert clinic.done("verify") == "2 nights, 0 files changed\n"
    assert "put away before" in clinic.morning(clinic.folder / "S-0119.EDF", status=1)
    clinic.done("forget", "S-0119", "--yes")
    assert os.listdir(folder / "replaced") == [] and clinic.archive() == []


def test_forget_of_the_second_patient_takes_its_names_from_the_first(clinic: Clinic) -> None:
    two_patients(clinic)
    kept = {path: data for path, data in tree(clinic.archive()[0]).items() if "S-0119" not in path}
    clinic.done("forget", "S-0119", "--yes", status=1)
    assert trace(clinic, "S-0119") == []
    first = clinic.archive()[0]
    now = tree(first)
    assert set(kept) - set(now) == {"whose.json"}
    assert clinic.done("verify") == "1 nights, 0 files changed\n"
    assert [it["name"] for it in facts(first)["card"]] == ["S-0118.EDF"]
    names = {line.split("\t")[2] for line in (first / "answers.log").read_text().splitlines()}
    assert names == {"a.edf", "S-0118.edf", "junk.edf"}


def test_recode_parts_what_lay_together(clinic: Clinic) -> None:
    two_patients(clinic)
    clinic.done("recode", f"r01/{NAME}", "--patient", "S-0200")
    assert not (clinic.nights / "r01/2026-11-26-S-0200/pieces.edf").exists()
    said = clinic.done("forget", "S-0118", "--yes", status=1)
    assert "r01/2026-11-26-S-0200\n" in said and "removed" not in said
    clinic.done("recode", f"r01/{OTHERS}", "--patient", "S-0300")
    clinic.done("forget", "S-0300", "--yes", status=1)
    assert trace(clinic, "S-0119") == []
    clinic.done("forget", "S-0200", "--yes")
    assert trace(clinic, "S-0") == []


def test_forget_of_mended_files_and_of_a_recorder_that_the_config_lacks(clinic: Clinic) -> None:
    clinic.write_config({"r01": {"mend": ["--set-patient", "S-0400"]}})
    files = {"a.edf": NIGHT.piece(), "cut.edf": NIGHT.piece()[:-3]}
    clinic.put_away(files, NIGHT.piece(), status=1)
    clinic.make(clinic.data / "r01/gone", SERVICE, SERVICE, 0o700)      # as a kill leaves it
    clinic.recorders = ("r02",)
    clinic.write_config({})
    assert clinic.done("nights", status=1).startswith("r01/2026-11-26-S-0400")
    said = clinic.done("forget", "S-0118", "--yes", status=1)
    assert said.count("but are of S-0400") == 1 and said.count("removed") == 1
    clinic.done("forget", "S-0400", "--yes")
    assert trace(clinic, "S-0") == [] and not (clinic.data / "r01/gone").exists()


def test_backup_copies_what_it_lacks_and_finds_what_differs(archive: Clinic) -> None:
    place = archive.folder / "backup"
    archive.make(place, SERVICE, SERVICE, 0o700)
    archive.write_config({}, backup=str(place))
    ran = archive.run("backup")
    assert ran.status == 3 and b"is not mounted" in ran.err and os.listdir(place) == []
    assert "is not mounted" in archive.causes()["backup"]
    with archive.disk(place, 40):
        ran = archive.run("backup")
        assert ran.status == 3 and b"No space left" in ran.err, ran
        assert "No space left" in archive.causes()["backup"]
    with archive.disk(place):
        os.utime(archive.data / "r01/nights.lock", (1, 1))      # nights for long, and no backup
        (archive.data / "backup.json").unlink()
        assert archive.causes()["backup"] == \
            "it did not run for a week: mend that, then call edfclinic backup"
        assert archive.done("backup").count("copied") == 2
        assert archive.done("backup") == "" and "backup" not in archive.causes()
        archive.done("recode", f"r01/{NAME}", "--patient", "S-0200")
        assert archive.done("backup").count("copied") == 2
        assert {*os.listdir(place / "r01")} == {NAME, "2026-11-26-S-0200", NEXTS, "replaced"}
        archive.done("backup", status=3, set={"backup.ANEW": None})
        assert archive.causes()["backup"].startswith("it was broken off: ")
        (place / f"r01/{NEXTS}/night.edf").write_bytes(b"rot")
        assert "night.edf: differs" in archive.done("backup", status=1)
        assert "backup" in archive.causes()
        for above in (place / "r01", archive.nights / "r01"):      # as a kill leaves it
            archive.make(above / ".new", SERVICE, SERVICE, 0o750)
            (above / ".new/night.edf").write_bytes(NIGHT.piece())
        archive.done("forget", "S-0200", "--yes")
        assert not (archive.nights / "r01/.new").exists()
        assert {*os.listdir(place / "r01")} == {"replaced", NEXTS}
        assert os.listdir(place / "r01/replaced") == []
