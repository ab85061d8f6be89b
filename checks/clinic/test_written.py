"""A writer that goes on, names that are used again, and what a morning could not put away."""
import os
import subprocess
import time

import pytest

from checks.clinic.clinic import Clinic
from checks.clinic.nights import assert_all_is_there
from checks.clinic.recordings import Recording

NIGHT = Recording(records=40)
OPEN = NIGHT.piece(count="-1")
RECORD = (len(OPEN) - 1_024) // 40


@pytest.mark.parametrize("more", [0, 20])
def test_what_is_written_after_it_was_taken_is_taken_again(clinic: Clinic, more: int) -> None:
    """It pauses behind 10 data records, or within the next: longer than `unclosed` and `refuse`."""
    clinic.receive()
    part = 1_024 + 10 * RECORD + more
    with open(clinic.put("CURRENT.EDF", OPEN[:part]), "ab") as writer:
        clinic.until_taken()
        assert more or clinic.causes() == {}
        writer.write(OPEN[part:-5])
        writer.flush()
        clinic.until_told(written=True)
        clinic.until_answered(2)
        writer.write(OPEN[-5:])
    clinic.until(lambda: clinic.log()[-1][3].startswith("accepted"), "it is whole")
    assert '  written: file "CURRENT.EDF": taken at ' in clinic.done("status", status=1)
    assert clinic.causes() == {     # which are mailed, and name no file
        "written": "1 of its files were written to after they were taken: have the recorder write "
                   "elsewhere and upload, or use .part"}
    clinic.stop()
    clinic.morning()
    assert_all_is_there(clinic.archive(), ("S-0118", NIGHT.truth()))
    assert (clinic.archive()[0] / "night.edf").read_bytes()[236:244] == b"40      "


def test_what_is_still_written_when_the_morning_comes_is_a_look(clinic: Clinic) -> None:
    clinic.write_config({}, still="2 s")        # for so long its writer may be kept waiting
    clinic.receive()
    with open(clinic.put("CURRENT.EDF", NIGHT.piece()), "ab") as writer:
        clinic.until_taken()
        with subprocess.Popen(["sh", "-c", "while printf more; do sleep 0.1; done"],
                              stdout=writer) as going_on:
            try:
                clinic.until_told(written=True)
                clinic.morning(status=1)
            finally:
                going_on.kill()
    assert "refused: it was taken before, and was still written to when receiving ended" in (
        clinic.archive()[0] / "answers.log").read_text()
    clinic.until_told(refused_count=True)       # it is taken in the next night


def test_a_name_that_is_used_again_hides_nothing(clinic: Clinic) -> None:
    """The second contradicts the first, and is written over while it waits."""
    clinic.write_config({}, refuse="30 s")
    clinic.receive()
    other = NIGHT.piece(9, 20, changed={9: bytes(12)})
    for nth, data in enumerate((NIGHT.piece(0, 10), other, NIGHT.piece(20, 40)), 1):
        clinic.put("CURRENT.EDF", data)
        clinic.until_answered(nth)
    clinic.until_taken()
    assert clinic.until_told(refused_count=1)["refused_minutes"] == 5.5
    assert [line[3].split()[:2] for line in clinic.log()] == [
        ["accepted", "new=10"], ["refused", "E31"], ["accepted", "new=20"]]
    refused = clinic.data / "r01/tonight/refused" / clinic.log()[1][1]
    assert refused.read_bytes() == other and clinic.causes().keys() == {"refused"}


def test_an_upload_that_pauses_is_whole_in_the_end(clinic: Clinic) -> None:
    clinic.write_config({}, refuse="30 s")
    clinic.receive()
    data = NIGHT.piece()
    path = clinic.put("slow.edf", data[:2_000])
    for nth, end in enumerate((3_000, len(data)), 1):
        clinic.until_answered(nth)
        with open(path, "ab") as file:
            file.write(data[path.stat().st_size:end])
    clinic.until_taken()
    clinic.until_told(accepted=1, refused_count=0)
    assert clinic.causes() == {}
    assert [line[3].split()[0] for line in clinic.log()] == ["refused", "refused", "accepted"]
    assert os.listdir(clinic.data / "r01/tonight/refused") == []


def test_what_was_refused_is_told_while_another_file_of_its_name_comes(clinic: Clinic) -> None:
    clinic.write_config({}, refuse="30 s")
    clinic.receive()
    clinic.put("CURRENT.EDF", NIGHT.piece(0, 20)[:-5])
    clinic.until_told(waiting_count=1)
    assert clinic.causes() == {}
    data = NIGHT.piece(20, 40, count="-1")
    with open(clinic.put("CURRENT.EDF", data[:1_500]), "ab") as writer:
        for at in range(1_500, 2_000, 20):
            writer.write(data[at:at + 20])
            writer.flush()
            time.sleep(0.1)
        assert clinic.told()["waiting_count"] == 0 and clinic.inbox() == ["CURRENT.EDF"]
        assert clinic.causes().keys() == {"refused"}


def test_a_file_that_gets_the_name_of_one_that_is_taken_out(clinic: Clinic) -> None:
    """Between the last look at the one that was taken and its end another is renamed over it."""
    clinic.put("other.part", NIGHT.piece(20, 40))
    clinic.put("a.edf", NIGHT.piece(0, 20))
    clinic.receive(over=["a.edf", "other.part"])
    clinic.until_answered(2)
    clinic.until_taken()
    assert [line[3] for line in clinic.log()] == ["accepted new=20 known=0"] * 2


def test_two_small_files_with_which_a_night_would_be_huge(clinic: Clinic) -> None:
    """400 data records, and a text of 3 kB in another one, for which each would get room."""
    clinic.write_config({}, largest_export="1 MB")
    night = NIGHT.later(records=401)
    wide = night.later(texts=2_000).piece(400)
    own = b"Stage 400\x14\0" + bytes(3_000)
    last = wide.replace(own, b"Stage 400" + b"x" * 3_000 + b"\x14\0")
    assert len(last) == len(wide) and last != wide
    clinic.night_took({"a.edf": night.piece(0, 400)}, {"b.edf": last})
    assert [line[3] for line in clinic.log()] == [
        "accepted new=400 known=0",
        "refused: with it night.edf might have more bytes than largest_export"]
    clinic.morning(status=1)
    assert_all_is_there(clinic.archive(), ("S-0118", night.truth(range(400))))


def test_another_recorder_of_the_patient_makes_no_night_wider(clinic: Clinic) -> None:
    """Its data records are large, and of a recording of its own."""
    clinic.write_config({}, largest_export="1 MB")
    night = NIGHT.later(records=400)
    other = NIGHT.later(records=2, samples=(2_000,), start=night.at(401), investigation="N2")
    clinic.night_took({"a.edf": night.piece(), "b.edf": other.piece()})
    assert sorted(line[3] for line in clinic.log()) == [
        "accepted new=2 known=0", "accepted new=400 known=0"]
    clinic.morning(status=1)        # two recordings
    assert_all_is_there(clinic.archive(), ("S-0118", night.truth()), ("S-0118", other.truth()))


def test_a_morning_waits_for_no_receive_that_begins(clinic: Clinic) -> None:
    """It asks a program of each file, which takes two seconds here."""
    clinic.night_took({f"{nth}.edf": NIGHT.piece(nth, nth + 1) for nth in range(20)})
    path, begun = clinic.path, clinic.data / "begun"
    clinic.wrap("edfruns", f"touch {begun}; sleep 2")
    clinic.receive()
    clinic.path = path
    clinic.until(begun.exists, "it asks")
    clinic.morning(set={"morning.WAIT": 20})
