"""What receive takes, keeps, leaves and tells."""
import hashlib
import os
import signal
import time

from checks.clinic.clinic import Clinic
from checks.clinic.recordings import Recording

NIGHT = Recording(records=40)


def test_what_clients_still_write_is_not_touched(clinic: Clinic) -> None:
    names = [".hidden.edf", "a.edf.part", "b.edf.filepart", "c.tmp", "d.crdownload", "E.PART"]
    for name in names:
        clinic.put(name, NIGHT.piece())
    clinic.receive()
    for nth in (1, 2):      # what comes later is taken later
        clinic.put(f"{nth}.edf", NIGHT.piece(nth, nth + 1))
        clinic.until_told(accepted=nth, waiting_count=0, left_count=0)
    assert sorted(os.listdir(clinic.inboxes / "r01")) == sorted(names)


def test_without_a_count_or_with_a_hole_it_waits_for_unclosed(clinic: Clinic) -> None:
    clinic.put("open.edf", NIGHT.piece(0, 20, count="-1"))
    os.truncate(clinic.put("hole.edf", b""), 1 << 20)
    clinic.put("whole.edf", NIGHT.piece(20, 40))
    for unclosed, names in (("1 h", ["hole.edf", "open.edf"]), ("1 s", [])):
        clinic.write_config({}, unclosed=unclosed)
        clinic.receive()
        clinic.until(lambda: clinic.inbox() == names, f"{names} are left")
        clinic.stop()
    answers = {line[2]: line[3] for line in clinic.log()}
    assert list(answers)[0] == "whole.edf" and answers["open.edf"].startswith("accepted new=20")
    assert answers["hole.edf"].startswith("refused ")


def test_a_refused_file_waits_till_it_changes_and_then_is_refused_for_good(clinic: Clinic) -> None:
    cut = NIGHT.piece()[:-5]
    clinic.write_config({}, refuse="1 h")
    clinic.receive()
    clinic.put("cut.edf", cut)
    clinic.put("junk.edf", b"no EDF")
    answers = {it["name"]: it["answer"] for it in clinic.until_told(waiting_count=2)["waiting"]}
    assert answers == {"cut.edf": "refused E21 CutRecord record=40", "junk.edf": "refused E1 Cut"}
    clinic.put("cut.edf", NIGHT.piece())
    clinic.until(lambda: clinic.inbox() == ["junk.edf"], "what it became is taken")
    clinic.stop()
    clinic.write_config({}, refuse="1 s")
    clinic.receive()
    clinic.until_taken()
    told = clinic.until_told(refused_count=1)
    assert (told["accepted"], told["refused"], told["waiting"]) == (
        1, [{"name": "junk.edf", "answer": "refused E1 Cut"}], [])
    kept = list((clinic.data / "r01/tonight/refused").iterdir())
    assert [it.read_bytes() for it in kept] == [b"no EDF"]
    clinic.put("junk.edf", NIGHT.piece())       # a name says nothing of contents
    clinic.until_told(accepted=2)
    assert list(clinic.causes()) == ["refused"]
    assert sorted(line[2:] for line in clinic.log() if line[3].startswith("refused")) == [
        [name, answers[name], str(len(data)), hashlib.sha256(data).hexdigest()]
        for name, data in (("cut.edf", cut), ("junk.edf", b"no EDF"))]


def test_what_is_refused_and_waits_when_the_morning_comes_leaves_the_inbox(clinic: Clinic) -> None:
    clinic.write_config({}, refuse="20 s")
    clinic.receive()
    cut = NIGHT.piece(20, 40)[:-5]
    clinic.put("a.edf", NIGHT.piece(0, 20))
    clinic.put("cut.edf", cut)
    clinic.until_answered(2)
    clinic.morning(status=1)
    assert clinic.inbox() == ["cut.edf"]
    clinic.until_taken()
    clinic.until_told(waiting_count=0)
    assert clinic.log() == []       # it was told in the night before, which has it
    assert [it.read_bytes() for it in (clinic.archive()[0] / "refused").iterdir()] == [cut]
    clinic.put("b.edf", NIGHT.later(start=NIGHT.at(2_880)).piece())
    clinic.until_taken()
    clinic.morning()


def test_a_file_that_may_not_be_read_is_told_as_long_as_it_lies_there(clinic: Clinic) -> None:
    clinic.write_config({}, still="1 s")
    clinic.receive()
    path = clinic.put("a.edf", NIGHT.piece())
    path.chmod(0o600)
    clinic.until_told(left_count=1)
    for _ in range(60):
        assert clinic.told()["left"] == [
            {"name": "a.edf", "answer": "can't be read: no permission"}]
        time.sleep(0.05)
    path.chmod(0o640)
    clinic.until_taken()


def test_a_file_that_fits_into_no_night_is_left(clinic: Clinic) -> None:
    clinic.write_config({}, largest_night=f"{len(NIGHT.piece())} B")
    clinic.receive()
    clinic.put("large.edf", NIGHT.piece() + b"x")
    left, = clinic.until_told(left_count=1)["left"]
    assert left["answer"].endswith(" bytes, more than largest_night")


def test_a_larger_file_is_left_and_a_full_night_takes_no_more(clinic: Clinic) -> None:
    size = len(NIGHT.piece())
    clinic.write_config({}, largest_file=f"{size} B", largest_night=f"{2 * size} B")
    clinic.receive()
    clinic.put("large.edf", NIGHT.piece() + b"x")
    clinic.put("1.edf", NIGHT.piece())
    clinic.until_told(accepted=1)
    clinic.put("2.edf", NIGHT.later(investigation="N2").piece())
    told = clinic.until_told(full=True)
    assert told["accepted"] == 1 and clinic.inbox() == ["2.edf", "large.edf"]
    assert told["left"] == [{"name": "large.edf",
                             "answer": f"has {size + 1} bytes, more than largest_file"}]
    assert clinic.causes().keys() == {"left", "full"}


def test_mended_and_sorted_files_are_taken_and_kept_as_they_came(clinic: Clinic) -> None:
    clinic.write_config({"r01": {"mend": True, "by_onset": True}})
    good, cut = NIGHT.piece(0, 20), NIGHT.piece(20, 30)[:-5]
    wrong = good[:168] + b"26/11/26" + good[176:]       # another separator, E6
    files = {"b.edf": NIGHT.piece(30), "mended.edf": wrong, "cut.edf": cut}
    clinic.night_took(files)
    log = {line[2]: line for line in clinic.log()}
    assert {name: line[3] for name, line in log.items()} == {
        "b.edf": "accepted new=10 known=0", "mended.edf": "accepted new=20 known=0",
        "cut.edf": "refused E21 CutRecord record=10"}
    tonight = clinic.data / "r01/tonight"
    assert {name: next(tonight.glob(f"*/{line[1]}")).read_bytes() for name, line in log.items()
            } == files
    assert os.listdir(tonight / "work") == []
    assert {oct(it.stat().st_mode & 0o777) for it in (tonight / "taken").iterdir()} == {"0o640"}


def calls_of_receive(clinic: Clinic, data: bytes) -> list[str]:
    """Those that change the file system, while it takes a.edf with that."""
    calls = clinic.data / "calls"
    clinic.put("a.edf", data)
    clinic.receive(calls=str(calls))
    clinic.until_taken()
    clinic.stop()
    return calls.read_text().splitlines()


def killed(clinic: Clinic, data: bytes, nth: int, side: str) -> Clinic:
    """Another clinic, whose receive was killed at that call while it took the same."""
    folder = clinic.folder / f"kill{nth}"
    folder.mkdir()
    other = Clinic(folder, clinic.programs, clinic.source)
    other.put("a.edf", data)
    child = other.receive(kill=[nth, side])
    other.until(lambda: child.poll() is not None or not other.inbox(), "its end")
    other.stop(child, number=signal.SIGKILL)
    return other


def test_a_killed_receive_loses_nothing_and_takes_nothing_away(clinic: Clinic) -> None:
    """A kill before or behind each call that changes something, and it is begun again."""
    data = NIGHT.piece()
    count = len(calls_of_receive(clinic, data))
    assert count > 15
    for nth in range(1, count + 1):
        other = killed(clinic, data, nth, ("before", "behind")[nth % 2])
        assert_nothing_is_lost(other, data)
        other.receive()
        other.until_taken()
        other.stop()
        assert_nothing_is_lost(other, data)
        assert os.listdir(other.data / "r01/tonight/work") == []


def test_what_was_told_is_kept_where_its_name_is_used_again_behind_a_kill(clinic: Clinic) -> None:
    first, second = NIGHT.piece(0, 20), NIGHT.piece(20, 40)
    kept, = [nth for nth, line in enumerate(calls_of_receive(clinic, first), 1)
             if line.split()[1] == "rename" and "/work/" in line]
    other = killed(clinic, first, kept, "before")
    assert [line[3] for line in other.log()] == ["accepted new=20 known=0"]
    other.put("a.edf", second)
    other.receive()
    other.until_taken()
    other.stop()
    taken = (other.data / "r01/tonight/taken").iterdir()
    assert sorted(it.read_bytes() for it in taken) == sorted([first, second])


def assert_nothing_is_lost(clinic: Clinic, data: bytes) -> None:
    """The file is in the inbox, or told as accepted and kept."""
    if clinic.inbox() == ["a.edf"]:
        assert (clinic.inboxes / "r01/a.edf").read_bytes() == data
        return
    kept = [clinic.data / "r01/tonight/taken" / line[1] for line in clinic.log()]
    assert any(it.exists() and it.read_bytes() == data for it in kept)
