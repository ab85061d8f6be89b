"""Disks that are full, gone or read-only: nothing is told as accepted that isn't held, the cause is
told in words, and it goes on by itself when there is room. They are small tmpfs."""
import os
import time
from collections.abc import Iterator
from pathlib import Path
from typing import Any

import pytest

from checks.clinic.clinic import SERVICE, Clinic, tree
from checks.clinic.nights import assert_all_is_there
from checks.clinic.recordings import Recording
from checks.lib.disks import Disk
from checks.lib.measure import done

NIGHT = Recording(records=480, samples=(64, 32))       # some 110 kB
TREES = pytest.mark.parametrize("disk", ["data", "nights"], indirect=True)


@pytest.fixture
def disk(clinic: Clinic, request: Any) -> Iterator[Disk]:
    """The tree of that name, on a disk of its own."""
    with clinic.disk(getattr(clinic, request.param), 4_096) as made:
        yield made


def assert_night_is_there(clinic: Clinic) -> None:
    assert [it.name for it in clinic.archive()] == ["2026-11-26-S-0118"]
    assert_all_is_there(clinic.archive(), ("S-0118", NIGHT.truth()))


@pytest.mark.parametrize("disk", ["data"], indirect=True)
def test_receive_on_a_full_disk_goes_on_when_there_is_room(clinic: Clinic, disk: Disk) -> None:
    clinic.receive()
    clinic.put("a.edf", NIGHT.piece(0, 240))
    clinic.until_taken()
    disk.fill()
    clinic.put("b.edf", NIGHT.piece(240))
    clinic.until(lambda: "full" in clinic.causes(), "full", 20)
    assert clinic.inbox() == ["b.edf"]
    assert [line[2] for line in clinic.log()] == ["a.edf"]
    disk.empty()
    clinic.until_taken()
    clinic.until(lambda: not clinic.causes(), "no cause", 20)
    clinic.morning()
    assert_night_is_there(clinic)


@pytest.mark.parametrize("disk", ["data"], indirect=True)
def test_receive_begins_on_a_full_disk_and_goes_on_by_itself(clinic: Clinic, disk: Disk) -> None:
    """As behind a morning: what it told last is not there."""
    clinic.night_took({"a.edf": NIGHT.piece(0, 240)})
    (clinic.data / "r01/now.json").unlink()
    disk.fill()
    child = clinic.receive()
    clinic.put("b.edf", NIGHT.piece(240))
    time.sleep(2)
    assert clinic.inbox() == ["b.edf"] and child.poll() is None
    disk.empty()
    clinic.until_taken()
    assert [line[2] for line in clinic.log()] == ["a.edf", "b.edf"]


@TREES
def test_a_morning_on_a_full_disk_is_finished_later(clinic: Clinic, disk: Disk) -> None:
    clinic.night_took({"a.edf": NIGHT.piece(0, 240)})
    words = "morning", "r01", "--card", clinic.card(NIGHT.piece())
    disk.fill()
    ran = clinic.run(*words)
    assert ran.status == 3 and (b"No space left" in ran.err or b"full" in ran.err), ran
    assert clinic.archive() == []
    left = [Path(it).name for it in (*tree(clinic.data), *tree(clinic.nights))]
    begun = [it for it in left if it == ".new" or it.endswith(".part")
             or it.startswith("work.") and "plan.json" not in left]
    assert not begun, "what is begun keeps the disk full"
    assert ("morning" if disk.place == clinic.nights else "full") in clinic.causes()
    disk.empty()
    while clinic.run(*words).out.count(b"call again"):
        pass
    assert_night_is_there(clinic)


@TREES
def test_a_disk_that_is_read_only(clinic: Clinic, disk: Disk) -> None:
    clinic.night_took({"a.edf": NIGHT.piece(0, 240)})
    done("mount", "-o", "remount,ro", disk.place)
    ran = clinic.run("morning", "r01")
    assert ran.status == 3 and b"read-only" in ran.err
    clinic.put("b.edf", NIGHT.piece(240))
    child = clinic.receive()
    if disk.place == clinic.data:
        assert child.stderr and b"Read-only file system" in os.read(child.stderr.fileno(), 1_000)
        assert clinic.inbox() == ["b.edf"]
    done("mount", "-o", "remount,rw", disk.place)
    clinic.until_taken()
    clinic.morning()
    assert_night_is_there(clinic)


@pytest.mark.parametrize("tree_of, uid, status, why", [
    ("data", SERVICE, 2, b"call it as root, or as the owner of "),
    ("data", 0, 3, b"belongs to root: is its disk mounted?"),
    ("nights", SERVICE, 3, b"belongs to another user: is its disk mounted?"),
])
def test_a_disk_that_is_not_mounted(clinic: Clinic, tree_of: str, uid: int, status: int,
                                    why: bytes) -> None:
    """What lies below a mount is root's: nothing is written there."""
    clinic.night_took({"a.edf": NIGHT.piece()})
    place = getattr(clinic, tree_of)
    os.chown(place, 0, 0)
    place.chmod(0o755)
    before = tree(clinic.folder)
    ran = clinic.run("morning", "r01", uid=uid)
    assert ran.status == status and ran.err.startswith(b"edfclinic: ") and why in ran.err, ran
    assert tree(clinic.folder) == before
    if tree_of == "nights":     # and it is not told that all is well
        assert clinic.causes()["trouble"].endswith(why.decode())
    os.chown(place, SERVICE, SERVICE)
    place.chmod(0o2750)
    clinic.morning()
    assert_night_is_there(clinic)


def test_a_file_that_the_inbox_keeps_is_taken_once(clinic: Clinic) -> None:
    """As on a disk that became read-only: it is taken, and removed when that is possible again."""
    clinic.put("a.edf", NIGHT.piece(0, 240))
    (clinic.inboxes / "r01").chmod(0o3570)      # its owner, the service, may remove nothing there
    clinic.receive()
    clinic.until_told(accepted=1)
    clinic.until(lambda: clinic.state() == "unknown", "it can't be removed")
    causes = clinic.causes()
    assert causes.keys() == {"unknown"} and "a file of the inbox: " in causes["unknown"]
    assert "a.edf" not in str(causes)
    clinic.put("b.edf", NIGHT.piece(240))       # which is looked at later, each time
    clinic.until_told(accepted=2)
    (clinic.inboxes / "r01").chmod(0o3770)
    clinic.until_taken()
    assert [line[2] for line in clinic.log()] == ["a.edf", "b.edf"]
