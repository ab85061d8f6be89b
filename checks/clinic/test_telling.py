"""How recorders are, who is told of what, and how a command ends that can't go on."""
import fcntl
import json
import os
import subprocess
import time
from datetime import datetime
from typing import Any

import pytest

from checks.clinic.clinic import SERVICE, Clinic
from checks.clinic.recordings import Recording

NIGHT = Recording(records=40)


def alarm(clinic: Clinic) -> list[str]:
    return ["sh", "-c", f"cat >> {clinic.data}/said"]


def said(clinic: Clinic) -> list[str]:
    """Whose cause it was, and which, of each line that the alarm got."""
    path = clinic.data / "said"
    return [it.split(": ")[1] for it in path.read_text().splitlines()] if path.exists() else []


def test_states_and_causes(clinic: Clinic) -> None:
    clinic.write_config({}, silent="1 s")
    assert clinic.state() == "stopped"
    clinic.receive()
    clinic.until_told(accepted=0)
    assert clinic.state() == "idle"
    clinic.morning(NIGHT.later(seed="card").piece())        # after which it looks anew
    clinic.until(lambda: clinic.state() == "idle", "idle")
    clinic.put("a.edf", NIGHT.piece(0, 40))
    clinic.until_told(accepted=1)
    found = clinic.status()["recorders"]["r01"]
    last = found.pop("last")
    assert found.pop("state") in ("alive", "silent")
    assert found == {"accepted": 1, "refused": [], "waiting": [], "left": [], "written": [],
                     "refused_count": 0, "waiting_count": 0, "left_count": 0, "written_count": 0,
                     "refused_minutes": 0, "gap_minutes": 0.0}
    assert (last["name"], last["answer"]) == ("a.edf", "accepted new=40 known=0")
    datetime.strptime(last["at"], "%Y-%m-%dT%H:%M:%SZ")
    clinic.until(lambda: clinic.state() == "silent", "silent")
    begin = time.localtime(time.time() + 7200)
    clinic.write_config({}, silent="1 s",
                        watch=f"{begin.tm_hour:02}:00-{(begin.tm_hour + 1) % 24:02}:00")
    assert clinic.causes() == {}
    clinic.write_config({}, free_space="900 TB", silent="1 h")
    assert [(it["recorder"], it["cause"]) for it in clinic.status()["causes"]] == [
        (None, "free_space")]
    clinic.stop()
    path = clinic.data / "r01/now.json"
    path.write_text(json.dumps({**clinic.told(), "told": "2026-01-01T00:00:00Z"}))
    with open(clinic.data / "r01/session.lock") as held:
        fcntl.flock(held, fcntl.LOCK_EX)
        assert clinic.state() == "unknown"
    clinic.make(clinic.data / "r01/morning", SERVICE, SERVICE, 0o700)
    assert clinic.causes()["morning"] == "call edfclinic morning r01 again, with the same " \
        "--card FILE if a card was given"
    assert clinic.done("--version") == "edfclinic of a clone\n"


def test_a_cause_is_told_once_a_day_and_none_while_nobody_is_told(clinic: Clinic) -> None:
    """That r01 is stopped, all the time; and that no room is free, which comes again. What an alarm
    failed to tell is told by the next."""
    clock, heard = clinic.folder / "clock", [("r01 stopped", "all free_space")[it] for it in (
        0, 1, 1, 0)]
    for words, free_space, seconds, status, count in (
            ([], "1 kB", 0, 1, 0), (alarm(clinic), "1 kB", 0, 1, 1),
            (alarm(clinic), "1 kB", 60, 1, 1), (alarm(clinic), "900 TB", 61, 1, 2),
            (alarm(clinic), "900 TB", 62, 1, 2), (["false"], "1 kB", 63, 1, 2),
            (["false"], "900 TB", 64, 3, 2), (alarm(clinic), "900 TB", 65, 1, 3),
            (alarm(clinic), "1 kB", 86_500, 1, 4), (alarm(clinic), "1 kB", 86_560, 1, 4)):
        clinic.write_config({}, alarm=words, free_space=free_space)
        clock.write_text(str(seconds))
        clinic.done("status", "--tell", status=status, clock=str(clock))
        assert said(clinic) == heard[:count]


@pytest.mark.parametrize("wrong", ["alarm = 5\n", "pause = \"6 hours\"\n"])
def test_a_config_that_is_wrong_is_told_by_the_alarm_that_can_be_read(
        clinic: Clinic, wrong: str) -> None:
    clinic.write_config({}, alarm=alarm(clinic))
    clinic.done("status", "--tell", status=1)
    lines = clinic.config.read_text().splitlines(keepends=True)
    lines = [it for it in lines if it[:5] != wrong[:5]]
    clinic.config.write_text("".join([wrong, *lines]))
    for _ in range(2):
        clinic.done("status", "--tell", status=2)
    assert said(clinic) == ["r01 stopped", "all config"]


def test_silence_a_night_that_nobody_called_for_and_sums_are_causes(clinic: Clinic) -> None:
    def causes(seconds: int = 0) -> set[str]:
        clock.write_text(str(seconds))
        return {*clinic.causes(clock=str(clock))}
    clock = clinic.folder / "clock"
    clinic.write_config({"r01": {"expected": True}}, silent="0 s")
    clinic.receive()
    clinic.until_told()
    assert causes() == {"silent"} and "waiting" not in causes(86_400)
    clinic.put("a.edf", NIGHT.piece())
    clinic.until_told(accepted=1)
    clinic.write_config({})
    assert causes() <= {"waiting"} and "waiting" in causes(86_400)
    clinic.morning()
    clinic.until(lambda: not causes(), "the night is put away", 20)
    os.utime(clinic.data / "r01/nights.lock", (1, 1))
    assert causes() == {"verify"}
    clinic.done("verify")
    assert causes() == set() and causes(8 * 86_400) >= {"verify"}
    taken, = (clinic.archive()[0] / "taken").iterdir()
    taken.write_bytes(b"changed")
    clinic.done("verify", status=1)
    assert causes() == {"verify"}


def test_silence_is_told_where_the_hosts_clock_is_set_back(clinic: Clinic) -> None:
    clinic.write_config({}, silent="12 s")
    clock = clinic.folder / "clock"
    clock.write_text("0")       # which receive reads before the first file comes
    clinic.receive(clock=str(clock), set={"receive.TELL": 0.5})
    for name, before, behind, state in (("a.edf", "0", "-3600", "silent"),
                                        ("b.edf", "7200", "7200", "alive")):
        clock.write_text(before)
        clinic.put(name, NIGHT.piece())
        clinic.until_taken()
        clock.write_text(behind)
        clinic.until(lambda: clinic.state(clock=str(clock)) == state, state)


def test_receive_all_begins_a_process_again_that_was_killed(clinic: Clinic) -> None:
    clinic.recorders = ("r01", "r02")
    clinic.make(clinic.inboxes / "r02", SERVICE, clinic.uploader("r02"), 0o3770)
    clinic.write_config({})
    child = clinic.started("receive", "--all")
    clinic.until(lambda: clinic.told() and clinic.told("r02"), "both tell")
    held = subprocess.run(["pgrep", "-P", str(child.pid)], capture_output=True, check=True)
    for pid in held.stdout.split():
        os.kill(int(pid), 9)
    for name in clinic.recorders:
        clinic.put("a.edf", NIGHT.piece(), name)
        clinic.until_taken(name)
    clinic.stop(child)
    assert child.returncode == 0
    assert [clinic.state(name) for name in clinic.recorders] == ["stopped", "stopped"]


def test_more_entries_than_are_looked_at_are_told(clinic: Clinic) -> None:
    for nth in range(4):
        clinic.put(f"{nth}.part", b"x")
    clinic.receive(set={"inbox.MOST": 3})
    clinic.until_told(left=[{"name": "(others)", "answer": "more than 3 are not looked at"}])
    assert clinic.causes().keys() == {"left"}


def ends(clinic: Clinic, line: str, *words: Any) -> int:
    """The status of these words in this line of a shell."""
    return subprocess.run(["bash", "-c", line, "bash", *map(str, clinic.words(*words))],
                          user=SERVICE, group=SERVICE, extra_groups=[], stdout=subprocess.DEVNULL,
                          env={"PATH": clinic.path}, check=False).returncode


def test_an_output_that_fails_want_of_memory_and_a_listing_that_fails_are_trouble(
        clinic: Clinic) -> None:
    clinic.night_took({"a.edf": NIGHT.piece()})
    for words in (["status"], ["nights"], ["verify"], ["help"]):
        for to in (">/dev/full", ">&-"):
            assert ends(clinic, f'"$@" {to}', *words) == 3, (words, to)
    little = 'ulimit -v 200000; "$@"'
    assert ends(clinic, little, "morning", "r01") in (0, 1)
    night, = clinic.archive()
    told = (night / "night.json").read_bytes()
    os.truncate(night / "night.json", 10**9)
    assert ends(clinic, little, "nights") == 3
    (night / "night.json").write_bytes(told)
    (night / "taken").chmod(0)
    clinic.done("verify", status=3)
    (night / "taken").chmod(0o2750)
    clinic.done("verify")
