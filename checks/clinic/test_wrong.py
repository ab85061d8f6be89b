"""Wrong edfclinics: each must be found by the test that is named beside it."""
import inspect
import shutil
from collections.abc import Sequence
from pathlib import Path
from typing import Any

import pytest

from checks.clinic import (test_archive, test_disks, test_hostile, test_kills, test_morning,
                           test_taking, test_told, test_written)
from checks.clinic.clinic import SERVICE, Clinic
from checks.lib import disks
from checks.lib.arguments import TOP

NO_LINK = "os.O_RDONLY | os.O_NOFOLLOW | os.O_NONBLOCK"
# Of each: what it does, the changes of its sources, and the test that must find it.
WRONG: dict[str, Any] = {
    "follows a link": (
        ("files.py", NO_LINK, "os.O_RDONLY | os.O_NONBLOCK"),
        ("inbox.py", "status = os.stat(name, dir_fd=fd, follow_symlinks=False)",
         "status = os.stat(name, dir_fd=fd)"),
        test_hostile.test_links_pipes_and_sockets_are_left_and_told),
    "looks, and then opens": (
        ("files.py", NO_LINK, "os.O_RDONLY | os.O_NONBLOCK"),
        ("inbox.py", "if self.why_left(status) or key_of(status) != it.key:", "if False:"),
        ("inbox.py", "if count != it.key[1] or key_of(os.fstat(fd)) != it.key:", "if False:"),
        test_hostile.test_a_name_that_is_exchanged_between_the_look_and_the_opening),
    "moves in place of copying": (
        ("inbox.py", "            count, summed = files.copy(fd, target, it.key[1])\n",
         "            os.rename(os.path.join(self.config.inboxes, self.name, it.name), target)\n"
         "            count, summed = it.key[1], files.sum_of(fd)\n"),
        test_hostile.test_a_handle_that_is_kept_changes_nothing_after_the_answer),
    "waits for a lease": (
        ("files.py", NO_LINK, "os.O_RDONLY | os.O_NOFOLLOW"),
        test_hostile.test_leases_and_locks_keep_nobody_waiting),
    "writes names as they are": (
        ("text.py", "    return UNSAFE.sub(", "    return text or UNSAFE.sub("),
        test_hostile.test_names_are_never_part_of_a_path_or_a_line),
    "writes over a night": (
        ("nights.py", "if it not in used)", ")"),
        ("making.py", "    if not files.exists(target):\n", "    if target:\n"),
        ("files.py", "    if exists(new) and os.path.isdir(old):\n", "    if not exists(old):\n"),
        ("making.py", "    files.rename(new, target)",
         "    files.remove_tree(target)\n    files.rename(new, target)"),
        test_morning.test_a_nap_and_a_night_of_one_day_have_two_names),
    "forgets the minutes of a refused file": (
        ("giving.py", "lacks = sum(run.end - run.first for run in runs), missing(runs, held)",
         "lacks = sum(run.end - run.first for run in runs), 0"),
        test_morning.test_a_clock_that_is_set_back_by_two_seconds),
    "takes a card twice": (
        ("morning.py", "if summed in known:\n                self",
         "if not summed:\n                self"),
        test_morning.test_a_card_twice_and_a_late_file),
    "joins two nights of code X": (
        ("nights.py", "return gap >= recorder.pause * text.SECOND or", "return False and"),
        test_morning.test_two_nights_of_code_x_are_not_joined),
    "leaves out a card that contradicts": (
        ("plan.py", "if not any(it.answer.startswith(CONFLICTS) for it in cards):", "if True:"),
        test_morning.test_a_card_with_a_flipped_bit),
    "takes a file out of the inbox before it is told": (
        ("receive.py", "                it.kept = it.line = self.take(it)\n",
         "                self.inbox.take_out(it)\n"
         "                it.kept = it.line = self.take(it)\n"),
        test_taking.test_a_killed_receive_loses_nothing_and_takes_nothing_away),
    "removes the morning from its plan on": (
        ("morning.py", "        files.rename(self.place.morning, self.gone)\n",
         "        files.remove(join(self.place.morning, PLAN))\n"
         "        files.rename(self.place.morning, self.gone)\n"),
        test_kills.test_killed_where_the_morning_ends),
    "keeps nothing open of what it took": (
        ("inbox.py", "                self.keep_open(folder, it)\n", ""),
        test_written.test_what_is_still_written_when_the_morning_comes_is_a_look),
    "takes a file out by its name alone": (
        ("inbox.py", "if key_of(os.stat(ASIDE, dir_fd=folder, follow_symlinks=False)) != it.key:",
         "if False:"),
        test_written.test_a_file_that_gets_the_name_of_one_that_is_taken_out),
    "believes a name": (
        ("place.py", "if summed.hexdigest() == it.sum and", "if it.name == later.name and"),
        test_written.test_a_name_that_is_used_again_hides_nothing),
    "does not tell a full disk": (
        ("receive.py", "it.full = str(why) if isinstance(why, Full) else \"\"",
         "it.full = \"\""),
        ("status.py", "\"make room on disk\" * is_full", "\"\""),
        test_disks.test_receive_on_a_full_disk_goes_on_when_there_is_room),
    "copies to a backup that is not mounted": (
        ("backup.py", "if not os.path.ismount(config.backup or \"/dev/null\"):", "if False:"),
        test_archive.test_backup_copies_what_it_lacks_and_finds_what_differs),
    "forgets by half a code": (
        ("forget.py", "programs.code_of(it) == code", "code in programs.code_of(it)"),
        test_archive.test_forget_by_half_a_code_or_none_removes_nothing),
    "leaves what a night replaced": (
        ("forget.py", "if self.made_of[it] == folder}", "if False}"),
        test_archive.test_forget_lists_and_then_removes_all_of_a_patient),
    "gives a name again that another night tells of": (
        ("nights.py", "    return told.union(", "    return set[str]().union("),
        test_archive.test_forget_leaves_a_new_night_of_the_code_that_a_recoded_one_had),
    "forgets what is another's": (
        ("forget.py", "*nights.sums(folder)} - {*rest, LOG, SUMS, WHOSE}",
         "*nights.sums(folder)} - {LOG, SUMS, WHOSE}"),
        test_archive.test_forget_of_the_first_patient_leaves_what_is_the_seconds),
    "puts away what is of no night behind the nights": (
        ("morning.py", "            making.make(self.place, rest)\n", ""),
        ("morning.py", "        files.rename(self.place.morning, self.gone)\n",
         "        [making.make(self.place, rest) for rest in plan['rest']]\n"
         "        files.rename(self.place.morning, self.gone)\n"),
        test_kills.test_what_is_of_no_night_is_put_away_before_a_night_is_told),
    "gives what a morning has planned to what is forgotten": (
        ("forget.py", " | nights.planned(place))", ")"),
        test_kills.test_forget_leaves_the_folder_that_an_unfinished_morning_will_make),
    "lays what has code X with the first night": (
        ("giving.py", "is_strange = file.code and", "is_strange = file.code not in ('', 'X') and"),
        test_told.test_what_has_code_x_lies_in_nobodys_night),
    "takes what is not kept yet for put away": (
        ("morning.py", "if not accepted(it.answer) or files.exists(join(above, TAKEN, it.file))}",
         "}"),
        test_told.test_what_was_accepted_and_is_not_kept_yet_waits),
}


def wrong_source(folder: Path, changes: Sequence[tuple[str, str, str]]) -> Path:
    """The sources, changed; each change must change something."""
    source = folder / "wrong"
    shutil.copytree(TOP / "clinic", source, ignore=shutil.ignore_patterns("__pycache__"))
    for name, old, new in changes:
        path = source / "edfclinic" / name
        text = path.read_text()
        assert text.count(old) == 1, f"{name} has not one {old!r}"
        path.write_text(text.replace(old, new))
    return source


@pytest.mark.parametrize("what", WRONG)
def test_a_wrong_edfclinic_is_found(what: str, scratch: Path, programs: Path) -> None:
    *changes, test = WRONG[what]
    recorders = getattr(inspect.getmodule(test), "RECORDERS", ("r01",))
    clinic = Clinic(scratch, programs, wrong_source(scratch, changes), recorders)
    given = {"clinic": clinic, "is_long": False, "is_gone": True}
    disk = None
    try:
        if "archive" in inspect.signature(test).parameters:
            given["archive"] = clinic
            inspect.unwrap(test_archive.archive)(clinic)
        if "disk" in inspect.signature(test).parameters:
            disk = given["disk"] = disks.Disk(clinic.data, 4_096)
            clinic.make(clinic.data, SERVICE, SERVICE, 0o700)
        with pytest.raises((AssertionError, OSError)):
            test(**{name: given[name] for name in inspect.signature(test).parameters})
    finally:
        clinic.end()
        if disk:
            disk.end()
