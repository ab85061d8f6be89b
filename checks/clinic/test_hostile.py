"""An uploader who is hostile, and may do in its inbox what SFTP and a shell as its user can do.
Nothing outside of the inbox is read, changed or delayed."""
import ctypes
import fcntl
import os
import signal
import socket
import time
from collections.abc import Callable, Iterator
from contextlib import contextmanager, suppress
from multiprocessing import Event, Process
from pathlib import Path
from typing import Any

from checks.clinic.clinic import Clinic, facts, tree
from checks.clinic.nights import assert_all_is_there
from checks.clinic.recordings import Recording

NIGHT = Recording(records=40)
SECRET = Recording(records=40, patient="SECRET X X X", seed="secret")
RENAME_EXCHANGE, AT_FDCWD = 2, -100
LIBC = ctypes.CDLL(None, use_errno=True)
TINY = 400              # of tiny files; with --long 100,000
RECORDERS = "r01", "r02"


@contextmanager
def uploading(clinic: Clinic, work: Callable[[], None]) -> Iterator[Process]:
    """A process of r01's uploader that does this in its inbox, and is ended."""
    def begun() -> None:
        user = clinic.uploader("r01")
        os.setgroups([user])
        os.setresgid(user, user, user)
        os.setresuid(user, user, user)
        os.umask(0o027)
        os.chdir(clinic.inboxes / "r01")
        work()
    child = Process(target=begun)
    child.start()
    try:
        yield child
    finally:
        child.kill()
        child.join()


def did(clinic: Clinic, work: Callable[[], None]) -> None:
    with uploading(clinic, work) as child:
        child.join()
    assert child.exitcode == 0


def put(name: str, data: bytes) -> None:
    Path(name).write_bytes(data)


def secret(clinic: Clinic) -> Path:
    """A file outside that is the uploader's, and that the service may read."""
    path = clinic.folder / "outside/secret.edf"
    path.parent.mkdir()
    path.write_bytes(SECRET.piece())
    os.chown(path, clinic.uploader("r01"), clinic.uploader("r01"))
    path.chmod(0o644)
    os.utime(path, (1, 1))
    return path


def assert_untouched(clinic: Clinic, path: Path) -> None:
    """Neither read nor changed: also no copy of it is anywhere."""
    status = path.stat()
    assert status.st_mtime == 1 and path.read_bytes() == SECRET.piece(), "it was changed"
    is_atime_told = path.stat().st_atime != 1       # not on a disk of noatime
    assert status.st_atime == 1 or not is_atime_told, "it was read"
    for name, (_, data) in tree(clinic.data).items():
        assert b"SECRET" not in data, name


def receive_both(clinic: Clinic, **how: Any) -> None:
    clinic.receive(**how)
    clinic.receive("r02")


def take_beside(clinic: Clinic, name: str = "good.edf", seconds: float = 30) -> None:
    """A good file of the same uploader and one of the other recorder are taken meanwhile."""
    clinic.put(name, NIGHT.piece())
    clinic.put("other.edf", NIGHT.piece(), "r02")
    clinic.until(lambda: name not in clinic.inbox(), name, seconds)
    clinic.until_taken("r02", seconds)


def test_links_pipes_and_sockets_are_left_and_told(clinic: Clinic) -> None:
    target = secret(clinic)

    def plant() -> None:
        os.symlink(target, "link.edf")
        os.symlink("loop.edf", "loop.edf")
        os.symlink("../r02", "folder.edf")
        os.symlink("/dev/zero", "zero.edf")
        os.mkdir("real.edf")
        os.mkfifo("pipe.edf")
        socket.socket(socket.AF_UNIX).bind("socket.edf")
        put("first.edf", NIGHT.piece())
        os.link("first.edf", "second.edf")
        with suppress(OSError):
            os.link(target, "hard.edf")
    did(clinic, plant)
    receive_both(clinic)
    take_beside(clinic)
    clinic.until(lambda: clinic.told().get("left_count", 0) >= 9, "all are told")
    left = {it["name"]: it["answer"] for it in clinic.until_told(accepted=1)["left"]}
    assert left["link.edf"] == left["zero.edf"] == left["folder.edf"] == "is a link"
    assert left["pipe.edf"] == left["socket.edf"] == left["real.edf"] == "is no regular file"
    assert left["first.edf"] == left["second.edf"] == "has 2 links"
    assert {line[2] for line in clinic.log()} == {"good.edf"}
    assert_untouched(clinic, target)


def test_names_that_are_exchanged_all_the_time(clinic: Clinic) -> None:
    """A file and a link to a file that the service may read, some 100,000 times a second."""
    clinic.write_config({}, still="0 s")
    target = secret(clinic)

    def exchange() -> None:
        while True:
            for name in (".link", "x.edf"):
                if os.path.lexists(name):
                    os.unlink(name)
            put(".new", NIGHT.piece())
            os.rename(".new", "x.edf")
            os.symlink(target, ".link")
            while not LIBC.renameat2(AT_FDCWD, b"x.edf", AT_FDCWD, b".link", RENAME_EXCHANGE):
                pass
    receive_both(clinic)
    with uploading(clinic, exchange):
        for nth in range(4):
            time.sleep(3)
            take_beside(clinic, f"good{nth}.edf")
    assert_untouched(clinic, target)


def test_a_name_that_is_exchanged_between_the_look_and_the_opening(clinic: Clinic) -> None:
    """Each time: it is a file where it is looked at, and a link while it is opened."""
    clinic.write_config({}, still="0 s")
    target = secret(clinic)

    def plant() -> None:
        put("x.edf", NIGHT.piece())
        os.symlink(target, ".link")
    did(clinic, plant)
    receive_both(clinic, exchange=["x.edf", ".link"])
    for nth in range(3):
        take_beside(clinic, f"good{nth}.edf")
    assert clinic.inbox() == ["x.edf"] and len(clinic.log()) == 3
    assert_untouched(clinic, target)


def test_the_inbox_itself_and_folders_in_place_of_it(clinic: Clinic) -> None:
    """The uploader can't rename its inbox; where root puts a link there, it is not followed."""
    def attempt() -> None:
        with suppress(OSError):
            os.rename("../r01", "../r09")
    did(clinic, attempt)
    clinic.receive()
    real, moved, target = clinic.inboxes / "r01", clinic.folder / "moved", secret(clinic)
    real.rename(moved)
    clinic.until_told(trouble="its inbox can't be read: No such file or directory")
    real.symlink_to(target.parent)
    clinic.until_told(trouble="its inbox can't be read: Not a directory")
    real.unlink()
    moved.rename(real)
    clinic.put("good.edf", NIGHT.piece())
    clinic.until_taken()
    clinic.until_told(accepted=1, trouble="")
    assert_untouched(clinic, target)


def test_a_handle_that_is_kept_changes_nothing_after_the_answer(clinic: Clinic) -> None:
    """Nor does the name that /proc/self/fd gives back."""
    taken = Event()

    def keep() -> None:
        put(".new", NIGHT.piece())
        fd = os.open(".new", os.O_RDWR)
        os.rename(".new", "kept.edf")
        taken.wait()
        os.pwrite(fd, b"\xff" * 1_000, 3_000)
        os.ftruncate(fd, 5_000)
        with suppress(OSError):
            os.link(f"/proc/self/fd/{fd}", "back.edf", follow_symlinks=True)
    with uploading(clinic, keep) as child:
        clinic.until(clinic.inbox, "it is there")
        clinic.receive()
        clinic.until_taken()
        taken.set()
        child.join()
    clinic.until_told(written=True)
    clinic.until_answered(2)        # what it became
    kept = (clinic.data / "r01/tonight/taken").iterdir()
    assert child.exitcode == 0 and [it.read_bytes() for it in kept] == [NIGHT.piece()]
    clinic.morning(status=1)
    assert_all_is_there(clinic.archive(), ("S-0118", NIGHT.truth()))


def test_leases_and_locks_keep_nobody_waiting(clinic: Clinic) -> None:
    def hold() -> None:
        for name, kind in (("a-write.edf", fcntl.F_WRLCK), ("b-read.edf", fcntl.F_RDLCK)):
            put(name, NIGHT.piece())
            fd = os.open(name, os.O_RDONLY)
            signal.signal(signal.SIGIO, signal.SIG_IGN)
            fcntl.fcntl(fd, fcntl.F_SETLEASE, kind)
        fcntl.flock(os.open("c-lock.edf", os.O_RDWR | os.O_CREAT, 0o640), fcntl.LOCK_EX)
        signal.pause()
    receive_both(clinic)
    with uploading(clinic, hold):
        clinic.until(lambda: "c-lock.edf" in clinic.inbox(), "it holds them")
        begun = time.monotonic()
        take_beside(clinic, "z.edf")
        assert time.monotonic() - begun < 15
        clinic.until(lambda: clinic.inbox() == ["a-write.edf"], "all but the lease of a writer")
    clinic.until_taken()


def test_a_file_that_grows_and_one_that_changes_under_the_copy(clinic: Clinic) -> None:
    """They are not taken, and once they are whole, they are."""
    clinic.write_config({}, still="2 s")        # for so long its writer may be kept waiting

    def grow() -> None:
        put("grows.edf", NIGHT.piece())
        put("flips.edf", NIGHT.piece())
        with open("grows.edf", "ab", 0) as grown, open("flips.edf", "r+b", 0) as flipped:
            while True:
                grown.write(bytes(100))
                os.pwrite(flipped.fileno(), os.urandom(2), 4_000)
                time.sleep(0.001)
    receive_both(clinic)
    with uploading(clinic, grow):
        for nth in range(5):
            take_beside(clinic, f"good{nth}.edf")
        assert clinic.inbox() == ["flips.edf", "grows.edf"]
    assert {line[2] for line in clinic.log()} == {f"good{nth}.edf" for nth in range(5)}
    os.truncate(clinic.inboxes / "r01/grows.edf", len(NIGHT.piece()))
    clinic.until_answered(7)
    assert {line[2]: line[3] for line in clinic.log()}["grows.edf"] == "accepted new=0 known=40"


def test_many_tiny_files_delay_no_other_recorder(clinic: Clinic, is_long: bool) -> None:
    clinic.write_config({}, refuse="60 s")
    count = 100_000 if is_long else TINY
    share = max(1, clinic.run("status").seconds)        # other work may have the processors

    def flood() -> None:
        for nth in range(count):
            put(f"{nth:06}.edf", b"%d" % nth)
    did(clinic, flood)
    receive_both(clinic)
    clinic.until(lambda: clinic.told().get("waiting_count", 0) > 20, "some wait", 120)
    for nth in range(5):
        clinic.put(f"{nth}.edf", NIGHT.piece(), "r02")
        assert clinic.until_taken("r02") < 10 * share
    told = clinic.told()
    assert len(told["waiting"]) == 20 and len(told["refused"]) <= 20
    assert clinic.run("status").seconds < 5 * share
    begun = time.monotonic()
    clinic.morning(recorder="r02")
    assert time.monotonic() - begun < 20 * share


def test_a_hole_of_a_hundred_gigabytes_is_left_and_a_smaller_takes_no_room(clinic: Clinic) -> None:
    def holes() -> None:
        for name, size in (("large.edf", 100 * 10**9), ("small.edf", 10**9)):
            put(name, NIGHT.piece())
            os.truncate(name, size)
    did(clinic, holes)
    free = os.statvfs(clinic.data)
    receive_both(clinic)
    take_beside(clinic)
    clinic.until(lambda: clinic.inbox() == ["large.edf"], "small.edf is refused", 240)
    assert clinic.told()["left"][0]["answer"].endswith("more than largest_file")
    now = os.statvfs(clinic.data)
    assert (free.f_bfree - now.f_bfree) * now.f_frsize < 3 * 10**8


NAMES = {b"esc\x1b]52;c;QUFB\x07.edf": r"esc\x1b]52;c;QUFB\x07.edf",
         b"line\nfeed status 0.edf": r"line\x0afeed status 0.edf",
         b"cr\r2026 accepted.edf": r"cr\x0d2026 accepted.edf", b"tab\t.edf": r"tab\x09.edf",
         b"back\\x41.edf": r"back\x5cx41.edf", b"latin\xe4.edf": r"latin\xe4.edf",
         "c1\x9b31m.edf".encode(): r"c1\xc2\x9b31m.edf",
         "rtl\u202efde.edf".encode(): r"rtl\xe2\x80\xaefde.edf",
         "sep\u2028.edf".encode(): r"sep\xe2\x80\xa8.edf", b"--help": "--help", b"-rf": "-rf",
         b"$(touch x)`id`;'\".edf": "$(touch x)`id`;'\".edf", b" lead ": " lead ",
         b'say "x" accepted new=9 known=0': 'say "x" accepted new=9 known=0',
         "zero\u200b\u2060\ufeff\xad".encode(): r"zero\xe2\x80\x8b\xe2\x81\xa0\xef\xbb\xbf\xc2\xad",
         b"a" * 255: "a" * 255, b"<script>&.edf": "<script>&.edf", "ü.edf".encode(): "ü.edf"}
PLANTED = {"SHA256SUMS": b"0" * 64 + b"  night.edf\n", "night.json": b'{"patient": "SECRET"}',
           "night.svg": b"<svg><script>alert(1)</script></svg>", "plan.json": b'{"nights": []}',
           "now.json": b'{"state": "alive"}', "2026-11-26-S-0118": b"x", 'bad\x1b".edf': b"no EDF"}


def test_names_are_never_part_of_a_path_or_a_line(clinic: Clinic) -> None:
    clinic.receive()
    for nth, name in enumerate(NAMES):
        clinic.put(name, NIGHT.piece(nth, nth + 1))
    for planted, data in PLANTED.items():
        clinic.put(planted, data)
    clinic.until_taken()
    clinic.until_told(refused_count=len(PLANTED))
    said = clinic.done("status", status=1)
    assert '  refused: file "bad\\x1b\\x22.edf": refused E1 Cut\n' in said
    clinic.stop()
    log = clinic.log()
    assert {line[2]: line[3] for line in log if line[3].startswith("accepted")} \
        == {spelled: "accepted new=1 known=0" for spelled in NAMES.values()}
    assert all(len(line) == 6 for line in log) and len(log) == len(NAMES) + len(PLANTED)
    assert all(it.stem.isdigit() for it in clinic.data.rglob("*.edf"))
    for words in (["status"], ["status", "--json"], ["status", "--html"], ["nights", "--json"]):
        ran = clinic.run(*words)
        assert not set(ran.out + ran.err) & {0x1b, 0x0d, 0x9b}, words
    page = (clinic.nights / "status.html").read_text()
    assert "script" not in page and "S-0118" not in page and "edf" not in page
    clinic.morning(status=1)
    night, = clinic.archive()
    text = (night / "report.txt").read_bytes()
    assert b"\x1b" not in text and rb"bad\x1b" in text
    assert facts(night)["patient"] == "S-0118" and "alert" not in (night / "night.svg").read_text()
    assert sorted(it.read_bytes() for it in (night / "refused").iterdir()) \
        == sorted(PLANTED.values())
    assert clinic.done("verify") == "1 nights, 0 files changed\n"
    assert_all_is_there([night], ("S-0118", NIGHT.truth(range(len(NAMES)))))


def test_a_night_whose_view_or_picture_would_be_huge(clinic: Clinic) -> None:
    """Two data records, 12 hours apart: a view has a megabyte and more of 1,440."""
    clinic.write_config({"r01": {"pause": "48 h"}}, largest_file="1 MB")
    first = NIGHT.later(records=1, samples=(400, 400))
    last = first.later(start=first.start.replace(day=27, hour=10))
    night, = clinic.put_away({"a.edf": first.piece(), "b.edf": last.piece()}, status=1)
    assert facts(night)["look"][0].startswith("there is no view.edf: ")
    assert not (night / "view.edf").exists()
    assert_all_is_there([night], ("S-0118", {**first.truth(), **last.truth()}))


def test_more_gaps_recordings_or_files_than_a_night_has(clinic: Clinic) -> None:
    """What would fill the memory of the morning, or the archive with nights, is not taken."""
    limits = {"programs.MOST_RUNS": 15, "programs.SAID": 1_500, "receive.MOST_RECORDINGS": 3,
              "receive.MOST_FILES": 6}
    clinic.receive(set=limits)
    clinic.put("gaps.edf", NIGHT.piece(without=range(1, 40, 2)))
    refused = clinic.until_told(refused_count=1)["refused"]
    assert refused[0]["answer"].startswith("refused: it has more than ")
    for nth in range(4):
        clinic.put(f"{nth}.edf", NIGHT.later(investigation=f"N{nth}").piece())
        clinic.until_told(**{"accepted": nth + 1} if nth < 3 else {"full": True})
    assert clinic.inbox() == ["3.edf"] and len(clinic.log()) == 4 and "full" in clinic.causes()
    clinic.morning(status=1, set=limits)
    assert len(clinic.archive()) == 3
    clinic.until_taken()
    for nth in range(6):
        clinic.put(f"more{nth}.edf", NIGHT.piece(nth, nth + 1))
        clinic.until_told(**{"accepted": nth + 2} if nth < 5 else {"full": True})
    assert clinic.inbox() == ["more5.edf"] and len(clinic.log()) == 6


def test_texts_that_widen_each_data_record_by_onset(clinic: Clinic) -> None:
    """All texts of a night are of its first data record, so that each one has their room."""
    clinic.write_config({"r01": {"by_onset": True}})
    limits, data = {"programs.WIDENED": 100_000}, NIGHT.later(records=400).piece()
    for nth in range(1, 400):
        own = b"+%d\x14Stage" % (30 * nth)
        data = data.replace(own, b"+0\x14Stage".ljust(len(own), b"_"))
    clinic.receive(set=limits)
    clinic.put("wide.edf", data)
    clinic.until_taken()
    assert clinic.log()[0][3] == "accepted new=400 known=0"
    clinic.morning(set=limits)
    assert (clinic.archive()[0] / "night.edf").stat().st_size < 4 * len(data) + 100_000
