"""Who may call: root, who becomes the owner of `data` before all else, and that owner. The folders
of a recorder below `data`, their locks, and the log of what was answered."""
import grp
import hashlib
import os
import pwd
import stat
from collections.abc import Iterable, Iterator
from contextlib import ExitStack, contextmanager, nullcontext
from itertools import islice
from typing import NamedTuple

from . import files, text
from .config import NAME, Config
from .files import join
from .programs import accepted
from .text import Trouble, Wrong, spell

TAKEN, REFUSED, WORK, LOG, STORE = "taken", "refused", "work", "answers.log", "store.db"
STILL_WRITTEN = "refused: it was taken before, and was still written to when receiving ended"
MOST_BEGUN = 1_000      # refused files of which it is asked whether a later one begins with them

Card = NamedTuple("Card", [("name", str), ("fd", int)])


class Line(NamedTuple):
    """A line of the log, for each contents that were answered, in their order: the host's time, our
    name of the file, the uploader's (spelled, without quotes), the answer, and how many bytes with
    which sum were answered, which lines of 2.0.0 lack. What was accepted lies in `taken`. What was
    refused has its line when it is first seen, and lies in `refused`, but what came behind 1,000
    others, and what the next contents of that name begin with. What was taken out of the inbox and
    changed later has a further line of the same name. One that still changes when its night goes is
    STILL_WRITTEN, of no size: no file has what was written since."""
    at: str
    file: str
    name: str
    answer: str
    size: str = ""
    sum: str = ""


def open_cards(paths: list[str]) -> list[Card]:
    """Opens them as the user of sudo, where there is one: staff reads no more by it than else."""
    sudo = os.environ.get("SUDO_UID", "") if os.geteuid() == 0 else ""
    groups, gid = os.getgroups(), os.getegid()
    if paths and sudo.isdigit():
        known = pwd.getpwuid(int(sudo))
        os.setgroups(os.getgrouplist(known.pw_name, known.pw_gid))
        os.setegid(known.pw_gid)
        os.seteuid(known.pw_uid)
    cards = []
    for path in paths:
        try:
            fd = os.open(path, os.O_RDONLY | os.O_NONBLOCK | os.O_NOCTTY | os.O_CLOEXEC)
        except OSError as why:
            raise Wrong(f"{path}: {why.strerror}; name a file that lies on the card") from None
        if not stat.S_ISREG(os.fstat(fd).st_mode):
            raise Wrong(f"{path} is no regular file; name one that lies on the card")
        cards.append(Card(spell(os.path.basename(path)), fd))
    if sudo:
        os.seteuid(0)
        os.setegid(gid)
        os.setgroups(groups)
    return cards


def become(config: Config) -> None:
    """Root becomes the owner of `data`, with its groups and the recorders', and never root's."""
    data = os.lstat(config.data)
    if os.geteuid() == 0:
        if 0 in (data.st_uid, data.st_gid):
            raise Trouble(f"{config.data} belongs to root: is its disk mounted?")
        owner = pwd.getpwuid(data.st_uid)
        groups = {it.gr_gid for it in grp.getgrall() if it.gr_name in config.recorders}
        os.setgroups(sorted(groups.union(os.getgrouplist(owner.pw_name, owner.pw_gid)) - {0}))
        os.setresgid(data.st_gid, data.st_gid, data.st_gid)
        os.setresuid(data.st_uid, data.st_uid, data.st_uid)
        os.chdir("/")
    elif os.geteuid() != data.st_uid:
        raise Wrong(f"call it as root, or as the owner of {config.data}")
    os.umask(0o027)


def check(*paths: str) -> None:
    """Stops where a tree is another's, as one not mounted; of two, where one is read-only."""
    for path in paths:
        if os.lstat(path).st_uid != os.geteuid():
            raise Trouble(f"{path} belongs to another user: is its disk mounted?")
        if len(paths) > 1 and os.statvfs(path).f_flag & os.ST_RDONLY:
            raise Trouble(f"{path} is on a disk that is read-only")


class Place:
    def __init__(self, config: Config, name: str):
        self.name, self.config, self.root = name, config, join(config.data, name)
        self.tonight, self.morning = join(self.root, "tonight"), join(self.root, "morning")
        self.told, self.session = join(self.root, "now.json"), join(self.root, "session.lock")
        self.wanted, self.changing = join(self.root, "wanted.lock"), join(self.root, "nights.lock")
        self.archive = join(config.nights, name)
        self.replaced = join(self.archive, "replaced")

    @contextmanager
    def taken_session(self, seconds: float) -> Iterator[None]:
        """For all but `receive`, which leaves its session as long as another has `wanted`."""
        with ExitStack() as held:
            for path in (self.wanted, self.session):
                fd = files.lock(path, seconds)
                if fd is None:
                    raise Trouble(f"{self.name} is busy with a file; call again")
                held.callback(os.close, fd)
            yield

    def lock_nights(self) -> int:
        files.make_folder(self.root)
        held = files.lock(self.changing, 60.0)      # another morning, or a backup
        if held is None:
            raise Trouble(f"another command has the nights of {self.name}; call again")
        return held


def places(config: Config, *roots: str) -> list[Place]:
    """Of the config's recorders, and of each that has a folder, for the config lacks old ones."""
    check(config.nights)
    there = {name for root in (config.nights, *roots) for name in files.names(root)
             if NAME.fullmatch(name) and os.path.isdir(join(root, name))}
    return [Place(config, name) for name in sorted(there.union(config.recorders))]


def read_log(path: str) -> list[Line]:
    parts = [line.split("\t") for line in (files.read(path) or "").split("\n")[:-1]]
    return [Line(*part) for part in parts if len(part) in (4, 6)]


class Log:
    """Lines are added to it. One that a kill or a full disk cut is taken away."""
    def __init__(self, path: str):
        self.fd = os.open(path, files.LOCKED, 0o640)
        self.size = os.pread(self.fd, os.fstat(self.fd).st_size, 0).rfind(b"\n") + 1
        os.ftruncate(self.fd, self.size)
        os.fsync(self.fd)
        files.sync_folder(os.path.dirname(path))

    def add(self, *told: str) -> Line:
        """All of the line but its time."""
        line = Line(text.now(), *told)
        data = "\t".join(line).encode() + b"\n"
        try:
            os.lseek(self.fd, self.size, os.SEEK_SET)
            files.put(self.fd, data)
            os.fsync(self.fd)
        except OSError:
            os.ftruncate(self.fd, self.size)
            raise
        self.size += len(data)
        return line


def begun_by(refused: Iterable[Line], later: Line, path: str) -> set[str]:
    """Our names of those with all of which this later file begins, if it is there. Many have the
    same head."""
    size = os.stat(path).st_size if files.exists(path) else 0
    found, summed, at = set[str](), hashlib.sha256(), 0
    asked = [it for it in islice(refused, MOST_BEGUN) if it.size and int(it.size) <= size]
    with files.opened(path) if asked else nullcontext(-1) as fd:
        for it in sorted(asked, key=lambda it: int(it.size)):
            while piece := os.pread(fd, min(files.PIECE, int(it.size) - at), at):
                summed.update(piece)
                at += len(piece)
            if summed.hexdigest() == it.sum and (at >= 256 or it.name == later.name):
                found.add(it.file)
    return found


def came_whole(lines: list[Line], folder: str) -> set[str]:
    """The same of all that was accepted later; `folder` is tonight, or a morning."""
    found, refused = set[str](), dict[str, Line]()
    for line in lines:
        if not accepted(line.answer):
            refused[line.file] = line
            continue
        for file in begun_by(refused.values(), line, join(folder, TAKEN, line.file)):
            found.add(refused.pop(file).file)
    return found
