"""Runs the first commands of a clone whose release was made from its sources, where something is in
the way or something changes.

    python3 -m checks.first_command

The clone is a small one: the scripts of `bin`, two sources a crate, and an archive whose programs
are scripts. Each command prints what it must, or one line that says why it can't, with status 3.
What is unpacked has the same modes under every umask. The sources are read once, and again after
each change of them. As root on x86-64 another user runs what root unpacked; else a line says that
none did. It needs bash, tar and xz.
"""
import os
import shutil
from collections.abc import Callable, Iterator
from pathlib import Path

from checks.lib import arguments, measure
from checks.lib.checks import Checks

PROGRAMS = ("edfstore", "edfruns", "edfserve", "edfmend")
CRATES = "".join(f"{name}:\n" for name in (*PROGRAMS, "edf_page_exports"))
ARCHIVE = "edfstore-7-x86_64-linux.tar.xz"
OTHERS = ("bin/edfstore: the programs in release/ are of other sources than these. To run them all "
          f"the same, stop this and unpack {{}}/release/{ARCHIVE}\nbin/build: this takes the "
          "toolchain of release/TOOLCHAIN, whose command 'rt' is not on the path\n")
NO_XZ = f"bin/edfstore: release/{ARCHIVE} could not be unpacked: install xz-utils\n"
DAMAGED = (f"bin/edfstore: release/{ARCHIVE} is not as SHA256SUMS says: restore it by "
           "'git checkout release'\n")
NOT_OURS = ("bin/edfstore: release/out can't be written by this user: clone as this user, or run "
            "this once as the owner of the clone\n")
ELSEWHERE = ("bin/edfstore: of these sources there is no program for {} here; "
             "ports/arm64/build makes it for aarch64, on x86-64{}\n")
NOBODY = ("unshare", "--mount", "sh", "-c", 'mount --bind "$0" /mnt && cd /mnt && PATH=/usr/bin && '
          'exec setpriv --reuid=65534 --regid=65534 --clear-groups "$@"')
# A file that is made gets this time, as by a clock that ticks seldom
TICK = 'mktemp() { local it; it=$(command mktemp "$@") && touch -d "$TIME" "$it" && echo "$it"; }; '


class Clone:
    def __init__(self, folder: Path):
        self.top, self.tools, self.read = folder / "clone", folder / "tools", folder / "read"
        shutil.copytree(arguments.TOP / "bin", self.top / "bin")
        empty = (*(f"ports/arm64/{name}" for name in ("build", "host.c", "packages.sha256")),
                 *(f"crates/{name[:-1]}/{part}/lib.rt" for name in CRATES.splitlines()
                   for part in ("src", "proofs")), "page/page.js")
        for name in empty:
            self.write(name, "a source")
        self.write("crates.txt", CRATES)
        self.tools.mkdir()
        for tool in Path("/usr/bin").iterdir():
            if tool.name not in ("rt", "sha256sum", "uname"):
                (self.tools / tool.name).symlink_to(tool)
        self.tool("sha256sum", f'echo "$@" >>{self.read}; exec /usr/bin/sha256sum "$@"')
        self.tool("uname", "echo x86_64")
        self.release("release", ARCHIVE, "sources")

    def write(self, name: str, text: str, mode: int = 0o644) -> None:
        (self.top / name).parent.mkdir(parents=True, exist_ok=True)
        (self.top / name).write_text(text)
        (self.top / name).chmod(mode)

    def tool(self, name: str, line: str) -> None:
        self.write(f"../tools/{name}", f"#!/bin/sh\n{line}\n", 0o755)

    def release(self, place: str, archive: str, digest: str) -> None:
        """Programs that name this place, made from the sources as they are."""
        for name in PROGRAMS:
            self.write(f"programs/{name}", f"#!/bin/sh\necho {name} of {place}\n", 0o755)
        measure.done("bash", "-c", f". bin/common.sh; mkdir -p {place}; tar -cJf {place}/{archive} "
                     f"programs && {digest}_digest >{place}/SOURCES && cd {place} && "
                     f"sha256sum {archive} >SHA256SUMS", folder=self.top)

    def shell(self, line: str, *before: str, **added: str) -> measure.Ran:
        return measure.ran(*before, "bash", "-c", line, folder=self.top,
                           added={"PATH": str(self.tools), **added})

    def edfstore(self, checks: Checks, what: str, err: str, out: str = "") -> None:
        checks.compare(what, self.shell("bin/edfstore"), out, err, 3 if err else 0)

    def unpacked(self) -> str:
        return (self.top / "release/SHA256SUMS").read_text().split()[0]


def in_the_way(checks: Checks, clone: Clone) -> None:
    checks.begin("something is in the way")
    (clone.tools / "xz").rename(clone.tools / "no-xz")
    clone.edfstore(checks, "no xz", NO_XZ)
    (clone.tools / "no-xz").rename(clone.tools / "xz")
    archive = clone.top / "release" / ARCHIVE
    data = archive.read_bytes()
    archive.write_bytes(data + b"\0")
    clone.edfstore(checks, "an archive with another byte", DAMAGED)
    archive.write_bytes(data)
    checks.same("what is there", os.listdir(clone.top / "release/out"), ["sources"])
    clone.tool("uname", "echo armv7l")
    clone.edfstore(checks, "another machine", ELSEWHERE.format("armv7l", ""))
    clone.tool("uname", "echo x86_64")


def another_user(checks: Checks, clone: Clone) -> None:
    """What is told before root unpacked, and how it is unpacked."""
    checks.begin("another user")
    nobody, out = (*NOBODY, str(clone.top)), clone.top / "release/out"
    is_tried = os.geteuid() == 0 and os.uname().machine == "x86_64" \
        and not clone.shell("true", *nobody).status
    for mask in ("077", "000"):
        shutil.rmtree(out)
        if is_tried:
            checks.compare("nobody", clone.shell("bin/edfstore", *nobody), "", NOT_OURS, 3)
        checks.compare(f"umask {mask}", clone.shell(f"umask {mask}; bin/edfstore"),
                       "edfstore of release\n", "", 0)
        unpacked = out / clone.unpacked()
        there = (out, unpacked, unpacked / "edfruns", out / "sources")
        checks.same(f"umask {mask}: modes",
                    [oct(it.stat().st_mode)[-4:] for it in there if it.exists()],
                    ["0755", "0755", "0755", "0644"])
        if is_tried:
            checks.compare("nobody, then", clone.shell("bin/edfruns", *nobody),
                           "edfruns of release\n", "", 0)
    print("another user ran it" if is_tried else "no other user ran it")


def changes(clone: Clone) -> Iterator[tuple[str, Callable[[], object], Callable[[], object]]]:
    """Changes of the sources, each with what undoes it."""
    source = clone.top / "crates/edfstore/src/lib.rt"
    other, times = source.with_name("other.rt"), source.stat().st_mtime_ns

    def become(path: Path, text: str) -> None:
        path.write_text(text)
        os.utime(path, ns=(times, times))
        path.rename(source)

    yield "as long and as old", lambda: become(source, "A source"), \
        lambda: become(source, "a source")
    yield "in its place", lambda: become(other, "A source"), lambda: become(other, "a source")
    yield "another name", lambda: source.rename(other), lambda: other.rename(source)
    yield "a file more", lambda: other.write_text(""), other.unlink
    yield "a folder more", lambda: clone.write("crates/edfstore/specs/a", ""), \
        lambda: shutil.rmtree(clone.top / "crates/edfstore/specs")
    yield "other crates", lambda: clone.write("crates.txt", CRATES[:-1]), \
        lambda: clone.write("crates.txt", CRATES)


def digests(checks: Checks, clone: Clone) -> None:
    checks.begin("sources that are read once")
    for what, change, undo in changes(clone):
        change()
        clone.edfstore(checks, what, OTHERS.format(clone.top))
        undo()
        for is_first in (True, False):
            clone.read.write_text("")
            clone.edfstore(checks, f"{what}, undone", "", "edfstore of release\n")
            checks.same(f"{what}, undone: the sources are read",
                        "crates.txt" in clone.read.read_text(), is_first)


def ticks(checks: Checks, clone: Clone) -> None:
    """No digest is kept that was made in the tick of the last change: another may follow in it."""
    checks.begin("the clock of the file system")
    source, kept = clone.top / "page/page.js", clone.top / "release/out/sources"
    source.write_text("a source")
    changed = source.stat().st_ctime_ns
    for later in (0, 1):
        kept.unlink(missing_ok=True)
        clone.shell(f"{TICK} . bin/common.sh; is_released",
                    TIME=f"@{(changed + later) // 10**9}.{(changed + later) % 10**9:09}")
        checks.same(f"kept {later} ns after it", kept.exists(), later > 0)


def under_development(checks: Checks, clone: Clone) -> None:
    checks.begin("a version under development")
    clone.write("page/page.js", "another")
    clone.release("release/dev", "programs.tar.xz", "programs")
    clone.edfstore(checks, "of these sources", "", "edfstore of release/dev\n")
    clone.write("page/page.js", "no source of the programs")
    clone.edfstore(checks, "beside another page", "", "edfstore of release/dev\n")
    clone.tool("uname", "echo aarch64")
    clone.edfstore(checks, "another machine", ELSEWHERE.format("aarch64", ""))
    clone.tool("uname", "echo x86_64")
    clone.write("crates/edfmend/src/lib.rt", "another")
    clone.edfstore(checks, "of others", OTHERS.format(clone.top))


def main() -> None:
    arguments.Parser(__doc__, programs=()).read()
    measure.need("bash", "tar", "xz")
    with measure.scratch() as name:
        cases = Path(name) / "cases"
        cases.mkdir()
        clone, checks = Clone(Path(name)), Checks(Path("edfstore"), cases)
        for case in (in_the_way, another_user, digests, ticks, under_development):
            case(checks, clone)
    checks.end()


if __name__ == "__main__":
    main()
