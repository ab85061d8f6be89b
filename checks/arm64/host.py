"""Runs the test of the C functions that the arm64 programs bring, ports/arm64/host_test.c.

    python3 -m checks.arm64.host

By host.c, as C compilers for this machine and for arm64 build it, the second under qemu; and where
the toolchain is here by the functions that it has itself for x86-64: all must answer the same. Then
by each of the wrong functions below, which must be found. Where the toolchain is here, one that
declares a function otherwise must stop ports/arm64/build, which names that function; and so must
packages that are not there. It needs cc, qemu-aarch64 and a C compiler for arm64: Debian's packages
qemu-user and gcc-aarch64-linux-gnu.
"""
import os
import re
import shutil
from pathlib import Path

from checks.arm64 import guest
from checks.lib import arguments, measure
from checks.lib.checks import Checks, tried

PORT = arguments.TOP / "ports/arm64"
FLAGS = ("-std=c17", "-O2", "-Wall", "-Wextra")
WORDS = ("", "a", "two words", "\N{LATIN SMALL LETTER E WITH ACUTE}")
OF_THE_TOOLCHAIN = ("c/libos_c.a", "c/liblibc_c.a")
DECLARED = ("libc/src/heap.rt", "libc/src/types.rt", "os/src/c.rt")
# A line of host.c, and what makes a function of it that answers wrongly.
WRONG = (
    ("there is always memory", "(struct tried){false, &nothing}", "(struct tried){true, &nothing}"),
    ("there is no pointer", "{false, &nothing}", "{false, p}"),
    ("half of the memory", "tried(malloc(at_least_1(n)))", "tried(malloc(at_least_1(n / 2)))"),
    ("another block, of no bytes", "realloc(p, at_least_1(n))", "malloc(at_least_1(n))"),
    ("nothing is freed", "  free(p);", "  (void)p;"),
    ("no error", "return errno;", "return errno ? 0 : errno;"),
    ("the error stays", "  errno = error;", "  (void)error;"),
    ("the last word is none", "i < count ?", "i + 1 < count ?"),
    ("a byte behind the room", "n < room &&", "n <= room &&"),
    ("what fits does not", "text[n] ? -2", "n == room ? -2"),
    ("what is not there is empty", "    return -1;", "    return 0;"),
    ("there is no variable", "getenv(name)", "NULL"),
    ("locks of the process", "F_OFD_SETLK", "F_SETLK"),
    ("of one kind", ".l_type = kind", ".l_type = F_RDLCK"),
    ("from the first byte", ".l_start = start", ".l_start = 0"),
    ("to the last byte", ".l_len = len", ".l_len = 0"),
    ("always locked", "return fcntl(fd, F_OFD_SETLK, &range);",
     "fcntl(fd, F_OFD_SETLK, &range);\n  return 0;"),
)


def built(compiler: str, folder: Path, *parts) -> Path:
    target = folder / "host_test"
    measure.done(compiler, *FLAGS, "-o", target, PORT / "host_test.c", *parts)
    return target


def answered(found: Checks, what: str, words: tuple) -> None:
    ran = measure.ran(*words, *WORDS, folder=found.folder)
    count = tried(ran.out.decode())
    print(f"{what}: {count} answers")
    found.same(f"{what}: {ran}", (ran.status, count > 0), (0, True))


def under_qemu(program: Path) -> tuple:
    return guest.QEMU, "-L", guest.ROOT, program


def alike(found: Checks, kit, folder: Path) -> None:
    """The same answers by each."""
    found.begin("the functions")
    answered(found, "ours, for this machine", (built("cc", folder, PORT / "host.c"),))
    answered(found, "ours, for arm64", under_qemu(built(guest.COMPILER, folder, PORT / "host.c")))
    if (PORT / "out/host.o").exists():
        answered(found, "ours, as the programs for arm64 have it",
                 under_qemu(built(guest.COMPILER, folder, PORT / "out/host.o")))
    if kit:
        answered(found, "the toolchain's, for x86-64",
                 (built("cc", folder, *(kit / name for name in OF_THE_TOOLCHAIN)),))


def wrong_ones(found: Checks, folder: Path) -> None:
    found.begin("the control")
    text = (PORT / "host.c").read_text()
    for what, old, new in WRONG:
        found.same(f"{what}: the line stands once", text.count(old), 1)
        source = folder / "host.c"
        source.write_text(text.replace(old, new))
        ran = measure.ran(*under_qemu(built(guest.COMPILER, folder, "-w", source)), *WORDS,
                          folder=found.folder)
        found.same(f"{what}: it is found", ran.status != 0, True)


class Declared:
    """A copy of the script, and a toolchain that has declarations alone."""

    def __init__(self, kit: Path, folder: Path):
        self.kit, self.folder, self.bin = kit / "rattle", folder / "kit/rattle", folder / "bin"
        shutil.copytree(arguments.TOP / "bin", folder / "repository/bin")
        shutil.copytree(PORT, folder / "repository/ports/arm64",
                        ignore=shutil.ignore_patterns("out"))
        shutil.copy(arguments.TOP / "crates.txt", folder / "repository")
        self.script = folder / "repository/ports/arm64/build"
        self.bin.mkdir()
        for name, line in (("rt", f"echo {folder}/kit/START-HERE.md"), ("apt-get", "exit 1")):
            (self.bin / name).write_text(f"#!/bin/sh\n{line}\n")
            (self.bin / name).chmod(0o755)

    def ran(self, change) -> measure.Ran:
        """The script, where each file of declarations is what `change` makes of it."""
        for name in DECLARED:
            (self.folder / name).parent.mkdir(parents=True, exist_ok=True)
            (self.folder / name).write_text(change((self.kit / name).read_text()))
        return measure.ran(self.script, added={"PATH": f"{self.bin}:{os.environ['PATH']}"})


def declarations(found: Checks, kit: Path, folder: Path) -> None:
    found.begin("another toolchain")
    declared = Declared(kit, folder)
    said = declared.ran(str)
    found.same(f"packages that are not there: {said}",
               (said.status, b"libc6-arm64-cross" in said.err), (3, True))
    for line in (PORT / "declarations.sha256").read_text().splitlines():
        name = line.split()[1]
        said = declared.ran(lambda text, name=name: re.sub(
            rf"(fn {name}\(|struct {name} )", r"\1 ", text))
        found.same(f"{name}: {said}",
                   (said.status, f"declares {name} otherwise" in said.err.decode()), (3, True))


def main() -> None:
    arguments.Parser(__doc__, programs=()).read()
    guest.need()
    with measure.scratch() as name:
        folder, cases = Path(name), Path(name) / "cases"
        cases.mkdir()
        found, kit = Checks(Path("host_test"), cases), None
        if shutil.which("rt"):
            kit = Path(measure.done("rt", "doc").out.decode().strip()).parent
        alike(found, kit, folder)
        wrong_ones(found, folder)
        if kit:
            declarations(found, kit, folder)
        else:
            print("the toolchain's own functions and its declarations: left out, no rt here")
    found.end()


if __name__ == "__main__":
    main()
