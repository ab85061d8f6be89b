"""The programs for arm64, by qemu-user, each as a program of this machine."""
import os
import shutil
import struct
import sys
from pathlib import Path

from checks.lib import arguments, measure

QEMU, COMPILER, ROOT = "qemu-aarch64", "aarch64-linux-gnu-gcc", "/usr/aarch64-linux-gnu"
NEEDED = ("cc", QEMU, COMPILER)
PACKAGES = "gcc, qemu-user and gcc-aarch64-linux-gnu"
MACHINE = "aarch64"         # by its own name
ARM64 = 183                 # in the header of a program
SYMBOLS = 2                 # the kind of section that has the names
# What a function of the C file does instead, as instructions of that machine
RETURN = 0xD65F03C0
WRONG = {
    "rattle_alloc": (0xD2800000, 0x10000001, RETURN),       # no memory
    "rattle_realloc": (0xD2800000, 0x10000001, RETURN),     # no memory
    "rattle_arg": (0x92800000, RETURN),                     # no such word
    "rattle_env": (0x92800000, RETURN),                     # no such variable
    "rattle_errno": (0x52800000, RETURN),                   # no error
    "rattle_lock_range": (0x52800000, RETURN),              # locked
}


def need() -> None:
    """Ends the script where the tools are not here."""
    missing = [name for name in NEEDED if not shutil.which(name)]
    if missing:
        sys.exit(f"this needs {', '.join(missing)}: Debian's packages {PACKAGES}")


def chosen(name: str) -> Path:
    """The program of that name for arm64: built here, or released."""
    return arguments.chosen(name, MACHINE)


def machine_of(program: Path) -> int:
    return struct.unpack_from("<H", program.read_bytes(), 18)[0]


def launcher(program: Path, folder: Path, name: str) -> Path:
    """A program of this machine that runs that one. Its process has this name too."""
    by = folder / "qemu" / name
    by.parent.mkdir(exist_ok=True)
    by.symlink_to(shutil.which(QEMU))
    named = {"PROGRAM": program, "QEMU": by, "ROOT": ROOT}
    measure.done("cc", "-O2", "-static", "-o", folder / name,
                 *(f'-D{word}="{path}"' for word, path in named.items()),
                 Path(__file__).with_name("under_qemu.c"))
    return folder / name


def launchers(folder: Path) -> dict:
    """Of each program, by its name, in that folder."""
    return {name: launcher(chosen(name), folder, name) for name in arguments.PROGRAMS}


def libraries_for_it(folder: Path) -> dict:
    """The variables by which `cc` makes libraries that are loaded before its C library."""
    (folder / "cc").symlink_to(shutil.which(COMPILER))
    return {"PATH": f"{folder}:{os.environ['PATH']}"}


def place_of(data: bytes, name: str):
    """Where the code of the function of that name begins in a program's bytes, if it has one."""
    sections_at, = struct.unpack_from("<Q", data, 40)
    size, count = struct.unpack_from("<HH", data, 58)
    sections = [struct.unpack_from("<IIQQQQIIQQ", data, sections_at + size * nth)
                for nth in range(count)]
    _, _, _, _, at, length, names, _, _, each = next(it for it in sections if it[1] == SYMBOLS)
    for symbol in range(at, at + length, each):
        named, _, _, section, address, _ = struct.unpack_from("<IBBHQQ", data, symbol)
        begin = sections[names][4] + named
        if data[begin:data.index(b"\0", begin)] == name.encode():
            return address - sections[section][3] + sections[section][4]
    return None


def with_a_wrong_function(program: Path, name: str, folder: Path) -> Path:
    """The program with another function of that name, if it has one."""
    data = bytearray(program.read_bytes())
    at, code = place_of(data, name), WRONG[name]
    if at is None:
        return program
    data[at:at + 4 * len(code)] = struct.pack(f"<{len(code)}I", *code)
    target = folder / f"{program.name}-{name}"
    target.write_bytes(data)
    target.chmod(0o755)
    return target
