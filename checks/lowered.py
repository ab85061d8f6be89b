"""Whether page/lower.py lowers a WebAssembly module of 64-bit memory to one of 32-bit addresses
that does the same.

    python3 -m checks.lowered [--browser NAME]... [--control]

A small module, made here, has a function for each load and store, also those of vectors and of one
lane, and for copying and filling memory, its size and its growth; and some that only have to be
read past. Chromium and Firefox run it as it is and lowered, and must give the same answers with the
same memory after each call. So must WebKit, which takes the lowered one alone. Growth by 65,537 and
by 2^32 + 1 pages, and by -1, fails in both. One call must differ: an address of 2^40 traps in
the one, and not in the other. Modules of other kinds are refused with status 3 and a line.

--control lowers by scripts with one fault each, of which each must be found.

It needs chromium, firefox-esr and webkit2gtk-driver, as Debian has them.
"""
from __future__ import annotations

import argparse
import base64
import json
import subprocess
import sys
from dataclasses import dataclass
from pathlib import Path
from typing import Any

from checks.lib import arguments, measure, modules
from checks.lib.checks import Lost, compare, end
from checks.lib.chromium import Chromium
from checks.lib.firefox import Firefox
from checks.lib.webkit import WebKit

LOWER = arguments.TOP / "page/lower.py"
BROWSERS = {"chromium": Chromium, "firefox": Firefox, "webkit": WebKit}
MOST_PAGES = 20         # of 64 KiB, that the module may have
I32, I64, V128 = b"\x7f", b"\x7e", b"\x7b"
HEAD, END = b"\0asm\1\0\0\0", b"\x0b"
VALUE = 0x8182838485868788
FAR = 1 << 40
# Places: of what is read, of what vectors are stored to
FROM, TO = 64, 512
LANES, DATA = bytes(range(0x31, 0x41)), bytes(range(7, 90))
RUN = """(() => {
  const bytes = (text) => Uint8Array.from(atob(text), (it) => it.charCodeAt(0));
  const run = (text) => {
    const it = new WebAssembly.Instance(new WebAssembly.Module(bytes(text)), {}).exports;
    return CALLS.map(([name, ...numbers]) => {
      let answer, sum = 0;
      try { answer = String(it[name](...numbers.map(BigInt))); } catch (fault) { answer = "trap"; }
      for (const byte of new Uint8Array(it.memory.buffer)) sum = (sum * 31 + byte) % 0xfffffff;
      return [answer, sum, it.memory.buffer.byteLength];
    });
  };
  return MODULES.map(run);
})()"""
# Faults of a script, by the text that they take the place of
FAULTS = {
    "any growth": ('b"\\x42\\x80\\x80\\x04\\x56', 'b"\\x42\\x7f\\x56'),
    "a failed growth is positive": ("WIDEN_SIGNED + ", "WIDEN + "),
    "a size without its upper half": ('(WIDEN if code == MEMORY_SIZE else b"")',
                                      '(WIDEN_SIGNED + b"\\x42\\x01\\x7c" '
                                      'if code == MEMORY_SIZE else b"")'),
    "values in the wrong order": ("in reversed(held)", "in held"),
    "another offset": ("leb(align) + leb(offset)", "leb(align) + leb(offset + 8)"),
    "another lane": ("+ self.read.take(lane)", '+ (self.read.take(lane) and b"\\0")'),
}


# The module

def leb(value: int) -> bytes:
    """A number with a sign, as LEB128."""
    out = bytearray()
    while not -64 <= value < 64:
        out.append(value & 127 | 128)
        value >>= 7
    return bytes([*out, value & 127])


def sized(data: bytes) -> bytes:
    return modules.spelled(len(data)) + data


def vector(*parts: bytes) -> bytes:
    return modules.spelled(len(parts)) + b"".join(parts)


def get(nth: int) -> bytes:
    return b"\x20" + modules.spelled(nth)


def number(value: int) -> bytes:
    return b"\x42" + leb(value)


@dataclass(frozen=True)
class Function:
    """One that takes so many numbers of 64 bits, and gives one, or none."""
    name: str
    parameters: int
    code: bytes
    gives: bool = True
    locals: bytes = b""         # groups of them

    def type(self) -> bytes:
        return b"\x60" + vector(*[I64] * self.parameters) + vector(*[I64] * self.gives)

    def body(self) -> bytes:
        return sized((self.locals or b"\0") + self.code + END)


# How an answer of 64 bits is made of each load's value, and the value of each store of one
TO_I64 = {**dict.fromkeys(range(0x28, 0x36), b""), 0x28: b"\xad", 0x2A: b"\xbc\xad", 0x2B: b"\xbd",
          **dict.fromkeys(range(0x2C, 0x30), b"\xac")}
OF_I64 = {0x36: b"\xa7", 0x37: b"", 0x38: b"\xa7\xbe", 0x39: b"\xbf", 0x3A: b"\xa7", 0x3B: b"\xa7",
          0x3C: b"", 0x3D: b"", 0x3E: b""}
V_LOADS, V_LANES = (*range(11), 92, 93), range(84, 92)
V_CONST, V_STORE = b"\xfd\x0c" + LANES, b"\xfd\x0b\0\0"


def of_memory() -> list[Function]:
    """A function for each instruction that reaches memory; all offsets are 3, alignments 0."""
    found = [Function(f"load{code:x}", 1, get(0) + bytes([code, 0, 3]) + more)
             for code, more in TO_I64.items()]
    found += [Function(f"store{code:x}", 2, get(0) + get(1) + more + bytes([code, 0, 3]), False)
              for code, more in OF_I64.items()]
    for code in V_LOADS:
        load = get(0) + b"\xfd" + modules.spelled(code) + b"\0\3"
        found.append(Function(f"vector{code}", 1, number(TO) + load + V_STORE, False))
    for code in V_LANES:
        place, lane = get(0) + V_CONST + b"\xfd" + modules.spelled(code), b"\0\3\1"
        found.append(Function(f"lane{code}", 1, place + lane if code > 87
                              else number(TO) + place + lane + V_STORE, False))
    three = get(0) + get(1) + get(2)
    wrapped = get(0) + get(1) + b"\xa7" + get(2)
    return [*found, Function("copy", 3, three + b"\xfc\x0a\0\0", False),
            Function("fill", 3, wrapped + b"\xfc\x0b\0", False),
            Function("size", 0, b"\x3f\0"), Function("grow", 1, get(0) + b"\x40\0")]


def others() -> list[Function]:
    """Blocks, branches, calls, constants, and shuffled vectors: what is read past."""
    jump = (b"\x02\x40\x02\x40\x02\x40" + get(0) + b"\xa7\x0e\x02\0\1\2" + END + number(7) + b"\x0f"
            + END + number(8) + b"\x0f" + END + number(9))
    shuffled = (V_CONST + V_CONST + b"\xfd\x0d" + bytes(reversed(range(16))) + b"\xfd\x1d\1")
    floats = b"\x43\0\0\x80\x3f\x8d\x1a\x44" + bytes(6) + b"\xf0\x3f\xbd"
    group = vector(b"\2" + I32, b"\1" + V128)
    counted = (get(0) + b"\xa7\x21\1\x03\x40" + get(1) + b"\x41\1\x6a\x22\1\x41\x0a\x48\x0d\0" + END
               + get(1) + b"\xad")
    return [Function("jump", 1, jump), Function("shuffled", 0, shuffled),
            Function("floats", 0, floats), Function("counted", 1, counted, locals=group),
            Function("called", 1, get(0) + b"\x10\0")]


def module_of(functions: list[Function], **other: bytes) -> bytes:
    """The module; `other` are sections by their names that differ, or come beside."""
    count = len(functions)
    exports = [sized(it.name.encode()) + b"\0" + modules.spelled(nth)
               for nth, it in enumerate(functions)] + [sized(b"memory") + b"\2\0"]
    parts = {"types": (1, vector(*[it.type() for it in functions])), "imports": (2, b""),
             "functions": (3, vector(*map(modules.spelled, range(count)))), "tables": (4, b""),
             "memories": (5, b"\1\4\1"), "globals": (6, vector(I64 + b"\1" + number(-5) + END)),
             "exports": (7, vector(*exports)), "start": (8, b""),
             "code": (10, vector(*[it.body() for it in functions])),
             "data": (11, vector(b"\0" + number(FROM) + END + sized(DATA)))}
    parts.update({name: (parts[name][0], body) for name, body in other.items()})
    return HEAD + b"".join(bytes([kind]) + sized(body) for kind, body in parts.values() if body)


def calls() -> list[list[Any]]:
    """What is asked of the module: each function, near, at memory's end and behind it."""
    found: list[list[Any]] = [["size"]]
    for it in of_memory()[:-4]:
        more = [VALUE - (1 << 64)] * (it.parameters - 1)
        found += [[it.name, place, *more] for place in (FROM, 65_500, 65_536, 1 << 31, -1)]
    found += [[name, *numbers] for name in ("copy", "fill") for numbers in (
        (TO, FROM, 40), (TO, FROM, 0), (65_500, FROM, 36), (65_500, FROM, 37), (-8, FROM, 4))]
    found += [["grow", pages] for pages in (0, 1, 65_537, 2 ** 32 + 1, -1, MOST_PAGES, 2)]
    found += [["size"], ["store37", 4 * 65_536 - 11, 5], ["load29", 4 * 65_536 - 11]]
    found += [["jump", at] for at in (0, 1, 2, 9)]
    return [*found, ["shuffled"], ["floats"], ["counted", 3], ["called", FROM]]


# What is tried

def lowered(module: bytes, script: Path = LOWER) -> Any:
    return subprocess.run([sys.executable, script], input=module, stdout=subprocess.PIPE,
                          stderr=subprocess.PIPE, check=False)


def refused() -> int:
    """Modules of other kinds; how many there are."""
    plain = of_memory()
    kinds = {
        "another memory": {"memories": b"\2\4\1\4\1"}, "a memory with an end": {
            "memories": b"\1\5\1\2"}, "a memory of 32 bits": {"memories": b"\1\0\1"},
        "a table": {"tables": b"\1\x70\0\1"}, "a start": {"start": b"\0"},
        "an import": {"imports": vector(sized(b"a") + sized(b"b") + b"\3" + I32 + b"\0")},
        "data that some instruction places": {"data": vector(b"\1" + sized(b"x"))},
        "data at a high place": {"data": vector(b"\0" + number(1 << 40) + END + sized(b"x"))}}
    tried = {what: module_of(plain, **sections) for what, sections in kinds.items()}
    for what, code in (("a call through a table", b"\x11\0\0"), ("an atomic", b"\xfe\0"),
                       ("data to be placed", b"\xfc\x08\0\0"), ("a wider vector", b"\xfd\x80\2"),
                       ("another memory's load", b"\x28\x42\1\0")):
        tried[what] = module_of([Function("it", 1, get(0) + code, False)])
    good = module_of(plain)
    tried |= {"no module": b"%PDF-1.7 and more", "nothing": b"", "a cut one": good[:-9],
              "a later version": good[:4] + b"\2" + good[5:]}
    for what, module in tried.items():
        ran = lowered(module)
        compare(what, (ran.returncode, ran.stdout, ran.stderr[:14]), (3, b"", b"page/lower.py:"))
    return len(tried)


def answers(browser: Any, asked: list[list[Any]], *given: bytes) -> Any:
    """What modules answer."""
    texts = json.dumps([base64.b64encode(modules.capped(it, MOST_PAGES)).decode() for it in given])
    words = json.dumps([[str(it) for it in call] for call in asked])
    found = browser.value(RUN.replace("CALLS", words).replace("MODULES", texts))
    if not found:
        raise Lost("no module for this browser")
    return found


def compared(browser: Any, kind: str, both: tuple[bytes, bytes], seen: list[Any]) -> int:
    """Compares the answers of both modules, with those of the browser before it too."""
    one, other = both
    given = answers(browser, calls(), *[other] if kind == "webkit" else [one, other])
    for answer in [*seen[:1], *given[1:]]:
        for call, first, second in zip(calls(), given[0], answer, strict=True):
            compare(f"{kind}: {call}", second, first)
    seen.append(given[0])
    far = [["load29", FAR + FROM]]
    near = str(int.from_bytes(DATA[3:11], "little"))
    expected = ["trap", near] if len(given) > 1 else [near]
    got = [it[0][0] for it in answers(browser, far, *[other] if kind == "webkit" else both)]
    compare(f"{kind}: an address of 2^40", got, expected)
    return len(calls()) + 1


def faults(browser: Any, kind: str, module: bytes, folder: Path) -> int:
    """Whether each fault of a script is found."""
    for what, (text, other) in FAULTS.items():
        wrong = folder / "wrong.py"
        compare(f"{what}: it is in the script", text in LOWER.read_text(), True)
        wrong.write_text(LOWER.read_text().replace(text, other))
        made = lowered(module, wrong)
        compare(what, made.returncode, 0)
        try:
            compared(browser, kind, (module, made.stdout), [])
        except Lost as found:
            print(f"{what}: {str(found).splitlines()[0]}")
        else:
            raise Lost(f"{kind}: {what} is not found")
    return len(FAULTS)


def main() -> None:
    parser = argparse.ArgumentParser(prog="python3 -m checks.lowered", description=__doc__,
                                     formatter_class=argparse.RawDescriptionHelpFormatter)
    parser.add_argument("--browser", choices=tuple(BROWSERS), action="append")
    parser.add_argument("--control", action="store_true")
    given = parser.parse_args()
    module = module_of([*of_memory(), *others()])
    made = lowered(module)
    tried, failed, seen = refused(), 0, list[Any]()
    with measure.scratch() as name:
        folder = Path(name)
        blank = folder / "blank.html"
        blank.write_text("<!doctype html><title>blank</title>")
        for kind in given.browser or BROWSERS:
            try:
                compare("it is lowered", made.returncode, 0)
                with BROWSERS[kind](folder / f"profile-{kind}") as browser:
                    browser.open(blank)
                    tried += compared(browser, kind, (module, made.stdout), seen)
                    if given.control and kind != "webkit":
                        tried += faults(browser, kind, module, folder)
            except Lost as wrong:
                print(wrong)
                failed += 1
    end(tried, failed)


if __name__ == "__main__":
    main()
