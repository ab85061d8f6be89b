"""A WebAssembly module with something changed: how much memory it may have, or one instruction."""
from dataclasses import dataclass

PAGE = 65_536                       # bytes of a page of memory
MEMORIES, CODES = 5, 10             # of the sections
TRAP, NOTHING = 0, 1                # instructions: a trap, and one that does nothing
# Each of these instructions, which have no operands of their own, and another of its kind
OTHERS = {0x7C: 0x7D, 0x7D: 0x7C, 0x6A: 0x6B, 0x6B: 0x6A, 0x54: 0x5A, 0x5A: 0x54, 0x83: 0x84,
          0x71: 0x72, 0x88: 0x86, 0x51: 0x52, 0x52: 0x51, 0x46: 0x47, 0x47: 0x46}
ONE_INDEX = {0x0C, 0x0D, 0x10, 0x12, *range(0x20, 0x27), 0x41, 0x42, 0xD0, 0xD2}
BLOCKS = {0x02, 0x03, 0x04, 0x3F, 0x40}
MEMORY_ACCESS = range(0x28, 0x3F)


def number(data: bytes, at: int) -> tuple:
    """The number that begins here, as LEB128, and the place behind it."""
    value = shift = 0
    while True:
        byte = data[at]
        value |= (byte & 127) << shift
        at, shift = at + 1, shift + 7
        if byte < 128:
            return value, at


def spelled(value: int) -> bytes:
    made = bytearray()
    while value > 127:
        made.append(value & 127 | 128)
        value >>= 7
    return bytes(made + bytes([value]))


@dataclass
class Section:
    kind: int
    body: bytes


def sections(module: bytes) -> list:
    found, at = [], 8
    while at < len(module):
        size, begin = number(module, at + 1)
        found.append(Section(module[at], module[begin:begin + size]))
        at = begin + size
    return found


def joined(head: bytes, parts: list) -> bytes:
    return head + b"".join(bytes([it.kind]) + spelled(len(it.body)) + it.body for it in parts)


def memory_of(parts: list) -> tuple:
    """The section of the one memory, its flags, and how many pages it has at first."""
    memory = next(it for it in parts if it.kind == MEMORIES)
    count, at = number(memory.body, 0)
    assert count == 1, "one memory"
    return memory, memory.body[at], number(memory.body, at + 1)[0]


def least_pages(module: bytes) -> int:
    return memory_of(sections(module))[2]


def capped(module: bytes, pages: int) -> bytes:
    """The module, whose memory has at most so many pages of 64 KiB."""
    parts = sections(module)
    memory, flags, least = memory_of(parts)
    assert not flags & 1 and least <= pages, "a memory that may be capped"
    memory.body = spelled(1) + bytes([flags | 1]) + spelled(least) + spelled(pages)
    return joined(module[:8], parts)


def behind(code: bytes, at: int) -> int:
    """The place behind the instruction that begins here."""
    kind, at = code[at], at + 1
    if kind in ONE_INDEX or kind in BLOCKS:
        return number(code, at)[1]
    if kind in MEMORY_ACCESS or kind == 0x11:
        return number(code, number(code, at)[1])[1]
    if kind == 0x0E:
        count, at = number(code, at)
        for _ in range(count + 1):
            at = number(code, at)[1]
        return at
    if kind == 0x1C:
        count, at = number(code, at)
        return at + count
    if kind in (0x43, 0x44):
        return at + (4 if kind == 0x43 else 8)
    if kind == 0xFC:
        return behind_bulk(code, at)
    return behind_vector(code, at) if kind == 0xFD else at


def behind_bulk(code: bytes, at: int) -> int:
    kind, at = number(code, at)
    if kind < 8:
        return at
    for _ in range(2 if kind in (8, 10, 12, 14) else 1):
        at = number(code, at)[1]
    return at


def behind_vector(code: bytes, at: int) -> int:
    kind, at = number(code, at)
    if kind in (12, 13):
        return at + 16
    if kind < 12 or kind in (92, 93) or 84 <= kind < 92:
        at = number(code, number(code, at)[1])[1]
        return at + (84 <= kind < 92)
    return at + 1 if 21 <= kind < 35 else at


def bodies(module: bytes) -> list:
    """Where each function's instructions begin and end, and the place of the section's body."""
    code = next(it for it in sections(module) if it.kind == CODES).body
    start = module.index(code)
    count, at = number(code, 0)
    found = []
    for _ in range(count):
        size, begin = number(code, at)
        at = begin + size
        groups, place = number(code, begin)
        for _ in range(groups):
            place = number(code, place)[1] + 1
        found.append((start + place, start + at))
    return found


def trap_in(module: bytes, function: tuple) -> list:
    """The bytes, each with its place, by which a function traps; none where it begins a block."""
    begin = function[0]
    if module[begin] in BLOCKS:
        return []
    places = range(begin, behind(module, begin))
    return [[at, TRAP if at == begin else NOTHING] for at in places]


def places_in(module: bytes, function: tuple) -> list:
    """Where the instructions of a function are that have another of their kind."""
    found, (at, end) = [], function
    while at < end:
        if module[at] in OTHERS:
            found.append(at)
        at = behind(module, at)
    assert at == end, "instructions that end where their function does"
    return found
