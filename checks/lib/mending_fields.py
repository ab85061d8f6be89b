"""A plain model of how `edfmend` reads the fields of a header, written from its manual page and
from nothing of the program: a strict value stays byte for byte; any other becomes one by one
conversion, or by a value that a person gives; anything else is refused.

    from checks.lib import mending_fields
    mending_fields.patient(field, mending_fields.Wanted(patient=b"S-0118"))
"""
from dataclasses import dataclass
from typing import Callable, Optional

from . import model

MARK = b"mended"
FIELD = 80

# What ASCII has in place of a character: single ones before the ranges in which they lie
LETTERS = dict(zip("µμ°ºΩ\u2126²³±ÄäÖöÜüßÆæÅåØøÇçÑñÝýÿ",
                   ("u", "u", "deg", "deg", "Ohm", "Ohm", "2", "3", "+-", "Ae", "ae", "Oe", "oe",
                    "Ue", "ue", "ss", "AE", "ae", "Aa", "aa", "Oe", "oe", "C", "c", "N", "n", "Y",
                    "y", "y")))
RANGES = (("\0", "\x1f", " "), ("\x7f", "\x7f", " "), ("\xa0", "\xa0", " "), ("À", "Ã", "A"),
          ("à", "ã", "a"), ("È", "Ë", "E"), ("è", "ë", "e"), ("Ì", "Ï", "I"), ("ì", "ï", "i"),
          ("Ò", "Õ", "O"), ("ò", "õ", "o"), ("Ù", "Û", "U"), ("ù", "û", "u"))
# The same in a dimension, where no other is read; æ is the micro sign of DOS
DIMENSIONS = {"µ": "u", "μ": "u", "æ": "u", "°": "deg", "º": "deg", "Ω": "Ohm", "\u2126": "Ohm",
              "²": "2", "³": "3"}
MICRO = b"\x83\xca"                     # of Shift-JIS


class Refused(Exception):
    """Why nothing is made."""


@dataclass(frozen=True)
class Wanted:
    """What a person says of a file."""
    patient: bytes = b""
    set_patient: bytes = b""
    deidentify: bytes = b""
    startdate: Optional[bytes] = None
    starttime: Optional[bytes] = None
    all: bool = False

    def asks_nothing(self) -> bool:
        return self == Wanted()


# Texts

def unfilled(field: bytes) -> bytes:
    return field.rstrip(b"\0 ")


def spaced(field: bytes) -> bytes:
    """Zeros and spaces at the end of a field fill it."""
    return unfilled(field).ljust(len(field))


def numeral(field: bytes) -> bytes:
    """A number may stand at the right of its field, too."""
    return unfilled(field).lstrip(b" ").ljust(len(field))


def capitals(text: bytes) -> bytes:
    return text.upper()


def is_printable(text: bytes) -> bool:
    return all(32 <= byte <= 126 for byte in text)


def characters(text: bytes) -> str:
    try:
        return text.decode()
    except UnicodeDecodeError:
        return text.decode("latin-1")


def letters(character: str) -> str:
    if character in LETTERS:
        return LETTERS[character]
    return next((text for first, last, text in RANGES if first <= character <= last), "?")


def spelling(text: bytes) -> bytes:
    return "".join(one if " " <= one <= "~" else letters(one) for one in characters(text)).encode()


def dimension_spelling(text: bytes) -> bytes:
    if text.startswith(MICRO):
        text = "µ".encode() + text[2:]
    made = [one if " " <= one <= "~" else DIMENSIONS.get(one, "") for one in characters(text)]
    if not all(made):
        raise Refused("E15")
    return "".join(made).encode()


def text_of(field: bytes, spell: Callable[[bytes], bytes] = spelling) -> bytes:
    """A text as ASCII has it, of which nothing is cut."""
    if is_printable(spaced(field)):
        return spaced(field)
    made = spell(unfilled(field))
    if len(made) > len(field):
        raise Refused("a text has no room")
    return made.ljust(len(field))


# Patient

def is_no_code(code: bytes) -> bool:
    return code in (b"X", b"x")


def is_plain_patient(field: bytes) -> bool:
    return is_printable(spaced(field)) and bool(model.is_patient(spaced(field)))


def is_named(field: bytes) -> bool:
    """Whether the field names somebody, once sex and birthdate are in capitals."""
    parts = model.subfields(spaced(field))
    if len(parts) < 4 or not all(33 <= byte <= 126 for byte in parts[0]):
        return False
    sex, birthdate = capitals(parts[1]), capitals(parts[2])
    is_date = birthdate == b"X" or model.identification_date(birthdate) is not None
    return sex in (b"F", b"M", b"X") and is_date


def code_of(field: bytes) -> bytes:
    """The code that a field names; nothing where it names nobody by one."""
    parts: list[bytes] = model.subfields(spaced(field))
    return parts[0] if is_named(field) and not is_no_code(parts[0]) else b""


def respelled(code: bytes, field: bytes) -> bytes:
    parts = model.subfields(spaced(field))
    names = spelling(b"".join(b" " + part for part in parts[3:]))
    names = names if names.strip(b" ") else b" X"
    made = b" ".join([code, capitals(parts[1]), capitals(parts[2])]) + names
    if len(made) > FIELD:
        raise Refused("has a patient field that has no room")
    return made.ljust(FIELD)


def given_code(code: bytes, field: bytes) -> bytes:
    if is_named(field):
        return respelled(code, field)
    text = b"_".join(model.subfields(spelling(spaced(field)))) or b"X"
    return (code + b" X X " + text)[:FIELD].ljust(FIELD)


def own_patient(field: bytes) -> bytes:
    if is_plain_patient(field):
        return spaced(field)
    if not code_of(field):
        raise Refused("names no code")
    return respelled(code_of(field), field)


def patient(field: bytes, wanted: Wanted) -> bytes:
    given = wanted.patient or wanted.set_patient
    if wanted.deidentify:
        return (wanted.deidentify + b" X X X").ljust(FIELD)
    if not given or given == code_of(field):
        return own_patient(field)
    if wanted.patient and code_of(field):
        raise Refused(f"patient unused: {code_of(field).decode()}")
    return given_code(given, field)


# Recording

def dated(field: bytes) -> list[bytes]:
    """The date of the field itself, as it stands, and the codes behind it; nothing where it has no
    date."""
    parts = model.subfields(spaced(field))
    if len(parts) < 2 or capitals(parts[0]) != b"STARTDATE":
        return []
    date = capitals(parts[1])
    return parts[1:] if date == b"X" or model.identification_date(date) is not None else []


def day_text(startdate: bytes) -> bytes:
    """A startdate as a recording field writes it."""
    if model.start_date(startdate) is None:
        raise Refused("E6")
    day, month, year = (int(part) for part in startdate.split(b"."))
    return b"%02d-%s-%04d" % (day, model.MONTHS[month - 1], year + (1900 if year >= 85 else 2000))


def recording(field: bytes, startdate: bytes, wanted: Wanted) -> bytes:
    """The text of the recording field, without the mark."""
    own = dated(field)
    if wanted.deidentify:
        return b"Startdate " + (capitals(own[0]) if own else day_text(startdate)) + b" X X X"
    if is_printable(spaced(field)) and model.recording(spaced(field)):
        return unfilled(field)
    if own:
        codes = spelling(b"".join(b" " + part for part in own[1:]))
        lacking = max(0, 3 - len(model.subfields(codes)))
        return b"Startdate " + capitals(own[0]) + codes + b" X" * lacking
    said = b"".join(b" " + part for part in model.subfields(spelling(spaced(field))))
    return (b"Startdate " + day_text(startdate) + b" X X X" + said)[:FIELD - len(MARK) - 1]


def check_nobody(old: bytes, new_patient: bytes, text: bytes) -> None:
    """Where nobody is named, the recording field has a date, and the same codes stay behind it."""
    if is_no_code(model.subfields(new_patient)[0]):
        own, new = dated(old), dated(text)
        if not own or not new or own[1:] != new[1:]:
            raise Refused("names no code")


# Start

def dotted(field: bytes) -> bytes:
    return field[:2] + b"." + field[3:5] + b"." + field[6:]


def are_parted(field: bytes) -> bool:
    return not field[2:3].isdigit() and not field[5:6].isdigit()


def starttime(field: bytes, given: Optional[bytes]) -> bytes:
    is_time = are_parted(field) and model.start_time(dotted(field)) is not None
    if given is None:
        if not is_time:
            raise Refused("E7")
        return dotted(field)
    if is_time:
        raise Refused("starttime unused")
    return given


def agrees(date: bytes, field: bytes) -> bool:
    """Whether a startdate is the day of the recording field."""
    own = dated(field)
    day = model.identification_date(capitals(own[0])) if own else None
    if day is None:
        return False
    is_late = date[6:] == b"yy" and model.late_date(date, day) == day
    return bool(is_late or model.start_date(date) == day)


def startdate(field: bytes, old_recording: bytes, given: Optional[bytes]) -> bytes:
    if given is None:
        is_other = are_parted(field) and agrees(dotted(field), old_recording)
        return dotted(field) if is_other else field
    if model.start_date(field) is not None or agrees(dotted(field), old_recording):
        raise Refused("startdate unused")
    return given
