"""Compares what REFUSALS says of each fault of form with the sources, without a program.

    python3 -m checks.told [--control]

A fault of form has its number, its name, its place and its sentence in the crate that finds it, and
what to do in the table of a terminal, crates/edf_os/src/advice.rt. The list of docs/REFUSALS.md
must have each of these numbers once, with that name, those details, those sentences and those
words, and a line of `edfmend` just where the table has a row of words for what that did not mend.
E1 to E29 are all of form. A line names each fault of which this is not so. --control looks at lists
that are wrong in one place each: all must be found wrong, and then the status is 0.
"""
import re
from dataclasses import dataclass, field

from checks.lib import arguments
from checks.lib.arguments import TOP
from checks.lib.checks import end

ALL_OF_FORM, MAY_BE_OF_FORM = range(1, 30), range(1, 40)
TEXT = r'"((?:[^"\\]|\\[\s\S])*)"'
ERROR = re.compile(rf"#\[error\(\s*{TEXT}[^)]*\)?\s*\)\]\s*(\w+)([^\n]*)")
NUMBER = re.compile(r"::(\w+)(?:\(_\)| \{ [^}\n]* \})? => (\d+),")
ROW = re.compile(r"(\w+)::(\w+)(?:\([^)]*\)| \{[^}]*\})? =>\s*\{?\s*"
                 rf"(Never|Own|Behind|Field|Instead)\(\s*{TEXT}")
ITEM = re.compile(r"^- \*\*E(\d+)\*\* `(\w+)((?: \w+=)*)`: ", re.MULTILINE)
PLACES = ("record", "offset", "signal")


def source(crate: str, name: str) -> str:
    return (TOP / "crates" / crate / "src" / f"{name}.rt").read_text()


def plain(text: str) -> str:
    """A text of the sources or of a document in one line, without marks."""
    return " ".join(re.sub(r"\\\n\s*", "", text).replace("`", "").split())


@dataclass
class Fault:
    name: str
    places: list
    sentences: list
    words: list = field(default_factory=list)   # what to do, of each row
    is_mended: bool = False


def variants(text: str) -> dict:
    """The sentence of each variant of the enums in this text, and what the variant holds."""
    return {name: (plain(sentence), rest) for sentence, name, rest in ERROR.findall(text)}


def words_of(text: str, what: str) -> dict:
    """The texts of the arms of a `match` over an enum."""
    return {name: plain(words) for name, words in
            re.findall(rf"{what}::(\w+) => {TEXT}", text)}


def sentences(name: str, sentence: str, rest: str) -> list:
    """The sentences of a variant, which may be those of what it holds."""
    formats = words_of(source("edf_header", "fault"), "Format")
    if "Format" in rest:
        edf = formats.pop("Edf")
        return [edf, *formats.values()] if name == "Unprintable" else [formats["Other"]]
    if held := re.search(r"(PatientFault|RecordingFault)", rest):
        fields = source("edf_field", "fault")
        own = fields[fields.index(f"enum {held[1]}"):]
        return [text for text, _ in variants(own[:own.index("\n}")]).values()]
    return [sentence]


def found_in(crate: str, name: str, before: tuple = ()) -> dict:
    """The faults of a crate by their numbers; each has these places before its own."""
    text = source(crate, name)
    numbers = {variant: int(number) for variant, number in NUMBER.findall(text)}
    faults = {}
    for variant, (sentence, rest) in variants(text).items():
        if numbers.get(variant) in MAY_BE_OF_FORM:
            own = re.findall(r"\b(nth|offset|signal):", rest)
            places = [*before, *("record" if it == "nth" else it for it in own)]
            faults[numbers[variant]] = Fault(variant, places, sentences(variant, sentence, rest))
    return faults


def rows(faults: dict) -> None:
    """Adds what the table of a terminal has of each fault."""
    text = source("edf_os", "advice")
    by_name = {fault.name: fault for fault in faults.values()}
    for enum, variant, kind, words in ROW.findall(text):
        said = plain(words)
        if enum == "Format":
            fault = by_name["Unprintable"]
            by_name["Version"].words += [said] if variant == "Other" else []
        else:
            fault = by_name.get(variant)
        if fault:
            fault.words.append(said)
            fault.is_mended |= kind not in ("Never", "Own")


def of_sources() -> dict:
    faults = {**found_in("edf_header", "fault"), **found_in("edf_tal", "place", ("record",)),
              **found_in("edf_fragment", "fault")}
    rows(faults)
    return faults


def items(text: str) -> list:
    """Each item of the list: its number, name, details, and all of its text."""
    starts = list(ITEM.finditer(text))
    ends = [it.start() for it in starts[1:]] + [len(text)]
    return [(int(it[1]), it[2], it[3].replace("=", "").split(), text[it.end():stop])
            for it, stop in zip(starts, ends)]


def has(text: str, words: str) -> bool:
    """Whether a text has these words, with a small or a capital letter first."""
    bare = words.lstrip(":, ")
    return bare in text or bare[:1].upper() + bare[1:] in text


def wrong(fault: Fault, name: str, details: list, text: str) -> list:
    """What an item says otherwise than the sources."""
    said = plain(text)
    out = [] if name == fault.name else [f"is called {name}, and {fault.name} in the sources"]
    if details != [place for place in PLACES if place in fault.places]:
        out.append(f"names {details}, and the fault {fault.places}")
    out += [f"lacks: {it}" for it in fault.sentences + fault.words if not has(said, it)]
    if len(fault.sentences) == len(fault.words) == 1:
        line = fault.sentences[0] + fault.words[0]
        if not said.startswith(line):
            out.append(f"does not begin with: {line}")
    if ("- edfmend: " in said) != fault.is_mended:
        out.append("is mended by edfmend here, or there, alone")
    return out


def compared(faults: dict, text: str) -> list:
    """A line for each number whose item is wrong, twice there, or missing."""
    out, listed = [], [it for it in items(text) if it[0] in ALL_OF_FORM or it[0] in faults]
    for number, name, details, own in listed:
        if number in faults:
            out += [f"E{number} {why}" for why in wrong(faults[number], name, details, own)]
    numbers = [number for number, *_ in listed]
    if sorted(numbers) != sorted(faults):
        out.append(f"the list has the numbers {numbers}, and the sources {sorted(faults)}")
    if not set(faults) >= set(ALL_OF_FORM):
        out.append(f"the sources have the numbers {sorted(faults)}")
    return out


def spoilt(text: str) -> list:
    """Lists that are wrong in one place: a number, a name, a detail, a word, a line."""
    changes = (("**E6**", "**E7**"), ("`NotPlus`", "`NoPlus`"), ("`Text record= ", "`Text "),
               ("no number above 0", "no number from 0"), ("look at its spelling", "look at it"),
               ("a ZIP file: unpack it", "a ZIP file"), ("  - `edfmend`: limits that fall.\n", ""),
               ("- **E19**", "- **E39**"), ("is no sex (F, M or X)", "is no sex (F or M)"))
    return [text.replace(old, new, 1) for old, new in changes]


def main() -> None:
    parser = arguments.Parser(__doc__, programs=())
    parser.add_argument("--control", action="store_true", help="lists that are wrong")
    faults, text = of_sources(), (TOP / "docs/REFUSALS.md").read_text()
    if parser.read().control:
        lists = spoilt(text)
        end(len(lists), sum(it == text or not compared(faults, it) for it in lists))
    lines = compared(faults, text)
    for line in lines:
        print(line)
    end(len(faults), len(lines))


if __name__ == "__main__":
    main()
