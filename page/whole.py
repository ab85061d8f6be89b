#!/usr/bin/env python3
"""Puts the page together: its parts of this folder, a module, and of the documents what to do after
a refusal.

    page/whole.py MODULE.wasm VERSION >edfstore.html
    page/whole.py OTHER.html VERSION >edfstore.html     the module of another page

The module is in it twice, as it is and lowered to 32-bit addresses by lower.py, both deflated. The
policy of the page names its script and its style by their sums, and lets it ask no server.
"""

from __future__ import annotations

import base64
import hashlib
import html
import json
import pathlib
import re
import sys
import zlib

import lower

HERE = pathlib.Path(__file__).parent
DOCUMENTS = HERE.parent / "docs"
POLICY = (
    "default-src 'none'; form-action 'none'; base-uri 'none'; "
    "script-src {script} 'wasm-unsafe-eval'; style-src {style}; worker-src blob:; img-src blob:"
)
# The parts of the page's script, in their order.
SCRIPT = ("dom", "words", "work", "heads", "files", "show", "views", "mend", "page")
NUMBER = re.compile(r"^- \*\*(E\d+)\*\*(?: `[^`]*`)?: ")
SENTENCE = re.compile(r"(?<=[.?]) (?=[A-Z`])")
# What a sentence has that is for a terminal alone, and words that are others on the page: nobody
# sends it a file, it has one store, and edfmend is behind a button.
TERMINAL = re.compile(r"`printf |'edfstore |`--\w|`edfmend` tells|On a terminal")
OWN_WORDS = (
    ("send it again", "get it again"),
    ("edfstore and edfruns take", "this page takes"),
    (r"(Give it|Take the file into) a store of its own",
     "Or open this page a second time, and give it this file alone"),
    ("edfmend", "“Mend it…”"),
)
# What the page says of a number in place of its sentence, and beside the points below that.
OWN_SENTENCES = {"E4": "Its patient field is not as EDF+ has it.",
                 "E5": "Its recording field is not as EDF+ has it."}
OWN_POINTS = {"E8": [
    "Is it such a piece? Beside the card or good files remove it."
]}


def part(name: str) -> str:
    """The text of a part, which must not end the element that it stands in."""
    text = (HERE / name).read_text(encoding="utf-8")
    if "</" in text and name != "page.html":
        sys.exit(f"page/whole.py: {name} has a '</'")
    return text


def plain(text: str) -> str:
    """A text of a document without its marks, in the words of the page."""
    sentences = [it for it in SENTENCE.split(" ".join(text.split())) if not TERMINAL.search(it)]
    text = re.sub(r"\[([^\]]*)\]\([^)]*\)", r"\1", " ".join(sentences))
    text = text.replace("`", "").replace("**", "")
    for words, own in OWN_WORDS:
        text = re.sub(words, own, text)
    return text


def entries(text: str) -> dict[str, list[str]]:
    """Of each number of REFUSALS its paragraph and the points below it."""
    body = text[text.index("\n## Every number\n"):]
    body = body[:body.index("\n## ", 4)]
    found: dict[str, list[str]] = {}
    number = ""
    for line in body.splitlines():
        begins = NUMBER.match(line)
        if begins:
            number = begins[1]
            found[number] = [line[begins.end():]]
        elif number and line.startswith("  - "):
            found[number].append(line[4:])
        elif number and line.startswith("  "):
            found[number][-1] += " " + line.strip()
        elif not line.startswith("  "):
            number = ""
    return found


def refusals() -> str:
    """What to do after each refusal, and whether edfmend mends it."""
    found: dict[str, object] = {}
    for number, (what, *more) in entries((DOCUMENTS / "REFUSALS.md").read_text("utf-8")).items():
        mends = any(point.startswith("`edfmend`: ") for point in more)
        more = [point for point in more if not point.startswith("`edfmend`: ")]
        if number == "E2":
            more = more[:1]     # the page itself names other formats
        more = [*filter(None, map(plain, more)), *OWN_POINTS.get(number, ())]
        found[number] = {"what": OWN_SENTENCES.get(number) or plain(what), "more": more,
                         "mends": mends}
    if len(found) < 38:
        sys.exit("page/whole.py: docs/REFUSALS.md lacks numbers")
    return json.dumps(found, ensure_ascii=True).replace("<", "\\u003c")


def notices() -> str:
    """The licence and the notices, as text of a page."""
    texts = [(HERE.parent / name).read_text("utf-8") for name in ("LICENSE-MIT", "THIRD-PARTY.md")]
    return html.escape("\n".join(texts), quote=False)


def sum_of(text: str) -> str:
    """How a policy names a script or a style."""
    digest = hashlib.sha256(text.encode("utf-8")).digest()
    return f"'sha256-{base64.b64encode(digest).decode('ascii')}'"


def packed(module: bytes) -> str:
    """A module deflated, as text."""
    deflate = zlib.compressobj(9, zlib.DEFLATED, -15)
    return base64.b64encode(deflate.compress(module) + deflate.flush()).decode("ascii")


def unpacked(page: bytes) -> bytes:
    """The module of a page; before 2.0.0 it was not deflated."""
    found = re.search(rb'id="module(64)?">([\w+/=]*)<', page)
    if not found:
        sys.exit("page/whole.py: this page has no module")
    data = base64.b64decode(found[2])
    return zlib.decompress(data, -15) if found[1] else data


def whole(module: bytes, version: str) -> str:
    """The page's text."""
    parts = {"STYLE": part("page.css"), "WORKER": part("worker.js"), "REFUSALS": refusals(),
             "NOTICES": notices()}
    parts["SCRIPT"] = "\n".join(part(f"{name}.js") for name in SCRIPT)
    for name, form in (("64", module), ("32", lower.lowered(module))):
        parts[f"MODULE{name}"] = packed(form)
        parts[f"SUM{name}"] = hashlib.sha256(form).hexdigest()
    parts["VERSION"] = version
    parts["POLICY"] = POLICY.format(
        script=sum_of(parts["SCRIPT"]), style=sum_of(parts["STYLE"])
    )
    text = part("page.html")
    for name, value in parts.items():
        text = text.replace(f"@{name}@", value)
    return text


def main() -> None:
    module = pathlib.Path(sys.argv[1]).read_bytes()
    if sys.argv[1].endswith(".html"):
        module = unpacked(module)
    sys.stdout.write(whole(module, sys.argv[2]))


main()
