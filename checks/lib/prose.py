"""The sentences of documents in Markdown, as their readers count them: without code blocks, tables
and headings."""
import re

from .links import lines_of

ROW, HEADING = re.compile(r"^\s*\|"), re.compile(r"^#{1,6}\s")
INDENTED = re.compile(r"^ {4,}\S")
ITEM = re.compile(r"^\s*(?:[-*]|\d+\.)\s+")
QUOTED = re.compile(r"^>\s?")
PICTURE, CODE = re.compile(r"!\[[^\]]*\]\([^)]*\)"), re.compile(r"`[^`]*`")
# A mark that ends a sentence, with what may stand between it and the next
END = re.compile(r"(?<=[.?!])[*_)\"']*\s+(?=[*_(\"'`\[]*\s?[\w.>-])")
WORD = re.compile(r"\w+(?:['’.,/-]\w+)*")
NO_CODE = "\x00"        # stands for a piece of code


def parts(text: str) -> list:
    """Each paragraph and item in one line, and whether it is quoted."""
    found, own, quoted, is_after_blank = [], "", False, True

    def close() -> None:
        if own.strip():
            found.append((own.strip(), quoted))

    for line in lines_of(text):
        is_code = INDENTED.match(line) and is_after_blank and not ITEM.match(line)
        is_new = not line.strip() or ROW.match(line) or HEADING.match(line) or is_code \
            or ITEM.match(line) or bool(QUOTED.match(line)) != quoted
        if is_new:
            close()
            own, quoted = "", bool(QUOTED.match(line))
        is_after_blank = not line.strip() or bool(is_code)
        if line.strip() and not (ROW.match(line) or HEADING.match(line) or is_code):
            own += f" {ITEM.sub('', QUOTED.sub('', line), count=1).strip()}"
    close()
    return found


def plain(text: str) -> str:
    """Without pictures, and with the words of a link in place of it."""
    return re.sub(r"\[([^\]]*)\]\([^)]*\)", r"\1", PICTURE.sub("", text))


def sentences(text: str) -> list:
    """Each sentence that is not quoted, and each item of a list, but for single words."""
    return [it for part, is_quoted in parts(text) if not is_quoted
            for it in END.split(plain(part)) if len(words(it)) > 1]


def words(sentence: str) -> list:
    """Its words; a piece of code has those that stand in it between spaces."""
    return [it for it in re.sub(r"[`*_]", "", plain(sentence)).split() if re.search(r"\w", it)]


def rows_of_words(text: str, count: int) -> dict:
    """So many words in a row of one part, none of them code, each with what was read."""
    found = {}
    for part, is_quoted in parts(text):
        if not is_quoted:
            found.update(rows_in(part, count))
    return found


def rows_in(part: str, count: int) -> dict:
    found = {}
    for piece in CODE.sub(NO_CODE, plain(part)).split(NO_CODE):
        own = WORD.findall(piece)
        for at in range(len(own) - count + 1):
            row = " ".join(own[at:at + count])
            found[row.lower()] = row
    return found


def quotes(text: str, count: int) -> set:
    """The same of what is quoted."""
    return {row for part, is_quoted in parts(text) if is_quoted for row in rows_in(part, count)}
