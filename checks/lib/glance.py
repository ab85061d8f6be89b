"""A plain model of what a picture of a night has: its gaps, its strip, its stages of sleep, its lanes
with their counts, and the band of each signal, all column by column. It knows nothing of how a
picture is made: each column is asked by itself what is in it."""
from collections import Counter
from dataclasses import dataclass
from fractions import Fraction

Times = tuple[int, int]
Edges = list[Times | None]
Lane = tuple[str | int, int, str]       # of all others: how many texts it has

COLUMNS = 1_000
EPOCH = 30 * 10**9
OWN, DRAWN, LISTED = 8, 16, 12
PREFIX = "Sleep stage "
NAMES = {"W": "W", "R": "R", "N1": "N1", "N2": "N2", "N3": "N3"}
NUMBERS = {"1": "N1", "2": "N2", "3": "N3", "4": "N3", "?": "", "M": "", "N": ""}


@dataclass(frozen=True)
class Note:
    """An annotation; its onset is an instant, and 0 is no duration."""
    onset: int
    duration: int
    text: str


@dataclass(frozen=True)
class Signal:
    """An ordinary signal: its digital limits are those of the header."""
    label: str
    dimension: str
    physical: tuple[str, str]
    digital: Times
    samples: int


@dataclass(frozen=True)
class Night:
    """A recording: the starts of its data records in nanoseconds, and of each the digital values of
    each signal."""
    duration: int
    starts: list[int]
    signals: list[Signal]
    values: list[list[list[int]]]
    notes: list[Note]

    def runs(self) -> list[Times]:
        """The start and the end of each stretch of data records without a gap."""
        found: list[Times] = []
        for start in self.starts:
            if found and found[-1][1] == start:
                found[-1] = (found[-1][0], start + self.duration)
            else:
                found.append((start, start + self.duration))
        return found

    def axis(self) -> Times:
        return self.starts[0], self.starts[-1] + self.duration


def stage_of(text: str) -> str | None:
    """The stage that a text names, "" for one without a line, and None for any other text."""
    if text.startswith(PREFIX):
        word = text[len(PREFIX):]
        return NAMES.get(word, NUMBERS.get(word))
    return "" if text == "Movement time" else NAMES.get(text)


def ends(night: Night, column: int) -> tuple[Fraction, Fraction]:
    """Where a column begins and ends."""
    first, last = night.axis()
    wide = Fraction(last - first, COLUMNS)
    return first + column * wide, first + (column + 1) * wide


def gaps(night: Night) -> list[Times]:
    """From the end of each run to the start of the next."""
    runs = night.runs()
    return [(before[1], after[0]) for before, after in zip(runs, runs[1:])]


def listed_gaps(night: Night) -> list[Times]:
    """The longest ones, in order of time."""
    longest = sorted(gaps(night), key=lambda gap: (gap[0] - gap[1], gap[0]))
    return sorted(longest[:LISTED])


def strip(night: Night) -> str:
    """A letter for each column: `r` is recorded, `g` a gap, and `p` in part."""
    runs, letters, nth = night.runs(), [], 0
    for column in range(COLUMNS):
        start, end = ends(night, column)
        while runs[nth][1] <= start:
            nth += 1
        is_whole = runs[nth][0] <= start and end <= runs[nth][1]
        letters.append("r" if is_whole else "g" if end <= runs[nth][0] else "p")
    return "".join(letters)


def stage_ends(night: Night) -> list[tuple[int, int, str]]:
    """Each stage's onset, its end and its name, in order of onsets: of those at one onset only the
    last lasts."""
    staged = sorted((note for note in night.notes if stage_of(note.text) is not None),
                    key=lambda note: note.onset)
    found = []
    for nth, note in enumerate(staged):
        following = staged[nth + 1].onset if nth + 1 < len(staged) else None
        run_end = next((end for start, end in night.runs() if start <= note.onset < end), None)
        if note.duration:
            end = note.onset + note.duration
        elif following is not None and run_end is not None and following <= run_end:
            end = following
        else:
            end = note.onset + EPOCH
        end = end if following is None else min(end, following)
        found.append((note.onset, end, stage_of(note.text) or ""))
    return found


def hypnogram(night: Night) -> list[str]:
    """The stage of each column: that of the instant in its middle, cut to nanoseconds."""
    staged, found = stage_ends(night), []
    for column in range(COLUMNS):
        start, end = ends(night, column)
        at = int((start + end) / 2)
        is_recorded = any(first <= at < last for first, last in night.runs())
        names = [name for first, last, name in staged if first <= at < last and is_recorded]
        found.append(names[-1] if names else "")
    return found


def marks(night: Night, notes: list[Note]) -> str:
    """A letter for each column: `x` where one of the annotations is. One without a duration is in
    the column of its onset."""
    letters = ["."] * COLUMNS
    first, last = night.axis()
    for note in notes:
        end = note.onset + note.duration
        if note.onset >= last or (note.onset < first and end <= first):
            continue
        begun = min(max(0, (note.onset - first) * COLUMNS // (last - first)), COLUMNS - 1)
        ended = min(-(-(end - first) * COLUMNS // (last - first)) - 1, COLUMNS - 1)
        for column in range(begun, max(begun, ended) + 1):
            letters[column] = "x"
    return "".join(letters)


def lanes(night: Night) -> list[Lane]:
    """Each lane's text, count and marks; that of all others has how many texts it has."""
    others = [note for note in night.notes if stage_of(note.text) is None]
    counts = Counter(note.text for note in others)
    texts = sorted(counts, key=lambda text: (-counts[text], text.encode()))
    found: list[Lane] = [
        (text, counts[text], marks(night, [note for note in others if note.text == text]))
        for text in texts[:OWN]]
    rest = [note for note in others if note.text in texts[OWN:]]
    if rest:
        found.append((len(texts) - OWN, len(rest), marks(night, rest)))
    return found


def band(night: Night, nth: int) -> Edges:
    """The least and the greatest value of a signal in each column, of the samples whose time meets
    the column's; a sample lasts until the next one."""
    count = night.signals[nth].samples
    first, last = night.axis()
    found: Edges = [None] * COLUMNS
    for start, values in zip(night.starts, night.values):
        for place, value in enumerate(values[nth]):
            begins = Fraction(place * night.duration, count) + start - first
            stops = Fraction((place + 1) * night.duration, count) + start - first
            column = begins * COLUMNS // (last - first)
            while column < COLUMNS and column * (last - first) < stops * COLUMNS:
                low, high = found[column] or (value, value)
                found[column] = min(low, value), max(high, value)
                column += 1
    return found


def scale(columns: Edges, lowest: int, is_turned: bool) -> tuple[int, int, int | None]:
    """The least and the greatest value of a band's axis, and the value below it, if there is one:
    the lower digital limit, where it is farther below all others than these are apart, and the
    physical limits are not turned round."""
    values = [value for column in columns if column for value in column]
    over = [value for value in values if value > lowest]
    least, greatest = min(values), max(values)
    if not is_turned and over and least == lowest and min(over) < greatest \
            and min(over) - lowest > greatest - min(over):
        return min(over), greatest, lowest
    return least, greatest, None


def heights(columns: Edges, signal: Signal, high: int = 480, below: int = 60) -> Edges:
    """Where the upper and the lower edge of each column are, in tenths of a pixel. A line has a
    tenth at least, since of one of no length a printer draws nothing."""
    if not any(columns):
        return columns
    low, up = map(float, signal.physical)
    least, greatest, under = scale(columns, signal.digital[0], up < low)
    axis = high if under is None else high - below

    def place(value: int) -> int:
        if under is not None and value <= under:
            return high
        down = value - least if up < low else greatest - value
        return down * axis // (greatest - least) if greatest > least else axis // 2

    def edges(column: Times) -> Times:
        top, foot = sorted(map(place, column))
        return top, max(foot, top + 1)

    return [column and edges(column) for column in columns]
