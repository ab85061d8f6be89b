"""Every line that the programs print, each in one place. What stands in it, the checks have by hand
or from the plain model; the refusals are in faults.py.

An answer is what `take` prints of a file after its name. Its short form is a pair, how many data
records are new and how many known, or the text of a refusal.
"""
import re

from . import faults

ACCEPTED = "accepted"


# Answers

def accepted(new, known=0) -> str:
    """The answer to a file that is taken."""
    return f"{ACCEPTED} new={new} known={known}"


def refused(fault: str) -> str:
    """The answer to a file that is not; `fault` is the text of the refusal."""
    return f"refused {fault}"


def answer(short) -> str:
    """The answer of a short form."""
    return refused(short) if isinstance(short, str) else accepted(*short)


NEW, KNOWN = accepted(1), accepted(0, 1)        # of a file of one data record
UNREAD, UNWRITTEN = refused(faults.read()), refused(faults.write())
NUMBER = re.compile(refused(r"(E\d+)\b"))


def number(text: str) -> str:
    """The number of the refusal that stands in an answer or a line, or nothing."""
    found = NUMBER.search(text)
    return found[1] if found else ""


def is_accepted(text: str) -> bool:
    """Whether an answer says that the file is taken."""
    return text.split(" ")[0] == ACCEPTED


def kind(text: str) -> str:
    """An answer without its counts."""
    return ACCEPTED if is_accepted(text) else text


def count_accepted(lines_of_take: bytes) -> int:
    """How many of the lines of a `take` say that a file is taken."""
    return lines_of_take.count(f" {ACCEPTED} ".encode())


# Lines of files, or of what a program was at

def line(name, text: str) -> str:
    """The line of a file and its answer."""
    return f"{name} {text}\n"


def fault(name, text: str) -> str:
    """The line of a file, or of what a program was at, and its refusal."""
    return line(name, refused(text))


def lines(*pairs) -> str:
    """The lines of files, each with its answer."""
    return "".join(line(name, text) for name, text in pairs)


UNWRITTEN_OUTPUT = fault("standard output", faults.write())
NO_STORE, FOREIGN = fault("store", faults.store()), fault("store", faults.foreign())


def not_closed(text: str) -> str:
    """The line of a store whose database file alone may lack what was accepted, and why."""
    return line("store not closed", text)


NOT_CLOSED = not_closed(faults.store())


def is_store_refused(on_error: bytes) -> bool:
    """Whether standard error says that the store could not be opened."""
    return line("store", refused("")).rstrip().encode() in on_error


# Lines of recordings and runs

def codes(patient: str, investigation: str) -> str:
    """How a line of a recording or a run ends."""
    return f"patient={patient} investigation={investigation}\n"


def recording(place, records, first: str, patient: str, investigation: str) -> str:
    """A line of `edfstore list`."""
    return f"{place} records={records} first={first} {codes(patient, investigation)}"


LISTED = re.compile(recording(r"(\d+)", r"(\d+)", r"\S+", r"\S+", r"\S+"))


def counts_listed(text: str) -> list:
    """The place and the number of data records of each recording that `edfstore list` prints; none
    where one of the lines is no such line."""
    found = [LISTED.fullmatch(one) for one in text.splitlines(keepends=True)]
    return [(int(one[1]), int(one[2])) for one in found] if all(found) else []


def run(number: int, records: int, first: str, seconds: str, gap: str = "", patient: str = "P7",
        investigation: str = "N1") -> str:
    """A line of `edfruns list`; the last run has no gap."""
    rest = f" gap={gap}" if gap else ""
    return (f"{number} records={records} first={first} seconds={seconds}{rest} "
            f"{codes(patient, investigation)}")


def counted(of_run: str, annotations: int, outside: int) -> str:
    """The same of a file of `edfruns split`, with its annotations."""
    front, end = of_run.split(" patient=")
    return f"{front} annotations={annotations} outside={outside} patient={end}"


# Other lines

NOT_UTF_8 = "error: a word is not UTF-8\n"


def version(program: str, number: str) -> str:
    return f"{program} {number}\n"


def no_recording(place) -> str:
    return f"no recording at place {place}\n"


def usage(why: str, words: str) -> str:
    """What is said of words that ask for nothing."""
    return f"error: {why}\n\nUsage: {words}\n\nFor more information, try '--help'.\n"


def is_there(name: str) -> str:
    """What `edfruns split` prints of a file that it would write over."""
    return f"{name} is there already; nothing was written\n"


def changed(name: str) -> str:
    """What `edfruns` prints of a file that is another when it is read again."""
    return f"{name} changed between its readings\n"


def outside(name: str, count: int) -> str:
    """What `edfruns canonical --by-onset` prints of annotations outside of all data records."""
    return f"{name} outside={count}\n" if count else ""


def crowded(number: int) -> str:
    """What `edfruns canonical --by-onset` prints of a run that would have a data record with too
    many annotations."""
    return f"run {number} would have too many annotations in a data record\n"


def undated(number: int) -> str:
    """What `edfruns` prints of a run that no header can date."""
    return f"run {number} starts after 2084, which a file without a date can't tell\n"


# What edfmend prints behind a file's name, where it makes nothing of it
NO_CODE = "names no code of a patient: give one by --patient CODE"
OTHER_COUNT = ("has another number of data records than its header says: --all takes all that are "
               "there")
NO_MARK = "has no room for the word mended in its recording field: 7 bytes are wanted"


def needs_nothing(name: str) -> str:
    """What edfmend prints of a good file."""
    return f"{name} needs nothing\n"


def differs_in_fill(name: str) -> str:
    """What edfmend prints of a file that is mended, where it can name no difference."""
    return f"{name} differs in fill at most\n"


# Where standard error is a terminal, and there alone

WIPED = "\r" + 60 * " " + "\r"
MISSING = "no such file"
MADE = "no such file; made a new, empty store"
EMPTY = "an empty file"
MADE_IN = "an empty file; made a new, empty store in it"
FILE_ON_PATH = "a directory of its path is a file"
NO_FILE = "no such file or directory"
DIRECTORY = "a directory"
UNREADABLE = "no permission to read it"
NO_PLAIN_FILE = "not a plain file, but a directory, a device or a file with a second hard link"
NO_DATABASE = "not a database, or none that can be read here"
NO_PATH = "a path that begins with 'file:' is written './file:'"
NO_NAME = "a path that is empty, or ends with '/', names no file"
DEAD_LINK = "a link to a file that is not there: mount its disk, or remove it"
NO_FOLDER = "its folder is not there: mount its disk, or make it"
IN_MEMORY = "a session keeps its store in a file; './:memory:' is a file of that name"
LOST = ("its file or its log was removed, replaced or cut while it was open: what was taken may be "
        "lost, so send it again")
DAMAGED = ("the file is damaged, or it was copied without its -wal, so copy both, or it has page "
           "sums and sqlite3 wrote or copied it (ANALYZE, VACUUM, .backup): take all its files "
           "into a new store; 'man edfstore' has more")
NOT_PERMITTED = "no permission to read and write it, or files beside it"
UNMADE = "a file of it could not be made: its folder can't be written, or the disk is full"
BUSY = "another program has it open; run this again when that has ended"
OTHER_TABLES = ("its tables are not a store's, or have an index or a trigger; it was left as it is")
OTHER_ROWS = "its rows are such as no submissions leave; put it aside, as it is"
FULL = "the disk is full"
TAKEN = "no file is written over another: give another name, or move that file away"
THERE = ("it is there already, as a stopped run leaves it: once no program writes it, remove it and "
         "run this again")
A_PIPE = ("a pipe can't be read a second time, unless it is written again: write it to a file "
          "first")
CHANGED = "it changed between the two readings: run this again once no program writes it"

# What to do after a refusal
TOO_SHORT = "it has fewer than 256 bytes: it was cut, or is no EDF file; send it again"
PLAIN = ("plain EDF has no annotations signal and no start for each data record: edfstore and "
         "edfruns take EDF+ alone; edfmend makes EDF+ of it")
CUT = ("it was cut, or its count is too high: send it again, or edfmend makes its count what is "
       "there, where a data record is whole")
OTHER_LETTERS = ("a byte of its header is no printable ASCII, as in a name with other letters: "
                 "edfmend spells them in ASCII")
IS_BDF = ("a BDF file, whose samples have 24 bits: edfstore and edfruns take EDF+ alone, so export "
          "it as EDF+")
OVERLAPS = ("it overlaps what is stored, which stays, as where a clock was set back: keep the "
            "file; a store of its own takes it")
STORED_OTHERWISE = ("other samples or annotations are stored for this start, and stay: keep the "
                    "file; where a clock was set back, or EDFlib wrote a card beside its pieces, a "
                    "store of its own takes it")
LEFT_OUT = ("readers may leave out annotations that lie outside of the run; split what "
            "'canonical --by-onset' writes, and only those do whose onsets lie in no run")
NOT_WHOLE = "remove the cause and run it again: what standard output got is not whole"
NOTHING_LEFT = "remove the cause and run it again: no part of it is left, unless a line says so"
STAY = "the files that were made stay: remove them, or give another prefix"

# What is wrong with a field, and what is said behind that: by the programs that mend nothing, and
# by edfmend of E4 and of E5
NO_SEX = "the second subfield of its patient field is no sex (F, M or X)"
NO_BIRTHDATE = ("the third subfield of its patient field is no birthdate (dd-MMM-yyyy, in "
                "capitals, or X)")
FEW_OF_PATIENT = ("its patient field has fewer than the four subfields code, sex, birthdate and "
                  "name")
NO_STARTDATE = "its recording field does not begin with Startdate and a space"
NO_DATE = "after Startdate its recording field has no date (dd-MMM-yyyy, in capitals) and no X"
FEW_OF_RECORDING = ("its recording field has fewer than the three subfields investigation, "
                    "technician and equipment after its date")
BY_EDFMEND = "edfmend makes it that of EDF+, where it has room"
NO_DATE_OR_ROOM = ("its codes have no room, or the startdate is no date, so correct that in a "
                   "copy")


def of_field(wrong: str, to_do: str = BY_EDFMEND) -> str:
    """What is said of a field: what is wrong, and what to do."""
    return f"{wrong}: {to_do}"


# Why edfmend mended nothing
KEPT_TIMES = ("a byte of its startdate, starttime or duration is no printable ASCII: correct it in "
              "a copy")
NO_TIME_GIVEN = ("its starttime is no second as hh.mm.ss: give it by --starttime, where the file "
                 "has none")
NONE_ADDED = ("its number of signals is not from 2 to 640: annotations alone are no recording, and "
              "edfmend reads only plain EDF and EDF+C without them")
NO_LABEL = ("it has no annotations signal, or nothing else: where a label speaks of annotations, "
            "correct it in a copy; EDF+D without one does not say when its data records start")
NO_PHYSICAL = ("this signal's physical limits are no numbers that eight bytes have exactly, or are "
               "equal and its digital ones are no better: correct them in a copy")
NO_DIGITAL = ("this signal's digital limits are no numbers of 16 bits, or are equal: correct them "
              "in a copy")
NONE_WHOLE = "no data record of it is whole: send it again"
NO_LISTS = ("annotations of this data record are no lists: have its producer write them as EDF+ "
            "has them")
SET_BACK = ("this data record starts before the one before it ends: a clock was set back, or "
            "starts are rounded")
UNCOUNTED = ("bytes follow its counted data records: where they are its own, give --all; zeros, "
             "cut them off in a copy")


def cause(path, text: str) -> str:
    """The line of a path and why it is refused, or what was done there."""
    return f"{path}: {text}\n"


def step(nth: int, count: int, megabytes: int = 0, size: int = 0, unit: str = "file") -> str:
    """What is printed as the nth file is begun, and at each megabyte that was read of it. It has
    `size` megabytes, the last of which may be less than one; 0 where that is not known."""
    known = f" of {size}" if size else ""
    return f"\r{unit} {nth} of {count}, {megabytes}{known} MB read"
