"""The stories of the words of `edfstore` in the stored run edfstore_stored_run: which command they
ask for, or what is said where they ask for help or for nothing.

The texts are those of the man page and of `clap`, written by hand.
"""
from . import faults, printed, stories
from .stories import Script, ended, listed, on_error

PLACE = "PLACE is a recording's place in the list, in digits, from 1 to 4294967295"
MOST_PLACE = 4_294_967_295
TAKE_USAGE, LIST_USAGE = "edfstore take <STORE> <FILE>...", "edfstore list <STORE>"
EXPORT_USAGE, CONVERT_USAGE = "edfstore export <STORE> <PLACE>", "edfstore convert <FILE>"

HELP = """\
Keeps sleep recordings: takes EDF+ files in any order and as often as they are
sent, and gives each recording back as one EDF+D file.

Usage: edfstore <COMMAND>

Commands:
  take     Takes EDF+ files into a store, each whole or not at all
  list     Lists the recordings of a store
  export   Writes one recording to standard output, as an EDF+D file
  convert  Writes one EDF+ file to standard output, in canonical form
  help     Print this message or the help of the given subcommand(s)

Options:
  -h, --help     Print help
  -V, --version  Print version

Example, a night that came in pieces, and the memory card with all of it:
  edfstore take night.db part1.edf part2.edf part3.edf
  edfstore take night.db card.edf
  edfstore list night.db
  edfstore export night.db 1 > night.edf

Without words edfstore converts standard input to standard output, as
'edfstore convert -' does.

Status:
  0  done
  1  a file was refused, or no recording has that place
  2  the words ask for nothing that can be done
  3  trouble with a file, standard output, memory or the store
"""

STORE_VALUE = """\
  <STORE>
          The store's SQLite file, or :memory: for an empty one, kept nowhere
"""
OPTIONS = """\
Options:
  -h, --help
          Print help (see a summary with '-h')
"""

TAKE_HELP = f"""\
Takes EDF+ files into a store, in the order given, each whole or not at all.

Data records that the store holds already are known and not stored again, so a
file may be sent as often as you like. A file is refused where it breaks a rule
of EDF+, and where one of its data records overlaps a stored one of the same
recording or differs from it at the same start. Then the store stays as it was,
and the next file has its turn.

A line tells what became of each file:
  FILE accepted new=N known=K
  FILE refused E31 Differs start=2002-03-02T23:59:50

Usage: {TAKE_USAGE}

Arguments:
{STORE_VALUE}
  <FILE>...
          Files in EDF+C or EDF+D, or - for standard input

{OPTIONS}
Examples:
  edfstore take night.db part1.edf part2.edf
  zcat part3.edf.gz | edfstore take night.db -
"""

LIST_HELP = f"""\
Lists the recordings of a store, a line each: its place, how many data records
are held, the start of the first, patient code and investigation code.

Files belong to one recording where patient identification, recording
identification, duration of a data record and ordinary signals are the same. Of
the start date in the recording identification it counts only whether there is
one.

Usage: {LIST_USAGE}

Arguments:
{STORE_VALUE}
{OPTIONS}
Example:
  edfstore list night.db
  1 records=2880 first=2002-03-02T23:59:50 patient=P7 investigation=N1
"""

EXPORT_HELP = f"""\
Writes one recording of a store to standard output: an EDF+D file of all its
data records in time order, with their annotations. The store stays as it is.

The same data records give the same bytes, in whatever files and whatever order
they were taken.

Usage: {EXPORT_USAGE}

Arguments:
{STORE_VALUE}
  <PLACE>
          The recording's place in the list, from 1

{OPTIONS}
Example:
  edfstore export night.db 1 > night.edf
"""

CONVERT_HELP = f"""\
Writes one EDF+ file to standard output in canonical form, without a store:
EDF+D, the annotations signal last and no larger than it must be, onsets and
durations in the fewest digits. A file that is refused leaves standard output
empty.

Usage: {CONVERT_USAGE}

Arguments:
  <FILE>
          A file in EDF+C or EDF+D, or - for standard input

{OPTIONS}
Examples:
  edfstore convert recorder.edf > night.edf
  zcat recorder.edf.gz | edfstore convert - > night.edf
"""


def misspelled(script: Script, words: str, why: str, usage: str) -> None:
    """Words that ask for nothing."""
    text = f"error: {why}\n\nUsage: {usage}\n\nFor more information, try '--help'."
    script.line(words, *on_error(text).splitlines(), ended(2))


def unexpected(word: str) -> str:
    """Why words are refused that have an option which is none."""
    return f"unexpected argument '{word}' found\n\n  tip: to pass '{word}' as a value, use " \
           f"'-- {word}'"


def missing(value: str) -> str:
    return f"the following required arguments were not provided:\n  {value}"


def helped(script: Script, words: str, text: str) -> None:
    """Words that ask for help."""
    script.line(words, *text.splitlines(), ended(0))


def of_a_command(script: Script) -> None:
    script.title("a store in memory, standard input that has ended, a place of ten digits, and a "
                 "store with the name of a command")
    script.empty()
    script.line("list :memory:", ended(0))
    script.line("take :memory: q.edf", f"q.edf {printed.NEW}", ended(0))
    script.line("convert -", on_error(printed.fault("-", faults.cut())), ended(1))
    script.empty()
    script.line("take night.db - q.edf", printed.fault("-", faults.cut()).rstrip(),
                f"q.edf {printed.NEW}", ended(1))
    script.line(f"export :memory: {MOST_PLACE}", on_error(printed.no_recording(MOST_PLACE)),
                ended(1))
    script.over_files("list")
    script.take("n3.edf 1 0", "n1.edf 1 0", "n2.edf 1 0")
    script.list(listed(1, 3, stories.at_one(0)))


def for_nothing(script: Script) -> None:
    script.title("words of edfstore that ask for nothing")
    script.empty()
    misspelled(script, "list", missing("<STORE>"), LIST_USAGE)
    misspelled(script, "list night.db 1", "unexpected argument '1' found", LIST_USAGE)
    misspelled(script, "list -x", unexpected("-x"), LIST_USAGE)
    misspelled(script, "list --version", unexpected("--version"), LIST_USAGE)
    misspelled(script, "--version=1",
               "unexpected value '1' for '--version' found; no more were expected",
               "edfstore --version <COMMAND>")
    misspelled(script, "take night.db", missing("<FILE>..."), TAKE_USAGE)
    for words in ("frob", "frob night.db"):
        misspelled(script, words, "unrecognized subcommand 'frob'", "edfstore <COMMAND>")
    for place in ("0", "+7", "7th", str(MOST_PLACE + 1)):
        misspelled(script, f"export night.db {place}", PLACE, EXPORT_USAGE)


def for_help(script: Script) -> None:
    script.title("words that ask for help")
    for words, text in (("--help", HELP), ("-h", HELP), ("take --help", TAKE_HELP),
                        ("list --help", LIST_HELP), ("export --help", EXPORT_HELP),
                        ("convert --help", CONVERT_HELP), ("help convert", CONVERT_HELP)):
        helped(script, words, text)


def play(script: Script) -> None:
    for part in (of_a_command, for_nothing, for_help):
        part(script)
