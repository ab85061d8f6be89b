"""The files of the programs' stored runs, which the gate runs: compared with those made here, and
run; or written anew.

    python3 -m checks.lines.stored [--program PATH] [--edfruns PATH] [--edfmend PATH] [--write]

--write writes stdin, stdout and data/ of the three crates. PATH is a program, of edfstore, edfruns
and edfmend; the one that its script in bin runs where it is left out. What goes in is built field
by field; what must come out is written by hand, below and in lib/stories.py and the other files of
stories there, and compared with the plain model. Of the program's own making is only the store
held.db: the identity, start and samples of each row of it are compared with the model. The stores
of lib/foreign.py are made by Python's SQLite, and no other is needed.

The stories are played by the programs too, over a new file for each store. Those of a store with
another cap than edfstore's own are left to the gate.
"""
import shutil
import sqlite3
import sys
from pathlib import Path

from checks.lib import (arguments, chance, edf, foreign, measure, mend_stories, model, named,
                        printed, run_stories, stories, word_stories)
from checks.lib.by_hand import MARCH_3, OVERLAPS
from checks.lib.checks import end

CRATES = arguments.TOP / "crates"
FILES = edf.small_files()
Q, P5, R9, K, U = (FILES[letter] for letter in ("Q", "P5", "R9", "K", "U"))
HOUR = 3610     # seconds from Q's start to one in the morning
MANY = 600
STORED = "edfstore_stored_run"
PROGRAMS = ("edfstore", "edfruns", "edfmend")
OVER_FILES = ("edfruns", "edfmend", "cat")      # how a line begins that needs no store
OWN_RUN = f"files {stories.MOST} "      # and one whose store is a file


def nap() -> bytes:
    """Two data records of half a second of another patient, with two ordinary signals."""
    signals = (edf.Signal("EEG C3-A2", samples="4"), edf.annotations_signal(10),
               edf.Signal("EMG chin", samples="2"))
    header = edf.Header(signals, "04.03.02", "13.00.00", "P12 M X Doe",
                        "Startdate 04-MAR-2002 N4 T1 REC2", "EDF+C", "2", "0.5")
    return edf.fragment(
        header,
        [(bytes(range(12)), edf.keeping("+0.25")), (bytes(range(12, 24)), edf.keeping("+0.75"))])


def sample_bytes(nth: int) -> bytes:
    return nth.to_bytes(2, "little") + (3 * nth).to_bytes(2, "little")


def long_spelling() -> bytes:
    """Ten minutes from one o'clock: annotations before the samples, texts in one list, with spare
    samples."""
    blocks = [edf.keeping(f"+{n}.000") +
              (edf.tal(f"+{n}.50", "Snore", "Turn") if n % 7 == 0 else b"") for n in range(MANY)]
    header = edf.Header((edf.annotations_signal(57), edf.Signal()), starttime="01.00.00",
                        reserved="EDF+C", count=str(MANY), **MARCH_3)
    return edf.fragment(header, [(sample_bytes(n), block) for n, block in enumerate(blocks)])


def card() -> bytes:
    """The same and Q, from Q's start on: annotations after the samples, a list a text, no more
    samples than needed."""
    records = [(Q[768:772], edf.keeping("+0"))]
    for n in range(MANY):
        onset = HOUR + n
        notes = [edf.tal(f"+{onset}.5", text) for text in ("Snore", "Turn") if n % 7 == 0]
        records.append((sample_bytes(n), edf.keeping(f"+{onset}") + b"".join(notes)))
    header = edf.Header((edf.Signal(), edf.annotations_signal(19)), count=str(MANY + 1))
    return edf.fragment(header, records)


def exported() -> bytes:
    """What P5, K, Q and R9 come to: six data records in the order of their starts, from Q's on."""
    snore = edf.keeping("+15") + edf.tal("+15.5", "Snore") + edf.tal("+15.5", "Turn")
    records = [(Q[768:772], edf.keeping("+0")), (bytes.fromhex("0300FDFF"), edf.keeping("+10")),
               (bytes.fromhex("0200FEFF"), snore)]
    records += [(bytes([n, 0, 0, 0]), edf.keeping(f"+{HOUR + n - 10}")) for n in (10, 11, 12)]
    return edf.fragment(edf.Header((edf.Signal(), edf.annotations_signal(16)), count="6"), records)


HELD = (P5, K, U, Q, nap(), R9)
LISTED = (printed.recording(1, 2, "2002-03-04T13:00:00.25", "P12", "N4") +
          printed.recording(2, 6, "2002-03-02T23:59:50", "P7", "N1") +
          printed.recording(3, 2, "2002-03-02T22:00:00", "X", "X")).encode()
TAKEN = printed.lines(("a.edf", printed.NEW), ("missing.edf", printed.UNREAD),
                      ("b.edf", printed.refused(OVERLAPS)), ("-", printed.accepted(600)),
                      ("card.edf", printed.accepted(0, 601))).encode()


def store(program: Path, folder: Path) -> bytes:
    """The file of a store of these fragments, taken in that order by the program."""
    names = []
    for nth, data in enumerate(HELD):
        names.append(f"{nth}.edf")
        (folder / names[-1]).write_bytes(data)
    measure.done(program, "take", "night.db", *names, folder=folder)
    return (folder / "night.db").read_bytes()


def of_the_program() -> list:
    """Words of the program over files, each with what it writes to standard output and its
    status."""
    return [("list held.db", LISTED, 0), ("export held.db 2", exported(), 0),
            ("convert cut.edf", b"", 1), ("export held.db 0", b"", 2), ("take held.db", b"", 2),
            ("take :memory: q.edf", f"q.edf {printed.NEW}\n".encode(), 0),
            ("list :memory:", b"", 0)]


def orders_of(script: stories.Script) -> tuple:
    """The file `orders` of edfstore_stored_run, and what is written for it."""
    lines = [("# the program by other words, over stores that are files", b"")]
    lines += [(f"edfstore {words}", out + f"{stories.ended(status)}\n".encode())
              for words, out, status in of_the_program()]
    lines += [(order, "".join(f"{line}\n" for line in written).encode())
              for order, written in script.lines]
    return ("".join(f"{order}\n" for order, _ in lines).encode(),
            b"".join(order.encode() + b"\n" + out for order, out in lines))


def files_of(held: bytes, script: stories.Script) -> dict:
    """Every stored file by its path."""
    orders, written = orders_of(script)
    data = script.files | {"held.db": held, "a.edf": Q, "b.edf": FILES["half"], "card.edf": card(),
                           "orders": orders}
    return {f"{STORED}/data/{name}": content for name, content in data.items()} | {
        "edfstore/stdin": Q, "edfstore/stdout": Q, f"{STORED}/stdin": long_spelling(),
        f"{STORED}/stdout": TAKEN + written, "edfruns/data/loose.edf": data["loose.edf"],
        "edfruns/stdout": data["canonical_loose.edf"]}


def by_model() -> None:
    """Ends the script where the plain model answers otherwise than what is written here by hand."""
    held = model.Store()
    for data in HELD:
        held.take(data)
    taken = model.Store()
    files = (("a.edf", Q), ("missing.edf", None), ("b.edf", FILES["half"]), ("-", long_spelling()),
             ("card.edf", card()))
    lines = printed.lines(*((name, taken.take(data) if data else printed.UNREAD)
                            for name, data in files))
    if held.lines().encode() != LISTED or held.export(2) != exported() or lines.encode() != TAKEN:
        sys.exit("the model answers otherwise")


def rows(path: Path, folder: Path) -> list:
    """The identity, start and samples of every row of a store's file, of which a copy is opened."""
    copy = folder / "copy.db"
    measure.remove_store(copy)
    shutil.copy(path, copy)
    with sqlite3.connect(copy) as held:
        return list(held.execute("SELECT identity, start, samples FROM record JOIN recording ON "
                                 "recording.id = recording ORDER BY identity, start"))


def rows_by_model() -> list:
    """The same of each data record that is to be held."""
    held = model.Store()
    for data in HELD:
        held.take(data)
    return [(key.to_bytes(), record.start, record.samples) for key in held.keys()
            for record in held.held[key][1]]


def is_stored(path: str, expected: bytes, folder: Path) -> bool:
    """Whether a stored file is this one; of a store what it has is compared."""
    at = CRATES / path
    if not at.exists():
        return False
    if at.name == "held.db":
        return rows(at, folder) == rows_by_model()
    if at.suffix == ".db":
        return foreign.dump(at.read_bytes()) == foreign.dump(expected)
    return at.read_bytes() == expected


def call(program: Path, words: list, given: bytes, room: Path) -> tuple:
    """What the program writes to standard output, and its status."""
    ran = measure.ran(program, *words, given=given, folder=room)
    return ran.out, ran.status


def run(program: Path, crate: Path, folder: Path) -> bool:
    """Whether a stored run ends as it must, as the gate runs it."""
    room = folder / crate.name
    room.mkdir()
    if (crate / "data").is_dir():
        shutil.copytree(crate / "data", room, dirs_exist_ok=True)
    words, given, expected, status = (
        (crate / name).read_bytes() if (crate / name).exists() else b""
        for name in ("args", "stdin", "stdout", "status"))
    written, ends = call(program, words.decode().splitlines(), given, room)
    if crate.name == STORED:
        written, expected = written.splitlines(), TAKEN.splitlines()
        for order, out, last in of_the_program():
            written.append(call(program, order.split(), b"", room))
            expected.append((out, last))
    is_well = written == expected and ends == int(status or 0)
    print(f"{crate.name} {'ran, and wrote what it must' if is_well else 'FAILED'}")
    return is_well


def all_stories() -> stories.Script:
    """The stories of the three programs."""
    script = stories.script(named.files() | foreign.files() | chance.files() | run_stories.files())
    foreign.play(script)
    chance.play(script)
    word_stories.play(script)
    run_stories.play(script)
    mend_stories.play(script)
    return script


def answered(programs: dict, words: list, room: Path) -> tuple:
    """What a command writes to standard output and to standard error, and how it ends."""
    if words[0] == "cat":
        return (room / words[1]).read_bytes(), b"", []
    program = programs.get(words[0])
    given = words[1:] if program else words
    ran = measure.ran(program or programs["edfstore"], *given, folder=room)
    return ran.out, ran.err, [stories.ended(ran.status)]


def played(programs: dict, order: str, room: Path, nth: int) -> list:
    """The lines of a command of a story, over the nth store, unless it names one that is a file."""
    words, _, name = order.removeprefix(OWN_RUN).partition(" = ")
    given = [f"{nth}.db" if word == "night.db" else word for word in words.split()]
    out, err, last = answered(programs, given, room)
    text = out.decode("latin-1")
    if name:
        text = stories.just(name, len(out), out == (room / name).read_bytes())
    error = stories.on_error(err.decode()).splitlines() if err else []
    return [*text.splitlines(), *error, *last]


def can_be_asked(order: str, is_own: bool) -> bool:
    """Whether the programs can be given a line: it is no title, and its store, if it has one, has
    the program's own cap, as the one in memory has or has not."""
    if order.startswith("files "):
        return order.startswith(OWN_RUN)
    return not order.startswith("#") and (is_own or order.startswith(OVER_FILES))


def play(programs: dict, script: stories.Script, room: Path) -> tuple:
    """How many commands of the stories the programs were given, but for those of a store with
    another cap, and how many they answered otherwise than they must."""
    nth, is_own, wrong, done = 0, False, 0, 0
    for order, expected in script.lines:
        if order.startswith("store "):
            nth, is_own = nth + 1, order == f"store {stories.MOST}"
        elif can_be_asked(order, is_own):
            written = played(programs, order, room, nth)
            done += 1
            if written != list(expected):
                wrong += 1
                print(f"{order}: {written}\n  by hand: {list(expected)}")
    return done, wrong


def write(files: dict) -> None:
    """The stored files anew."""
    shutil.rmtree(CRATES / STORED / "data", ignore_errors=True)
    for path, data in files.items():
        (CRATES / path).parent.mkdir(parents=True, exist_ok=True)
        (CRATES / path).write_bytes(data)


def main() -> None:
    parser = arguments.Parser(__doc__, PROGRAMS)
    parser.add_argument("--write", action="store_true", help="write the files anew")
    given = parser.read()
    by_model()
    script = all_stories()
    with measure.scratch() as name:
        folder = Path(name)
        files = files_of(store(given.program, folder), script)
        if given.write:
            write(files)
        others = [path for path, expected in files.items() if not is_stored(path, expected, folder)]
        for path in others:
            print(f"{path} is not what is made here")
        ran = [run(given.program, CRATES / "edfstore", folder),
               run(given.program, CRATES / STORED, folder),
               run(given.edfruns, CRATES / "edfruns", folder)]
        programs = {"edfstore": given.program, "edfruns": given.edfruns, "edfmend": given.edfmend}
        done, wrong = play(programs, script, folder / STORED)
    end(len(ran) + done, len(others) + ran.count(False) + wrong)


if __name__ == "__main__":
    main()
