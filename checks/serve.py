"""Clients of `edfserve`, and what a session answers and leaves, against the plain model.

    python3 -m checks.serve [--program PATH] [--edfserve PATH] [--seed N] [COUNT]

A client that waits for each answer, one that sends all at once, one that stops reading; names with
spaces and beyond ASCII, and names that lead out of the folder of --from; lines that are none, of
the greatest length and longer, cut by the end of the input; names of pipes, folders and devices; a
store that is refused, that another session has, or that is removed, replaced or cut under a
session; each read, write, sync and cut that fails in turn, after which another session goes on; a
full disk, and room again. Over a pipe, a named pipe, and by socat a socket, where it is installed.
Then COUNT sessions (100 if left out) are killed at a random moment and begun again: what was
answered is held, and in the end all of it is.
"""
import os
import random
import shlex
import shutil
import signal
import subprocess
import tempfile
import threading
import time
from pathlib import Path
from subprocess import PIPE

from checks.lib import (arguments, disks, failing, faults, lost, measure, model, named, night,
                        printed, serving)
from checks.lib.checks import Checks, Lost, compare, end
from checks.lib.serving import NO_COMMAND, Client, status

MOST_LINE = 65_536
MOST_GROWTH = 8_000_000     # bytes of memory that a client may cost which does not read
SMALL = night.Night(records=480, samples=(64, 32), fragments=24)


class Session:
    """What a session answers, by the model."""

    def __init__(self, folder: Path, held=None):
        self.folder, self.held, self.worst = folder, held or model.Store(), 0

    def tell(self, text: str, code: int) -> str:
        self.worst = max(self.worst, code)
        return text + status(code)

    def take(self, name: str) -> str:
        path = self.folder / name
        if not path.is_file():
            return self.tell(printed.fault(name, faults.read()), 3)
        answer = self.held.take(path.read_bytes())
        return self.tell(printed.line(name, answer), 0 if printed.is_accepted(answer) else 1)

    def list(self) -> str:
        return self.tell(self.held.lines(), 0)

    def none(self) -> str:
        return self.tell(NO_COMMAND, 2)


def laid(folder: Path) -> list:
    """The files of a small night under odd names, a broken one, and one of another recording."""
    names = []
    for nth, path in enumerate(SMALL.parts(folder)):
        name = (f"part {nth}.edf", f"Nacht Müller {nth}.edf", f"部分-{nth}.edf",
                f" leading {nth}.edf")[nth % 4]
        path.rename(folder / name)
        names.append(name)
    (folder / "cut.edf").write_bytes((folder / names[0]).read_bytes()[:-7])
    (folder / "other.edf").write_bytes(named.files()["p5.edf"])
    return names


def script(folder: Path) -> list:
    """Lines of each kind, each with its answer by the model."""
    names, told = laid(folder), Session(folder)
    asked = [(f"take {name}", told.take(name)) for name in names[:8]]
    asked.append(("list", told.list()))
    asked += [(f"take {name}", told.take(name)) for name in (names[12], names[3], "cut.edf",
                                                             "missing.edf", "other.edf")]
    asked.append(("list", told.list()))
    for line in ("lists", "take", "take ", "export 1 x.edf", "runs 1", "picture 1 x.svg", "status",
                 "", " list", "list ", "LIST", "\ttake part", "take\0"):
        asked.append((line, told.none()))
    asked.append(("list", told.list()))
    return asked


def compare_store(checks: Checks, given, held: model.Store) -> None:
    """What `edfstore` finds once the session has ended."""
    for words, expected in ((("list", "s.db"), held.lines().encode()),
                            (("export", "s.db", 1), held.export(1))):
        ran = measure.done(given.program, *words, folder=checks.folder)
        checks.same(f"edfstore {words[0]}", ran.out == expected, True)


def held_by(asked: list, folder: Path) -> model.Store:
    held = model.Store()
    for line, _ in asked:
        path = folder / line.removeprefix("take ")
        if line.startswith("take ") and path.is_file():
            held.take(path.read_bytes())
    return held


def waits(checks: Checks, given) -> None:
    checks.begin("a client that waits for each answer")
    asked = script(checks.folder)
    client = Client(given.edfserve, checks.folder)
    for line, answer in asked:
        checks.same(line, client.ask(line), answer)
    checks.same("the end", client.end(), (3, "", ""))
    compare_store(checks, given, held_by(asked, checks.folder))


def sends_all(checks: Checks, given, way: str, words) -> None:
    """All lines at once, by a way that makes them a session's standard input."""
    checks.begin(f"a client that sends all at once, over {way}")
    asked = script(checks.folder)
    lines = "".join(f"{line}\n" for line, _ in asked).encode()
    ran = words(lines)
    checks.same("the answers", ran.out.decode(), "".join(answer for _, answer in asked))
    compare_store(checks, given, held_by(asked, checks.folder))


def over_a_pipe(checks: Checks, given):
    return lambda lines: measure.ran(given.edfserve, "s.db", given=lines, folder=checks.folder)


def over_a_named_pipe(checks: Checks, given):
    def run(lines: bytes) -> measure.Ran:
        os.mkfifo(checks.folder / "lines")
        (checks.folder / "sent").write_bytes(lines)
        line = 'cat sent > lines & exec "$0" s.db < lines'
        return measure.ran("bash", "-c", line, given.edfserve, folder=checks.folder)
    return run


def over_a_socket(checks: Checks, given):
    def run(lines: bytes) -> measure.Ran:
        folder = checks.folder
        # A child that ends with another status than 0 is an error of socat, which then may lose the
        # last answers.
        session = folder / "session"
        session.write_text(f"#!/bin/sh\n{shlex.quote(str(given.edfserve))} s.db\nexit 0\n")
        session.chmod(0o755)
        listening = ("socat", "-t", "60", "UNIX-LISTEN:socket", "EXEC:./session")
        server = subprocess.Popen(listening, cwd=folder)
        while not (folder / "socket").exists():
            time.sleep(0.01)
        ran = measure.ran("socat", "-t", "60", "-", "UNIX-CONNECT:socket", given=lines,
                          folder=folder)
        server.wait()
        return ran
    return run


def below_a_folder(checks: Checks, given) -> None:
    """Names below --from alone are opened."""
    checks.begin("names outside of the folder")
    (checks.folder / "in" / "deep").mkdir(parents=True)
    data = named.files()["p5.edf"]
    for name in ("p.edf", "in/p.edf", "in/deep/p.edf"):
        checks.file(name, data)
    (checks.folder / "in" / "link.edf").symlink_to("../p.edf")
    (checks.folder / "in" / "away").symlink_to("..")
    client = Client(given.edfserve, checks.folder, "--from", "in")
    for name in ("../p.edf", "/etc/passwd", "deep/../../p.edf", "..", "away/p.edf", "link.edf",
                 str(checks.folder / "in/p.edf")):
        checks.same(f"take {name}", client.ask(f"take {name}"),
                    serving.is_outside(name) + status(1))
    for name, answer in (("p.edf", printed.NEW), ("deep/p.edf", printed.KNOWN),
                         ("./p.edf", printed.KNOWN)):
        checks.same(f"take {name}", client.ask(f"take {name}"),
                    printed.line(name, answer) + status(0))
    checks.same("the end", client.end(), (1, "", ""))


def no_regular_file(checks: Checks, given) -> None:
    checks.begin("names of what is no regular file, as a pipe that nobody writes")
    folder = checks.folder
    os.mkfifo(folder / "pipe")
    (folder / "link").symlink_to("pipe")
    (folder / "folder").mkdir()
    checks.file("p.edf", named.files()["p5.edf"])
    client, told = Client(given.edfserve, folder), Session(folder)
    (killer := threading.Timer(30, client.child.kill)).start()
    for name in ("pipe", "link", "folder", "/dev/null", "/dev/stdin", "pipe", "p.edf", "pipe"):
        checks.same(f"take {name}", client.ask(f"take {name}"), told.take(name))
    checks.same("the end", client.end(), (3, "", ""))
    killer.cancel()


def stops_reading(checks: Checks, given) -> None:
    """A client that sends on and reads nothing costs no memory; then it gets every answer."""
    checks.begin("a client that stops reading")
    names, told = laid(checks.folder), Session(checks.folder)
    client = Client(given.edfserve, checks.folder)
    client.ask(f"take {names[0]}"), told.take(names[0])
    before, answer = client.peak(), told.list()
    os.set_blocking(client.child.stdin.fileno(), False)
    sent, until = 0, time.monotonic() + 5
    while time.monotonic() < until:
        sent += client.child.stdin.raw.write(b"list\n") == 5
    checks.same("more memory than before", client.peak() - before < MOST_GROWTH, True)
    os.set_blocking(client.child.stdin.fileno(), True)
    out, err = client.child.communicate()
    checks.same("each line has its answer", out.decode() == answer * sent, True)
    checks.same("the end", (client.child.returncode, err), (0, b""))


def lengths(checks: Checks, given) -> None:
    checks.begin("lines of the greatest length, longer, and cut")
    (checks.folder / "p.edf").write_bytes(named.files()["p5.edf"])
    run = over_a_pipe(checks, given)
    unread = printed.fault("x" * (MOST_LINE - 5), faults.read())
    for size, answer in ((MOST_LINE, unread + status(3)), (MOST_LINE + 1, NO_COMMAND + status(2)),
                         (50 * MOST_LINE, NO_COMMAND + status(2))):
        line = b"take ".ljust(size, b"x")
        is_last = size > MOST_LINE
        for after, more in ((b"\n", ""), (b"\nlist\n", "" if is_last else status(0)), (b"", "")):
            ran = run(line + after)
            checks.same(f"{size} bytes", (ran.out.decode(), ran.err, ran.status),
                        (answer + more, b"", 2 if is_last else 3))
    for line, answer, code in (
            (b"take p.edf", printed.line("p.edf", printed.NEW) + status(0), 0),
            (b"lis", NO_COMMAND + status(2), 2), (b"", "", 0),
            (b"take \xff\n", NO_COMMAND + status(2), 2)):
        ran = run(line)
        checks.same(f"{line} and the end", (ran.out.decode(), ran.status), (answer, code))


def refused_store(checks: Checks, given) -> None:
    checks.begin("a store that is refused")
    checks.file("s.db", b"no database at all" * 100)
    ran = over_a_pipe(checks, given)(b"list\n")
    first, *cause = ran.err.decode().splitlines(keepends=True)
    checks.same("standard output and status", (ran.out, ran.status), (b"", 3))
    checks.same("the refusal and its cause", (first, len(cause)), (printed.NO_STORE, 1))
    checks.same("the file is as it was", checks.content("s.db"), b"no database at all" * 100)
    checks.same("and alone", checks.names(), ["s.db"])
    (checks.folder / "link.db").symlink_to("later.db")
    before = checks.names()
    for path, why in (("none/s.db", printed.NO_FOLDER), ("link.db", printed.DEAD_LINK),
                      ("", printed.NO_NAME), ("new.db/", printed.NO_NAME),
                      (":memory:", printed.IN_MEMORY)):
        ran = measure.ran(given.edfserve, path, given=b"list\n", folder=checks.folder)
        refusal = printed.NO_STORE + printed.cause(path, why)
        checks.compare(f"edfserve '{path}'", ran, "", refusal, 3)
    checks.same("nothing was made", checks.names(), before)


def gone(checks: Checks, given) -> None:
    checks.begin("an option that earlier versions had")
    ran = measure.ran(given.edfserve, "--to", "out", "s.db", given=b"list\n", folder=checks.folder)
    why = "--to is gone: a session writes no files, but 'edfstore export' does once it has ended"
    checks.compare("edfserve --to", ran, "", printed.usage(why, "edfserve [OPTIONS] <STORE>"), 2)
    checks.same("the files", checks.names(), [])


def held_store(checks: Checks, given) -> None:
    """A store that another session has: it is waited for, two seconds at most."""
    checks.begin("a store that another session has")
    client = Client(given.edfserve, checks.folder)
    checks.same("list", client.ask("list"), status(0))
    ran = over_a_pipe(checks, given)(b"list\n")
    checks.compare("the second session", ran, "",
                   printed.NO_STORE + printed.cause("s.db", printed.BUSY), 3)
    checks.same("it waits", 2 <= ran.seconds < 6, True)
    waiting = Client(given.edfserve, checks.folder)
    waiting.send("list")
    time.sleep(0.5)
    checks.same("the end of the first", client.end(), (0, "", ""))
    checks.same("the third session", waiting.end(), (0, status(0), ""))


def full_disk(checks: Checks, given) -> None:
    checks.begin("a full disk, and room again")
    with disks.Disk(checks.folder / "disk", 3 * 1_024) as disk:
        if not disk.is_mounted:
            print("a full disk: left out, since this user may not mount a tmpfs")
            return
        names, held = laid(checks.folder), model.Store()
        client = Client(given.edfserve, disk.place)
        checks.same("before", client.ask(f"take ../{names[0]}").endswith(status(0)), True)
        disk.fill()
        answers = [client.try_to_ask(f"take ../{name}") for name in names[1:]]
        refused = [answer for answer in answers if not answer.endswith(status(0))]
        no_room = printed.fault(f"../{names[len(answers) - len(refused) + 1]}", faults.store())
        checks.same("the one that has no room, and none after it", refused,
                    [no_room + status(3)] + [""] * (len(refused) - 1))
        checks.same("the end", client.end()[0], 3)
        disk.empty()
        client = Client(given.edfserve, disk.place)
        for nth, name in enumerate(names):
            answer = held.take((checks.folder / name).read_bytes())
            if nth > len(answers) - len(refused):
                checks.same(name, client.ask(f"take ../{name}"),
                            printed.line(f"../{name}", answer) + status(0))
            else:
                checks.same(name, client.ask(f"take ../{name}").endswith(status(0)), True)
        checks.same("list", client.ask("list"), held.lines() + status(0))
        checks.same("the end of another", client.end(), (0, "", ""))


def killed_once(program: Path, folder: Path, names: list, rng: random.Random) -> int:
    """Begins a session over these files and kills it; how many were answered."""
    child = subprocess.Popen([program, "s.db"], cwd=folder, stdin=PIPE, stdout=PIPE)
    child.stdin.write("".join(f"take {name}\n" for name in names).encode())
    child.stdin.flush()
    time.sleep(rng.uniform(0, 0.25))
    child.send_signal(signal.SIGKILL)
    out, _ = child.communicate()
    return out.count(b"status 0\n")


def killed(given, folder: Path, seed: int) -> None:
    """One store whose sessions are killed until all is held."""
    rng = random.Random(seed)
    names = laid(folder)
    rng.shuffle(names)
    holdings = [model.Store()]
    for nth in range(len(names)):
        held = model.Store()
        for name in names[:nth + 1]:
            held.take((folder / name).read_bytes())
        holdings.append(held)
    lists = [held.lines() for held in holdings]
    answered = killed_once(given.edfserve, folder, names, rng)
    listed = measure.done(given.program, "list", "s.db", folder=folder).out.decode()
    if listed not in lists[answered:answered + 2]:
        raise Lost(f"{answered} files were answered, and the store has {listed!r}")
    client = Client(given.edfserve, folder)
    for name in names:
        if f"{name} {printed.ACCEPTED} " not in client.ask(f"take {name}"):
            raise Lost(f"{name} is not accepted when the session is begun again")
    compare("the list", client.ask("list"), lists[-1] + status(0))
    compare("the end", client.end(), (0, "", ""))
    export = measure.done(given.program, "export", "s.db", 1, folder=folder).out
    compare("the export", export, holdings[-1].export(1))


def kills(given) -> int:
    for nth in range(given.count):
        with measure.scratch() as folder:
            killed(given, Path(folder), given.seed + nth)
    return given.count


def main() -> None:
    parser = arguments.Parser(__doc__, programs=("edfstore", "edfserve"), count=100)
    parser.add_argument("--seed", metavar="N", type=int, default=1, help="of the kills; else 1")
    given = parser.read()
    with tempfile.TemporaryDirectory(prefix="edfserve-checks-") as name:
        checks = Checks(given.edfserve, Path(name), "edfserve")
        waits(checks, given)
        sends_all(checks, given, "a pipe", over_a_pipe(checks, given))
        sends_all(checks, given, "a named pipe", over_a_named_pipe(checks, given))
        if shutil.which("socat"):
            sends_all(checks, given, "a socket", over_a_socket(checks, given))
        below_a_folder(checks, given)
        no_regular_file(checks, given)
        stops_reading(checks, given)
        lengths(checks, given)
        refused_store(checks, given)
        gone(checks, given)
        held_store(checks, given)
        lost.run(checks, given)
        failing.run(checks, given)
        full_disk(checks, given)
        try:
            count = kills(given)
        except Lost as why:
            print(f"LOST: {why}")
            end(checks.done + 1, checks.failed + 1)
    print(f"{count} sessions killed, and begun again: nothing was lost")
    end(checks.done + count, checks.failed)


if __name__ == "__main__":
    main()
