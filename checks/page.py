"""Gives files to the page `edfstore.html` in headless Chromium and Firefox, and in WebKit, and
compares every byte that it gives with those of the programs.

    python3 -m checks.page [--program PATH] [--edfruns PATH] [--edfmend PATH] [--page FILE]
                           [--browser NAME]... [--without-night] [--screenshots FOLDER] [--control]
                           [COUNT]

Chromium and Firefox take the module of 64-bit memory, and as chromium-32 and firefox-32 a page
without it, of which they take the other module, as WebKit does.

A technician does all by keys alone: gives it a night in pieces with one that was cut, one of other
letters and a foreign one, sees why, mends, adds the card, and saves all there is; cards of EDFlib
by onset; a job that is cancelled; files that change later; files that are dropped; files that
contradict each other, of which one is taken first or out; faulty fields, recordings of the same
codes, and work that is not saved; twelve pieces of plain EDF, a torn piece beside its card, two
nights without a code, files that are no recordings, a card that is pulled out, a file that waits;
and what may be said only where it is so: what is missing of a card that was cut, and its like.
Each state is looked at on four screens, light and dark, for pale texts and what has no room; so are
paper, long names, the picture's letters and a screen's own colours. `--screenshots` keeps them.

COUNT files by chance, 2,000 if left out; the page is the one that bin/page built of these sources,
unless --page names another, as release/edfstore.html. Files are taken in lists: by chance, half of
them broken; of each number of refusal that a file of this size can have; foreign ones; of odd
names; several of one name; of 639 signals. For each list the lines of `edfstore take` and `edfstore
list`, and for each recording the file of `edfstore export`, the lines of `edfruns list` and the
picture of `edfruns picture` must be what the page gives, byte for byte; and so what edfruns and
edfmend do with some of the files, as the page asks them.

Then a night of 195 MB, with its time and memory beside the programs' (MOST_TIMES, MOST_MEMORY); a
module that may have little memory: E41, and no file is offered; a trap: no file is offered, and the
module lets no call in after it; files that are removed, cut, longer or replaced since they were
chosen; in which of the ways of lib/sends.py the page reaches a server: none; what is too much for
32 bits, which is told at once; in WebKit as much as is not too much, a card and its pieces; and a
browser without WebAssembly, which is told in a sentence.

--control gives lists to pages that answer wrongly: a script that exchanges the files of two
recordings, which must be found, and modules with one instruction changed in a function that runs:
in one function of four one of some such changes must be found.

It needs chromium, firefox-esr and webkit2gtk-driver with xvfb, as Debian has them.
"""
import base64
import json
import os
import re
import sys
import time
import zlib
from dataclasses import dataclass, field
from pathlib import Path
from typing import Any

from checks.lib import (appearance, arguments, claims, measure, modules, morning, night,
                        page_files, printed, second_thoughts, sends, technician)
from checks.lib.checks import Lost, compare, end
from checks.lib.chromium import Chromium
from checks.lib.firefox import Firefox
from checks.lib.hands import ChromiumHands, FirefoxHands
from checks.lib.natively import Native, sum_of, written
from checks.lib.webkit import WebKit
from checks.lib.webkit_hands import WebKitHands

# The kinds of browsers; those with a 32 take the lowered module, as WebKit has no other
BROWSERS: dict[str, Any] = {"chromium": Chromium, "chromium-32": Chromium, "firefox": Firefox,
                            "firefox-32": Firefox, "webkit": WebKit}
HANDS = {Chromium: ChromiumHands, Firefox: FirefoxHands, WebKit: WebKitHands}
# The same browsers without WebAssembly
OFF: dict[Any, Any] = {Chromium: lambda folder: Chromium(folder, "--js-flags=--jitless"),
                       Firefox: lambda folder: Firefox(folder, javascript_options_wasm=False),
                       WebKit: lambda folder: WebKit(folder, JSC_useWasm="0")}
MOST_TIMES = {Chromium: 3, Firefox: 6, WebKit: 6}       # of the programs' time
MOST_MEMORY = 1_400_000_000                     # bytes, of the module
LATER = {f"files by chance, {nth}" for nth in range(3, 99)}     # of these no second half comes
MOST_BYTES = 2_600_000                          # of the page
SECONDS = 300                                   # that the page may take
PATIENCE = 8                                    # seconds, for a module that was changed
LONG_BODY, TRIED_BODIES = 60, 150               # bytes of a function, and how many are looked at
ENOUGH = 16                                     # functions that run
LONGEST = 150                                   # seconds to look for them, and to change them
LITTLE = night.Night(records=2_000, fragments=1)        # 13 MB
LARGEST = night.Night(records=70_000, fragments=24)     # 474 MB, of which 32 bits take two
MODULE = r'<script type="text/plain" id="module{}">([A-Za-z0-9+/=]*)</script>\n'
# All that the page asks edfruns for; and texts for edfmend: OUT, what each of these options has,
# and any text for --all
RUNS = ("list", "canonical --by-onset", "picture --without-code", "split", "fill",
        "cut --from 2002-03-02T23:59:51 --to 2002-03-03T00:00:05.25")
FILES = ("canonical", "fill", "cut")            # of these the page has what is written as a file
OPTIONS = ("--patient", "--set-patient", "--deidentify", "--startdate", "--starttime")
VALUES = [texts.split("|") for texts in (
    "||||||", "out.edf||||||", "out.edf|S-9|||01.02.03|22.15.00|", "|S 1|||||",
    "out.edf||||||all", "||X-1||||all", "out.edf|||Q-7|||")]
SUM = """const sum = async (bytes) => [...new Uint8Array(await crypto.subtle.digest("SHA-256",
    bytes))].map((byte) => byte.toString(16).padStart(2, "0")).join("");"""
CALLED = r"""(async () => {
  SUM
  const text = (it) => sum(new TextEncoder().encode(it)), file = window.chosen[NTH], all = [];
  for (const call of CALLS) {
    const [, from, to] = /^cut --from (\S+) --to (\S+)$/.exec(call) ?? [];
    const [{ status, out, err, made }] = await runEach(from ? "cut" : call,
      [{ name: file.name, blob: file, from, to }]) ?? [{ made: [] }];
    const each = made.map(async ({ name, blob }) => [name, await sum(await blob.arrayBuffer())]);
    all.push([status, await (typeof out === "string" ? text(out) : out.arrayBuffer().then(sum)),
      await text(err), (await Promise.all(each)).sort()]);
  }
  return all;
})()""".replace("SUM", SUM)
COMPARED = """(async () => {
  const first = window.chosen[FIRST], second = window.chosen[SECOND];
  const [it] = await runEach("compare", [{ name: second.name, blob: second, first }]) ?? [{}];
  return [it.status, it.out, it.err];
})()"""
GIVEN = """(async () => {
  SUM
  const answer = window.answer;
  if (!answer) return null;
  const recordings = [];
  for (const { file, runs, picture } of answer.recordings) {
    recordings.push([await sum(await file.arrayBuffer()), runs.text,
      await sum(new TextEncoder().encode(picture))]);
  }
  return [answer.taken, answer.listed, recordings];
})()""".replace("SUM", SUM)
UNPACKED = """const packed = Uint8Array.from(
    atob(document.getElementById(MODULE).textContent), (it) => it.charCodeAt(0));
  const bytes = new Uint8Array(await new Response(new Response(packed).body.pipeThrough(
    new DecompressionStream("deflate-raw"))).arrayBuffer());"""
# Two calls of one module, the first of which traps, and one of another
GUARDED = """(async () => {
  UNPACKED
  const module = await WebAssembly.compile(bytes);
  const instance = () => new WebAssembly.Instance(module, {}).exports;
  const call = (it, count, names) => {
    const place = it.dlmalloc(4096n), out = it.dlmalloc(4096n), parts = it.dlmalloc(64n);
    new BigUint64Array(it.memory.buffer, Number(place), 1)[0] = 1n;
    try {
      return it.night(names ?? place, place, place, place, count, count, count,
        out, 4096n, parts, 8n);
    } catch (fault) { return fault.name; }
  };
  const one = instance();
  return [call(one, 1n, 0xf0000000n), call(one, 0n), call(instance(), 0n)];
})()""".replace("UNPACKED", UNPACKED)
# Another module in the page that is open
CHANGED = """(async () => {
  UNPACKED
  for (const [at, byte] of CHANGES) bytes[at] = byte;
  compiled = WebAssembly.compile(bytes);
  compiled.catch(() => {});
})()""".replace("UNPACKED", UNPACKED)
ANEW = "[(now.recordings = []), document.getElementById('anew').click()]"
HELD = """(() => {
  const input = document.querySelector("input[type=file]");
  input.addEventListener("change", (event) => {
    event.stopImmediatePropagation();
    window.chosen = [...input.files];
    window.told = window.chosen.map((file) => file.size + file.lastModified);
  }, { capture: true, once: true });
})()"""
LET_GO = """document.querySelector("input[type=file]").dispatchEvent(new Event("change"))"""

# How long it takes until the page says that it can't take what is chosen
TIMED = """document.getElementById("files").addEventListener("change", () => {
  const begun = performance.now();
  new MutationObserver(() => {
    if (document.body.dataset.state === "failed") window.took ??= performance.now() - begun;
  }).observe(document.body, { attributeFilter: ["data-state"] });
}, { capture: true, once: true })"""

# The page

def module_of(page: str, form: int = 64) -> bytes:
    packed = base64.b64decode(re.findall(MODULE.format(form), page)[0])
    return zlib.decompress(packed, -15)


def with_module(page: str, change: Any) -> str:
    """The page with other modules."""
    for form in (64, 32):
        found = re.search(MODULE.format(form), page)
        if found:
            deflate = zlib.compressobj(1, zlib.DEFLATED, -15)
            packed = deflate.compress(change(module_of(page, form))) + deflate.flush()
            page = page.replace(found[1], base64.b64encode(packed).decode())
    return page


def of_32_bits(page: str) -> str:
    """The page without its module of 64-bit memory, so that each browser takes the other."""
    return re.sub(MODULE.format(64), "", page)


@dataclass
class Bench:
    """A browser with a page, and how much was compared."""
    browser: Any
    name: str
    page: Path
    shots: Path | None = None
    count: int = 0
    shown: set[str] = field(default_factory=set)
    form: int = 64          # of the module that the page has

    def same(self, what: str, got: Any, expected: Any) -> None:
        self.count += 1
        compare(f"{self.name}: {what}", got, expected)

    def wait(self) -> str:
        until = time.monotonic() + SECONDS
        while True:
            state = str(self.browser.value("document.body.dataset.state"))
            if state in ("done", "failed"):
                return state
            if time.monotonic() > until:
                raise Lost(f"{self.name}: the page is {state} after {SECONDS} s")
            time.sleep(0.02)

    def take(self, paths: list[Any]) -> str:
        """Opens the page anew, and gives it the files."""
        self.browser.open(self.page)
        self.same("at first", self.browser.value("document.body.dataset.state"), "idle")
        self.browser.choose(paths)
        return self.wait()

    def given(self) -> Any:
        return self.browser.value(GIVEN)

    def words(self) -> str:
        return str(self.browser.value("document.getElementById('fault').innerText + "
                                      "document.getElementById('results').innerText"))

    def offers_nothing(self, what: str, *parts: str) -> None:
        """The page failed, says these parts of a sentence, and has nothing to save."""
        self.same(f"{what}: no answer", self.given(), None)
        self.same(f"{what}: no file", self.browser.value(
            "document.querySelectorAll('a[href], img').length"), 0)
        words = self.words()
        for part in parts:
            self.same(f"{what}: {words!r} has {part!r}", part in words, True)

    def shot(self, what: str) -> None:
        if self.shots and what not in self.shown:
            self.shown.add(what)
            self.browser.screenshot(self.shots / f"{self.name}-{what.replace(' ', '-')}.png")


# What is tried

def lists(bench: Bench, expected: dict[str, Any]) -> None:
    """Each list of files."""
    for what, (paths, given) in expected.items():
        state = bench.take(paths)
        bench.same(f"{what}: {bench.words() if state == 'failed' else ''}", state, "done")
        bench.same(what, bench.given(), given)
        bench.shot(what.partition(",")[0])
        if len(paths) > 1 and what not in LATER:
            in_two_halves(bench, what, paths, given)
    bench.same("asked for", [url for url in bench.browser.asked_for()
                             if not url.startswith(("file:", "blob:"))], [])


def in_two_halves(bench: Bench, what: str, paths: list[Any], given: Any) -> None:
    """Files that come later give the same as all of them at once."""
    half = len(paths) // 2
    bench.take(paths[:half])
    bench.browser.choose(paths[half:])
    until = time.monotonic() + SECONDS
    while not bench.browser.value(f"now.files.length === {len(paths)}") or bench.wait() != "done":
        if time.monotonic() > until:
            raise Lost(f"{bench.name}: {what}: the second half never came")
        time.sleep(0.02)
    bench.same(f"{what}, in two halves", bench.given(), given)


def words_of(call: Any) -> list[Any]:
    """The same call as words of the program."""
    if isinstance(call, str):
        return [*call.split(), "in.edf", *["run"] * (call == "split")]
    given = [[option, value] for option, value in zip(OPTIONS, call[1:]) if value]
    return ["in.edf", call[0] or "--dry-run", *sum(given, []), *["--all"] * bool(call[6])]


def does(native: Native, folder: Path, call: Any) -> list[Any]:
    """What a program does with in.edf of this folder, which stays there alone."""
    program = native.edfruns if isinstance(call, str) else native.edfmend
    ran = measure.ran(program, *words_of(call), folder=folder)
    made = []
    for path in sorted(it for it in folder.iterdir() if it.name != "in.edf"):
        made.append([path.name, sum_of(path.read_bytes())])
        path.unlink()
    out, err = [sum_of(it.decode("utf-8", "replace").encode()) for it in (ran.out, ran.err)]
    is_file = isinstance(call, str) and call.split()[0] in FILES
    return [ran.status, sum_of(ran.out) if is_file else out, err, made]


def programs(bench: Bench, folder: Path, native: Native, paths: list[Any]) -> None:
    """What edfruns and edfmend do with each of these files."""
    own, calls = folder / f"programs-{bench.name}", (*RUNS, *VALUES)
    own.mkdir()
    bench.browser.open(bench.page)
    bench.browser.value(HELD)
    bench.browser.choose(paths)
    for nth, path in enumerate(paths):
        (own / "in.edf").write_bytes(path.read_bytes())
        given = bench.browser.value(
            CALLED.replace("NTH", str(nth)).replace("CALLS", json.dumps(calls)))
        for call, got in zip(calls, given):
            bench.same(f"{call} of {path.name}", got, does(native, own, call))
    (own / "in.edf").unlink()
    for nth in range(2 * len(paths)):
        first, second = nth // 2, (nth + 1) // 2 % len(paths)
        (own / "first").write_bytes(paths[first].read_bytes())
        (own / "second").write_bytes(paths[second].read_bytes())
        ran = measure.ran(native.edfruns, "compare", "first", "second", folder=own)
        bench.same(f"{paths[first].name} and {paths[second].name}", bench.browser.value(
            COMPARED.replace("FIRST", str(first)).replace("SECOND", str(second))),
                   [ran.status, ran.out.decode(), ran.err.decode()])


def no_files(bench: Bench) -> None:
    bench.browser.open(bench.page)
    bench.browser.value(LET_GO)
    bench.same("no files", bench.browser.value("document.body.dataset.state"), "idle")
    bench.same("no files", bench.browser.value("document.getElementById('status').textContent"),
               "No file came.")


def other_page(bench: Bench, folder: Path, text: str) -> Bench:
    path = folder / f"other-{bench.name}.html"
    path.write_text(text)
    return Bench(bench.browser, bench.name, path, bench.shots, shown=bench.shown, form=bench.form)


def little_memory(bench: Bench, folder: Path, page: str, native: Native) -> None:
    """E41 wherever memory runs out: for the file's bytes, in the store, for the answer. Where there
    is enough, the answer is the programs'."""
    own = folder / f"little-{bench.name}"
    paths = written(own, [("night.edf", b"")])
    LITTLE.card(paths[0])
    least, size = modules.least_pages(module_of(page, 32)), paths[0].stat().st_size // modules.PAGE
    for tried in range(40):
        pages = least + size * tried // 4
        other = other_page(bench, folder, with_module(
            page, lambda module, pages=pages: modules.capped(module, pages)))
        if other.take(paths) == "done":
            break
        other.offers_nothing(f"{pages} pages", "E41", "Nothing was added.")
        other.shot("little memory")
        bench.count += other.count
    bench.same(f"caps at which memory runs out: {tried}", 8 <= tried < 39, True)
    bench.same("with enough memory", other.given(), native.given(own, paths))


def traps(bench: Bench, folder: Path, page: str, paths: list[Any]) -> None:
    other = other_page(bench, folder, page.replace(
        "names.sizes, bytes, sizes,", "names.sizes, bytes + 0xf0000000n, sizes,"))
    bench.same("a trap", other.take(paths), "failed")
    other.offers_nothing("a trap", "RuntimeError", "Nothing was added.")
    other.shot("a trap")
    bench.browser.open(bench.page)
    bench.same("a trap, a call after it, another module", bench.browser.value(
        GUARDED.replace("MODULE", f'"module{bench.form}"')),
               ["RuntimeError", "RuntimeError", 0])


def changes(bench: Bench, folder: Path, native: Native) -> None:
    """Files that are no more what they were when they were chosen. What is read whole of a file
    that was replaced may be taken, and then it is what is there."""
    good = page_files.seconds(400)
    done: dict[str, Any] = {
        "is removed": lambda path: path.unlink(),
        "is cut": lambda path: path.write_bytes(good[:-5_000]),
        "is longer": lambda path: path.write_bytes(good + good),
        "is replaced": lambda path: path.write_bytes(good[:-4] + b"\1\2\3\4")}
    for nth, (what, change) in enumerate(done.items()):
        own = folder / f"changes-{bench.name}-{nth}"
        paths = written(own, [("first.edf", page_files.seconds(3)), ("changed.edf", good)])
        bench.browser.open(bench.page)
        bench.browser.value(HELD)
        bench.browser.choose(paths)
        bench.same("files that are held back", bench.browser.value("window.chosen.length"), 2)
        time.sleep(1.1)         # since times of files may be told by the second
        change(paths[1])
        bench.browser.value(LET_GO)
        if bench.wait() == "failed":
            bench.offers_nothing(f"a file {what}", "changed.edf", "Nothing was added.")
            bench.shot("a file that changed")
        else:
            bench.same(f"a file that {what} was taken as it is", bench.given(),
                       native.given(own, paths))


def asks_nothing(bench: Bench, folder: Path, page: str) -> None:
    bench.same("a server is reached", sends.reached(bench.browser, bench.page), set())
    policy = re.compile(r'<meta http-equiv="Content-Security-Policy"[^>]*>')
    open_page = folder / f"open-{bench.name}.html"
    open_page.write_text(policy.sub("", page))
    ways = sends.reached(bench.browser, open_page, sends.NAMED)
    bench.count += len(ways)
    bench.same(f"without the policy it is, by {len(ways)} ways", sends.NAMED - ways, set())


def big_night(bench: Bench, path: Path, native: Native, folder: Path) -> None:
    """The time of three runs each, one beside the other, of which the shortest count."""
    theirs, ours, memory, expected = [], [], 0, None
    for _ in range(3):
        expected = native.given(folder, [path])
        theirs.append(native.seconds)
        bench.same("the night", bench.take([path]), "done")
        bench.same("the night", bench.given(), expected)
        cost = bench.browser.value("window.cost")
        ours.append(cost["milliseconds"] / 1000)
        memory = max(memory, cost["memory"])
    times = min(ours) / min(theirs)
    print(f"{bench.name}: {path.stat().st_size:,} bytes: the programs {min(theirs):.2f} s, "
          f"the page {min(ours):.2f} s, {times:.1f} times, {memory:,} bytes of memory", flush=True)
    bench.same(f"{times:.1f} times", times <= MOST_TIMES[type(bench.browser)], True)
    bench.same(f"{memory:,} bytes of memory", memory <= MOST_MEMORY, True)


def unable(bench: Bench, folder: Path) -> None:
    """A browser without WebAssembly says so at once, and takes nothing."""
    with OFF[type(bench.browser)](folder / f"unable-{bench.name}") as browser:
        other = Bench(browser, bench.name, bench.page, bench.shots)
        browser.open(bench.page)
        other.same("without WebAssembly", other.wait(), "failed")
        text = browser.value("document.getElementById('unable').innerText")
        other.same(f"{text!r} says so", "it lacks WebAssembly." in " ".join(text.split()), True)
        other.same("no button", browser.value(
            "[...document.querySelectorAll('button')].some((it) => it.checkVisibility())"), False)
        other.shot("without WebAssembly")
        bench.count += other.count


def too_much(bench: Bench, folder: Path) -> None:
    """What is above the limits of 32 bits is told within a second, and is not read."""
    own = folder / f"much-{bench.name}"
    paths = written(own, [(f"{nth}.edf", page_files.seconds(3)) for nth in range(3)])
    for size, names in ((481_000_000, ("0.edf",)), (320_000_000, ("0.edf", "1.edf", "2.edf"))):
        for path in paths[:len(names)]:
            os.truncate(path, size)
        bench.browser.open(bench.page)
        bench.browser.value(TIMED)
        bench.browser.choose(paths[:len(names)])
        bench.same("too much", bench.wait(), "failed")
        bench.offers_nothing("too much", "In this browser the page takes 480.0 MB of a file, and "
                             "950.0 MB in all")
        took = bench.browser.value("window.took")
        bench.same(f"within a second: {took:.0f} ms", took < 1000, True)


def largest(bench: Bench, folder: Path, native: Native) -> None:
    """A card and its pieces, which are together as much as 32 bits take."""
    own = folder / "largest"
    own.mkdir()
    paths = [*LARGEST.parts(own), LARGEST.card(own / "card.edf")]
    size = sum(path.stat().st_size for path in paths)
    bench.same(f"{size:,} bytes", 940e6 < size <= 950e6, True)
    bench.same("card and pieces", bench.take(paths), "done")
    bench.same("card and pieces", bench.given(), native.given(own, paths))
    print(f"{bench.name}: card and pieces of {size:,} bytes", flush=True)


# Pages that answer wrongly

def takes_otherwise(bench: Bench, what: str, paths: list[Any], given: Any) -> bool:
    """Whether the page that is open gives another answer than this, or none soon."""
    bench.browser.value(ANEW)
    bench.browser.choose(paths)
    until = time.monotonic() + PATIENCE
    while bench.browser.value("document.body.dataset.state") not in ("done", "failed"):
        if time.monotonic() > until:
            bench.browser.value("cancel?.()")
            return True
        time.sleep(0.02)
    bench.count += 1
    return bool(bench.given() != given)


def is_found(bench: Bench, expected: dict[str, Any]) -> bool:
    return any(takes_otherwise(bench, what, *list_of) for what, list_of in expected.items())


def with_bytes(bench: Bench, changes: list[Any]) -> None:
    """Has the page that is open take its module with these bytes at these places."""
    bench.browser.value(CHANGED.replace("CHANGES", json.dumps(changes))
                        .replace("MODULE", f'"module{bench.form}"'))


def runs(bench: Bench, expected: dict[str, Any], module: bytes, function: tuple[Any, ...]) -> bool:
    """Whether a call of the module comes to this function, which is made to trap."""
    changes = modules.trap_in(module, function)
    with_bytes(bench, changes)
    return bool(changes) and is_found(bench, expected)


def is_felt(bench: Bench, expected: Any, module: bytes, function: tuple[Any, ...]) -> bool:
    """Whether one of some instructions of this function is found where it is changed. Not each of
    them is run, and one may do the same as the other."""
    places = modules.places_in(module, function)
    for at in places[::max(1, len(places) // 6)]:
        with_bytes(bench, [[at, modules.OTHERS[module[at]]]])
        if is_found(bench, expected):
            return True
    return False


def control(bench: Bench, folder: Path, page: str, expected: dict[str, Any]) -> None:
    swapped = page.replace("file: blobOf(file)", "file: blobOf(rest[rest.length - 3 - at])")
    bench.same("a script that exchanges files is another", swapped != page, True)
    bench.browser.open(other_page(bench, folder, swapped).page)
    bench.same("it is found", is_found(bench, expected), True)
    bench.browser.open(bench.page)
    bench.same("the page itself", is_found(bench, expected), False)
    module = module_of(page, bench.form)
    bodies = [it for it in modules.bodies(module) if it[1] - it[0] > LONG_BODY]
    step = max(1, len(bodies) // TRIED_BODIES)
    running, tried, until = list[Any](), 0, time.monotonic() + LONGEST
    for function in bodies[::step]:
        if len(running) < ENOUGH and time.monotonic() < until:
            tried += 1
            running += [function] * runs(bench, expected, module, function)
    until = time.monotonic() + LONGEST
    felt = [is_felt(bench, expected, module, it) for it in running if time.monotonic() < until]
    with_bytes(bench, [])
    bench.same("the module itself again", is_found(bench, expected), False)
    print(f"{bench.name}: of {tried} functions {len(running)} run; of {len(felt)} of these one "
          f"changed instruction is found in {sum(felt)}", flush=True)
    bench.same("functions that run and were changed", len(felt) >= 10, True)
    bench.same(f"a change is found in {sum(felt)}", sum(felt) >= len(felt) // 4, True)


# All of it

def words() -> arguments.Parser:
    parser = arguments.Parser(__doc__, (*arguments.BOTH, "edfmend"), count=2_000)
    parser.add_argument("--page", metavar="FILE", type=arguments.path)
    parser.add_argument("--browser", choices=tuple(BROWSERS), action="append")
    parser.add_argument("--without-night", action="store_true")
    parser.add_argument("--screenshots", metavar="FOLDER", type=arguments.path)
    parser.add_argument("--control", action="store_true")
    return parser


def built_page() -> Path:
    """The page that was built here; the script ends where it is stale or not there."""
    script = '. "$0/bin/common.sh" && is_fresh_page && built_page'
    built = measure.ran("bash", "-c", script, arguments.TOP)
    if built.status:
        sys.exit("no page of these sources was built here: bin/page makes it, or --page names one")
    return Path(built.out.decode().strip())


def expectations(folder: Path, native: Native, given: Any) -> dict[str, Any]:
    """The lists of files, and what the programs give of each; for a control those that are soon
    taken."""
    expected, numbers, files = {}, set(), 0
    lists_of = page_files.corpus(given.count)
    if given.control:
        lists_of = {what: lists_of[what] for what in ("one name", "odd names")}
    for nth, (what, list_of) in enumerate(lists_of.items()):
        own = folder / f"list-{nth}"
        paths = written(own, list_of)
        expected[what] = (paths, native.given(own, paths))
        numbers |= {printed.number(line) for line in expected[what][1][0].splitlines()}
        files += len(paths)
    print(f"{files} files in {len(expected)} lists; refused by",
          " ".join(sorted(numbers - {""}, key=lambda it: int(it[1:]))), flush=True)
    return expected


def sendable(native: Native, expected: dict[str, Any]) -> dict[str, Any]:
    """The lists without the files whose names WebKit's driver can't send."""
    found = {}
    for what, (paths, given) in expected.items():
        kept = [it for it in paths if "\n" not in it.name]
        if len(kept) < len(paths):
            given = native.given(paths[0].parent.parent, kept)
        found[what] = (kept, given)
    return found


def in_browser(bench: Bench, given: Any, folder: Path, native: Native, expected: Any) -> None:
    page = bench.page.read_text()
    bench.browser.open(bench.page)
    bench.same("the module", bench.browser.value("MODULE"), f"module{bench.form}")
    bench.same("bytes of the page", len(page) <= MOST_BYTES, True)
    if isinstance(bench.browser, WebKit):
        expected = sendable(native, expected)
    if given.control:
        return control(bench, folder, page, expected)
    hands = HANDS[type(bench.browser)](bench.browser, folder / f"profile-{bench.name}/downloads")
    big = None if given.without_night else folder / "night/card.edf"
    technician.all_of_it(bench, hands, folder, native, big)
    second_thoughts.all_of_it(bench, hands, folder, native)
    morning.all_of_it(bench, hands, folder, native)
    claims.all_of_it(bench, hands, folder, native)
    appearance.all_of_it(bench, hands, folder, native)
    lists(bench, expected)
    programs(bench, folder, native, expected["files of stories"][0])
    no_files(bench)
    little_memory(bench, folder, page, native)
    traps(bench, folder, page, expected["one file"][0])
    changes(bench, folder, native)
    asks_nothing(bench, folder, page)
    if bench.form == 32:
        too_much(bench, folder)
    unable(bench, folder)
    if not given.without_night:
        big_night(bench, folder / "night/card.edf", native, folder / "night")
        if isinstance(bench.browser, WebKit):
            largest(bench, folder, native)


def main() -> None:
    given = words().read()
    given.page = given.page or built_page()
    tried, failed = 0, 0
    if given.screenshots:
        given.screenshots.mkdir(parents=True, exist_ok=True)
    with measure.scratch() as name:
        folder = Path(name)
        native = Native(given.program, given.edfruns, given.edfmend)
        expected = expectations(folder, native, given)
        (folder / "night").mkdir()
        if not (given.without_night or given.control):
            night.CLINIC.card(folder / "night/card.edf")
        for kind in given.browser or BROWSERS:
            begun = time.perf_counter()
            with BROWSERS[kind](folder / f"profile-{kind}") as browser:
                bench = Bench(browser, kind, given.page, given.screenshots)
                bench.form = 32 if kind.endswith("-32") or kind == "webkit" else 64
                if kind.endswith("-32"):
                    bench.page = folder / f"{kind}.html"
                    bench.page.write_text(of_32_bits(given.page.read_text()))
                try:
                    in_browser(bench, given, folder, native, expected)
                except Lost as wrong:
                    print(wrong)
                    failed += 1
                tried += bench.count
            print(f"{kind}: {bench.count} compared in {time.perf_counter() - begun:.0f} s",
                  flush=True)
    end(tried, failed)


if __name__ == "__main__":
    main()
