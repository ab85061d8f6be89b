"""The program as a person runs it: each word by the clock, against `cat` and plain C over SQLite,
with its peak memory, and by the instructions that it takes.

    python3 -m bench.program.run [--program PATH] [COUNT]

Best of COUNT runs of each, 5 if left out.

A night of 195 MB: `take` of its 96 fragments into a new store, `take` of the card into that store,
`list`, `export`, `convert` of the card. Each run is a process of its own, so every word but the
first `take` and `convert` pays for opening the store, which reads all of it. The C program
(bench/store/plain.c) does the same rows, but opens without reading the store; `open` of it reads
and checks everything. Then a thousand files in one `take`. Then the same words on a night of 7,200
records of 1.7 kB, whose instructions callgrind counts: they are the same in a noisy hour. It needs
cc, libsqlite3-dev, time and valgrind; about 2 GB in TMPDIR.
"""
import filecmp
import os
import sys
from pathlib import Path

from checks.lib import arguments, measure, night, printed

MOST = 64_000_000       # bytes of memory for a thousand files


def better(before, now):
    return now if before is None or now.seconds < before.seconds else before


def one_round(program, plain, files: dict, folder: Path, best: dict) -> None:
    """Each word once by both, each after the disk is quiet, into `best`."""
    parts, card = files["parts"], files["card"]
    for name, command in (("edfstore", program), ("plain C", plain)):
        store, out = folder / f"{name}.db", folder / f"{name}.edf"
        measure.remove_store(store)
        place = ["1"] if name == "edfstore" else []
        words = {"take fragments": ([command, "take", store, *parts], None, os.devnull),
                 "take card": ([command, "take", store, card], None, os.devnull),
                 "list": ([command, "list" if place else "open", store], None, os.devnull),
                 "export": ([command, "export", store, *place], out, os.devnull),
                 "convert": ([command, "convert", *(["-"] if place else [])],
                             folder / f"{name}-convert.edf", card)}
        for word, (line, into, given) in words.items():
            measure.settle()
            best[name][word] = better(best[name].get(word),
                                      measure.timed(*line, out=into, given=given))
    for word, sources in (("take fragments", parts), ("take card", [card]), ("export", [out]),
                          ("convert", [card])):
        measure.settle()
        best["cat"][word] = better(best["cat"].get(word),
                                   measure.timed("cat", *sources, out=folder / "copy"))


def counted(program, plain, folder: Path) -> None:
    """Each word's instructions on a short night, of both programs."""
    parts, card = night.arrival(night.SHORT.parts(folder)), night.SHORT.card(folder / "short.edf")
    store, out, lines = folder / "short.db", folder / "short-out", {}
    for command, place, piped in ((program, ["1"], ["-"]), (plain, [], [])):
        measure.remove_store(store)
        for word, words in (("take fragments", ["take", store, *parts]),
                            ("take card", ["take", store, card]),
                            ("list", ["list" if place else "open", store]),
                            ("export", ["export", store, *place])):
            count = measure.instructions(command, *words, out=out)
            lines.setdefault(word, []).append(count)
        count = measure.instructions(command, "convert", *piped, out=out, given=card)
        lines.setdefault("convert", []).append(count)
    print(f"instructions on a night of {night.SHORT.records:,} records, "
          f"{measure.mb(card.stat().st_size)}")
    measure.table(("", "edfstore", "a record", "plain C", "/ plain C"),
                  [(word, f"{ours / 1e6:.0f} million", f"{ours // night.SHORT.records:,}",
                    f"{theirs / 1e6:.0f} million", f"{ours / theirs:.2f}")
                   for word, (ours, theirs) in lines.items()])


def report(best: dict) -> None:
    lines = []
    for word, ours in best["edfstore"].items():
        theirs, copied = best["plain C"][word], best["cat"].get(word)
        lines.append((word, f"{ours.seconds:.3f} s", f"{theirs.seconds:.3f} s",
                      f"{copied.seconds:.3f} s" if copied else "",
                      f"{ours.seconds / theirs.seconds:.2f}",
                      f"{ours.seconds / copied.seconds:.2f}" if copied else "",
                      measure.mb(ours.peak), measure.mb(theirs.peak)))
    measure.table(("", "edfstore", "plain C", "cat", "/ plain C", "/ cat", "peak", "peak of C"),
                  lines)


def thousand(program, folder: Path) -> None:
    """A thousand files in one take, against a hundred with the same records in all."""
    lines = []
    for count in (100, 1000):
        parts = night.Night(fragments=count).parts(folder)
        measure.settle()
        measure.remove_store(folder / "many.db")
        done = measure.timed(program, "take", folder / "many.db", *parts)
        accepted = printed.count_accepted(done.out)
        lines.append((f"{count} files", f"{done.seconds:.3f} s", measure.mb(done.peak), accepted))
        for path in parts:
            path.unlink()
    measure.remove_store(folder / "many.db")
    print("a night in one take")
    measure.table(("", "take", "peak", "accepted"), lines)
    print(f"a thousand files stay {'within' if done.peak <= MOST else 'ABOVE'} {MOST // 1_000_000} "
          f"MB; all were {'accepted' if accepted == 1000 else 'NOT accepted'}")


def main() -> None:
    given = arguments.Parser(__doc__, count=5).read()
    measure.need("cc", "cat", "/usr/bin/time", "valgrind")
    with measure.scratch() as name:
        folder = Path(name)
        plain = measure.compiled(arguments.TOP / "bench/store/plain.c", folder, "-lsqlite3")
        files = {"parts": night.arrival(night.CLINIC.parts(folder)),
                 "card": night.CLINIC.card(folder / "card.edf")}
        best = {"edfstore": {}, "plain C": {}, "cat": {}}
        for _ in range(given.count):
            one_round(given.program, plain, files, folder, best)
        made = [folder / f"{name}{kind}.edf" for name in ("edfstore", "plain C")
                for kind in ("", "-convert")]
        if not all(filecmp.cmp(made[0], other, shallow=False) for other in made[1:]):
            sys.exit("the exports and conversions differ")
        print(f"a night of {measure.mb(files['card'].stat().st_size)}, best of {given.count} runs, "
              f"{measure.machine()}\n")
        report(best)
        for path in (*files["parts"], files["card"], *made):
            path.unlink()
        thousand(given.program, folder)
        counted(given.program, plain, folder)


if __name__ == "__main__":
    main()
