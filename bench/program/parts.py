"""The program against the sum of its parts, as far as runs of the program show them: `take` of the
card into a store that has the night.

    python3 -m bench.program.parts [--program PATH] [COUNT]

Best of COUNT runs of each, 5 if left out.

Its parts are the opening of that store, which is `list`, and the submission of the card alone,
which is a `take` of the night and the card less a `take` of the night, each into a new store, so
that no opening of rows is in it. Beside it stands how far `convert` of the card is above `take` of
it into a store in memory: the export from memory. It needs /usr/bin/time and about 1.5 GB in
TMPDIR.
"""
from pathlib import Path

from checks.lib import arguments, measure, night

MOST = 1.2


def one_round(program, parts: list, card: Path, folder: Path, best: dict) -> None:
    """Each run once, each after the disk is quiet; the least seconds and the least seconds of
    processor go into `best`."""
    held, both = folder / "held.db", folder / "both.db"
    measure.remove_store(held)
    measure.remove_store(both)
    runs = {"take night": ["take", held, *parts],
            "take night and card": ["take", both, *parts, card], "take card": ["take", held, card],
            "list": ["list", held], "convert card": ["convert", card],
            "take card into memory": ["take", ":memory:", card]}
    for word, words in runs.items():
        measure.settle()
        done = measure.timed(program, *words, out=folder / "out")
        seconds, processor = best.get(word, (done.seconds, done.processor))
        best[word] = min(seconds, done.seconds), min(processor, done.processor)


def main() -> None:
    given = arguments.Parser(__doc__, count=5).read()
    measure.need("/usr/bin/time")
    best = {}
    with measure.scratch() as name:
        folder = Path(name)
        parts = night.arrival(night.CLINIC.parts(folder))
        card = night.CLINIC.card(folder / "card.edf")
        for _ in range(given.count):
            one_round(given.program, parts, card, folder, best)
    print(f"a night of 195 MB, best of {given.count} runs, {measure.machine()}\n")
    measure.table(("", "by the clock", "processor"),
                  [(word, *(f"{one:.3f} s" for one in both)) for word, both in best.items()])
    alone = [both - without
             for both, without in zip(best["take night and card"], best["take night"])]
    ratios = [whole / (opening + card_alone)
              for whole, opening, card_alone in zip(best["take card"], best["list"], alone)]
    print(f"the card alone: {alone[0]:.3f} s, {alone[1]:.3f} s of processor")
    print(f"`take` of the card against opening and card: {ratios[0]:.2f}, by processor "
          f"{ratios[1]:.2f} (goal: at most {MOST})")


if __name__ == "__main__":
    main()
