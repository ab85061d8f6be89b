"""Tries the edits that must fail, those of the gate and those beside it, in one run.

    python3 -m checks.edits.run [--only CRATE]... [--jobs N]

It needs the toolchain's command `rt`. The edits beside the gate are the blocks of CRATE.edits in
this folder. Each crate that has edits is laid into a folder of TMPDIR with those below it, over the
libraries that `rt check` or `rt lib` built in this clone; those that are not there are proved
first. There the edits that change functions of their own are tried together by `rt check`, and
those that this leaves alone by `rt must-fail`. --only tries the edits of that crate alone. --jobs
says how many crates are tried at once, whatever memory is free, else one.

A line says what became of each; those of a crate come when the crate is done. An edit counts as
refused where the prover refuses the function that it changes, or stops at a limit of its own. It
has failed where it is refused only because a proof file names what it took away, where it is a bad
edit, where it was not tried, and where the crate is still proved. The lines before the last say how
many were refused of those of the gate, and of the others.
"""
import sys
import tempfile
from concurrent.futures import ThreadPoolExecutor
from pathlib import Path

from checks.lib import arguments, measure
from checks.lib.checks import end

from .standing import fault
from .texts import CRATES, edits
from .together import REFUSED, Trial

ONLY_BY_A_NAME = f"{REFUSED} (only because a proof file names"


def tried(folder: Path, crate: str, found: list) -> list:
    """Tries the edits of a crate, prints what became of each, and answers those refused."""
    said = {edit: f"BAD EDIT: it {why}" for edit in found if (why := fault(edit))}
    said |= Trial(folder, crate, [edit for edit in found if edit not in said]).run()
    refused, lines = [], []
    for edit in found:
        text = said[edit]
        is_good = text.startswith(REFUSED) and not text.startswith(ONLY_BY_A_NAME)
        refused += [edit] if is_good else []
        lines.append(f"{edit}: {text}" if is_good else f"{edit}: FAILED: {text}")
    print("\n".join(lines), flush=True)
    return refused


def by_crate(folder: Path, found: list, jobs: int) -> list:
    """Tries each crate's edits, first those of the crate that has most, and answers those that
    were refused."""
    crates = {}
    for edit in found:
        crates.setdefault(edit.crate, []).append(edit)
    ordered = sorted(crates, key=lambda crate: -len(crates[crate]))
    with ThreadPoolExecutor(jobs) as pool:
        answers = pool.map(lambda crate: tried(folder / crate, crate, crates[crate]), ordered)
        return [edit for refused in answers for edit in refused]


def counts(found: list, refused: list) -> str:
    """How many were refused of the edits of the gate, and of the others."""
    of_gate, others = ([edit for edit in found if edit.is_of_gate == it] for it in (True, False))
    of_gate_refused = sum(edit.is_of_gate for edit in refused)
    return (f"of the gate: {of_gate_refused} of {len(of_gate)} refused\n"
            f"beside the gate: {len(refused) - of_gate_refused} of {len(others)} refused")


def main() -> None:
    parser = arguments.Parser(__doc__, programs=())
    parser.add_argument("--only", action="append", default=[], metavar="CRATE")
    parser.add_argument("--jobs", type=int, default=1, metavar="N", help="crates at once")
    given = parser.read()
    found = edits(given.only)
    crates = sorted({edit.crate for edit in found})
    unknown = set(given.only) - set(crates)
    if unknown:
        sys.exit(f"no edits are here of {', '.join(sorted(unknown))}")
    gone = [crate for crate in crates if not (CRATES / crate).is_dir()]
    if gone:
        sys.exit(f"no crate has the name {', '.join(gone)}")
    measure.need("rt")
    with tempfile.TemporaryDirectory(prefix="edfstore-edits-") as name:
        refused = by_crate(Path(name), found, given.jobs)
    print(counts(found, refused))
    end(len(found), len(found) - len(refused))


if __name__ == "__main__":
    main()
