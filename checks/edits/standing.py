"""Tells which edits change a line that is no longer in the sources, without the toolchain.

    python3 -m checks.edits.standing [--only CRATE]...

The edits are those of the gate (crates/CRATE/must-fail) and those of this folder. An edit names a
file of its crate, and then has pairs of lines `old:` and `new:`; another file and its pairs may
follow. The old text must stand once in the file, as the pairs before it leave it, and the new one
must be another. A line names each edit of which this is not so. --only looks at the edits of that
crate alone.
"""
from checks.lib import arguments
from checks.lib.checks import end

from .texts import CRATES, Edit, edits


def fault(edit: Edit) -> str:
    """Why an edit can't be applied, or nothing."""
    if not edit.is_well_formed:
        return "is not made of lines file:, old: and new:"
    sources = {}
    for name, old, new in edit.changes():
        path = CRATES / edit.crate / name
        if not path.is_file():
            return f"changes crates/{edit.crate}/{name}, which is not there"
        source = sources.setdefault(name, path.read_text())
        count = source.count(old)
        if count != 1:
            return f"has an old text that stands {count} times in {name}: {old.strip()}"
        if old == new:
            return f"has a new text that is the old one: {old.strip()}"
        sources[name] = source.replace(old, new)
    return ""


def main() -> None:
    parser = arguments.Parser(__doc__, programs=())
    parser.add_argument("--only", action="append", default=[], metavar="CRATE")
    found = edits(parser.read().only)
    failed = 0
    for edit in found:
        if why := fault(edit):
            failed += 1
            print(f"{edit} {why}")
    end(len(found), failed)


if __name__ == "__main__":
    main()
