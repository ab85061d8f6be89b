"""Whether MNE, BioSig and EDFlib read each apnea in the file of the run in which it happened.

    python3 -m checks.readers.apneas [--edfruns PATH | --model]

EDFlib writes a night of three hours with 60 apneas, and puts the n-th into the n-th data record,
whatever its onset. Of the night the data records of twenty minutes are taken out, as a radio loses
them; 30 apneas happened before and 30 after. It is split by `edfruns split`, and so is what `edfruns
canonical --by-onset` writes of it; with --model the files come from the plain model in
checks/lib/runs.py. The script ends with status 1 where a reader does not read each of the 60, once,
in the file of the run in which it happened, with its instant and its duration, of the files by
onset; or where these have another sample than the others.

It needs Debian's python3-mne, biosig-tools, libedf-dev and cc, and so Debian's own python3.
"""
from pathlib import Path

from checks.lib import arguments, edf, measure, model, runs
from checks.lib.checks import end
from checks.readers import reading

RECORDS, LOST = 10_800, range(5_000, 6_200)
APNEAS = tuple(start + 120 * nth for start in (60, 6_300) for nth in range(30))
LASTS = 20
SAMPLES = (10,)
HEADER_BYTES = 3 * 256
COUNT, RESERVED = slice(236, 244), slice(192, 236)
PACKAGES = ("libedf1", "python3-mne", "biosig-tools")


def night(folder: Path) -> bytes:
    """The night as EDFlib wrote it, without the data records that were lost."""
    made = folder / "whole.edf"
    write = measure.compiled(Path(__file__).parent / "write_apneas.c", folder, "-ledf", "-lm")
    lines = "".join(f"{onset} {LASTS}\n" for onset in APNEAS)
    measure.done(write, made, RECORDS, given=lines.encode())
    data = bytearray(made.read_bytes())
    size = (len(data) - HEADER_BYTES) // RECORDS
    del data[HEADER_BYTES + LOST.start * size:HEADER_BYTES + LOST.stop * size]
    data[COUNT] = edf.filled(RECORDS - len(LOST), 8)
    data[RESERVED] = edf.filled("EDF+D", 44)
    return bytes(data)


def split(given, data: bytes, folder: Path, by_onset: bool) -> list:
    """The runs by the model, each with its file."""
    listed = runs.read_by_onset(data) if by_onset else runs.read_runs(data)
    prefix = "by-onset" if by_onset else "as-it-is"
    paths = [folder / name for name in runs.split_names(prefix, listed)]
    if given.model:
        for run, path in zip(listed, paths):
            path.write_bytes(run.to_bytes())
    else:
        program, whole = given.edfruns or arguments.chosen("edfruns"), folder / "night.edf"
        whole.write_bytes(data)
        if by_onset:
            whole.write_bytes(measure.ran(program, "canonical", "--by-onset", whole).out)
        measure.done(program, "split", whole, folder / prefix)
    return list(zip(listed, paths))


def seconds(nanoseconds: int) -> float:
    return nanoseconds / model.SECOND


def happened_in(run: runs.Run, begun: float) -> list:
    """The apneas whose onset lies in the run, each with its instant in seconds."""
    first = seconds(run.first())
    return [begun + onset for onset in APNEAS
            if first <= begun + onset < first + seconds(run.length())]


def found(content: reading.Content, expected: list) -> int:
    """How many of these are read, once each, to the millisecond and with their duration."""
    got = [round(content.start + onset, 3) for onset, duration, text in content.notes
           if text == "Apnea" and round(duration, 3) == LASTS]
    return sum(got.count(round(instant, 3)) == 1 for instant in expected)


def read_all(kind: str, pairs: list, readers: tuple) -> list:
    """A line for each reader: how many apneas it reads in each file, and how many of those that
    happened in its run."""
    begun = seconds(pairs[0][0].first())
    lines = []
    for name, read in readers:
        contents = [read(path) for _, path in pairs]
        within = [happened_in(run, begun) for run, _ in pairs]
        there = [found(content, expected) for content, expected in zip(contents, within)]
        told = [len(content.notes) for content in contents]
        lines.append((name, kind, *told, f"{sum(there)} of {sum(map(len, within))}"))
    return lines


def main() -> None:
    parser = arguments.Parser(__doc__, ("edfruns",))
    parser.add_argument("--model", action="store_true", help="the model's files")
    given = parser.parse_args()
    measure.need("cc", "save2gdf")
    with measure.scratch() as name:
        folder = Path(name)
        data = night(folder)
        dump = measure.compiled(Path(__file__).parent / "dump.c", folder, "-ledf", "-lm")
        readers = (("EDFlib", lambda path: reading.by_edflib(path, folder, SAMPLES, dump)),
                   (reading.MNE, lambda path: reading.by_mne(path, SAMPLES)),
                   ("BioSig", lambda path: reading.by_biosig(path, folder, SAMPLES)))
        as_it_is, by_onset = (split(given, data, folder, each) for each in (False, True))
        lines = (read_all("split", as_it_is, readers)
                 + read_all("by onset, then split", by_onset, readers))
        samples = [[[record.samples for record in model.read(path.read_bytes())[1]]
                    for _, path in pairs] for pairs in (as_it_is, by_onset)]
        print(runs.split_lines("as-it-is", [run for run, _ in as_it_is])
              + runs.split_lines("by-onset", [run for run, _ in by_onset]))
    measure.table(("reader", "by", "annotations in the first file", "in the second",
                   "apneas in the file where they happened"), lines)
    print(measure.ran("dpkg-query", "-W", *PACKAGES).out.decode())
    wrong = sum(line[-1] != "60 of 60" for line in lines[len(readers):])
    end(len(lines) + 1, wrong + (samples[0] != samples[1]))


if __name__ == "__main__":
    main()
