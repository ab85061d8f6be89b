"""The greatest headers, records, blocks and texts through `edfstore`: answers, time and peak
memory.

    python3 -m checks.fuzz.sizes [--program PATH]

Each file goes through `take` into a new store and, where it is accepted, through `export`; the
answer is checked against the one that stands beside the file, worked out by hand, and against the
plain model, the export against the model's. Among them are files without a count of their data
records, and files with up to 639 annotations signals. Then files of 250, 500 and 1,000 records with
10,000 annotations each, whose time should grow with their number and whose memory should not. It
needs /usr/bin/time, and about 1 GB in TMPDIR.
"""
from pathlib import Path

from checks.lib import arguments, faults, measure, model
from checks.lib.by_hand import unknown
from checks.lib.checks import end
from checks.lib.edf import Header, Signal, annotations_signal, fragment, keeping, tal
from checks.lib.printed import accepted, is_accepted, refused

MOST = 4_194_304        # bytes of the annotations blocks, and of ordinary samples
FIRST = keeping("+0")   # 5 bytes
ONE = accepted(1)
TOO_LARGE, TOO_MANY = refused(faults.size()), refused(faults.too_many(1))
NOT_TIMED = refused(faults.not_timed(1))


def one(block: bytes, samples: int = 0) -> bytes:
    """A file of one record with this block."""
    header = Header((Signal(), annotations_signal(samples or (len(block) + 1) // 2)))
    return fragment(header, [(b"\1\0\2\0", block)])


def signals(count: int, samples: int, records: int) -> bytes:
    rows = tuple(Signal(label=f"S{n}", samples=str(samples)) for n in range(count))
    header = Header((*rows, annotations_signal(4 if records <= 1000 else 5)), count=str(records))
    return fragment(header,
                    [(bytes(2 * samples * count), keeping(f"+{n}")) for n in range(records)])


def no_list(offset: int) -> str:
    return refused(faults.tal(1, offset))


def cut(record: int) -> str:
    return refused(faults.cut_record(record))


def of_one_block() -> list:
    """Each file with its title and its answer."""
    return [
        ("640 signals, 100 records", signals(639, 1, 100), accepted(100)),
        ("640 signals of 3,281 samples, 3 records of 4.2 MB", signals(639, 3281, 3), accepted(3)),
        ("a signal of 2,097,152 samples, 3 records", signals(1, 2_097_152, 3), accepted(3)),
        ("a block of 4 MB, all but 5 bytes zero", one(FIRST, MOST // 2), ONE),
        ("a block of 4 MB, its last byte 1", one(FIRST.ljust(MOST - 1, b"\0") + b"\1"), no_list(5)),
        ("a block of 4 MB with no list", one(bytes(MOST)), NOT_TIMED),
        ("a block of 4 MB of lists without annotations",
         one(FIRST + b"+0\x14\0" * ((MOST - 5) // 4)), ONE),
        ("a block of 4 MB of one onset", one(FIRST + b"+" + b"0" * (MOST - 10) + b"\x14\0"), ONE),
        ("a block of 4 MB of one onset that doesn't end", one(FIRST + b"+" + b"0" * (MOST - 6)),
         no_list(5)),
        ("a block of 4 MB of one text that doesn't end", one(FIRST + b"+0\x14" + b"a" * (MOST - 8)),
         no_list(5)),
        ("a block of 4 MB of fractions", one(FIRST + b"+0." + b"0" * (MOST - 20) + b"1\x14\0"),
         no_list(5)),
        ("a block of 4 MB of annotations", one(FIRST + b"+0\x14" + b"\x14" * (MOST - 9) + b"\0"),
         TOO_MANY),
        ("10,000 annotations", one(b"+0\x14" + b"\x14" * 10_001 + b"\0"), ONE),
        ("10,001 annotations", one(b"+0\x14" + b"\x14" * 10_002 + b"\0"), TOO_MANY),
        ("10,000 annotations of 100 bytes, each in its list",
         one(FIRST + tal("+0.123456789", b"a" * 100, duration="1.5") * 10_000), ONE),
        ("one text of 1,000,000 bytes", one(FIRST + tal("+0", b"a" * 1_000_000)), ONE),
        ("one text of 1,000,001 bytes", one(FIRST + tal("+0", b"a" * 1_000_001)), TOO_MANY),
        ("one text of 1,000,000 bytes in 3-byte letters",
         one(FIRST + tal("+0", b"a" + "\u20ac".encode() * 333_333)), ONE),
        ("one text of 4 MB, its last byte no UTF-8",
         one(FIRST + tal("+0", b"a" * (MOST - 12) + b"\xff")),
         refused(faults.text(1, 8))),
    ]


def blocks(*made: bytes, sizes=(), ordinary: int = 2, last: int = 0, count: str = "1") -> bytes:
    """A file of one record with these blocks, the `last` of them after the ordinary signal;
    `sizes` are the samples of the annotations signals, else as few as hold the block of each."""
    noted = [annotations_signal(size) for size in sizes or
             [max(1, (len(block) + 1) // 2) for block in made]]
    places = (*noted[:len(noted) - last], Signal(samples=str(ordinary)), *noted[len(noted) - last:])
    return fragment(Header(places, count=count), [(bytes(2 * ordinary), made)])


def of_many_signals() -> list:
    """The same of files with hundreds of annotations signals."""
    each = [FIRST + b"\0", *[tal("+0", "a")] * 638]         # 6 bytes each
    edge = [3_281] * 638 + [3_874]                          # 2,097,152 samples in all
    rest = [b""] * 637
    fifteen = [FIRST + b"\0", *[tal("+0", "") * 15] * 637]
    return [
        ("639 annotations signals before an ordinary one, an annotation in each but one",
         blocks(*each), ONE),
        ("639 annotations signals, the ordinary one among them", blocks(*each, last=320), ONE),
        ("639 annotations signals of 4 MB in all", blocks(*each, sizes=edge), ONE),
        ("639 annotations signals of a sample more", blocks(*each, sizes=[*edge[:-1], 3_875]),
         TOO_LARGE),
        ("639 annotations signals of 4 MB, the last byte 1",
         blocks(FIRST, *rest, b"+0\x14\0".ljust(7_747, b"\0") + b"\1", sizes=edge),
         no_list(638 * 6_562 + 4)),
        ("640 annotations signals",
         Header(tuple(annotations_signal(3) for _ in range(640))).to_bytes(),
         refused(faults.annotations())),
        ("640 annotations signals and an ordinary one", blocks(*each, b""),
         refused(faults.signals())),
        ("10,000 annotations, each in its list, in 639 blocks",
         blocks(*fifteen, tal("+0", "") * 445), ONE),
        ("10,001 annotations, each in its list, in 639 blocks",
         blocks(*fifteen, tal("+0", "") * 446), TOO_MANY),
    ]


def of_blocks() -> list:
    """The same of files with two annotations signals: their bytes, annotations and texts count over
    both blocks of a record."""
    halves = [b"+0\x14" + b"\x14" * 5_001 + b"\0", b"+0\x14" + b"\x14" * 5_000 + b"\0"]
    texts = [b"+0\x14\x14" + b"a" * 500_000 + b"\x14\0", tal("+0", b"a" * 500_000)]
    bad = tal("+0", b"\xff")
    long = (b"+0\x14" + b"a" * 2_000_000 + b"\x14\0").ljust(MOST - 13, b"\0") + b"\1"
    return [
        ("blocks of 2,097,151 samples and 1", blocks(FIRST, b"", sizes=(2_097_151, 1), last=1),
         ONE),
        ("blocks of 1 sample and 2,097,151", blocks(b"", FIRST, sizes=(1, 2_097_151)), NOT_TIMED),
        ("blocks of 2,097,151 samples and 2", blocks(FIRST, b"", sizes=(2_097_151, 2), last=1),
         TOO_LARGE),
        ("blocks of 2,097,152 samples and 1", blocks(FIRST, b"", sizes=(2_097_152, 1), last=1),
         TOO_LARGE),
        ("a block of 2 bytes after one of 4 MB, its last byte 1",
         blocks(FIRST, b"\0\1", sizes=(2_097_151, 1)), no_list(4_194_302)),
        ("a text that is no UTF-8 before 4 MB that end with 1", blocks(FIRST + bad, long),
         no_list(12 + 2_000_005)),
        ("a text that is no UTF-8 after 4 MB of zeros", blocks(FIRST, bad, sizes=(2_097_149, 3)),
         refused(faults.text(1, 4194301))),
        ("the greatest record, 8 MB",
         blocks(FIRST, b"", sizes=(1_048_576, 1_048_576), ordinary=2_097_152, last=1), ONE),
        ("10,000 annotations in two blocks", blocks(*halves), ONE),
        ("10,001 annotations in two blocks", blocks(halves[0], b"+0\x14" + b"\x14" * 5_001 + b"\0"),
         TOO_MANY),
        ("texts of 1,000,000 bytes in two blocks", blocks(*texts), ONE),
        ("texts of 1,000,001 bytes in two blocks", blocks(texts[0], tal("+0", b"a" * 500_001)),
         TOO_MANY),
    ]


def of_unknown_count() -> list:
    """The same of files without a count of their data records."""
    large = signals(1, 2_097_152, 3)
    greatest = blocks(FIRST, b"", sizes=(1_048_576, 1_048_576), ordinary=2_097_152, last=1)
    many = signals(1, 1, 100_000)
    return [
        ("of unknown count, 640 signals, 100 records", unknown(signals(639, 1, 100)),
         accepted(100)),
        ("of unknown count, 3 records of 4.2 MB", unknown(large), accepted(3)),
        ("of unknown count, 3 records of 4.2 MB less a byte", unknown(large)[:-1], cut(3)),
        ("of unknown count, 3 records of 4.2 MB and a byte", unknown(large) + b"\0", cut(4)),
        ("of unknown count, the greatest record", unknown(greatest), ONE),
        ("of unknown count, the greatest record and a byte", unknown(greatest) + b"\0", cut(2)),
        ("of unknown count, the greatest record and as many zeros",
         unknown(greatest) + bytes(2 * MOST), refused(faults.not_timed(2))),
        ("of unknown count, 639 annotations signals", blocks(FIRST, *[b""] * 638, count="-1"), ONE),
        ("of unknown count, 100,000 records", unknown(many), accepted(100_000)),
        ("of unknown count, 100,000 records less a byte", unknown(many)[:-1], cut(100_000)),
    ]


def taken(program: Path, folder: Path, data: bytes) -> tuple:
    """The answer, the runs of take and export, and the export."""
    store, given, out = folder / "s.db", folder / "given.edf", folder / "out.edf"
    measure.remove_store(store)
    given.write_bytes(data)
    take = measure.timed(program, "take", store, given, statuses=(0, 1))
    answer = take.out.decode().strip().removeprefix(f"{given} ")
    if take.status:
        return answer, take, None, b""
    return answer, take, measure.timed(program, "export", store, "1", out=out), out.read_bytes()


def row(title: str, data: bytes, answer: str, take: measure.Ran, export, written: bytes) -> tuple:
    return (title, measure.mb(len(data)), answer, f"{take.seconds:.3f} s", measure.mb(take.peak),
            f"{export.seconds:.3f} s" if export else "", measure.mb(export.peak) if export else "",
            measure.mb(len(written)) if export else "")


HEAD = ("", "file", "answer", "take", "peak", "export", "peak", "export")


def greatest(program: Path, folder: Path) -> tuple:
    """How many files there are, and how many are answered otherwise than by hand or by the
    model."""
    lines, wrong = [], 0
    files = of_one_block() + of_many_signals() + of_blocks() + of_unknown_count()
    for title, data, expected in files:
        found = taken(program, folder, data)
        store = model.Store()
        by_model = store.take(data)
        is_right = found[0] == expected == by_model
        if not is_right or (is_accepted(expected) and found[3] != store.export(1)):
            wrong += 1
            print(f"{title}: the program answers {found[0]!r}, the model {by_model!r}, by hand "
                  f"{expected!r}, or the exports differ")
        lines.append(row(title, data, *found))
    measure.table(HEAD, lines)
    return len(lines), wrong


def crowds(program: Path, folder: Path) -> None:
    """10,000 annotations in each record, the number of records doubled twice."""
    lines, runs = [], []
    for count in (250, 500, 1000):
        header = Header((Signal(), annotations_signal(5_007)), count=str(count))
        data = fragment(header, [(b"\1\0\2\0", b"+%d" % n + b"\x14" * 10_002 + b"\0")
                                 for n in range(count)])
        found = taken(program, folder, data)
        lines.append(row(f"{count:,} records", data, *found))
        runs.append(found)
    print("10,000 annotations in each record")
    measure.table(HEAD, lines)
    for which, name in ((1, "take"), (2, "export")):
        small, middle, large = (found[which] for found in runs)
        print(f"{name}: time x {middle.seconds / small.seconds:.2f} and x "
              f"{large.seconds / middle.seconds:.2f} for twice the records; peak x "
              f"{middle.peak / small.peak:.2f} and x {large.peak / middle.peak:.2f}")


def main() -> None:
    given = arguments.Parser(__doc__).read()
    measure.need("/usr/bin/time")
    print(measure.machine(), "\n")
    with measure.scratch() as name:
        tried, wrong = greatest(given.program, Path(name))
        crowds(given.program, Path(name))
    end(tried, wrong)


if __name__ == "__main__":
    main()
