"""Files with several annotations signals."""
from types import SimpleNamespace

from checks.lib import faults, model
from checks.lib.by_hand import (DIFFERS, DIGITAL_HIGH, DIGITAL_LOW, DIMENSION, EMPTY, FIRST,
                                HEADER_BYTES, HIGH, KNOWN, LABEL, LOW, OVERLAPS, PREFILTERING, Q,
                                REST, SAMPLES, SIGNALS, SIZE, SNORE, START, TRANSDUCER, V, Worked,
                                canonical, column, field, long, many, several, sized, unknown)
from checks.lib.edf import Header, Signal, annotations_signal, fragment, keeping, tal


def headers_of_several(worked: Worked) -> None:
    worked.store("two annotations signals", (V, FIRST),
                 exports=[canonical((SAMPLES, EMPTY + SNORE))])
    noted = [annotations_signal(3)] + [annotations_signal(1)] * 638
    greatest = fragment(Header((*noted, Signal())), [(SAMPLES, [EMPTY] + [b""] * 638)])
    last = fragment(Header((*noted[:638], annotations_signal(6), Signal())),
                    [(SAMPLES, [EMPTY] + [b""] * 637 + [SNORE])])
    worked.store("an annotation in the last of 639", (V, FIRST), (last, KNOWN),
                 (last[:-17] + b"\1" + last[-16:], faults.tal(1, 1278)))
    worked.store("639 annotations signals", (greatest, FIRST), (Q, KNOWN),
                 (greatest[:-1], faults.cut_record(1)), exports=[Q])
    ordinary = [Signal()] * 638
    worked.each("as many signals as there may be, or more",
                (Header((Signal(), *noted, annotations_signal(1))).to_bytes(), faults.signals()),
                (Header((*noted, annotations_signal(1))).to_bytes(), faults.annotations()),
                (Header((*ordinary, *noted[:2])).to_bytes(), faults.cut_record(1)),
                (Header((*ordinary, *noted[:3])).to_bytes(), faults.signals()),
                (Header((annotations_signal(3),)).to_bytes(), faults.signals()),
                (field(V, SIGNALS, "2"), faults.header_bytes()),
                (field(V, SIGNALS, "4"), faults.header_bytes()),
                (field(V, HEADER_BYTES, "768"), faults.header_bytes()))
    worked.each("cut", *((V[:n], faults.cut_signals()) for n in (256, 1023)),
                *((V[:n], faults.cut_record(1)) for n in range(1024, 1050)),
                (V + b"\0", faults.trailing()))
    byte = V[:464] + b"\xb5" + V[465:]      # the transducer of the third signal
    worked.each("an unprintable byte", (byte, faults.unprintable_signals(464)),
                (column(byte, LABEL, 1, "EEG"), faults.unprintable_signals(464)))


def which_signals_are_annotations_signals(worked: Worked) -> None:
    alone = column(column(column(V, LABEL, 2, "EDF Annotations"), DIGITAL_LOW, 2, "-32768"),
                   DIGITAL_HIGH, 2, "32767")
    plain = column(column(V, LABEL, 1, "EEG"), LABEL, 3, "EMG")
    worked.each("none, or no others", (plain, faults.annotations()), (alone, faults.annotations()),
                (column(Q, LABEL, 1, "EDF Annotations"), faults.annotations()),
                (column(Q, LABEL, 2, "EEG"), faults.annotations()),
                (column(Q, LABEL, 2, "EDF annotations"), faults.annotations()),
                (column(Q, LABEL, 2, " EDF Annotations"), faults.annotations()),
                (column(V, LABEL, 2, "EDF Annotations"), faults.annotations()),
                (column(V, LABEL, 1, "EEG"), faults.not_timed(1)),
                (column(V, LABEL, 3, "EDF annotations"), FIRST),
                (column(V, LABEL, 3, "EDF Annotationsx"), FIRST))
    for signal in (1, 3):
        for which, text in ((DIGITAL_LOW, "-32767"), (DIGITAL_LOW, "32768"), (DIGITAL_LOW, ""),
                            (DIGITAL_HIGH, "32766"), (DIGITAL_HIGH, "-32767"),
                            (DIGITAL_HIGH, "32767.0"), (LOW, "1"), (LOW, "+1.00"), (LOW, "1E3"),
                            (LOW, ".5"), (LOW, ""), (HIGH, "-1."), (HIGH, "a")):
            worked.store(f"field {which} of signal {signal} is {text!r}",
                         (column(V, which, signal, text), faults.annotations()))
        for which, text in ((DIGITAL_LOW, "-032768"), (DIGITAL_HIGH, "+32767"),
                            (DIGITAL_HIGH, "00032767"), (LOW, "5."), (LOW, "0"), (HIGH, "-5"),
                            (TRANSDUCER, "any"), (DIMENSION, "uV"), (PREFILTERING, "any"),
                            (REST, "any")):
            worked.store(f"field {which} of signal {signal} is {text!r}", (V, FIRST),
                         (column(V, which, signal, text), KNOWN))
    equal = column(V, LOW, 2, "510")
    last = several([EMPTY, SNORE], order="nnE")
    worked.each("a fault of the ordinary signal", (equal, faults.physical(2)),
                (column(last, LOW, 3, "510"), faults.physical(3)),
                (column(last, DIGITAL_LOW, 3, "2047"), faults.digital(3)),
                (column(V, DIGITAL_HIGH, 2, "32768"), faults.digital(2)),
                (column(equal, DIGITAL_LOW, 3, "0"), faults.annotations()),
                (column(equal, SIZE, 1, "0"), faults.physical(2)))


def samples_of_several(worked: Worked) -> None:
    for text in ("0", "", "+3", "3.0", "-1", " 3"):
        worked.each(f"the samples {text!r}",
                    *((column(V, SIZE, signal, text), faults.samples(signal))
                      for signal in (1, 2, 3)))
    worked.each("two signals without samples",
                (column(column(V, SIZE, 3, "0"), SIZE, 2, "0"), faults.samples(2)),
                (column(column(V, SIZE, 3, "0"), SIZE, 1, "2097153"), faults.samples(3)))
    fits, too_large = faults.cut_record(1), faults.size()
    for ordinary, noted, answer in (((2,), (2_097_151, 1), fits), ((2,), (2_097_151, 2), too_large),
                                    ((2,), (2_097_152, 1), too_large),
                                    ((2,), (1, 2_097_152), too_large),
                                    ((2,), (2, 2_097_151), too_large), ((2,), (1, 2_097_151), fits),
                                    ((2,), (2_097_152,), fits), ((2,), (2_097_153,), too_large),
                                    ((2,), (699_051, 699_051, 699_050), fits),
                                    ((2,), (699_051, 699_051, 699_051), too_large),
                                    ((2,), (99_999_999, 1), too_large),
                                    ((2_097_152,), (2_097_151, 1), fits),
                                    ((2_097_153,), (1, 1), too_large),
                                    ((1_048_576, 1_048_576), (1_048_576, 1_048_576), fits),
                                    ((1_048_576, 1_048_577), (3, 3), too_large),
                                    ((2_097_151, 2), (3, 3), too_large),
                                    ((1_500_000,), (1_500_000,), fits)):
        worked.store(f"samples {ordinary} and {noted}", (sized(ordinary, noted), answer))


def blocks_that_are_no_lists(worked: Worked) -> None:
    sizes = (3, 8, 5)       # blocks of 6, 16 and 10 bytes
    worked.each("the first block that fails", (V[:-1] + b"\1", faults.tal(1, 18)),
                (V[:1029] + b"\1" + V[1030:], faults.tal(1, 5)),
                (V[:1029] + b"\1" + V[1030:-1] + b"\1", faults.tal(1, 5)),
                *((several([EMPTY, *rest], order=order, sizes=sizes),
                   faults.tal(1, offset))
                  for order in ("nEnn", "Ennn", "nnnE", "nnEn")
                  for rest, offset in (((SNORE, b"x"), 22), ((b"x", b"x"), 6), ((b"", b"\0\1"), 22),
                                       ((SNORE + b"\0\1", b""), 18),
                                       ((b"", tal("+1", "a") + b"+"), 28),
                                       ((SNORE + b"+", b"x"), 18))))
    second = several([EMPTY, SNORE], [keeping("+1"), SNORE + b"+"])
    worked.store("in the second record", (second, faults.tal(2, 18)))
    for text in ("1", "+1.", "+.5", "", "+", "+1e3", "+1.0000000001", "+1\x15", "+1\x15-1",
                 "+1\x15+1", "+1\x15.5", "+1\x151.", "+1\x151\x151", "+1\x150.0000000001"):
        worked.store(
            f"the list {text!r} in a later block",
            (several([EMPTY, text.encode() + b"\x14a\x14\0"]), faults.tal(1, 6)))
    spread = EMPTY + b"+5\x14Snore\x14\0"       # 15 bytes
    exact = b"+00\x14\x14\0"                    # 6 bytes, without fill
    worked.each("a list that goes on in the next block",
                *((several([(spread + b"\0")[:n], (spread + b"\0")[n:]], order=order), answer)
                  for order in ("nEn", "nnE")
                  for n, answer in ((12, faults.tal(1, 5)),
                                    (6, faults.tal(1, 5)),
                                    (14, faults.tal(1, 5)),
                                    (4, faults.tal(1, 0)),
                                    (2, faults.tal(1, 0)))),
                (several([exact, SNORE]), FIRST),
                (several([exact, b"x"]), faults.tal(1, 6)),
                (several([exact[:4], exact[4:]]), faults.tal(1, 0)))


def texts_that_are_no_utf_8(worked: Worked) -> None:
    bad = b"+1\x14\xff\x14\0"       # 6 bytes, the text at 3
    worked.each("a text, or a form and a text",
                (several([EMPTY + bad, b""]), faults.text(1, 8)),
                (several([EMPTY + bad, b"x"]), faults.tal(1, 12)),
                (several([EMPTY + bad, SNORE + b"+"]), faults.tal(1, 24)),
                (several([EMPTY, tal("+1", "a") + bad + tal("+1", b"\xff", b"\xff")]),
                 faults.text(1, 15)),
                (several([EMPTY, tal("+1", b"\xff", b"\xff")]), faults.text(1, 9)),
                (several([EMPTY + bad, bad]), faults.text(1, 8)),
                (several([EMPTY, bad]), faults.text(1, 9)),
                (several([EMPTY + b"x", bad]), faults.tal(1, 5)),
                (several([EMPTY, bad + b"x"]), faults.tal(1, 12)),
                (several([EMPTY, tal("+1", "a", b"\xff")]), faults.text(1, 11)),
                (several([EMPTY, SNORE, bad], order="nEnn", sizes=(3, 8, 3)),
                 faults.text(1, 25)),
                (several([EMPTY, bad, b"x"], order="nEnn", sizes=(3, 8, 3)),
                 faults.tal(1, 22)),
                (several([EMPTY, bad, bad], order="nnnE", sizes=(3, 8, 3)),
                 faults.text(1, 9)),
                (several([EMPTY, bad], [b"x", b"x"]), faults.text(1, 9)),
                (several([EMPTY, b""], [keeping("+1"), bad]), faults.text(2, 9)),
                (several([b"", bad]), faults.text(1, 5)),
                (several([b"", b"x"]), faults.tal(1, 2)),
                (several([bad, EMPTY]), faults.text(1, 3)))
    for text in (b"\xff", b"\xc0\x80", b"\xed\xa0\x80", b"\xf4\x90\x80\x80", b"\xe2\x82", b"a\x80"):
        worked.store(f"the text {text!r} in a later block",
                     (several([EMPTY, tal("+1", text)]), faults.text(1, 9)))
    for text in ("\u00e4", "\U0001f634", "\x15", "\n", "\uffff", "+1"):
        worked.store(f"the text {text!r} in a later block",
                     (several([EMPTY, tal("+1", text)]), FIRST),
                     exports=[canonical((SAMPLES, EMPTY + tal("+1", text)))])


def the_first_block_keeps_time(worked: Worked) -> None:
    far = b"+9223372036.854775808\x14a\x14\0"
    not_timed, onset = faults.not_timed(1), faults.first_onset(1)
    worked.each("the first block", (V[:1024] + bytes(6) + V[1030:], not_timed),
                (several([b"", EMPTY]), not_timed), (several([b"", b""]), not_timed),
                (several([b"+0\x14\0", EMPTY]), not_timed),
                (several([tal("+0", "a"), EMPTY]), not_timed),
                (several([b"+0\x14\0" + EMPTY, EMPTY]), not_timed),
                (several([b"", far]), not_timed), (several([tal("+1", "a"), EMPTY]), not_timed),
                (several([keeping("+1"), EMPTY]), onset),
                (several([keeping("-0.5"), EMPTY]), onset), (several([keeping("+1"), far]), onset),
                (several([far.replace(b"a", b""), EMPTY]), onset),
                (several([keeping("+1"), b"x"]), faults.tal(1, 6)),
                (several([b"", EMPTY + b"x"]), faults.tal(1, 7)),
                (several([EMPTY, far]), faults.window(1)),
                (several([EMPTY, b""], [b"", keeping("+1")]), faults.not_timed(2)))
    later = several([EMPTY, b""], [keeping("+1"), keeping("+0.5") + tal("-2.5", "a")])
    worked.store("onsets of later blocks", (later, (2, 0)),
                 exports=[canonical((SAMPLES, EMPTY),
                                    (SAMPLES, keeping("+1") + keeping("+0.5") + tal("-2.5", "a")))])
    worked.store("a later block far from the start",
                 (several([keeping("-0"), tal("+5", "a") + tal("-2.5", "b")]), FIRST),
                 exports=[canonical((SAMPLES, EMPTY + tal("+5", "a") + tal("-2.5", "b")))])
    worked.store("the last start of a second",
                 (several([keeping("+0.999999999"), tal("+0", "a")]), FIRST),
                 exports=[canonical((SAMPLES, keeping("+0.999999999") + tal("+0", "a")))])
    worked.each("orders of starts",
                (several([EMPTY, b""], [keeping("+0.5"), keeping("+1")]), faults.order(2)),
                (several([EMPTY, keeping("+7")], [keeping("+1"), b""]), (2, 0)),
                (several([EMPTY, b""], [keeping("+0.5"), far]), faults.window(2)),
                (several([EMPTY, b""], [keeping("+0.5"), b"x"]), faults.tal(2, 8)),
                (several([EMPTY, b""], [b"", b""]), faults.not_timed(2)))


def times_outside_the_window(worked: Worked) -> None:
    """The window ends 5,769,705,610 s after the files' start, and began 541,727,990 s before it."""
    outside = faults.window(1)
    for text, answer in (("+5769705609.999999999", FIRST), ("+5769705610", outside),
                         ("+2614032010", FIRST), ("-541727990", FIRST),
                         ("-541727990.000000001", outside), ("+9223372036.854775807", outside),
                         ("+9223372036.854775808", outside), ("-9223372036.854775808", outside),
                         ("+18446744073.709551616", outside), ("+" + "9" * 40, outside),
                         ("+0\x156311433599.999999999", FIRST), ("+0\x156311433600", outside),
                         ("+0\x153155760000", FIRST), ("+0\x159223372036.854775808", outside),
                         ("+0\x15" + "9" * 30, outside), ("+0\x150", FIRST)):
        for texts in (b"", b"\x14", b"a\x14"):
            made = text.encode() + b"\x14" + texts + b"\0"
            worked.each(f"the list {made!r}", (several([EMPTY, made]), answer),
                        (several([EMPTY + made, b""]), answer),
                        (several([EMPTY, SNORE, made], order="nEnn"), answer))
    worked.each("the time-keeping list's duration",
                (several([tal("+0", "", duration="6311433600"), SNORE]), outside),
                (several([tal("+0", "", duration="5"), SNORE]), FIRST))
    worked.store(
        "a list without annotations far away, in a later record",
        (several([EMPTY, b""], [keeping("+1"), b"+5769705610\x14\0"]), faults.window(2)))


def lists_in_the_order_of_the_blocks(worked: Worked) -> None:
    """V holds one annotation; each of these holds it too, or another list."""
    nothing = b"+5\x14\0" + b"+7\x151\x14\0"
    same = (several([EMPTY + SNORE], order="En"), several([EMPTY + SNORE], order="nE"),
            several([EMPTY, SNORE], order="Enn"), several([EMPTY, SNORE], order="nnE"),
            several([EMPTY + SNORE, b""]), several([EMPTY, b"", SNORE], order="nnEn"),
            several([EMPTY, SNORE, b""], order="nEnn"), several([EMPTY, nothing + SNORE]),
            several([EMPTY, SNORE + nothing]),
            several([EMPTY + nothing, SNORE, nothing], order="nEnn"),
            several([EMPTY, tal("+00.500", "Snore")], sizes=(20, 30)), unknown(V),
            several([EMPTY, SNORE], reserved="EDF+C"))
    worked.store("the same annotation", (V, FIRST), *((data, KNOWN) for data in same),
                 exports=[canonical((SAMPLES, EMPTY + SNORE))])
    others = (Q, several([EMPTY, EMPTY + SNORE]), several([EMPTY, SNORE + EMPTY]),
              several([EMPTY, EMPTY, SNORE], order="nEnn"), several([EMPTY + SNORE, SNORE]),
              several([EMPTY, tal("+0.5", "snore")]), several([EMPTY, tal("+0.25", "Snore")]),
              several([EMPTY, tal("+0.5", "Snore", duration="0")]),
              several([EMPTY, tal("+0.5", "Snore", "")]))
    worked.store("another list", (V, FIRST), *((data, DIFFERS) for data in others))
    worked.store("no annotation", (Q, FIRST), (V, DIFFERS), (V[:-16] + bytes(16), KNOWN),
                 (several([EMPTY, nothing]), KNOWN), (several([EMPTY, EMPTY]), DIFFERS),
                 (several([EMPTY, b"", b""], order="nnnE"), KNOWN), exports=[Q])
    worked.store(
        "a time-keeping list in each block is an annotation without text in the later ones",
        (several([EMPTY, EMPTY]), FIRST), (several([EMPTY + EMPTY], order="En"), KNOWN),
        (several([tal("+0", "", ""), b""]), KNOWN), (Q, DIFFERS),
        exports=[canonical((SAMPLES, EMPTY + EMPTY))])


def annotations_in_the_order_of_the_blocks(worked: Worked) -> None:
    turn, early = tal("+0.5", "Turn"), tal("+0.25", "Snore")
    worked.store("a later block's annotation is earlier in time",
                 (several([EMPTY + turn, early]), FIRST), (several([EMPTY + early, turn]), DIFFERS),
                 (several([EMPTY, early + turn]), DIFFERS),
                 (several([EMPTY, turn, early], order="nEnn"), KNOWN),
                 (several([EMPTY + turn + early], order="En"), KNOWN),
                 (several([EMPTY, early, turn], order="nnnE"), DIFFERS),
                 exports=[canonical((SAMPLES, EMPTY + turn + early))])
    both = tal("+0.5", "Snore", "Turn")
    worked.store("two annotations of one onset", (several([EMPTY + SNORE, turn]), FIRST),
                 (several([EMPTY, both]), KNOWN), (several([EMPTY + both, b""]), KNOWN),
                 (several([EMPTY, b"", both], order="nEnn"), KNOWN),
                 exports=[canonical((SAMPLES, EMPTY + SNORE + turn))])
    worked.store("annotations of the time-keeping list",
                 (several([tal("+0", "", "a"), tal("+0", "b")]), FIRST),
                 (several([EMPTY, tal("+0", "a", "b")]), KNOWN),
                 exports=[canonical((SAMPLES, EMPTY + tal("+0", "a") + tal("+0", "b")))])


def recordings_of_several(worked: Worked) -> None:
    """The key has the ordinary signals alone, and the samples of a data record are theirs in
    order."""
    later = several([EMPTY, SNORE], order="nnE", starttime="23.59.51")
    worked.store(
        "one recording", (Q, FIRST), (later, FIRST),
        exports=[canonical((SAMPLES, EMPTY), (SAMPLES, keeping("+1") + tal("+1.5", "Snore")))])
    worked.store("an overlap", (Q, FIRST), (several([keeping("+0.5"), b""]), OVERLAPS), exports=[Q])
    among = several([EMPTY, b"", SNORE], order="nEnFn")
    signals = (Signal(), Signal("EMG chin", samples="1"), annotations_signal(9))
    export = fragment(Header(signals), [(b"\x01\x00\xff\xff\x07\x00", EMPTY + SNORE)])
    worked.store("annotations signals among the ordinary ones", (among, FIRST),
                 (several([EMPTY + SNORE], order="EnF"), KNOWN), (export, KNOWN),
                 (several([EMPTY, SNORE], order="FnEn"), FIRST), (V, FIRST),
                 (unknown(among), KNOWN), (unknown(among)[:-1], faults.cut_record(1)))
    worked.store("their export", (among, FIRST), exports=[export])
    for label in ("EDF annotations", "EDF Annotationsx", " EDF Annotations", "EDF Annotation",
                  "Annotations"):
        row = Signal(label, "", "", "-1", "1", "-32768", "32767", "", "8", "")
        export = fragment(Header((Signal(), row, annotations_signal(3))),
                          [(SAMPLES + SNORE + bytes(4), EMPTY)])
        worked.store(f"a signal labelled {label!r} is an ordinary one", (V, FIRST),
                     (column(V, LABEL, 3, label), FIRST),
                     exports=[canonical((SAMPLES, EMPTY + SNORE)), export])
    worked.store("an export of several", (canonical((SAMPLES, EMPTY + SNORE)), FIRST), (V, KNOWN))


def the_greatest_lists(worked: Worked) -> None:
    too_many = faults.too_many(1)
    for first, rest, answer in ((5_000, (5_000,), FIRST), (5_000, (5_001,), too_many),
                                (0, (10_000,), FIRST), (0, (10_001,), too_many),
                                (10_000, (0,), FIRST), (10_001, (0,), too_many),
                                (9_999, (1,), FIRST), (10_000, (1,), too_many),
                                (3_333, (3_333, 3_334), FIRST), (3_333, (3_334, 3_334), too_many),
                                (0, (1, 9_999), FIRST), (9_998, (1, 1), FIRST),
                                (9_998, (1, 2), too_many)):
        made = [many(first, keeps_time=True), *map(many, rest)]
        worked.store(f"annotations {first} and {rest}",
                     (several(made, order="nE" + "n" * len(rest)), answer))
    for first, rest, answer in ((500_000, (500_000,), FIRST), (500_000, (500_001,), too_many),
                                (0, (1_000_000,), FIRST), (0, (1_000_001,), too_many),
                                (1_000_000, (0,), FIRST), (1_000_000, (1,), too_many),
                                (400_000, (300_000, 300_000), FIRST),
                                (400_000, (300_000, 300_001), too_many)):
        made = [long(first, keeps_time=True), *map(long, rest)]
        worked.store(f"bytes of texts {first} and {rest}",
                     (several(made, order="nE" + "n" * len(rest)), answer))
    worked.each("at the limit beside another fault",
                (several([many(10_001, keeps_time=True), b"x"]), faults.tal(1, 10006)),
                (several([EMPTY, b""], [keeping("+0.5"), many(10_001)]), faults.order(2)),
                (several([EMPTY, b""], [keeping("+1"), many(10_001)]), faults.too_many(2)),
                (several([many(10_000, keeps_time=True), b"+5\x14\0" * 9]), FIRST),
                (several([many(10_000, keeps_time=True), EMPTY]), too_many),
                (several([many(6_000, keeps_time=True), b""],
                         [b"+1\x14" + b"\x14" * 6_001 + b"\0", b""]), (2, 0)))
    worked.store("10,000 in a later block, written", (several([EMPTY, many(10_000)]), FIRST),
                 exports=[canonical((SAMPLES, EMPTY * 10_001))])


def blocks_by_themselves(worked: Worked) -> None:
    """The reading of a record's blocks, which may here have any number of bytes."""
    layout = SimpleNamespace(start=START, duration=10**9)

    def read(blocks, before=None):
        try:
            return model.read_blocks(blocks, 1, layout, before)
        except model.Refused as fault:
            return str(fault)
    snore = (START, ((START + 500_000_000, None, b"Snore"),))
    for blocks, answer in (([V[1024:1030], V[1034:]], snore), ([EMPTY, SNORE], snore),
                           ([EMPTY, b"", SNORE], snore), ([EMPTY + SNORE], snore),
                           ([EMPTY, b""], (START, ())), ([b"", EMPTY], faults.not_timed(1)),
                           ([b""], faults.not_timed(1)),
                           ([EMPTY, b"x"], faults.tal(1, 5)),
                           ([EMPTY, b"", b"", b"\0x"], faults.tal(1, 5)),
                           ([EMPTY, b"+1\x14\xff\x14\0"], faults.text(1, 8)),
                           ([EMPTY, tal("+1", "a", duration="2.5")],
                            (START, ((START + 10**9, 2_500_000_000, b"a"),)))):
        worked.same(f"the blocks {blocks}", read(blocks), answer)
    worked.same("a later record", read([keeping("+1"), SNORE], START), (START + 10**9, snore[1]))
    worked.same("a later record that comes too early",
                read([keeping("+0.999999999"), keeping("+1")], START), faults.order(1))


ALL = (headers_of_several, which_signals_are_annotations_signals, samples_of_several,
       blocks_that_are_no_lists, texts_that_are_no_utf_8, the_first_block_keeps_time,
       times_outside_the_window, lists_in_the_order_of_the_blocks,
       annotations_in_the_order_of_the_blocks, recordings_of_several, the_greatest_lists,
       blocks_by_themselves)
