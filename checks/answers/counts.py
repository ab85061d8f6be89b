"""Files without a count of their data records (-1)."""
from checks.lib import faults, model
from checks.lib.by_hand import (COUNT, DIFFERS, DIGITAL_LOW, DURATION, EMPTY, FIRST, HALF,
                                HEADER_BYTES, K, KNOWN, LABEL, LAST_SECOND, MARCH_3, N1, N2, N3,
                                OVERLAPS, P5, Q, R9, RESERVED, SAMPLES, SIGNALS, SNORE, U, V,
                                VERSION, X, Worked, canonical, column, field, several, sized,
                                unknown)
from checks.lib.edf import keeping, tal


def cut(size: int, of_record: int):
    """The answer where so many bytes follow the header, of data records of this size."""
    records, rest = divmod(size, of_record)
    return (records, 0) if records and not rest else faults.cut_record(records + 1)


def texts_of_the_count(worked: Worked) -> None:
    for text in ("-2", "-01", "-001", "-10", "-11", "-0", "+1", " -1", "-1.", "-1.0", "--1", "- 1",
                 "-1 1", "-1-", "1-", "-", "", "0", "00000000", "1.0", "-9999999", "-1      "[::-1],
                 "1 1", " 1"):
        worked.store(f"the count {text!r}", (field(Q, COUNT, text), faults.count()))
    for text in ("1", "01", "00000001", "-1", "-1      "):
        worked.store(f"the count {text!r}", (field(Q, COUNT, text), FIRST), exports=[Q])
    for text, offset in (("-1\0", 238), ("-1     \x7f", 243), ("\xb11", 236)):
        worked.store(f"the count {text!r}",
                     (field(Q, COUNT, text), faults.unprintable(offset)))
    open_q, other = unknown(Q), field(Q, COUNT, "-2")
    worked.each("the count -1 or -2 beside another fault",
                (field(open_q, VERSION, "1"), faults.version()),
                (field(open_q, RESERVED, ""), faults.not_plus()),
                (field(open_q, DURATION, "0"), faults.duration()),
                (field(open_q, SIGNALS, "1"), faults.signals()),
                (field(open_q, HEADER_BYTES, "512"), faults.header_bytes()),
                (field(other, RESERVED, ""), faults.not_plus()),
                (field(other, DURATION, "0"), faults.count()), (other[:256], faults.count()),
                (open_q[:255], faults.cut()), (open_q[:256], faults.cut_signals()),
                (open_q[:767], faults.cut_signals()))


def ends_of_unknown_count(worked: Worked) -> None:
    worked.store("one record", (unknown(Q), FIRST), (Q, KNOWN), (unknown(Q), KNOWN), exports=[Q])
    worked.store("one record after the same with its count", (Q, FIRST), (unknown(Q), KNOWN),
                 exports=[Q])
    worked.store("two records, and one of them cut", (unknown(U)[:-1], faults.cut_record(2)),
                 (unknown(U), (2, 0)))
    worked.store("the header alone", (unknown(Q)[:768], faults.cut_record(1)), exports=[])
    worked.store("a byte more", (unknown(Q) + b"\0", faults.cut_record(2)), exports=[])
    worked.store("two of three records, then all", (unknown(K)[:788], (2, 0)),
                 (K, (1, 2)), exports=[K[:196] + b"D" + K[197:]])
    for n in range(768, 799):       # three records of 10 bytes
        worked.store(f"three records cut to {n} bytes", (unknown(K)[:n], cut(n - 768, 10)))
    for n, answer in ((768, faults.cut_record(1)), (791, faults.cut_record(1)),
                      (792, faults.cut_record(1)), (796, FIRST),
                      (797, faults.cut_record(2)), (819, faults.cut_record(2)),
                      (820, faults.cut_record(2)), (821, faults.cut_record(2)),
                      (823, faults.cut_record(2)), (824, (2, 0))):
        worked.store(f"blocks of 24 bytes before samples of 4, cut to {n} bytes",
                     (unknown(R9)[:n], answer))


def more_behind_a_record(worked: Worked) -> None:
    record = Q[768:]
    later = b"\x02\x00\x02\x00" + keeping("+1") + b"\0"
    for more, open_answer, answer in ((b"\0", faults.cut_record(2), faults.trailing()),
                                      (b"\xff" * 9, faults.cut_record(2), faults.trailing()),
                                      (bytes(10), faults.not_timed(2), faults.trailing()),
                                      (bytes(11), faults.not_timed(2), faults.trailing()),
                                      (record, faults.order(2), faults.trailing()),
                                      (Q, faults.tal(2, 0), faults.trailing()),
                                      (record[:9], faults.cut_record(2), faults.trailing()),
                                      (later, (2, 0), faults.trailing()),
                                      (later + b"\0", faults.cut_record(3), faults.trailing()),
                                      (later + later, faults.order(3), faults.trailing())):
        worked.each(f"{len(more)} bytes more", (unknown(Q) + more, open_answer), (Q + more, answer))
    worked.each("a count that is another", (field(Q, COUNT, "2"), faults.cut_record(2)),
                (field(K, COUNT, "2"), faults.trailing()),
                (field(K, COUNT, "4"), faults.cut_record(4)),
                (K[:788], faults.cut_record(3)), (K[:787], faults.cut_record(2)))
    blocks = [keeping(f"+{n}") for n in range(1000)]
    whole = canonical(*((SAMPLES, block) for block in blocks))
    worked.store("a thousand records", (unknown(whole), (1000, 0)),
                 (whole, (0, 1000)), exports=[whole])


def faults_of_unknown_count_in_their_order(worked: Worked) -> None:
    # 6 bytes of block and 4 of samples a record
    two = unknown(several([EMPTY], [b"x" + keeping("+1")], order="nE"))
    worked.each("a block that is wrong in a record that is cut", (two, faults.tal(2, 0)),
                (two[:-1], faults.cut_record(2)), (two[:784], faults.cut_record(2)),
                (two[:778], FIRST))
    two = unknown(several([b"x" + EMPTY], [keeping("+1")], order="nE"))
    worked.each("a block that is wrong before a record that is cut",
                (two, faults.tal(1, 0)), (two[:-1], faults.tal(1, 0)),
                (two[:778], faults.tal(1, 0)), (two[:777], faults.cut_record(1)))
    early = unknown(several([EMPTY], [keeping("+0.5")], order="En"))
    worked.each("a record that comes too early", (early, faults.order(2)),
                (early[:-1], faults.cut_record(2)), (early[:780], FIRST),
                (unknown(several([keeping("+1")], order="En")), faults.first_onset(1)))
    last = unknown(several([keeping("+0.5")], [keeping("+1.5")], order="En", **LAST_SECOND))
    worked.each("a record after the window", (last, faults.window(2)), (last[:780], FIRST))
    third = several([EMPTY], [keeping("+1")], [keeping("+2")], order="En")
    third = third[:768] + b"\0" + third[769:]
    again = (Q, KNOWN)
    for what, data, answer in (("cut inside the third record", unknown(third)[:-1],
                                faults.cut_record(3)),
                               ("cut after the second record", unknown(third)[:788], DIFFERS),
                               ("whole", unknown(third), DIFFERS),
                               ("cut inside the first record", unknown(third)[:777],
                                faults.cut_record(1)),
                               ("with its count, cut after the second record", third[:788],
                                faults.cut_record(3))):
        worked.store(f"a file that contradicts what is held, {what}", (Q, FIRST), (data, answer),
                     again, exports=[Q])
    worked.store("an overlap", (Q, FIRST), (unknown(HALF), OVERLAPS),
                 (unknown(HALF)[:-1], faults.cut_record(2)), (unknown(HALF)[:780], FIRST))


def unknown_count_in_a_full_recording(worked: Worked) -> None:
    open_k = unknown(K)
    worked.store("room for two, three more", (N1, FIRST), (open_k, faults.full(1, 2, 2)),
                 (N1, KNOWN), exports=[N1], cap=2)
    worked.store("room for three", (N1, FIRST), (open_k, (2, 1)),
                 (open_k, (0, 3)), cap=3)
    worked.store("room for two, two of three", (N1, FIRST), (open_k[:788], (1, 1)),
                 (open_k, faults.full(2, 1, 2)), cap=2)
    worked.store("room for two, none held", (open_k, faults.full(0, 3, 2)), exports=[],
                 cap=2)
    worked.store("room for one", (open_k[:778], FIRST),
                 (open_k[:788], faults.full(1, 1, 1)), (open_k[:778], KNOWN), cap=1)
    worked.store("room for two, all known", (N1, FIRST), (N2, FIRST),
                 (open_k[:788], (0, 2)), cap=2)
    worked.store("room for two, a cut record", (N1, FIRST), (open_k[:-1], faults.cut_record(3)),
                 cap=2)
    other = open_k[:788] + b"\x0d" + open_k[789:]
    worked.store("room for two, a contradiction", (N1, FIRST), (N3, FIRST),
                 (other, faults.differs("2002-03-03T01:00:02")), cap=2)


def exports_of_unknown_count(worked: Worked) -> None:
    """The export has its count, whatever the files have."""
    card = canonical(*((bytes([10 + n, 0, 0, 0]), keeping(f"+{n}")) for n in range(3)),
                     starttime="01.00.00", **MARCH_3)
    worked.store("the card", (unknown(K), (3, 0)), (N2, KNOWN), exports=[card])
    worked.store("the card in parts", (unknown(N3), FIRST), (unknown(N1), FIRST),
                 (unknown(N2), FIRST), (unknown(K), (0, 3)),
                 (unknown(card), (0, 3)), exports=[card])
    snore = keeping("+15") + tal("+15.5", "Snore") + tal("+15.5", "Turn")
    night = canonical((SAMPLES, EMPTY), (b"\x03\x00\xfd\xff", keeping("+10")),
                      (b"\x02\x00\xfe\xff", snore))
    worked.store("three parts of a night", (unknown(P5), FIRST), (unknown(Q), FIRST),
                 (unknown(R9), (1, 1)), exports=[night])
    worked.store("the night's export", (unknown(night), (3, 0)),
                 (unknown(night)[:-1], faults.cut_record(3)), exports=[night])
    worked.store("a withheld date", (unknown(X), FIRST), (unknown(Q), FIRST), exports=[Q, X])


def the_greatest_number_of_records(worked: Worked) -> None:
    """With a limit of two data records in place of 99,999,999, which the program can't be given."""
    program, worked.program = worked.program, None
    most, model.MOST_RECORDS = model.MOST_RECORDS, 2
    open_k = unknown(K)
    worked.same("the limit", most, 99_999_999)
    worked.each("at most two records", (open_k[:778], FIRST), (open_k[:788], (2, 0)),
                (open_k[:789], faults.trailing()), (open_k, faults.trailing()),
                (open_k[:787], faults.cut_record(2)),
                (open_k[:788] + bytes(10), faults.trailing()),
                (open_k[:778] + b"\1\0\2\0x+1\x14\x14\0z", faults.tal(2, 0)),
                (K, (3, 0)), (K + b"\0", faults.trailing()))
    model.MOST_RECORDS, worked.program = most, program


def unknown_count_and_several(worked: Worked) -> None:
    open_v = unknown(V)
    worked.store("both", (open_v, FIRST), (V, KNOWN), exports=[canonical((SAMPLES, EMPTY + SNORE))])
    worked.store("both after one record without annotations", (Q, FIRST), (open_v, DIFFERS),
                 (open_v[:-16] + bytes(16), KNOWN), exports=[Q])
    two = unknown(several([EMPTY, SNORE], [keeping("+1"), b""], sizes=(3, 8)))
    for n in range(1024, 1077):     # two records of 26 bytes
        worked.store(f"two records cut to {n} bytes", (two[:n], cut(n - 1024, 26)))
    # the first byte of the later block of the second record
    wrong = two[:1060] + b"x" + two[1061:]
    worked.each("a later block that is wrong", (wrong, faults.tal(2, 6)),
                (wrong[:-1], faults.cut_record(2)), (wrong[:1050], FIRST),
                (wrong[:1061], faults.cut_record(2)))
    worked.each("bytes after the last", (open_v + b"\0", faults.cut_record(2)),
                (open_v + bytes(25), faults.cut_record(2)),
                (open_v + bytes(26), faults.not_timed(2)),
                (open_v + V[1024:], faults.order(2)))
    worked.each("faults of the header",
                (field(column(V, LABEL, 3, "EEG"), COUNT, "-2"), faults.count()),
                (column(column(open_v, LABEL, 1, "EEG"), LABEL, 3, "EMG"), faults.annotations()),
                (column(open_v, DIGITAL_LOW, 3, "0"), faults.annotations()),
                (unknown(sized((2,), (2_097_151, 2))), faults.size()),
                (unknown(sized((2,), (2_097_151, 1))), faults.cut_record(1)))


ALL = (texts_of_the_count, ends_of_unknown_count, more_behind_a_record,
       faults_of_unknown_count_in_their_order, unknown_count_in_a_full_recording,
       exports_of_unknown_count, the_greatest_number_of_records, unknown_count_and_several)
