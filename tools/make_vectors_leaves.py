#!/usr/bin/env python3
"""Writes the cases of vectors_leaves: python3 tools/make_vectors_leaves.py > crates/vectors_leaves/stdin

Dates come from Python's datetime and calendar (the proleptic Gregorian calendar of ISO 8601), texts are judged by Python's
strict UTF-8 decoder, number texts are the cases of the rules' M7 and of Rust's documentation, written out by hand.
"""
import calendar
import datetime

EPOCH = datetime.date(1970, 1, 1).toordinal()
LAST = datetime.date(2554, 7, 21)


def spelled(data):
    return data.hex().upper() or "-"


def day(year, month, day_of_month):
    return datetime.date(year, month, day_of_month).toordinal() - EPOCH


def dates():
    print("# m YYYYMM FIRST LAST: the days of a month's first and last date, by Python's datetime; the dates beside them,")
    print("# YYYYMM00 and the one past the last, are refused")
    for year in range(1970, 2555):
        for month in range(1, 13):
            last = calendar.monthrange(year, month)[1]
            if datetime.date(year, month, last) <= LAST:
                print(f"m {year}{month:02} {day(year, month, 1)} {day(year, month, last)}")
    print("# d YYYYMMDD DAY, or a - for a date that is refused: every 29 February, the ends of the range, no such dates")
    for year in range(1970, 2555):
        print(f"d {year}0229 {day(year, 2, 29) if calendar.isleap(year) else '-'}")
    for date, known in [
        ("19700101", 0), ("20000229", 11016), ("25540701", day(2554, 7, 1)), ("25540720", 213502), ("25540721", 213503),
        ("25540722", "-"), ("25540731", "-"), ("25540801", "-"), ("25541231", "-"), ("25550101", "-"), ("24000229", day(2400, 2, 29)),
        ("19691231", "-"), ("19690101", "-"), ("19700001", "-"), ("19701301", "-"), ("19700100", "-"), ("19700132", "-"),
        ("19709901", "-"), ("19700199", "-"), ("0", "-"), ("1", "-"), ("101", "-"), ("10101", "-"), ("99991231", "-"),
        ("429496729", "-"), ("4294967295", "-"),
    ]:
        print(f"d {date} {known}")


def texts():
    print("# u + BYTES for UTF-8 and u - BYTES for what is not, by Python's strict decoder; first RFC 3629's examples (sections 7, 10),")
    print("# then every boundary of every production of section 4 with its neighbours, whole and cut short")
    seen = set()
    given = [
        "41 E2 89 A2 CE 91 2E", "ED 95 9C EA B5 AD EC 96 B4", "E6 97 A5 E6 9C AC E8 AA 9E", "EF BB BF F0 A3 8E B4",
        "C0 80", "2F C0 AE 2E 2F", "ED A1 8C ED BE B4", "", "00", "EF BF BF", "ED A0 80", "F4 90 80 80", "E0 9F BF",
    ]
    for text in given:
        yield_text(bytes.fromhex(text), seen)
    leads = [0x00, 0x01, 0x7E, 0x7F, 0x80, 0x81, 0xBF, 0xC0, 0xC1, 0xC2, 0xC3, 0xDE, 0xDF, 0xE0, 0xE1, 0xE2, 0xEB, 0xEC, 0xED,
             0xEE, 0xEF, 0xF0, 0xF1, 0xF2, 0xF3, 0xF4, 0xF5, 0xF7, 0xF8, 0xFE, 0xFF]
    tails = [0x00, 0x7F, 0x80, 0x81, 0x8F, 0x90, 0x9F, 0xA0, 0xBE, 0xBF, 0xC0, 0xFF]
    for lead in leads:
        yield_text(bytes([lead]), seen)
        for second in tails:
            yield_text(bytes([lead, second]), seen)
            for third in [0x7F, 0x80, 0xBF, 0xC0]:
                yield_text(bytes([lead, second, third]), seen)
                for fourth in [0x7F, 0x80, 0xBF, 0xC0]:
                    if lead >= 0xEF and 0x80 <= second <= 0xBF:
                        yield_text(bytes([lead, second, third, fourth]), seen)


def yield_text(text, seen):
    if text in seen:
        return
    seen.add(text)
    try:
        text.decode("utf-8", "strict")
        sign = "+"
    except UnicodeDecodeError:
        sign = "-"
    print("u", sign, spelled(text))


def numbers():
    print("# n + VALUE BYTES for a text that is a u32, n - PLACE BYTES for one that is not and where no reading could go on")
    cases = [
        ("7", "+", 7), ("+7", "+", 7), ("007", "+", 7), ("+", "-", 1), ("", "-", 0), ("4294967296", "-", 9), ("4294967295", "+", 4294967295),
        ("+4294967295", "+", 4294967295), ("+4294967296", "-", 10), ("++1", "-", 1), ("-0", "-", 0), ("-", "-", 0), (" 7", "-", 0), ("7 ", "-", 1),
        ("7\n", "-", 1), ("0", "+", 0), ("00", "+", 0), ("+0", "+", 0), ("0" * 255, "+", 0), ("0" * 300, "+", 0), ("0" * 290 + "4294967295", "+", 4294967295),
        ("0" * 290 + "4294967296", "-", 299), ("42949672950", "-", 10), ("4294967300", "-", 9), ("9999999999", "-", 9), ("10000000000", "-", 10),
        ("1a", "-", 1), ("a", "-", 0), ("1+", "-", 1), ("1:", "-", 1), ("1/", "-", 1), ("/", "-", 0), (":", "-", 0), ("1_000", "-", 1), ("0x10", "-", 1),
        ("+-1", "-", 1), ("1.0", "-", 1), ("18446744073709551616", "-", 10), ("9" * 40, "-", 9),
    ]
    for text, sign, value in cases:
        print("n", sign, value, spelled(text.encode()))
    print("n - 1 31C2B2")
    print("n - 0 D9A1")


def record(kind=1, instrument=7, time=5, body=b"", length=None):
    whole = 16 + len(body) if length is None else length
    return whole.to_bytes(2, "little") + kind.to_bytes(2, "little") + instrument.to_bytes(4, "little") + time.to_bytes(8, "little") + body


def frames():
    print("# f PLACE NUMBER VALUES BYTES: what stands at a place of a stream, by RULES, Merging records. The values are length, kind,")
    print("# instrument and time of a record, the reason of damage, or none; five numbers always, 0 where there are fewer")
    largest = 2**64 - 1
    two = record() + record(kind=2, instrument=4294967295, time=largest, body=b"ab")
    for place, number, values, data in [
        (0, 0, (0, 0, 0, 0), b""), (1, 0, (0, 0, 0, 0), b""), (largest, 0, (0, 0, 0, 0), record()),
        (0, 0, (16, 1, 7, 5), record()), (16, 0, (0, 0, 0, 0), record()), (15, 13, (1, 0, 0, 0), record()), (1, 13, (1, 0, 0, 0), record()),
        (0, 13, (1, 0, 0, 0), record()[:15]), (0, 13, (1, 0, 0, 0), b"\0" * 15), (0, 13, (1, 0, 0, 0), b"\0"),
        (0, 13, (2, 0, 0, 0), record(length=15)), (0, 13, (2, 0, 0, 0), record(length=0)), (0, 13, (2, 0, 0, 0), record(length=1025)),
        (0, 13, (2, 0, 0, 0), record(body=b"\0" * 1009)), (0, 13, (2, 0, 0, 0), record(length=65535)),
        (0, 13, (3, 0, 0, 0), record(length=17)), (0, 13, (3, 0, 0, 0), record(length=1024)), (0, 13, (3, 0, 0, 0), record(body=b"\0" * 1007, length=1024)),
        (0, 0, (1024, 1, 7, 5), record(body=b"\0" * 1008)), (0, 0, (17, 258, 7, 5), record(kind=258, body=b"\0") + b"stray"),
        (16, 0, (18, 2, 4294967295, largest), two), (0, 0, (16, 1, 7, 5), two), (18, 13, (2, 0, 0, 0), two), (34, 0, (0, 0, 0, 0), two),
    ]:
        print("f", place, number, *values, 0, spelled(data))
    print("# r NUMBER VALUES BYTES: what exactly one record asks for. The values are instrument, start, end and where the name begins and ends")
    print("# of a symbol mapping; stream, place and reason of 13; none of another kind; five numbers always, 0 where there are fewer")

    def mapping(start, end, name, **other):
        return record(kind=2, body=start.to_bytes(8, "little") + end.to_bytes(8, "little") + name, **other)

    for number, values, data in [
        (13, (0, 0, 1, 0, 0), b""), (13, (0, 0, 3, 0, 0), record() + b"\0"), (13, (0, 0, 1, 0, 0), record()[:15]), (13, (0, 0, 2, 0, 0), record(length=15)),
        (13, (0, 0, 2, 0, 0), record(length=1025)), (13, (0, 0, 2, 0, 0), record(body=b"\0" * 1009)), (13, (0, 0, 3, 0, 0), record(length=17)),
        (13, (0, 0, 4, 0, 0), record(kind=2)), (13, (0, 0, 4, 0, 0), record(kind=2, body=b"\0" * 15)), (13, (0, 0, 3, 0, 0), record(kind=2, body=b"\0" * 16) + b"\0"),
        (0, (7, 0, 0, 32, 32), mapping(0, 0, b"")), (0, (7, 9, 5, 32, 35), mapping(9, 5, b"ABC")), (0, (7, 0, largest, 32, 33), mapping(largest, largest, b"A")),
        (0, (7, 0, 0, 32, 34), mapping(largest, 0, b"\xC3\x28")), (0, (4294967295, 1, largest - 1, 32, 287), mapping(1, largest - 1, b"A" * 255, instrument=4294967295)),
        (0, (7, 1, 2, 32, 1024), mapping(1, 2, b"A" * 992)), (0, (0, 0, 0, 0, 0), record(kind=3, body=b"\xFF\xFE")), (13, (0, 0, 3, 0, 0), record(kind=3) + b"\0"),
        (0, (0, 0, 0, 0, 0), record(kind=258, body=b"\0" * 16)), (0, (0, 0, 0, 0, 0), record(kind=514)), (0, (0, 0, 0, 0, 0), record(kind=0)),
    ]:
        print("r", number, *values, spelled(data))


print("# The cases of vectors_leaves, made by tools/make_vectors_leaves.py. BYTES are hexadecimal, a - for none")
dates()
texts()
numbers()
frames()
