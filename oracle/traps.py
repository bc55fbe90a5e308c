#!/usr/bin/env python3
"""The printed examples M1 to M12 of the rules and the traps of docs/TRAPS.md, as cases with their answers.

traps.py checks the model on them, and exits with 1 where an answer is another. traps.py cases, traps.py answers print
them for another program; traps.py feed cases, traps.py feed answers those of streams in portions, runs among them, the data of
vectors_feed, and traps.py run cases, traps.py run answers those of runs over whole buffers, the data of vectors_run.
"""

import random
import sys

import answer as answers
import model
from answer import words
from model import DAY, NO_SCHEMA, TOP, Lent, NameList

A, B, C, UNKNOWN = 0, 1, 2, 9


def table(room, *rows, rest=0):
    """A table over time with these rows, and the rest of its room filled with one byte."""
    written = model.laid(b"", 0, rows)
    return written + bytes([rest]) * (24 * room - len(written))


def points(room, *entries):
    written = model.laid_entries(b"", entries)
    return written + bytes(8 * room - len(written))


def inserting(room, rows, row, number, *after, names=2):
    """An insert on a table with these rows: its answer, and the rows after it, where they change."""
    before = table(room, *rows)
    after = list(after) if after else rows
    return words("insert", before, len(rows), names, *row), words(number, len(after), table(room, *after))


def finding(rows, instrument, moment, hint, symbol, new_hint, number=0, used=None):
    used = len(rows) if used is None else used
    found = (0, 0) if symbol is None else (1, symbol)
    return words("get_for_ts", table(len(rows), *rows), used, instrument, moment, hint), words(number, *found, new_hint)


def checking(rows, number, names=2):
    return words("check", table(len(rows), *rows), len(rows), names), str(number)


def stretches(room, *rows):
    """A list's memory with these stretches, and the rest of its room filled with 9s."""
    sides = [[model.NOTHING if symbol is None else symbol for symbol in row[3:]] for row in rows]
    written = b"".join(model.STRETCH.pack(row[0], *pair, *row[1:3]) for row, pair in zip(rows, sides))
    return written + bytes([9]) * (28 * room - len(written))


def comparing(left, right, *after, room=8):
    """A comparison of tables with these rows: its stretches."""
    tables = table(len(left), *left), len(left), table(len(right), *right), len(right)
    return words("compare", *tables, 3, stretches(room), 77), words(0, len(after), stretches(room, *after))


def not_comparing(left, right, number, room=8, names=3, more=b""):
    """A refused comparison of tables with these rows, with some bytes more in the list: list and count stay."""
    tables = table(len(left), *left), len(left), table(len(right), *right), len(right)
    lent = stretches(room) + more
    return words("compare", *tables, names, lent, 77), words(number, 77, lent)


def explaining(rows, instrument, moment, reason, *named, names=3, room=None, used=None):
    """Why there is a symbol, or none, in a table with these rows: a reason and the intervals that it names."""
    index, start, end, symbol = named[0] if named else (0, 0, 0, 0)
    told = (reason, index, start, end, symbol, *(named[1][1:] if len(named) > 1 else (0, 0, 0)))
    lent = table(len(rows) if room is None else room, *rows)
    return words("explain", lent, len(rows) if used is None else used, names, instrument, moment, 77), words(0, told)


def not_explaining(rows, instrument, moment, number, names=3, used=None):
    """The same refused: what is lent for the answer stays."""
    used = len(rows) if used is None else used
    asked = words("explain", table(len(rows), *rows), used, names, instrument, moment, 77)
    return asked, words(number, (77,) * 8)


def section(kind, content):
    return (6 + len(content)).to_bytes(4, "little") + kind.to_bytes(2, "little") + content


def listing(*names, places=None, room=None):
    """A name list with these names."""
    ends = [sum(map(len, names[: n + 1])) for n in range(len(names))]
    text = b"".join(names)
    places = len(names) if places is None else places
    room = len(text) if room is None else room
    return NameList(text + bytes(room - len(text)), ends + [0] * (places - len(names)), len(names), len(text))


def naming(given, name, number, n=0, after=None):
    return words("naming", given, name), words(number, n, after or given)


def mapping(instrument, start, end, name, kind=2):
    body = start.to_bytes(8, "little") + end.to_bytes(8, "little") + name
    return model.FRAME.pack(16 + len(body), kind, instrument, 0) + body


def recording(record, answer, given=(table(1), 0, listing(places=1, room=8)), after=None, call="on_record"):
    """A mapping call: its answer, and table, number in use and list after it, where they change."""
    lent, used, names = after or given
    return words(call, *given, record), words(answer, used, lent, names)


def metadata(*mappings, head=(), sets=((), (), ())):
    """A lent metadata whose rooms are as large as what stands in it."""
    fields = dict(version=3, dataset=0, schema=0, start=0, end=0, limit=0, stype_in=1, stype_out=0, ts_out=0)
    fields |= dict(symbol_cstr_len=71) | dict(head)
    given = model.Metadata(**fields, symbols=sets[0], partial=sets[1], not_found=sets[2], mappings=mappings)
    counts = [len(list(s)) for s in sets] + [len(mappings)]
    return Lent(model.head_of(given), counts, model.lists_of(given))


def with_room(lent, intervals):
    """The same with room for this many intervals."""
    return Lent(lent.head, lent.counts, [*lent.lists[:4], lent.lists[4] + [0] * (3 * intervals - len(lent.lists[4]))])


TEXTS = listing(b"", b"A", b"B", b"5", b"x", b"7", b"+7", b"007")
EMPTY, NAME_A, NAME_B, FIVE, X, SEVEN, PLUS_SEVEN, LONG_SEVEN, NONE = 0, 1, 2, 3, 4, 5, 6, 7, 99
D1, D2, D3, D4, BAD = 19700102, 19700103, 19700104, 19700105, 21000229
FORWARD, INVERSE, NEITHER, BOTH = ({"stype_in": i, "stype_out": o} for i, o in [(1, 0), (0, 1), (1, 1), (0, 0)])


def building(head, mappings, number, *rows, room=4, names=TEXTS):
    """A build over time into a table that held 9s: its answer and rows; every other place is 0."""
    asked = words("lent_build", bytes([9]) * 24 * room, names, metadata(*mappings, head=head))
    return asked, words(number, len(rows), table(room, *rows))


def building_day(head, mappings, number, *entries, day=D2, room=4, names=TEXTS):
    asked = words("lent_build_day", bytes([9]) * 8 * room, day, names, metadata(*mappings, head=head))
    return asked, words(number, len(entries), points(room, *entries))


def merging(left, right, answer, after=None, names=9):
    return words("merge_metadata", names, left, right), words(answer, after or left)


def walking(left, right, answer, *after):
    """A merge of two lists of one name, in a room that suffices."""
    given, outcome = (with_room(metadata((NAME_A, intervals)), 4) for intervals in (left, after))
    return merging(given, metadata((NAME_A, right)), answer, outcome if answer == 0 else None)


def record(time, instrument=0, kind=0, length=16):
    return model.FRAME.pack(length, kind, instrument, time) + bytes(max(0, length - 16))


def streaming(streams, hints, *answers):
    cuts = [sum(map(len, streams[:n])) for n in range(len(streams) + 1)]
    return words("streams", b"".join(streams), cuts, list(hints)), " ; ".join(answers)


def handed(stream, place, time, length=16):
    return f"r {stream} {place} {length} 0 0 {time}"


def examples():
    yield "M1-M4", (
        "map i 1 10 20 0 g 1 9 0 g 1 10 0 g 1 19 0 g 1 20 0 i 1 20 30 0 i 1 15 18 1 i 1 15 18 0",
        "0 1 1 10 20 0 ; - 0 ; 0 0 ; 0 0 ; - 0 ; 0 1 1 10 30 0 ; 0 3 1 10 15 0 1 15 18 1 1 18 30 0 ; 0 1 1 10 30 0",
    )
    yield "M5", inserting(1, [(1, 10, 30, A)], (1, 15, 18, B), 2)
    yield "M5", inserting(1, [(1, 10, 30, A)], (1, 0, 40, B), 0, (1, 0, 40, B))
    yield "M6", inserting(1, [], (1, 5, 5, A), 0)
    yield "M6", inserting(1, [], (1, 6, 5, A), 1)
    for text, said in [(b"+7", "0 7"), (b"007", "0 7"), (b"+", "8"), (b"", "8"), (b"4294967296", "8")]:
        yield "M7", (words("number", text), said)
    for date, said in [(20000229, f"0 11016 {11016 * DAY}"), (21000229, "11"), (19691231, "11"), (25540722, "11")]:
        yield "M8-M9", (f"day {date}", said)
    dates = {n: 19700101 + n for n in range(20)}
    yield "M10", walking(
        [(dates[1], dates[10], NAME_A)],
        [(dates[1], dates[5], NAME_A), (dates[5], dates[10], NAME_A)],
        0,
        (dates[1], dates[10], NAME_A),
        (dates[5], dates[10], NAME_A),
    )
    yield "M11", walking([(dates[1], dates[5], NAME_A)], [(dates[1], dates[5], NAME_B)], 7)
    yield "M12", ("records 0 2 0 2 5 5 0 2 5 4", "r 0 0 5 ; r 0 1 5 ; r 1 0 5 ; r 1 1 4 ; e ; e")


def map_traps():
    yield "B1", inserting(1, [], (1, 5, 5, UNKNOWN), 0)
    yield "B1", inserting(1, [], (1, 6, 5, UNKNOWN), 1)
    yield "B1", inserting(0, [], (1, 5, 6, UNKNOWN), 3)
    yield "B1", inserting(0, [], (1, 5, 5, A), 0)
    for start, end in [(6, 5), (5, 5)]:
        yield "B2", inserting(2, [(1, 7, 6, A)], (1, start, end, A), 14)
    joined = words(0, 1, table(2, (1, 10, 30, A)))
    yield "B3", (inserting(2, [(1, 10, 15, A), (1, 18, 30, A)], (1, 15, 18, A), 0)[0], joined)
    yield "B4", inserting(2, [(1, 20, 30, A)], (1, 10, 20, A), 0, (1, 10, 30, A))
    both = [(1, 10, 20, A), (1, 20, 30, B)]
    yield "B4", inserting(2, both, (1, 15, 20, B), 0, (1, 10, 15, A), (1, 15, 30, B))
    yield "B5", inserting(1, [(1, 10, 30, A)], (1, 10, 30, B), 0, (1, 10, 30, B))
    yield "B5", inserting(2, [(1, 10, 30, A)], (1, 15, 18, B), 2)
    yield "B6", inserting(2, [(1, 10, 20, A)], (2, 20, 30, A), 0, (1, 10, 20, A), (2, 20, 30, A))
    yield "B6", checking([(1, 10, 20, A), (2, 20, 30, A)], 0)
    yield "B7", inserting(2, [(1, 10, 20, 0)], (1, 20, 30, 1), 0, (1, 10, 20, 0), (1, 20, 30, 1))
    twins = listing(b"X", b"X", b"5")
    yield "B7", building(FORWARD, [(1, [(D1, D2, 2)])], 0, (5, DAY, 2 * DAY, 1), names=twins)
    yield "B7", recording(mapping(5, 1, 2, b"X"), 0, (table(1), 0, twins), (table(1, (5, 1, 2, 0)), 1, twins))
    filled = model.laid(b"", 0, [(1, 10, 15, A), (1, 18, 30, A)]) + bytes([9]) * 24
    after = table(2, (1, 10, 30, A)) + bytes([9]) * 24
    yield "B8", (words("insert", filled, 2, 2, 1, 15, 18, A), words(0, 1, after))
    yield "B8", building(FORWARD, [(NAME_A, [(D1, D2, FIVE)])], 0, (5, DAY, 2 * DAY, NAME_A), room=3)
    yield "B9", finding([(1, 0, TOP, A)], 1, TOP, 5, None, 0)
    yield "B10", finding([(1, 10, 20, A), (2, 20, 30, B)], 1, 25, 0, None, 0)
    gap = [(1, 10, 20, A), (1, 30, 40, B)]
    yield "B11", finding(gap, 1, 25, 1, None, 0)
    yield "B11", finding(gap, 1, 5, 9, None, 9)
    yield "B11", finding(gap, 2, 5, TOP, None, TOP)
    yield "B12", finding([(1, 10, 20, UNKNOWN)], 1, 15, 0, UNKNOWN, 0)
    yield "B12", finding(gap, 1, 15, 7, None, 7, number=15, used=3)


def name_traps():
    full = listing(b"A")
    yield "B13", naming(full, b"A", 0)
    yield "B13", naming(full, b"z" * 256, 4)
    yield "B13", naming(full, b"", 5)
    yield "B13", naming(listing(b"A", places=2), b"", 0, 1, listing(b"A", b""))
    yield "B14", naming(listing(b"\xc3", b"\xa9"), b"A", 14)
    garbage = NameList(b"A\xff\xff", [1, 0, 7], 1, 1)
    yield "B14", naming(garbage, b"BC", 0, 1, NameList(b"ABC", [1, 3, 7], 2, 3))
    for text in (b"\xc0\x80", b"\xed\xa0\x80", b"\xf4\x90\x80\x80", b"\xe0\x9f\xbf"):
        yield "B14", (words("utf8", text), "4")
        yield "B14", naming(listing(places=1, room=4), text, 4)
    for text in (b"\x00", b"\xef\xbf\xbf"):
        yield "B14", (words("utf8", text), "0")
    for text, said in [(b"0" * 255, "0 0"), (b"0" * 300, "0 0"), (b"+4294967295", "0 4294967295")]:
        yield "B15", (words("number", text), said)
    for text in (b"++1", b"-0", b" 7", b"7\n", b"9999999999", b"04294967296"):
        yield "B15", (words("number", text), "8")
    sevens = [(NAME_A, [(D1, D2, SEVEN), (D2, D3, PLUS_SEVEN), (D3, D4, LONG_SEVEN)])]
    yield "B15", building(FORWARD, sevens, 0, (7, DAY, 4 * DAY, NAME_A))
    for date, day in [(19700101, 0), (20000229, 11_016), (25540721, 213_503), (24000229, model.DAYS[24000229])]:
        yield "B16", (f"day {date}", words(0, day, day * DAY))
    for date in (22000229, 19700001, 19701301, 19700100):
        yield "B16", (f"day {date}", "11")


def record_traps():
    damaged = [(b"", 1), (record(0) + b"\0", 3), (record(0)[:15], 1), (record(0, length=15), 2)]
    damaged += [(record(0, length=1025)[:16], 2), (record(0, kind=2, length=31), 4)]
    for given, reason in damaged:
        yield "B17", recording(given, (13, 0, 0, reason))
    free = (table(1), 0, listing(places=1, room=8))
    empty = (table(1, (5, 1, 2, 0)), 1, listing(b"", places=1, room=8))
    yield "B17", recording(mapping(5, 1, 2, b""), 0, free, empty)
    yield "B18", recording(mapping(5, 1, 2, b"\xff", kind=3), 0)
    yield "B18", recording(mapping(5, 1, 2, b"A", kind=258), 0)
    yield "B18", recording(mapping(5, 1, 2, b"A", kind=3) + b"\0", (13, 0, 0, 3))
    no_room = (table(1), 0, listing())
    yield "B19", recording(mapping(5, TOP, 0, b"A"), 0)
    yield "B19", recording(mapping(5, 9, 5, b"\xff"), 4)
    yield "B19", recording(mapping(5, 9, 5, b"A"), 1, no_room)
    yield "B19", recording(mapping(5, 5, 5, b"\xff"), 4)
    yield "B19", recording(mapping(5, 5, 5, b"A"), 0, no_room)
    yield "B20", recording(mapping(5, 1, 2, b"A"), 5, (table(0), 0, listing()))
    yield "B20", recording(mapping(5, 1, 2, b"A"), 2, (table(0), 0, listing(places=1, room=8)))
    free = (points(1), 0, listing(places=1, room=8))
    full = (points(1, (5, 0)), 1, listing(b"A", places=1, room=8))
    yield "B21", recording(mapping(5, 9, 5, b"A"), 0, free, full, "on_record_point")
    free = (points(1, (5, 0)), 1, listing(b"A", places=2, room=8))
    replaced = (points(1, (5, 1)), 1, listing(b"A", b"B", room=8))
    yield "B21", recording(mapping(5, 9, 5, b"B"), 0, free, replaced, "on_record_point")


def build_traps():
    for interval, number in [((D2, BAD, EMPTY), 0), ((D2, D1, EMPTY), 0), ((D1, BAD, X), 8), ((BAD, D1, NONE), 3)]:
        yield "B22", building(FORWARD, [(NAME_A, [interval])], number)
    yield "B23", building(FORWARD, [(NONE, [])], 0)
    for start, end, number in [(D1, D1, 0), (D2, D1, 1), (D1, D2, 3), (BAD, D1, 11)]:
        yield "B23", building(FORWARD, [(NONE, [(start, end, FIVE)])], number)
    for name, number in [(X, 8), (NONE, 3), (EMPTY, 8)]:
        yield "B24", building(INVERSE, [(name, [])], number)
    yield "B24", building_day(INVERSE, [(X, [(D1, D2, NAME_A)])], 0)
    yield "B25", building(BOTH, [(NAME_A, [(D1, D2, FIVE)])], 0, (5, DAY, 2 * DAY, NAME_A))
    bad_list = NameList(b"\xff", [1], 1, 1)
    yield "B25", building(NEITHER, [], 14, names=bad_list)
    yield "B25", building(NEITHER, [], 9)
    yield "B25", building_day(NEITHER, [], 11, day=BAD)
    narrow = [(NAME_A, [(D1, D2, FIVE)]), (NAME_B, [(D2, D3, FIVE)]), (NAME_A, [(D1, D3, FIVE)])]
    yield "B26", building(FORWARD, narrow, 2, room=1)
    yield "B26", building(FORWARD, [(NAME_A, [(D1, D2, EMPTY), (D1, D1, FIVE)])], 0, room=0)
    for call, length, day in [("lent_build", 25, ()), ("lent_build_day", 9, (D1,))]:
        yield "B27", (words(call, bytes([9]) * length, *day, TEXTS, metadata()), words(15, 0, bytes(length)))
    yield "B28", building_day(FORWARD, [(NAME_A, [(D1, D3, EMPTY), (D1, D3, FIVE)])], 0)
    yield "B28", building_day(FORWARD, [(NAME_A, [(D3, BAD, FIVE), (D1, D3, FIVE)])], 11)
    yield "B28", building_day(FORWARD, [(NAME_A, [(D1, D3, FIVE), (BAD, BAD, FIVE)])], 0, (5, NAME_A))
    two = [(NAME_A, [(D1, D3, FIVE)]), (NAME_B, [(D1, D3, FIVE)])]
    yield "B29", building_day(FORWARD, two, 0, (5, NAME_B), room=1)
    yield "B29", building_day(FORWARD, [(NAME_A, [(D3, D1, FIVE)])], 0)
    for start, number in [(2 * DAY + DAY // 2, 0), (3 * DAY, 10)]:
        yield "B30", building_day(FORWARD | {"start": start}, [], number)
    for end, number in [(2 * DAY, 10), (2 * DAY + 1, 0), (0, 0)]:
        yield "B30", building_day(FORWARD | {"end": end}, [], number)


def metadata_traps():
    x, y, z = [(D1, D2, NAME_A)], [(D2, D3, NAME_A)], [(D3, D4, NAME_A)]
    repeated = metadata((NAME_A, x), (NAME_B, y), (NAME_A, z))
    after = metadata((NAME_A, z), (NAME_B, y))
    freed = Lent(after.head, after.counts, [*after.lists[:3], after.lists[3] + [0, 0], after.lists[4] + [0, 0, 0]])
    yield "B31", (words("open_metadata", repeated), words(0, freed))
    empty = Lent(metadata().head, [0, 0, 0, 0], [[], [], [], [0] * 2, [0] * 6])
    yield "B31", merging(empty, metadata((NAME_A, x), (NAME_A, z)), 0, metadata((NAME_A, x + z)))
    yield "B32", walking([(D1, D2, NAME_A)], [(D2, D3, NAME_A)], 0, (D1, D2, NAME_A), (D2, D3, NAME_A))
    yield "B32", walking([(D2, D2, NAME_A)], [(D2, D2, NAME_B)], 7)
    yield "B32", walking([(D2, D2, NAME_A)], [(D2, D4, NAME_B)], 0, (D2, D2, NAME_A), (D2, D4, NAME_B))
    yield "B32", walking([(D3, D3, NAME_A)], [(D2, D4, NAME_B)], 7)
    bad = (NAME_A, [(D1, BAD, NAME_A)])
    yield "B33", merging(metadata(bad), metadata(head={"version": 2}), (6, 1))
    yield "B33", merging(metadata(), metadata(sets=([], [], [NONE])), 3)
    yield "B33", merging(metadata(head={"dataset": NONE}), metadata(head={"dataset": NONE}), 3)
    yield "B34", merging(metadata((NONE, x)), metadata(bad), 11)
    yield "B34", merging(metadata((NAME_A, [(D2, D1, NAME_A)])), metadata(), 1)
    limited = metadata(head={"limit": 7})
    yield "B35", (words("open_metadata", limited), words(0, limited))
    yield "B35", merging(limited, metadata(), 0, metadata())
    yield "B35", merging(metadata(), metadata(head={"end": 5}), 0, metadata(head={"end": 5}))
    mixed = metadata(head={"schema": NO_SCHEMA})
    yield "B35", merging(metadata(), metadata(head={"schema": 1}), 0, mixed)
    yield "B35", merging(mixed, metadata(), 0, mixed)
    yield "B36", (words("open_metadata", metadata(bad)), words(0, metadata(bad)))
    tight = metadata((NAME_A, [(D1, D2, NAME_A)]))
    yield "B45", merging(tight, metadata((NAME_A, [(D3, D4, NAME_A)]), (NAME_A, [(D3, D4, NAME_B)])), 7)


def merge_traps():
    stray = b"\0" * 3
    yield "B37", streaming([record(0), stray], [], handed(0, 0, 0), "d 1 0 1", "e", "e")
    yield "B37", streaming([record(5), stray], [], "d 1 0 1", handed(0, 0, 5), "e", "e")
    yield "B38", streaming([record(5), record(1)], [0, 10], handed(0, 0, 5), handed(1, 0, 1), "e", "e")
    yield "B38", streaming([record(5), stray], [0, 5], handed(0, 0, 5), "d 1 0 1", "e", "e")
    yield "B38", streaming([stray, record(5)], [5, 0], "d 0 0 1", handed(1, 0, 5), "e", "e")
    three = [record(1) + record(9), b"\0", record(4)]
    yield "B39", streaming(three, [0, 3, 4], handed(0, 0, 1), "d 1 0 1", handed(2, 0, 4), handed(0, 16, 9), "e", "e")
    yield "B40", streaming([record(TOP)], [], handed(0, 0, TOP), "e", "e")
    yield "B40", streaming([record(n) for n in range(256)], [], *(handed(n, 0, n) for n in range(256)), "e", "e")
    yield "B40", streaming([b""] * 257, [], "12")
    yield "B40", streaming([record(3, length=1024)], [], handed(0, 0, 3, 1024), "e", "e")
    yield "B41", ("streams - 2 0 0 0", "e ; e")
    for cuts in ("0", "1 0"):
        yield "B41", (f"streams - {cuts} 0", "12")
    yield "B41", ("streams - 3 0 0 0 0", "e ; e")
    yield "B41", ("streams - 3 0 0 0 1 0", "12")
    yield "B42", streaming([record(0, length=17)[:16]], [], "d 0 0 3", "e", "e")
    yield "B42", streaming([bytes(15)], [], "d 0 0 1", "e", "e")
    section = b"\x06\0\0\0\x01\0"
    printed = [(b"", "bad bundle\n"), (section, "end\n"), (section + b"\0", "bad bundle\n")]
    for length, text in [(60_000, "0 damaged 0\nend\n"), (60_001, "bad bundle\n")]:
        printed += [(length.to_bytes(4, "little") + b"\x01\0" + bytes(length - 6), text)]
    first = record(5, 7) + stray
    example = (6 + len(first)).to_bytes(4, "little") + b"\x01\0" + first + b"\x16\0\0\0\x01\0" + record(6, 7)
    printed += [(example, "0 5 7\n0 damaged 16\n1 6 7\nend\n")]
    for bundle, text in printed:
        yield "B43", (words("replay", bundle), words(text.encode()))


def complaint_pairs():
    """Pairs of runs of request No. 11 by trap: streams, hints and answers to the second end; the runs of a trap differ in one stream."""
    def run(trap, streams, *answers, hints=()):
        return f"No. 11, {trap}", streams, hints, (*answers, "e", "e")

    x, first, last = b"\0", record(5) + record(2), record(4)
    others = (handed(2, 0, 4), handed(0, 0, 5), handed(0, 16, 2))
    yield run(1, [first, b"", last], *others)
    yield run(1, [first, record(3) + record(10), last], handed(1, 0, 3), *others, handed(1, 16, 10))
    yield run(2, [first, x * 3, last], "d 1 0 1", *others)
    yield run(3, [b"", record(7), record(7)], handed(1, 0, 7), handed(2, 0, 7))
    yield run(3, [record(7)] * 3, handed(0, 0, 7), handed(1, 0, 7), handed(2, 0, 7))
    yield run(4, [first, record(0), last], *others, handed(1, 0, 0), hints=(0, TOP, 0))
    yield run(4, [first, record(0), last], handed(1, 0, 0), *others)
    unsorted = (handed(1, 0, 5), handed(0, 0, 9), handed(0, 16, 1))
    yield run(5, [record(9) + record(1), record(5), b""], *unsorted)
    yield run(5, [record(9) + record(1), record(5), record(1)], handed(2, 0, 1), *unsorted)
    long = record(3, length=1024)
    yield run(6, [first, long, last], handed(1, 0, 3, 1024), *others)
    yield run(6, [first, long[:1023], last], "d 1 0 3", *others)
    damaged = (handed(0, 0, 5), "d 0 16 1", handed(2, 0, 6))
    yield run(7, [record(5) + x, b"", record(6)], *damaged)
    yield run(7, [record(5) + x, record(1) + record(9), record(6)], handed(1, 0, 1), *damaged, handed(1, 16, 9))
    yield run(7, [record(5) + x, x, record(6)], "d 1 0 1", *damaged)
    many = [record(5), *[b""] * 254]
    yield run(8, [*many, record(4)], handed(255, 0, 4), handed(0, 0, 5))
    yield run(8, [*many, b""], handed(0, 0, 5))
    yield run(9, [b""])
    yield run(9, [record(1)], handed(0, 0, 1))
    yield run(9, [record(1) + x], handed(0, 0, 1), "d 0 16 1")
    yield run(10, [first, record(0), last], *others, handed(1, 0, 0), hints=(0, 7, 0))


def complaint_traps():
    for name, streams, hints, answers in complaint_pairs():
        yield name, streaming(streams, hints, *answers)


def plain_runs():
    """Runs of request No. 12's traps 1 to 8 and 10 to 13: streams, hints and answers to the second end."""
    def run(trap, streams, *answers, hints=()):
        return f"No. 12, {trap}", streams, hints, (*answers, "e", "e")

    x, five = b"\0", record(5)
    yield run(1, [five] * 2, handed(0, 0, 5), handed(1, 0, 5))
    yield run(2, [five, record(1)], handed(0, 0, 5), handed(1, 0, 1), hints=(0, 5))
    yield run(2, [record(1), five], handed(0, 0, 1), handed(1, 0, 5), hints=(5, 0))
    yield run(3, [record(TOP)], handed(0, 0, TOP))
    yield run(3, [record(TOP)] * 2, handed(0, 0, TOP), handed(1, 0, TOP))
    yield run(3, [record(3), b""], handed(0, 0, 3), hints=(TOP, TOP))
    yield run(4, [*[b""] * 255, record(9)], handed(255, 0, 9))
    yield run(5, [five + x * 3, record(6)], handed(0, 0, 5), "d 0 16 1", handed(1, 0, 6))
    yield run(6, [five + record(4), five], handed(0, 0, 5), handed(0, 16, 4), handed(1, 0, 5))
    falling = handed(0, 0, 5), handed(0, 16, 5), handed(1, 0, 5), handed(1, 16, 4)
    yield run(6, [five * 2, five + record(4)], *falling)
    yield run(8, [b""])
    yield run(10, [five, record(1)], handed(0, 0, 5), handed(1, 0, 1), hints=(0, 10))
    yield run(10, [record(7), record(1)], handed(1, 0, 1), handed(0, 0, 7), hints=(0, 6))
    yield run(11, [record(0)] * 3, handed(2, 0, 0), handed(1, 0, 0), handed(0, 0, 0), hints=(3, 2, 1))
    yield run(12, [b"", five, b"", record(4)], handed(3, 0, 4), handed(1, 0, 5))
    again = handed(0, 0, 1), "d 1 0 1", handed(2, 0, 4), handed(0, 16, 9)
    yield run(13, [record(1) + record(9), x, record(4)], *again, hints=(0, 3, 4))


def plain_traps():
    """By the plain engine and by the heap's; and what both refuse to open."""
    for name, streams, hints, answers in plain_runs():
        case, said = streaming(streams, hints, *answers)
        yield name, (case, said)
        yield name, ("plain" + case.removeprefix("streams"), said)
    for cuts, hints in [([], []), ([0], []), ([1, 16], []), ([0, 15], []), ([0, 16, 8, 16], []), ([0, 16], [1, 2]), ([0] * 257 + [16], [])]:
        yield "No. 12, 12", (words("plain", record(5), cuts, hints), "12")


def made(number, calls, last, at, listed):
    """What a run at the C door hands back where every number held 9 before: its numbers, its rows, and no word behind them changed."""
    return words(number, calls, len(listed), last, at, [number for row in listed for number in row], 0)


def going(calls, *listed):
    return made(0, calls, 1, (0, 0, 9), listed)


def ended(calls, *listed):
    return made(0, calls, 0, (0, 0, 9), listed)


def damaged_run(calls, place, *listed):
    return made(13, calls, 9, (0, place, 1), listed)


def needed(calls, stream, *listed):
    return made(0, calls, 2, (stream, 0, 9), listed)


BAD_RUN = words(15, (9,) * 6)


def whole_runs():
    """Many calls at once (RULES, Requests, No. 14), over whole buffers: a trap, its streams, and runs, each its allowance, the words of its
    list and what it hands back."""
    five, six, printed = (0, 0, 5), (1, 0, 6), [record(5) + b"\0\0\0", record(6)]
    two, one, other = [record(1) + record(2)], (0, 0, 1), (0, 16, 2)
    most = 4096, 12288
    yield 1, printed, (*most, damaged_run(2, 16, five)), (*most, ended(2, six)), (*most, ended(1))
    yield 2, printed, (0, 9, going(0)), (4, 12, damaged_run(2, 16, five)), (4, 12, ended(2, six)), (0, 9, going(0))
    yield 3, printed, (4097, 12288, BAD_RUN), (4097, 0, BAD_RUN), (*most, damaged_run(2, 16, five))
    yield 4, printed, (1, 4, BAD_RUN)
    yield 4, [b"xxx"], (10, 0, going(0)), (10, 3, damaged_run(1, 0)), (10, 3, ended(1))
    yield 5, printed, (10, 3, going(1, five)), (10, 3, damaged_run(1, 16))
    steps = [going(1, five), damaged_run(1, 16), going(1, six), ended(1), ended(1)]
    yield 6, printed, *((1, 9, step) for step in steps)
    yield 7, two, (10, 6, going(2, one, other)), (10, 6, ended(1))
    yield 7, two, (2, 9, going(2, one, other))
    yield 7, two, (3, 9, ended(3, one, other))
    yield 7, two, (3, 6, going(2, one, other))
    yield 8, printed, *((1, 12, step) for step in steps[:4])
    yield 8, printed, (2, 12, damaged_run(2, 16, five)), (2, 12, ended(2, six))
    yield 8, printed, (2, 12, damaged_run(2, 16, five)), (1, 12, going(1, six)), (1, 12, ended(1))
    yield 8, printed, (4, 12, damaged_run(2, 16, five)), (4, 12, ended(2, six))
    yield 9, [record(5) + b"xxx"], (2, 3, going(1, five)), (2, 3, damaged_run(1, 16)), (2, 3, ended(1))
    many = [(0, 16 * i, i) for i in range(5000)]
    whole = b"".join(record(i) for i in range(5000))
    yield 10, [whole], (4096, 15000, going(4096, *many[:4096])), (4096, 15000, ended(905, *many[4096:]))
    yield 14, [record(5) + record(7), record(6)], (4, 12, ended(4, five, six, (0, 16, 7)))
    yield 15, printed, (5000, 9, BAD_RUN), (1, 4, BAD_RUN), (3, 9, damaged_run(2, 16, five)), (3, 9, ended(2, six))


def run_traps():
    for trap, streams, *runs in whole_runs():
        cuts = [sum(map(len, streams[:n])) for n in range(len(streams) + 1)]
        asked = [number for run in runs for number in run[:2]]
        yield f"No. 14, {trap}", (words("runs", b"".join(streams), cuts, [], asked), " ; ".join(run[2] for run in runs))


def run_line(allowance, room, said):
    """A run's answer as vectors_run and vectors_feed print it: calls and records, how it stopped, and the first nine words of its list."""
    number, calls, written, last, stream, place, reason, *rest = map(int, said.split())
    listed = (rest[1:-1] + [9] * room)[: min(room, 9)]
    if number == 15:
        calls, written, listed = 0, 0, ([9] * room)[:9]
    stop = {0: {0: "end", 1: "going", 2: f"need {stream}"}.get(last), 13: f"13 {stream} {place} {reason}", 15: "15"}[number]
    return f"ran {calls} {written} {stop}\n" + " ".join(["list", *map(str, listed)])


def run_lines():
    """The data of vectors_run: the name of a trap, its line, and what it prints. Trap 10 is too long for it."""
    for trap, streams, *runs in whole_runs():
        if trap == 10:
            continue
        cuts = [sum(map(len, streams[:n])) for n in range(len(streams) + 1)]
        pairs = [number for run in runs for number in run[:2]]
        yield f"R{trap}", words("w", cuts, pairs, b"".join(streams)), [run_line(*run) for run in runs]


def compare_traps():
    """Two tables side by side (RULES, Requests, No. 1)."""

    def on(*rows, instrument=7):
        return [(instrument, *row) for row in rows]

    a = on((10, 20, A))
    yield "T1", comparing(a, a, room=0)
    yield "T2", comparing(a, [], *on((10, 20, A, None)))
    yield "T2", not_comparing(a, [], 2, room=0)
    three = on((10, 15, A, None), (15, 18, A, B), (18, 30, A, None))
    yield "T3", comparing(on((10, 30, A)), on((15, 18, B)), *three, room=3)
    yield "T3", not_comparing(on((10, 30, A)), on((15, 18, B)), 2, room=2)
    yield "T4", comparing(on((0, 10, A)), on((0, 5, B), (5, 10, C)), *on((0, 5, A, B), (5, 10, A, C)))
    both = on((0, 10, A), (10, 20, B))
    yield "T5", comparing(both, on((0, 20, A)), *on((10, 20, B, A)))
    yield "T6", comparing(both, on((0, 10, B), (10, 20, A)), *on((0, 10, A, B), (10, 20, B, A)))
    yield "T7", comparing(on((0, 5, A), (6, 10, A)), on((0, 10, A)), *on((5, 6, None, A)))
    apart = [(1, 0, 5, A, None), (2, 0, 5, None, A)]
    yield "T8", comparing([(1, 0, 5, A)], [(2, 0, 5, A)], *apart)
    two = [(1, 10, 20, A), (2, 20, 30, A)]
    yield "T9", comparing(two, [], *((*row, None) for row in two))
    yield "T10", comparing(on((0, TOP, A)), on((0, TOP, B)), *on((0, TOP, A, B)))
    yield "T11", comparing(on((0, 5, 0)), on((0, 5, 1)), *on((0, 5, 0, 1)))  # whatever the bytes of the two names
    bad = on((7, 6, A))
    yield "T12", not_comparing(bad, [], 15, room=0, more=bytes(27))
    yield "T12", not_comparing(bad, [], 14, room=1)
    yield "T12", not_comparing(bad, bad, 14, room=0)
    yield "T12", not_comparing(bad, [], 15, names=4097)
    yield "T12", (words("compare", table(1, *bad), 1, b"\0", 0, 3, b"", 77), words(15, 77, b""))
    left, right = on((0, 3, A), (4, 7, A)), on((2, 5, B))
    five = on((0, 2, A, None), (2, 3, A, B), (3, 4, None, B), (4, 5, A, B), (5, 7, A, None))
    yield "T13", comparing(left, right, *five)
    unseen = table(2, *on((0, 5, A), (6, 9, B))), 1, table(1, *a), 0
    yield "T14", (words("compare", *unseen, 3, stretches(2), 77), words(0, 1, stretches(2, *on((0, 5, A, None)))))
    yield "T15", not_comparing([], bad, 14, room=0)
    often = on((0, 10, A), (20, 30, B), (40, 50, A))
    cut = on((10, 20, A, None), (20, 30, A, B), (30, 40, A, None), (50, 100, A, None))
    yield "T16", comparing(on((0, 100, A)), often, *cut)
    onward = on((5, 10, A), (10, 15, B), (20, 25, A)) + [(9, 0, 1, A)]
    alone = on((0, 5, A, None), (10, 15, None, B), (20, 25, None, A)) + [(9, 0, 1, None, A)]
    yield "T17", comparing(on((0, 10, A)), onward, *alone)
    yield "T18", not_comparing(on((0, 5, 2)), [], 14, names=2)
    least, greatest = 0, 2**32 - 1
    far = [(least, 0, 1, A, None), (greatest, 0, 1, A, B)]
    yield "T19", comparing([(least, 0, 1, A), (greatest, 0, 1, A)], [(greatest, 0, 1, B)], *far)
    for rows in ([], a, left, often):
        yield "T20", (words("compare_self", table(4, *rows), len(rows), 3, b"", 77), words(0, 0, b""))


def compare_program_traps():
    """The same by the program: a name count and two tables, a section each."""
    count, empty, one = section(2, b"\3\0\0\0"), section(3, b""), section(3, table(1, (7, 10, 20, A)))
    bad = [b"", count + empty * 3, empty * 2 + count, count + empty * 2 + b"\0", section(2, b"\3\0\0") + empty * 2]
    for bundle in (*bad, count + empty, count * 2 + empty, count + empty + section(1, b"")):
        yield "T program", (words("compare_program", bundle), words(b"bad bundle\n"))
    printed = [(count + empty * 2, "end"), (count + one + empty, "7 10 20 0 -\nend")]
    printed += [(count + empty + one, "7 10 20 - 0\nend"), (count + section(3, bytes(25)) + empty, "refused 15")]
    printed += [(section(2, b"\1\x10\0\0") + empty * 2, "refused 15"), (section(2, bytes(4)) + one * 2, "refused 14")]
    for bundle, text in printed:
        yield "T program", (words("compare_program", bundle), words(text.encode() + b"\n"))


def explain_traps():
    """Why there is a symbol, or none (RULES, Requests, No. 4)."""
    inside, unknown, before, after, between = 1, 2, 3, 4, 5

    def on(*rows, instrument=7):
        return [(instrument, *row) for row in rows]

    least, greatest = 0, 2**32 - 1
    yield "E1", explaining([], 7, 5, unknown)
    a, b = (0, 10, 20, A), (1, 30, 40, B)
    one, two = on((10, 20, A)), on((10, 20, A), (30, 40, B))
    yield "E2", explaining(one, 7, 9, before, a)
    yield "E2", explaining(one, 7, 10, inside, a)
    yield "E2", explaining(one, 7, 19, inside, a)
    yield "E2", explaining(one, 7, 20, after, a)
    yield "E3", explaining(on((10, 20, A), (20, 30, B)), 7, 20, inside, (1, 20, 30, B))
    yield "E4", explaining(two, 7, 20, between, a, b)
    yield "E4", explaining(two, 7, 29, between, a, b)
    yield "E4", explaining(two, 7, 30, inside, b)
    apart = [(1, 10, 20, A), (3, 5, 8, B)]
    yield "E5", explaining(apart, 2, 15, unknown)
    yield "E5", explaining(apart, 1, 25, after, a)
    yield "E5", explaining(apart, 3, 4, before, (0, 5, 8, B))
    yield "E5", explaining(apart, 3, 5, inside, (0, 5, 8, B))
    yield "E6", explaining(on((0, TOP, A)), 7, TOP, after, (0, 0, TOP, A))
    yield "E7", explaining(on((0, 5, A)), 7, 0, inside, (0, 0, 5, A))
    yield "E8", not_explaining(on((5, 5, A)), 9, 5, 14)
    yield "E8", not_explaining(on((10, 20, 3)), 7, 15, 14)
    yield "E8", not_explaining(one, 7, 15, 15, used=2)
    yield "E8", not_explaining(one, 7, 15, 15, names=4097)
    yield "E9", explaining(two, least, 15, unknown)
    yield "E9", explaining(two, greatest, 15, unknown)
    yield "E10", explaining(two, 7, 25, after, a, used=1)
    yield "E11", explaining(on((10, 20, 0)), 7, 15, inside, (0, 10, 20, 0))
    yield "E11", finding(on((10, 20, 0)), 7, 15, 0, 0, 0)
    yield "E12", explaining(on((10, 20, A), (30, 40, A)), 7, 25, between, a, (1, 30, 40, A))
    three = on((10, 20, A), (20, 30, B), (40, 50, C))
    yield "E13", explaining(three, 7, 35, between, (1, 20, 30, B), (2, 40, 50, C))
    yield "E14", explaining([(greatest, 10, 20, A)], greatest, 25, after, a)
    yield "E14", explaining([(greatest, 10, 20, A)], greatest - 1, 5, unknown)
    yield "E15", explaining(one, 9, 15, unknown)  # what was lent held 77; E8 has the refusals


def explain_program_traps():
    """The same by the program: a name count, a table and questions, a section each."""

    def asked(*questions):
        return section(4, b"".join(model.QUESTION.pack(*question) for question in questions))

    count, one = section(2, b"\3\0\0\0"), section(3, table(1, (7, 10, 20, A)))
    two, ill = section(3, table(2, (7, 10, 20, A), (7, 30, 40, B))), section(3, table(1, (7, 5, 5, A)))
    printed = [(count + one + asked((7, 15), (7, 15)), "7 15 in 0 10 20 0\n" * 2), (count + one + asked(), "")]
    all_five = "7 15 in 0 10 20 0\n7 5 before 0 10 20 0\n7 25 between 0 10 20 0 1 30 40 1\n"
    all_five += "7 40 after 1 30 40 1\n9 5 unknown\n"
    printed.append((count + two + asked((7, 15), (7, 5), (7, 25), (7, 40), (9, 5)), all_five))
    printed.append((count + ill + asked((7, 15), (9, 5)), "7 15 refused 14\n9 5 refused 14\n"))
    printed.append((count + section(3, bytes(25)) + asked((7, 15)), "7 15 refused 15\n"))
    printed.append((section(2, b"\1\x10\0\0") + one + asked((7, 15)), "7 15 refused 15\n"))
    printed.append((section(2, bytes(4)) + one + asked((7, 15)), "7 15 refused 14\n"))
    bad = [b"", count + one, one + count + asked(), count + one + asked() * 2, count + one + asked() + b"\0"]
    bad += [count + one + section(4, bytes(13)), section(2, b"\3\0\0") + one + asked(), count + one + section(3, b"")]
    printed += [(bundle, "bad bundle\n") for bundle in bad]
    for bundle, text in printed:
        yield "E16", (words("explain_program", bundle), words(text.encode()))


# Streams in portions (docs/RULES.md, Requests, No. 5). A case is a name and its calls with what they answer, in the words of
# vectors_feed, whose data they are: o STREAMS HINTS.. opens, a STREAM SIZE HEX is a portion of so many bytes (HEX, then 9s), e STREAM
# says that a stream has ended, n asks for the next answer, r ALLOWANCE WORDS makes a run with a list of so many words, l PLACE lays the
# place of stream 0; from x on, in the last case, marks have 255 places.


def feeding(name, *calls):
    return name, [call.split(" = ") for call in calls]


def short(time, length=16):
    return record(time, 7, 1, length)[:16].hex()


def fed(stream, place, at, time, length=16, last=0):
    return f"record {stream} {place} {at} {length} 1 7 {time} {last}"


def feed_traps():
    nines = lambda stream, size: f"a {stream} {size} -"
    yield feeding("F1", "o 1 0 = opened 1", "n = need 0", "a 0 0 - = taken 0", "n = need 0", "e 0 = done", "n = end", "e 0 = 12",
        "a 0 1 00 = 12", "a 0 0 - = 12")
    zeros = "00" * 15
    yield feeding("F2", "o 1 0 = opened 1", f"a 0 15 {zeros} = taken 15", "n = need 0", "a 0 1 00 = taken 1", "n = 13 0 0 2",
        "a 0 1 00 = 12", "n = end")
    yield feeding("F3", "o 1 0 = opened 1", f"a 0 15 {zeros} = taken 15", "e 0 = done", "n = 13 0 0 1")
    yield feeding("F3", "o 1 0 = opened 1", f"a 0 16 {short(5, 17)} = taken 16", "n = need 0", "e 0 = done", "n = 13 0 0 3")
    yield feeding("F3", "o 1 0 = opened 1", f"a 0 16 {short(5, 1025)} = taken 16", "n = 13 0 0 2")
    yield feeding("F3", "o 1 0 = opened 1", f"a 0 16 {short(5, 15)} = taken 16", "n = 13 0 0 2")
    yield feeding("F3", "o 1 0 = opened 1", f"a 0 16 {short(5, 1024)} = taken 16", "n = need 0")
    longest = short(5, 1024)
    yield feeding("F4", "o 1 0 = opened 1", f"a 0 16 {longest} = taken 16", "n = need 0", nines(0, 2000) + " = taken 1008",
        "n = " + fed(0, 0, 0, 5, 1024, 9), nines(0, 10) + " = taken 0", "n = need 0", nines(0, 10) + " = taken 10", "e 0 = done",
        "n = 13 0 1024 1")
    yield feeding("F5", "o 1 0 = opened 1", f"a 0 2000 {short(1) * 125} = taken 1024", "n = " + fed(0, 0, 0, 1),
        f"a 0 96 {short(1) * 6} = taken 0", "n = " + fed(0, 16, 16, 1), f"a 0 96 {short(1) * 6} = taken 16")
    yield feeding("F6", "o 1 0 = opened 1", f"a 0 1040 {short(1)}{longest} = taken 1024", "n = " + fed(0, 0, 0, 1),
        nines(0, 16) + " = taken 0", "n = need 0", nines(0, 18) + " = taken 16", "n = " + fed(0, 16, 0, 5, 1024, 9))
    yield feeding("F7", "o 1 0 = opened 1", f"a 0 1023 {longest} = taken 1023", "n = need 0", nines(0, 1025) + " = taken 1",
        "n = " + fed(0, 0, 0, 5, 1024, 9), "n = need 0")
    yield feeding("F8", "o 2 0 = opened 2", f"a 1 16 {short(5)} = taken 16", "n = need 0", f"a 0 16 {short(7)} = taken 16",
        "n = " + fed(1, 0, 1024, 5), "n = need 1", "e 1 = done", "n = " + fed(0, 0, 0, 7), "a 1 0 - = 12", "e 1 = 12", "n = need 0")
    yield feeding("F9", "o 2 0 = opened 2", f"a 0 16 {short(9)} = taken 16", "n = need 1", f"a 1 16 {short(3)} = taken 16",
        "n = " + fed(1, 0, 1024, 3), "n = need 1", "e 1 = done", "n = " + fed(0, 0, 0, 9))
    yield feeding("F10", "o 2 0 = opened 2", f"a 0 16 {short(5)} = taken 16", f"a 1 16 {short(5)} = taken 16", "n = " + fed(0, 0, 0, 5),
        "n = need 0", f"a 0 16 {short(5)} = taken 16", "n = " + fed(0, 16, 0, 5))
    yield feeding("F11", "o 2 2 10 0 = opened 2", "n = need 1", "e 1 = done", "n = need 0")
    yield feeding("F11", f"o 2 2 0 {TOP} = opened 2", f"a 0 16 {short(5)} = taken 16", "n = " + fed(0, 0, 0, 5), "n = need 0",
        "e 0 = done", "n = need 1")
    yield feeding("F12", "o 2 0 = opened 2", "e 0 = done", "n = need 1", "a 0 1 00 = 12", "h = held 1")
    yield feeding("F13", "o 2 0 = opened 2", f"a 1 16 {zeros}00 = taken 16", "n = need 0", "a 1 1 00 = taken 1", "e 1 = done",
        f"a 0 16 {short(5)} = taken 16", "n = 13 1 0 2", "n = " + fed(0, 0, 0, 5))
    yield feeding("F14", "o 1 0 = opened 1", f"a 0 32 {short(1)}{zeros}00 = taken 32", "n = " + fed(0, 0, 0, 1), "a 0 1 00 = taken 1",
        "n = 13 0 16 2", "a 0 0 - = 12", "n = end")
    yield feeding("F15", "o 1 0 = opened 1", f"a 0 32 {short(1)}{short(2)} = taken 32", "e 0 = done", "a 0 0 - = 12",
        "n = " + fed(0, 0, 0, 1), "n = " + fed(0, 16, 16, 2), "n = end", "n = end")
    yield feeding("F15", "o 1 0 = opened 1", f"a 0 1024 {longest} = taken 1024", "n = " + fed(0, 0, 0, 5, 1024, 9), "e 0 = done", "n = end")
    yield feeding("F16", "o 2 0 = opened 2", "a 2 1 00 = 12", "a 256 0 - = 12", f"a {TOP} 0 - = 12", "e 2 = 12",
        "o 257 0 = 12", "o 0 0 = 12", "o 2 1 5 = 12", "n = need 0")
    top = 2**63
    yield feeding("F17", "o 1 0 = opened 1", f"l {top - 16} = laid", f"a 0 20 {short(3)} = taken 16", "n = " + fed(0, top - 16, 0, 3),
        "n = need 0", "a 0 1 00 = taken 0", "e 0 = done", "n = end")
    yield feeding("F17", "o 1 0 = opened 1", f"l {top - 20} = laid", f"a 0 21 {short(3)} = taken 20", "n = " + fed(0, top - 20, 0, 3),
        "n = need 0", "a 0 1 00 = taken 0", "n = need 0", "e 0 = done", f"n = 13 0 {top - 4} 1")
    for size in (1, 2, 3, 7, 16, 19):
        yield feeding("F18", *printed_portions(size))
    yield feeding("F20", "o 2 0 = opened 2", f"a 1 48 {short(1) * 3} = taken 48", f"a 0 16 {short(9)} = taken 16",
        "n = " + fed(1, 0, 1024, 1), "n = " + fed(1, 16, 1040, 1), f"a 0 16 {short(9)} = taken 16", "w 1 = at 1040", "a 1 0 - = taken 0",
        "w 1 = at 1024")
    yield feeding("F21", "o 256 0 = opened 256", nines(0, 1024) + " = taken 1024", f"a 255 16 {short(4)} = taken 16", "n = 13 0 0 2",
        f"a 1 16 {short(8)} = taken 16", *[f"e {stream} = done" for stream in range(1, 256)], "n = " + fed(255, 0, 261120, 4),
        "n = " + fed(1, 0, 1024, 8), "n = end")
    # The calls that ./follow makes of a file that is empty, of one that ends in half a record, and of one whose mark is made while its
    # last bytes are unread.
    yield feeding("F22", "o 1 0 = opened 1", "n = need 0", "e 0 = done", "n = end")
    yield feeding("F22", "o 1 0 = opened 1", "n = need 0", f"a 0 25 {short(5)}{short(6)[:18]} = taken 25", "n = " + fed(0, 0, 0, 5),
        "n = need 0", "e 0 = done", "n = 13 0 16 1", "n = end")
    yield feeding("F22", "o 1 0 = opened 1", "n = need 0", f"a 0 7 {short(5)[:14]} = taken 7", "n = need 0",
        f"a 0 9 {short(5)[14:]} = taken 9", "n = " + fed(0, 0, 0, 5), "n = need 0", "e 0 = done", "n = end")
    yield from portion_runs()
    yield feeding("F16", "x = few", "o 1 0 = 15", "a 0 0 - = 15", "e 0 = 15", "n = 15")


def portion_runs():
    """Many calls at once (RULES, Requests, No. 14) over portions of one stream."""
    five, many = (0, 0, 5), [(0, 16 * i, 5) for i in range(64)]

    def portion(size, taken, records=1):
        return f"a 0 {size} {(record(5) * records).hex()} = taken {taken}"

    def ran(allowance, room, said):
        return f"r {allowance} {room} = {said}"

    opened, one, full = "o 1 0 = opened 1", portion(16, 16), portion(1024, 1024, 64)
    asking = ran(5, 9, needed(2, 0, five)), ran(5, 9, needed(1, 0)), ran(5, 0, going(0))
    yield feeding("R11", opened, one, *asking, "e 0 = done", ran(5, 9, ended(1)))
    yield feeding("R12", opened, one, ran(5, 3, going(1, five)), ran(5, 3, needed(1, 0)))
    yield feeding("R13", opened, full, ran(64, 195, going(64, *many)), portion(2000, 1008, 125))
    yield feeding("R13", opened, full, ran(65, 195, needed(65, 0, *many)), portion(2000, 1024, 125))
    yield feeding("R15", opened, ran(5000, 9, BAD_RUN), ran(1, 4, BAD_RUN), one, ran(1, 9, going(1, five)))


def printed_portions(size):
    """The printed replay example, each stream in portions of so many bytes."""
    calls = ["o 2 0 = opened 2"]
    for stream, content in enumerate([bytes.fromhex(short(5)) + bytes(3), bytes.fromhex(short(6))]):
        for at in range(0, len(content), size):
            part = content[at : at + size]
            calls += [f"n = need {0 if stream == 0 and at < 16 else 1}", f"a {stream} {len(part)} {part.hex()} = taken {len(part)}"]
        calls += [f"e {stream} = done"] if stream == 0 else []
    return calls + ["n = " + fed(0, 0, 0, 5), "n = 13 0 16 1", "n = " + fed(1, 0, 1024, 6), "n = need 1", "e 1 = done", "n = end"]


def fed_line(call, said):
    """An answer as vectors_feed prints it."""
    return run_line(*map(int, call.split()[1:]), said) if call.startswith("r ") else said


def fed_answer(merge, call):
    """What the model answers to a call of a feed case, and the merge after it."""
    word, *numbers = call.split()
    try:
        if word == "x":
            return "few", "few"
        if merge == "few":
            return "15", merge
        if word == "o":
            count, many, *hints = map(int, numbers)
            return f"opened {count}", model.FeedMerge(count, hints)
        if word == "a":
            content = b"" if numbers[2] == "-" else bytes.fromhex(numbers[2])
            size = int(numbers[1])
            return f"taken {merge.add(int(numbers[0]), (content + bytes([9]) * size)[:size])}", merge
        if word == "e":
            merge.end(int(numbers[0]))
            return "done", merge
        if word == "r":
            return answers.one_run(merge, *map(int, numbers)), merge
        if word == "h":
            return f"held {len(merge.heads)}", merge
        if word == "w":
            return f"at {1024 * int(numbers[0]) + merge.start[int(numbers[0])]}", merge
        if word == "l":
            merge.places[0] = merge.base[0] = merge.before[0] = int(numbers[0])
            return "laid", merge
        said = merge.next()
        if said is None:
            return "end", merge
        if len(said) == 1:
            return f"need {said[0]}", merge
        last = merge.kept(said[0])[said[3] - 1]
        return " ".join(map(str, ("record", *said, last))), merge
    except model.Refused as refused:
        return " ".join(map(str, refused.answer)), merge


def drawn_stream(draw):
    content = b"".join(record(draw.randrange(6), 7, 1, draw.choice([16, 17, 40, 1024])) for _ in range(draw.randrange(4)))
    return content + bytes(draw.choice([0, 16, 17, 15, 255, 4]) for _ in range(draw.randrange(30) if draw.random() < 0.3 else 0))


def portions_drawn(draws):
    """How many drawn cases answer otherwise in portions than whole, the "need more" answers struck out."""
    draw, wrong = random.Random(5), 0
    for _ in range(draws):
        streams = [drawn_stream(draw) for _ in range(draw.randrange(1, 4))]
        hints = [draw.randrange(6) for _ in streams]
        cuts = [sum(map(len, streams[:n])) for n in range(len(streams) + 1)]
        whole, parts = model.RecordMerge(b"".join(streams), cuts, hints), model.FeedMerge(len(streams), hints)
        wrong += answers_to_end(lambda: whole.next()) != answers_to_end(lambda: next_drawn(parts, streams, draw))
    return wrong


def next_drawn(merge, streams, draw):
    """The next answer that asks for no more, in drawn portions."""
    while True:
        stream = draw.randrange(len(streams))
        if stream in merge.heads and not merge.ended[stream]:
            merge.add(stream, streams[stream][len(merge.taken[stream]) :][: draw.choice([0, 1, 3, 15, 16, 100, 2000])])
            if len(merge.taken[stream]) == len(streams[stream]):
                merge.end(stream)
        said = merge.next()
        if said is None or len(said) > 1:
            return said and (*said[:2], *said[3:])
        assert len(merge.kept(said[0])) < 1024


def answers_to_end(ask):
    said = []
    while not said or said[-1] is not None:
        try:
            said.append(ask())
        except model.Refused as refused:
            said.append(refused.answer)
    return said


def traps():
    base = [examples, map_traps, name_traps, record_traps, build_traps, metadata_traps, merge_traps]
    requests = [complaint_traps, plain_traps, run_traps, compare_traps, compare_program_traps, explain_traps, explain_program_traps]
    for part in (*base, *requests):
        yield from part()


def checked():
    """How many of the model's answers are not the written ones, each printed."""
    wrong = 0
    for name, (case, said) in traps():
        if answers.answer(case) != said:
            wrong += 1
            print(f"{name}: {case}\n  asked {said}\n  model {answers.answer(case)}")
    print(f"traps: {len(list(traps()))} cases, {wrong} wrong")
    return wrong + checked_feed()


def checked_feed():
    """The same of the calls on streams in portions, and of drawn portions beside the whole streams."""
    wrong = 0
    for name, calls in feed_traps():
        merge = None
        for call, said in calls:
            answered, merge = fed_answer(merge, call)
            if answered != said:
                wrong += 1
                print(f"{name}: {call}\n  asked {said}\n  model {answered}")
    drawn = portions_drawn(2000)
    print(f"run: {len(list(run_lines()))} lines of vectors_run")
    print(f"feed: {len(list(feed_traps()))} cases, {wrong} wrong; 2000 drawn in portions, {drawn} otherwise than whole")
    return wrong + drawn


if __name__ == "__main__":
    if sys.argv[1:] == ["cases"]:
        print("\n".join(case for _, (case, _) in traps()))
    elif sys.argv[1:] == ["answers"]:
        print("\n".join(said for _, (_, said) in traps()))
    elif sys.argv[1:] == ["feed", "cases"]:
        print("\n".join(line for name, calls in feed_traps() for line in (f"= {name}", *(call for call, _ in calls))))
    elif sys.argv[1:] == ["feed", "answers"]:
        print("\n".join(line for name, calls in feed_traps() for line in (name, *(fed_line(*call) for call in calls))))
    elif sys.argv[1:] == ["run", "cases"]:
        print("\n".join(line for name, case, _ in run_lines() for line in (f"= {name}", case)))
    elif sys.argv[1:] == ["run", "answers"]:
        print("\n".join(line for name, _, said in run_lines() for line in (name, *said)))
    elif sys.argv[1:]:
        print("traps.py [[feed|run] cases|answers]", file=sys.stderr)
        sys.exit(2)
    else:
        sys.exit(1 if checked() else 0)
