"""A plain model of the rules, written from their text and from nothing else.

It is slow and short. A call that is refused raises Refused and so leaves lent memory alone; a build, which empties its
table on a refusal, hands it back. Tables are bytes, 24 an interval over time and 8 an entry at a point in time;
metadata are a header and five lists of numbers; a date is the number YYYYMMDD; an end, a limit of 0 is missing.
"""

from dataclasses import dataclass, replace
from struct import Struct

NAME, NAMES, NAME_BYTES = 255, 4_096, 65_536
ROOM, MAPPINGS, ENTRIES, INTERVALS = 65_536, 4_096, 4_096, 65_536
STREAMS, RECORD, HEAD, RUN_CALLS = 256, 1_024, 16, 4_096
TOP = 2**64 - 1  # the largest number of 64 bits; as a time of a mapping record: missing
DAY = 86_400_000_000_000
INSTRUMENT_ID = 0
NO_SCHEMA, NO_STYPE = 65_535, 255


class Refused(Exception):
    """One of the rules' numbers, and the values that come with it."""

    def __init__(self, number, *values):
        super().__init__(number, *values)
        self.answer = (number, *values)


def refuse_if(wrong, number, *values):
    if wrong:
        raise Refused(number, *values)


# Names, numbers, days.

TAIL = (0x80, 0xBF)
UTF8 = [  # RFC 3629, section 4, production by production
    [(0x00, 0x7F)],
    [(0xC2, 0xDF), TAIL],
    [(0xE0, 0xE0), (0xA0, 0xBF), TAIL],
    [(0xE1, 0xEC), TAIL, TAIL],
    [(0xED, 0xED), (0x80, 0x9F), TAIL],
    [(0xEE, 0xEF), TAIL, TAIL],
    [(0xF0, 0xF0), (0x90, 0xBF), TAIL, TAIL],
    [(0xF1, 0xF3), TAIL, TAIL, TAIL],
    [(0xF4, 0xF4), (0x80, 0x8F), TAIL, TAIL],
]


def is_utf8(text):
    at = 0
    while at < len(text):
        for ranges in UTF8:
            char = text[at : at + len(ranges)]
            if len(char) == len(ranges) and all(low <= byte <= high for byte, (low, high) in zip(char, ranges)):
                at += len(ranges)
                break
        else:
            return False
    return True


def is_name(text):
    return len(text) <= NAME and is_utf8(text)


def number_of(text):
    """The number that a text reads as."""
    digits = text[1:] if text[:1] == b"+" else text
    refuse_if(not digits or any(byte not in b"0123456789" for byte in digits), 8)
    value = 0
    for byte in digits:
        value = 10 * value + byte - ord("0")
        refuse_if(value > 4_294_967_295, 8)
    return value


def calendar():
    """The dates from 1970-01-01 to 2554-07-21, in order."""
    for year in range(1970, 2555):
        leap = year % 4 == 0 and (year % 100 != 0 or year % 400 == 0)
        for month, days in enumerate([31, 29 if leap else 28, 31, 30, 31, 30, 31, 31, 30, 31, 30, 31], 1):
            for day in range(1, days + 1):
                if (year, month, day) <= (2554, 7, 21):
                    yield year * 10_000 + month * 100 + day


DATES = list(calendar())
DAYS = {date: day for day, date in enumerate(DATES)}


def day_of(date):
    refuse_if(date not in DAYS, 11)
    return DAYS[date]


def date_of(day):
    refuse_if(day >= len(DATES), 11)
    return DATES[day]


@dataclass
class NameList:
    """A lent list of names: where each ends, and how many names and bytes are in use."""

    bytes: bytes
    ends: list
    names: int
    used: int

    def all(self):
        ends = self.ends[: self.names]
        return [self.bytes[first:end] for first, end in zip([0] + ends, ends)]

    def test_memory(self):
        refuse_if(len(self.ends) > NAMES or len(self.bytes) > NAME_BYTES, 15)
        refuse_if(self.names > len(self.ends) or self.used > len(self.bytes), 15)

    def test_form(self):
        bounds = [0] + self.ends[: self.names]
        refuse_if(any(a > b for a, b in zip(bounds, bounds[1:])) or bounds[-1] != self.used, 14)
        refuse_if(not all(is_name(name) for name in self.all()), 14)

    def find(self, name):
        return next((n for n, known in enumerate(self.all()) if known == name), None)

    def with_new(self, name):
        used = self.used + len(name)
        refuse_if(self.names + 1 > len(self.ends) or used > len(self.bytes), 5)
        ends = self.ends[: self.names] + [used] + self.ends[self.names + 1 :]
        return NameList(self.bytes[: self.used] + name + self.bytes[used:], ends, self.names + 1, used)


def number_for(names, name):
    """The least number with equal bytes, else the next new one; and the list that holds the name."""
    known = names.find(name)
    return (known, names) if known is not None else (names.names, names.with_new(name))


def naming(names, name):
    names.test_memory()
    names.test_form()
    refuse_if(not is_name(name), 4)
    return number_for(names, name)


def place_of(names, n):
    """Where name n begins and ends."""
    names.test_memory()
    names.test_form()
    refuse_if(n >= names.names, 3)
    return ([0] + names.ends)[n], names.ends[n]


# The map over time. A row is (instrument, start, end, symbol).

PLACE = Struct("<IIQQ")


def rows_of(table, used):
    return [(i, start, end, s) for i, s, start, end in PLACE.iter_unpack(table[: 24 * used])]


def laid(table, used, rows):
    """A table's bytes with these rows: places freed hold 0, other unused ones keep what they held."""
    written = b"".join(PLACE.pack(i, s, start, end) for i, start, end, s in rows)
    freed = bytes(max(0, 24 * used - len(written)))
    return written + freed + table[len(written + freed) :]


def test_table(table, used, width=24):
    refuse_if(len(table) % width or len(table) > ROOM * width or used * width > len(table), 15)


def test_rows(rows, names):
    for instrument, start, end, symbol in rows:
        refuse_if(start >= end or symbol >= names, 14)
    for a, b in zip(rows, rows[1:]):
        refuse_if(a[0] > b[0], 14)
        if a[0] == b[0]:
            refuse_if(a[2] > b[1] or (a[2] == b[1] and a[3] == b[3]), 14)


def check(table, used, names):
    test_table(table, used)
    refuse_if(names > NAMES, 15)
    test_rows(rows_of(table, used), names)


def runs(history):
    """The longest runs of the symbol that the latest interval of a history gives each moment."""
    points = sorted({point for start, end, _ in history for point in (start, end)})
    found = []
    for a, b in zip(points, points[1:]):
        symbol = next((symbol for start, end, symbol in reversed(history) if start <= a < end), None)
        if symbol is None:
            continue
        if found and found[-1][1:] == (a, symbol):
            found[-1] = (found[-1][0], b, symbol)
        else:
            found.append((a, b, symbol))
    return found


def inserted(rows, room, names, instrument, start, end, symbol):
    """Rows after an insert, by demand 3: the latest accepted insert decides, and the rows are the longest runs."""
    refuse_if(start > end, 1)
    if start == end:
        return rows
    refuse_if(symbol >= names, 3)
    own = [row[1:] for row in rows if row[0] == instrument]
    own = [(instrument, *run) for run in runs(own + [(start, end, symbol)])]
    rows = [row for row in rows if row[0] < instrument] + own + [row for row in rows if row[0] > instrument]
    refuse_if(len(rows) > room, 2)
    return rows


def insert(table, used, names, instrument, start, end, symbol):
    """The table's bytes and the number in use after an insert."""
    check(table, used, names)
    rows = inserted(rows_of(table, used), len(table) // 24, names, instrument, start, end, symbol)
    return laid(table, used, rows), len(rows)


def looked_up(rows, instrument, moment, hint):
    """The symbol or None, and the new hint."""
    own = [row for row in rows if row[0] == instrument]

    def includes(i):
        return i < len(own) and own[i][1] <= moment < own[i][2]

    if includes(hint):
        at = hint
    elif includes(hint + 1):
        at = hint + 1
    else:
        begun = [i for i, row in enumerate(own) if row[1] <= moment]
        if not begun:
            return None, hint
        at = begun[-1]
    return (own[at][3] if moment < own[at][2] else None), at


def get_for_ts(table, used, instrument, moment, hint):
    test_table(table, used)
    return looked_up(rows_of(table, used), instrument, moment, hint)


# Two tables side by side (RULES, Requests, No. 1). A stretch is (instrument, start, end, left symbol, right symbol), of
# which one symbol may be None.

STRETCH = Struct("<IIIQQ")
NOTHING = 2**32 - 1


def symbol_at(rows, instrument, moment):
    return next((s for i, start, end, s in rows if i == instrument and start <= moment < end), None)


def disagreements(left, right):
    """The longest stretches over which both tables have one answer each and the two differ, by instrument and start."""
    found = []
    for instrument in sorted({row[0] for row in left + right}):
        sides = [[row for row in rows if row[0] == instrument] for rows in (left, right)]
        points = sorted({point for rows in sides for row in rows for point in row[1:3]})
        for a, b in zip(points, points[1:]):
            pair = tuple(symbol_at(rows, instrument, a) for rows in sides)
            if pair[0] == pair[1]:
                continue
            if found and (found[-1][0], *found[-1][2:]) == (instrument, a, *pair):
                found[-1] = (instrument, found[-1][1], b, *pair)
            else:
                found.append((instrument, a, b, *pair))
    return found


def compared(left, left_used, right, right_used, names):
    """The stretches of two tables with one name list, both of which are checked."""
    test_table(left, left_used)
    test_table(right, right_used)
    refuse_if(names > NAMES, 15)
    left, right = rows_of(left, left_used), rows_of(right, right_used)
    test_rows(left, names)
    test_rows(right, names)
    return disagreements(left, right)


def compare(left, left_used, right, right_used, names, stretches):
    """The list's bytes and the number of its stretches; places past them keep what they held."""
    refuse_if(len(stretches) % STRETCH.size, 15)
    found = compared(left, left_used, right, right_used, names)
    refuse_if(len(found) > len(stretches) // STRETCH.size, 2)
    written = b""
    for instrument, start, end, *pair in found:
        written += STRETCH.pack(instrument, *(NOTHING if symbol is None else symbol for symbol in pair), start, end)
    return written + stretches[len(written) :], len(found)


# Why there is a symbol, or none (RULES, Requests, No. 4). A named interval is (index within the instrument, start, end,
# symbol).

IN, UNKNOWN, BEFORE, AFTER, BETWEEN = "in", "unknown", "before", "after", "between"
REASONS = {IN: 1, UNKNOWN: 2, BEFORE: 3, AFTER: 4, BETWEEN: 5}


def explained(rows, instrument, moment):
    """The reason, then the intervals that it names."""
    own = [row[1:] for row in rows if row[0] == instrument]
    own = [(index, *interval) for index, interval in enumerate(own)]
    if not own:
        return (UNKNOWN,)
    first, last = own[0], own[-1]
    if moment < first[1]:
        return BEFORE, first
    if last[2] <= moment:
        return AFTER, last
    for interval in own:
        if interval[1] <= moment < interval[2]:
            return IN, interval
    return BETWEEN, *next((a, b) for a, b in zip(own, own[1:]) if a[2] <= moment < b[1])


def explain(table, used, names, instrument, moment):
    check(table, used, names)
    return explained(rows_of(table, used), instrument, moment)


# The point-in-time table. An entry is (instrument, symbol).

ENTRY = Struct("<II")


def entries_of(table, used):
    return list(ENTRY.iter_unpack(table[: 8 * used]))


def laid_entries(table, entries):
    written = b"".join(ENTRY.pack(*entry) for entry in entries)
    return written + table[len(written) :]


def check_point(table, used, names):
    test_table(table, used, 8)
    refuse_if(names > NAMES, 15)
    entries = entries_of(table, used)
    refuse_if(any(a[0] >= b[0] for a, b in zip(entries, entries[1:])), 14)
    refuse_if(any(symbol >= names for _, symbol in entries), 14)


def get_point(table, used, instrument):
    test_table(table, used, 8)
    return dict(entries_of(table, used)).get(instrument)


def entry_set(entries, room, instrument, symbol):
    entries = sorted((dict(entries) | {instrument: symbol}).items())
    refuse_if(len(entries) > room, 2)
    return entries


# The framing, and the mapping call.

FRAME = Struct("<HHIQ")


def frame_at(stream, place):
    """The record that stands at a place (length, kind, instrument, time), or the end; else 13 with its reason."""
    left = len(stream) - place
    if left == 0:
        return None
    refuse_if(left < HEAD, 13, 1)
    length, kind, instrument, time = FRAME.unpack(stream[place : place + HEAD])
    refuse_if(not HEAD <= length <= RECORD, 13, 2)
    refuse_if(length > left, 13, 3)
    return length, kind, instrument, time


def mapping_record(record):
    """Instrument, start, end and name of a mapping record; None for another kind. Stream and place are 0."""
    try:
        refuse_if(not record, 13, 1)
        length, kind, instrument, _ = frame_at(record, 0)
        refuse_if(length != len(record), 13, 3)
        if kind != 2:
            return None
        refuse_if(length < HEAD + 16, 13, 4)
    except Refused as refused:
        raise Refused(13, 0, 0, refused.answer[1]) from None
    start, end = (int.from_bytes(record[at : at + 8], "little") for at in (16, 24))
    return instrument, 0 if start == TOP else start, end, record[32:]


def on_record(table, used, names, record):
    """Table, number in use and name list after a record on the map over time."""
    test_table(table, used)
    names.test_memory()
    check(table, used, names.names)
    names.test_form()
    mapping = mapping_record(record)
    if mapping is None:
        return table, used, names
    instrument, start, end, name = mapping
    refuse_if(not is_name(name), 4)
    refuse_if(start > end, 1)
    if start == end:
        return table, used, names
    symbol, joined = number_for(names, name)
    rows = inserted(rows_of(table, used), len(table) // 24, joined.names, instrument, start, end, symbol)
    return laid(table, used, rows), len(rows), joined


def on_record_point(table, used, names, record):
    """Table, number in use and name list after a record on the point-in-time table."""
    test_table(table, used, 8)
    names.test_memory()
    check_point(table, used, names.names)
    names.test_form()
    mapping = mapping_record(record)
    if mapping is None:
        return table, used, names
    instrument, _, _, name = mapping
    refuse_if(not is_name(name), 4)
    symbol, joined = number_for(names, name)
    entries = entry_set(entries_of(table, used), len(table) // 8, instrument, symbol)
    return laid_entries(table, entries), len(entries), joined


# Metadata. A mapping is (name, intervals), an interval (start date, end date, symbol).


@dataclass
class Metadata:
    version: int
    dataset: int
    schema: int
    start: int
    end: int
    limit: int
    stype_in: int
    stype_out: int
    ts_out: int
    symbol_cstr_len: int
    symbols: list
    partial: list
    not_found: list
    mappings: list

    def intervals(self):
        return [interval for _, intervals in self.mappings for interval in intervals]

    def names(self):
        heads = [name for name, _ in self.mappings]
        symbols = [symbol for _, _, symbol in self.intervals()]
        return [self.dataset] + self.symbols + self.partial + self.not_found + heads + symbols


def without_repeats(given):
    """Equal entries of a set once; of two mappings with one name the last, at the place of the first."""
    sets = {field: list(dict.fromkeys(getattr(given, field))) for field in ("symbols", "partial", "not_found")}
    return replace(given, **sets, mappings=list(dict(given.mappings).items()))


def walk(left, right):
    """The intervals of one name from two lists, by their heads."""
    left, right, out = list(left), list(right), []
    while left and right:
        a, b = left[0], right[0]
        if a[:2] == b[:2]:
            refuse_if(a[2] != b[2], 7)
            out.append(a)
            left.pop(0), right.pop(0)
        elif a[1] <= b[0]:
            out.append(left.pop(0))
        elif a[0] >= b[1]:
            out.append(right.pop(0))
        else:
            refuse_if(a[2] != b[2], 7)
            out.append((min(a[0], b[0]), max(a[1], b[1]), a[2]))
            left.pop(0), right.pop(0)
    return out + left + right


COMPARED = ["version", "dataset", "stype_in", "stype_out", "ts_out", "symbol_cstr_len"]


def merged(left, right, names):
    """A metadata with one more merged in; whether it fits the room is judged elsewhere."""
    left = without_repeats(left)
    for place, field in enumerate(COMPARED, 1):
        refuse_if(getattr(left, field) != getattr(right, field), 6, place)
    intervals = left.intervals() + right.intervals()
    refuse_if(any(start not in DAYS or end not in DAYS for start, end, _ in intervals), 11)
    refuse_if(any(name >= names for name in left.names() + right.names()), 3)
    refuse_if(any(start > end for start, end, _ in intervals), 1)
    mappings = dict(left.mappings)
    for name, added in right.mappings:
        mappings[name] = walk(mappings[name], added) if name in mappings else added
    return replace(
        left,
        schema=left.schema if left.schema == right.schema else NO_SCHEMA,
        start=min(left.start, right.start),
        end=max(left.end, right.end),
        limit=0,
        symbols=list(dict.fromkeys(left.symbols + right.symbols)),
        partial=list(dict.fromkeys(left.partial + right.partial)),
        not_found=list(dict.fromkeys(left.not_found + right.not_found)),
        mappings=list(mappings.items()),
    )


@dataclass
class Lent:
    """A metadata in lent memory: ten numbers, four counts in use, five lists."""

    head: list
    counts: list
    lists: list

    def taken(self):
        """The metadata that stands in the memory."""
        limits = [ENTRIES, ENTRIES, ENTRIES, 2 * MAPPINGS, 3 * INTERVALS]
        refuse_if(any(len(given) > limit for given, limit in zip(self.lists, limits)), 15)
        refuse_if(len(self.lists[3]) % 2 or len(self.lists[4]) % 3, 15)
        sizes = [*self.counts[:3], 2 * self.counts[3]]
        refuse_if(any(size > len(given) for size, given in zip(sizes, self.lists)), 15)
        words = self.lists[3][: sizes[3]]
        refuse_if(3 * sum(words[1::2]) > len(self.lists[4]), 15)
        triples = list(zip(*[iter(self.lists[4])] * 3))
        mappings, at = [], 0
        for name, count in zip(words[::2], words[1::2]):
            mappings.append((name, triples[at : at + count]))
            at += count
        return Metadata(*self.head, *(given[:size] for given, size in zip(self.lists, sizes[:3])), mappings)

    def holding(self, metadata):
        """The memory with another metadata in it: what is freed holds 0, the rest keeps what it held."""
        new = lists_of(metadata)
        refuse_if(any(len(list_) > len(room) for list_, room in zip(new, self.lists)), 2)
        old = lists_of(self.taken())
        padded = [list_ + [0] * (len(before) - len(list_)) for list_, before in zip(new, old)]
        lists = [list_ + room[len(list_) :] for list_, room in zip(padded, self.lists)]
        return Lent(head_of(metadata), [len(list_) for list_ in new[:3]] + [len(metadata.mappings)], lists)


HEADER = ["version", "dataset", "schema", "start", "end", "limit", "stype_in", "stype_out", "ts_out", "symbol_cstr_len"]


def head_of(metadata):
    return [getattr(metadata, field) for field in HEADER]


def lists_of(metadata):
    mappings = [word for name, intervals in metadata.mappings for word in (name, len(intervals))]
    intervals = [word for interval in metadata.intervals() for word in interval]
    return [list(metadata.symbols), list(metadata.partial), list(metadata.not_found), mappings, intervals]


def open_metadata(lent):
    return lent.holding(without_repeats(lent.taken()))


def merge_metadata(left, right, names):
    gathered, added = left.taken(), right.taken()
    refuse_if(names > NAMES, 15)
    return left.holding(merged(gathered, added, names))


# Builds.


def is_inverse(metadata):
    if metadata.stype_out == INSTRUMENT_ID:
        return False
    refuse_if(metadata.stype_in != INSTRUMENT_ID, 9)
    return True


def name_of(names, n):
    refuse_if(n >= len(names), 3)
    return names[n]


def built(metadata, names, room):
    """The rows of a build over time from the names' bytes."""
    inverse, rows = is_inverse(metadata), []
    for head, intervals in metadata.mappings:
        if inverse:
            instrument = number_of(name_of(names, head))
        for start, end, symbol in intervals:
            text = name_of(names, symbol)
            if not text:
                continue
            if not inverse:
                instrument = number_of(text)
            start, end = day_of(start) * DAY, day_of(end) * DAY
            rows = inserted(rows, room, len(names), instrument, start, end, symbol if inverse else head)
    return rows


def counting(intervals, day):
    """The symbol of the first interval that covers the day; dates are read up to it."""
    for start, end, symbol in intervals:
        start, end = day_of(start), day_of(end)
        if start <= day < end:
            return symbol
    return None


def built_for_day(metadata, names, room, date):
    """The entries of a point-in-time build."""
    day = day_of(date)
    inverse = is_inverse(metadata)
    refuse_if(day < metadata.start // DAY or (metadata.end != 0 and day * DAY >= metadata.end), 10)
    entries = []
    for head, intervals in metadata.mappings:
        symbol = counting(intervals, day)
        if symbol is None:
            continue
        text = name_of(names, symbol)
        if not text:
            continue
        head_text = name_of(names, head)
        instrument = number_of(head_text if inverse else text)
        entries = entry_set(entries, room, instrument, symbol if inverse else head)
    return entries


def build(table, names, lent):
    """The number in use and the table after a build over time; a refusal and the empty table."""
    try:
        test_table(table, 0)
        metadata = lent.taken()
        names.test_memory()
        names.test_form()
        rows = built(metadata, names.all(), len(table) // 24)
        return (0, len(rows)), laid(bytes(len(table)), 0, rows)
    except Refused as refused:
        return refused.answer, bytes(len(table))


def build_for_day(table, date, names, lent):
    """The same for a point-in-time build."""
    try:
        test_table(table, 0, 8)
        metadata = lent.taken()
        names.test_memory()
        names.test_form()
        entries = built_for_day(metadata, names.all(), len(table) // 8, date)
        return (0, len(entries)), laid_entries(bytes(len(table)), entries)
    except Refused as refused:
        return refused.answer, bytes(len(table))


# Merging records.


class Runs:
    """Many calls of `next` at once (No. 14)."""

    def run(self, allowance, listed):
        """At most so many calls, each record's stream, place and time to the list, three words a record.

        The calls, the records written, and how it stopped: the refusal, None at the end, (2, stream) where more is needed first, or 0
        where a further call may be made.
        """
        refuse_if(allowance > RUN_CALLS or len(listed) % 3 != 0, 15)
        calls = written = 0
        while calls < allowance and 3 * written < len(listed):
            calls += 1
            try:
                handed = self.next()
            except Refused as refused:
                return calls, written, refused.answer
            if handed is None:
                return calls, written, None
            if len(handed) == 1:
                return calls, written, (2, *handed)
            listed[3 * written : 3 * written + 3] = handed[0], handed[1], handed[-1]
            written += 1
        return calls, written, 0


class RecordMerge(Runs):
    """The merge of the streams that stand in one buffer, by the rules' words.

    A head is the (time, stream) that stands for a stream: of its hint, or of the record that it stands at.
    """

    def __init__(self, buffer, cuts, hints):
        count = len(cuts) - 1
        refuse_if(not 1 <= count <= STREAMS, 12)
        refuse_if(cuts[0] != 0 or cuts[-1] != len(buffer) or any(a > b for a, b in zip(cuts, cuts[1:])), 12)
        refuse_if(hints and len(hints) != count, 12)
        self.streams = [buffer[a:b] for a, b in zip(cuts, cuts[1:])]
        self.places = [0] * count
        self.records = [None] * count  # None while a hint stands for the stream
        self.heads = {stream: hint for stream, hint in enumerate(hints or [0] * count)}
        self.handed_out = None

    def read(self, stream):
        """Puts the record at the stream's place in its head; closes the stream at its end or its damage."""
        self.heads.pop(stream)
        place = self.places[stream]
        try:
            record = frame_at(self.streams[stream], place)
        except Refused as refused:
            raise Refused(13, stream, place, refused.answer[1]) from None
        if record is not None:
            self.records[stream] = record
            self.heads[stream] = record[3]

    def next(self):
        """Stream, place, length, kind, instrument and time of the next record; None at the end."""
        stream, self.handed_out = self.handed_out, None
        if stream is not None:
            self.places[stream] += self.records[stream][0]
            self.read(stream)
        while self.heads:
            stream = min(self.heads, key=lambda stream: (self.heads[stream], stream))
            if self.records[stream] is not None:
                self.handed_out = stream
                return (stream, self.places[stream], *self.records[stream])
            self.read(stream)
        return None


class PlainMerge(RecordMerge):
    """The same answers without a heap (No. 12): before every read and every hand-out a scan of all streams, from 0 on, for the least.

    A stream is gone, waits at a time for its next read, or stands at a record; a hand-out leaves it waiting at its record's time.
    """

    def __init__(self, buffer, cuts, hints):
        super().__init__(buffer, cuts, hints)
        self.marks = ["waiting"] * len(self.streams)
        self.times = [self.heads[stream] for stream in range(len(self.streams))]

    def least(self):
        """The first stream of the least time of those that are not gone; as many as there are where all are gone."""
        best = len(self.streams)
        for stream in range(len(self.streams)):
            if self.marks[stream] != "gone" and (best == len(self.streams) or self.times[stream] < self.times[best]):
                best = stream
        return best

    def next(self):
        while True:
            stream = self.least()
            if stream == len(self.streams):
                return None
            place = self.places[stream]
            if self.marks[stream] == "standing":
                self.marks[stream] = "waiting"
                self.places[stream] += self.records[stream][0]
                return (stream, place, *self.records[stream])
            self.marks[stream] = "gone"
            try:
                record = frame_at(self.streams[stream], place)
            except Refused as refused:
                raise Refused(13, stream, place, refused.answer[1]) from None
            if record is not None:
                self.marks[stream], self.records[stream], self.times[stream] = "standing", record, record[3]


class FeedMerge(Runs):
    """The merge of streams that arrive in portions, by the rules' words (Requests, No. 5).

    Of each stream it keeps all bytes taken; those before `base` count as dropped. A record's bytes stand in the
    stream's part of the window, from `start` on.
    """

    def __init__(self, count, hints):
        refuse_if(not 1 <= count <= STREAMS, 12)
        refuse_if(hints and len(hints) != count, 12)
        self.taken = [b""] * count
        self.before = [0] * count  # bytes that came before the first of `taken`
        self.base = [0] * count
        self.start = [0] * count
        self.ended = [False] * count
        self.places = [0] * count
        self.records = [None] * count  # None while a stream waits
        self.heads = {stream: hint for stream, hint in enumerate(hints or [0] * count)}

    def test_stream(self, stream):
        refuse_if(stream not in self.heads or self.ended[stream], 12)

    def kept(self, stream):
        return self.taken[stream][self.base[stream] - self.before[stream] :]

    def add(self, stream, portion):
        """How many bytes of the portion are taken."""
        self.test_stream(stream)
        fill = len(self.kept(stream))
        room = max(0, min(len(portion), RECORD - fill, 2**63 - self.base[stream] - fill))
        self.taken[stream] += portion[:room]
        self.start[stream] = 0
        return room

    def end(self, stream):
        self.test_stream(stream)
        self.ended[stream] = True

    def drop(self, stream):
        self.start[stream] += self.places[stream] - self.base[stream]
        self.base[stream] = self.places[stream]

    def wants(self, stream):
        """Whether more must come before it is known what stands at the stream's place."""
        if self.ended[stream]:
            return False
        kept = self.kept(stream)
        if len(kept) < HEAD:
            return True
        length = FRAME.unpack(kept[:HEAD])[0]
        return HEAD <= length <= RECORD and len(kept) < length

    def next(self):
        """A record as (stream, place, index in the window, length, kind, instrument, time), a stream alone that more is
        needed of, or None at the end."""
        while self.heads:
            stream = min(self.heads, key=lambda stream: (self.heads[stream], stream))
            place = self.places[stream]
            if self.records[stream] is not None:
                record, self.records[stream] = self.records[stream], None
                self.places[stream] += record[0]
                return (stream, place, RECORD * stream + self.start[stream], *record)
            self.drop(stream)
            if self.wants(stream):
                return (stream,)
            self.heads.pop(stream)
            try:
                record = frame_at(self.kept(stream), 0)
            except Refused as refused:
                raise Refused(13, stream, place, refused.answer[1]) from None
            if record is not None:
                self.records[stream] = record
                self.heads[stream] = record[3]
        return None


# Programs. A section is (kind, content).


def sections(bundle):
    """The sections of a bundle; None where it can't be taken apart."""
    found, at = [], 0
    while at < len(bundle):
        length, kind = int.from_bytes(bundle[at : at + 4], "little"), int.from_bytes(bundle[at + 4 : at + 6], "little")
        if len(bundle) - at < 6 or length < 6 or length > len(bundle) - at:
            return None
        found.append((kind, bundle[at + 6 : at + length]))
        at += length
    return found


def replay(bundle):
    """All that the replay program prints."""
    found = sections(bundle)
    if not found or len(found) > STREAMS or any(kind != 1 for kind, _ in found) or len(bundle) > 60_000:
        return "bad bundle\n"
    streams = [stream for _, stream in found]
    cuts = [sum(map(len, streams[:n])) for n in range(len(streams) + 1)]
    merge, lines = RecordMerge(b"".join(streams), cuts, []), []
    while True:
        try:
            record = merge.next()
        except Refused as refused:
            _, stream, place, _ = refused.answer
            lines.append(f"{stream} damaged {place}\n")
            continue
        if record is None:
            return "".join(lines) + "end\n"
        stream, _, _, _, instrument, time = record
        lines.append(f"{stream} {time} {instrument}\n")


def compare_program(bundle):
    """All that the compare program prints: a name count of 4 bytes, kind 2, then both tables, kind 3."""
    found = sections(bundle)
    if found is None or [kind for kind, _ in found] != [2, 3, 3] or len(found[0][1]) != 4 or len(bundle) > 3_145_750:
        return "bad bundle\n"
    names, left, right = (content for _, content in found)
    try:
        stretches = compared(left, len(left) // 24, right, len(right) // 24, int.from_bytes(names, "little"))
    except Refused as refused:
        return f"refused {refused.answer[0]}\n"
    lines = (["-" if word is None else str(word) for word in stretch] for stretch in stretches)
    return "".join(" ".join(line) + "\n" for line in lines) + "end\n"


QUESTION = Struct("<IQ")  # instrument, moment


def explain_program(bundle):
    """All that the explain program prints: a name count of 4 bytes, kind 2, a table, kind 3, then questions, kind 4."""
    found = sections(bundle)
    if found is None or [kind for kind, _ in found] != [2, 3, 4] or len(found[0][1]) != 4 or len(bundle) > 2_359_318:
        return "bad bundle\n"
    names, table, questions = (content for _, content in found)
    if len(questions) % QUESTION.size or len(questions) > 65_536 * QUESTION.size:
        return "bad bundle\n"
    lines = []
    for instrument, moment in QUESTION.iter_unpack(questions):
        try:
            asked = table, len(table) // 24, int.from_bytes(names, "little"), instrument, moment
            reason, *intervals = explain(*asked)
        except Refused as refused:
            reason, intervals = "refused", [refused.answer]
        lines.append([instrument, moment, reason, *(word for interval in intervals for word in interval)])
    return "".join(" ".join(map(str, line)) + "\n" for line in lines)
