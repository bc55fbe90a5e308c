"""Text maps, as people write them: one interval a line, instrument, start, end, symbol name, parted by blanks or tabs.

`#` at the line's start or behind a blank begins a comment, empty lines are skipped, CR LF is a line's end too. An
instrument is a number text. A time is digits (nanoseconds since the start of 1970-01-01), or an ISO 8601 date or
date-time in UTC. In a name `\\xHH` stands for a byte, and `""` alone is the empty name. Intervals that overlap are
inserted in order: the latest decides, and touching ones with the same symbol are joined.

Questions are written in the same way, one a line: instrument, moment.
"""

import re
from bisect import bisect_left, bisect_right
from datetime import date, timedelta
from struct import Struct

NAME, NAMES, NAME_BYTES, INTERVALS = 255, 4_096, 65_536, 65_536  # RULES, Numbers the desk lives by, 1
INSTRUMENT_TOP, TOP = 2**32 - 1, 2**64 - 1
SECOND, MINUTE, HOUR, DAY = 10**9, 60 * 10**9, 3_600 * 10**9, 86_400 * 10**9
EPOCH = date(1970, 1, 1)
PLACE = Struct("<IIQQ")  # an interval of a table: instrument, symbol, start, end
QUESTION = Struct("<IQ")  # instrument, moment
QUESTIONS = 65_536  # RULES, Requests, No. 4
FIELDS = "instrument, start, end, symbol"
QUESTION_FIELDS = "instrument, moment"

COMMENT = re.compile(rb"(?:^|[ \t])#.*", re.DOTALL)
NUMBER = re.compile(rb"\+?([0-9]+)")
DIGITS = re.compile(rb"[0-9]+")
MOMENT = re.compile(
    rb"([0-9]{4})-([0-9]{2})-([0-9]{2})(?:T([0-9]{2}):([0-9]{2})(?::([0-9]{2})(?:\.([0-9]{1,9}))?)?Z?)?"
)
ESCAPE = re.compile(rb"\\(x[0-9a-fA-F]{2})?")


class BadLine(Exception):
    """Why a line says nothing."""


class Names:
    """The names of one or more maps, numbered from 0 in order of arrival."""

    def __init__(self):
        self.numbers = {}
        self.bytes = 0

    def number_for(self, name):
        """The name's number, which is the next new one where it is to join."""
        if name in self.numbers:
            return self.numbers[name]
        if len(self.numbers) == NAMES:
            raise BadLine(f"over {NAMES:,} names in all")
        if self.bytes + len(name) > NAME_BYTES:
            raise BadLine(f"over {NAME_BYTES:,} name bytes in all")
        return len(self.numbers)

    def join(self, name):
        if name not in self.numbers:
            self.numbers[name] = len(self.numbers)
            self.bytes += len(name)

    def all(self):
        return list(self.numbers)


class Intervals:
    """The intervals of one instrument: sorted, disjoint, and two that touch have different symbols."""

    def __init__(self):
        self.starts, self.ends, self.symbols = [], [], []

    def insert(self, start, end, symbol, room):
        """Puts an interval in, if the intervals become no more than `room` more; answers how many more they are."""
        first = bisect_left(self.ends, start)
        last = bisect_right(self.starts, end)
        before, after = [], []
        if first < last and self.starts[first] < start:
            if self.symbols[first] == symbol:
                start = self.starts[first]
            else:
                before = [(self.starts[first], start, self.symbols[first])]
        if first < last and end < self.ends[last - 1]:
            if self.symbols[last - 1] == symbol:
                end = self.ends[last - 1]
            else:
                after = [(end, self.ends[last - 1], self.symbols[last - 1])]
        put = [*before, (start, end, symbol), *after]
        more = len(put) - (last - first)
        if more > room:
            raise BadLine(f"over {INTERVALS:,} intervals")
        for column, values in zip((self.starts, self.ends, self.symbols), zip(*put)):
            column[first:last] = values
        return more

    def __iter__(self):
        return zip(self.starts, self.ends, self.symbols)


class TextMap:
    """A map: for each instrument its intervals."""

    def __init__(self):
        self.instruments = {}
        self.length = 0

    def insert(self, instrument, start, end, symbol):
        own = self.instruments.setdefault(instrument, Intervals())
        self.length += own.insert(start, end, symbol, INTERVALS - self.length)

    def rows(self):
        """Its intervals as (instrument, start, end, symbol's number), sorted."""
        return [(instrument, *row) for instrument in sorted(self.instruments) for row in self.instruments[instrument]]

    def packed(self):
        """Its intervals as a table's bytes."""
        return b"".join(PLACE.pack(i, symbol, start, end) for i, start, end, symbol in self.rows())


def quoted(word):
    """A word of a map as it stands there, to be shown in a message."""
    shown = "".join(char if char.isprintable() else escaped(char) for char in word.decode("utf-8", "surrogateescape"))
    return shown if len(shown) <= 60 else shown[:57] + "..."


def instrument_of(word):
    found = NUMBER.fullmatch(word)
    digits = found.group(1).lstrip(b"0") if found else b""
    if not found or len(digits) > 10 or int(digits or b"0") > INSTRUMENT_TOP:
        raise BadLine(f"no instrument number from 0 to {INSTRUMENT_TOP}: {quoted(word)}")
    return int(digits or b"0")


def moment_of(word):
    """The nanoseconds of a time."""
    if DIGITS.fullmatch(word):
        digits = word.lstrip(b"0") or b"0"
        if len(digits) > 20 or int(digits) > TOP:
            raise BadLine(f"time over {TOP}: {quoted(word)}")
        return int(digits)
    found = MOMENT.fullmatch(word)
    if not found:
        raise BadLine(f"no such time: {quoted(word)}")
    year, month, day, hour, minute, second = (int(part or b"0") for part in found.groups()[:6])
    try:
        days = (date(year, month, day) - EPOCH).days
    except ValueError:
        raise BadLine(f"no such date: {quoted(word)}") from None
    if hour > 23 or minute > 59 or second > 59:
        raise BadLine(f"no such time of day: {quoted(word)}")
    fraction = int((found.group(7) or b"").ljust(9, b"0"))
    moment = days * DAY + hour * HOUR + minute * MINUTE + second * SECOND + fraction
    if not 0 <= moment <= TOP:
        raise BadLine(f"time outside 1970-01-01 to 2554-07-21T23:34:33.709551615: {quoted(word)}")
    return moment


def name_of(word):
    """The bytes of a name."""
    if word == b'""':
        return b""
    if any(found.group(1) is None for found in ESCAPE.finditer(word)):
        raise BadLine(f"no \\xHH behind a \\ in the name: {quoted(word)}")
    name = ESCAPE.sub(lambda found: bytes([int(found.group(1)[1:], 16)]), word)
    if len(name) > NAME:
        raise BadLine(f"name over {NAME} bytes: {quoted(word)}")
    try:
        name.decode("utf-8")
    except UnicodeDecodeError:
        raise BadLine(f"name is not UTF-8: {quoted(word)}") from None
    return name


def words_of(line, fields):
    """The words of a line that says so many fields, or none where it says nothing."""
    words = COMMENT.sub(b"", line, count=1).replace(b"\t", b" ").split(b" ")
    words = [word for word in words if word]
    due = len(fields.split(", "))
    if words and len(words) != due:
        raise BadLine(f"{due} fields are due ({fields}) and {len(words)} are there")
    return words


def put_line(line, map_, names):
    """Inserts what a line of a map says, if it says anything."""
    words = words_of(line, FIELDS)
    if not words:
        return
    instrument, start, end, name = instrument_of(words[0]), moment_of(words[1]), moment_of(words[2]), name_of(words[3])
    if start > end:
        raise BadLine("start comes after end")
    if start < end:
        map_.insert(instrument, start, end, names.number_for(name))
        names.join(name)


def put_question(line, questions):
    """Adds what a line of questions asks, if it asks anything."""
    words = words_of(line, QUESTION_FIELDS)
    if not words:
        return
    question = instrument_of(words[0]), moment_of(words[1])
    if len(questions) == QUESTIONS:
        raise BadLine(f"over {QUESTIONS:,} questions")
    questions.append(question)


def each_line(file, put):
    """Hands each line of a file over; answers the bad ones: (number, reason) each."""
    bad = []
    for number, line in enumerate(file, 1):
        line = line[:-1] if line.endswith(b"\n") else line
        line = line[:-1] if line.endswith(b"\r") else line
        try:
            put(line)
        except BadLine as reason:
            bad.append((number, str(reason)))
    return bad


def read(path, names):
    """The map of a file, whose names join the given ones, and its bad lines."""
    map_ = TextMap()
    with open(path, "rb") as file:
        return map_, each_line(file, lambda line: put_line(line, map_, names))


def read_questions(file):
    """The questions of an open file, and its bad lines."""
    questions = []
    return questions, each_line(file, lambda line: put_question(line, questions))


def written_moment(moment):
    """A time as ISO 8601, with a fraction of nine digits where there is one."""
    days, rest = divmod(moment, DAY)
    seconds, fraction = divmod(rest, SECOND)
    time = f"{seconds // 3_600:02}:{seconds // 60 % 60:02}:{seconds % 60:02}"
    return f"{EPOCH + timedelta(days)}T{time}" + (f".{fraction:09}" if fraction else "") + "Z"


def written_name(name):
    """A name on one line without blanks, so that it reads back and `-` is free to mean nothing."""
    if name == b"":
        return '""'
    if name == b"-":
        return "\\x2d"
    text = name.decode("utf-8", "surrogateescape")
    shown = [char if char.isprintable() and char not in " \\" else escaped(char) for char in text]
    if text[0] in '#"':
        shown[0] = escaped(text[0])
    return "".join(shown)


def escaped(char):
    return "".join(f"\\x{byte:02x}" for byte in char.encode("utf-8", "surrogateescape"))
