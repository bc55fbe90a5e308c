#!/usr/bin/env python3
"""Answers cases by the model: one case a line on standard input, one line of answers a case on standard output.

README.md has the formats. The kinds of the first part are the driver's too; those of the second part are about lent
memory, which the Rust has not.
"""

import sys

import model
from model import FeedMerge, Lent, Metadata, NameList, PlainMerge, RecordMerge, Refused


class Case:
    """The words of a case."""

    def __init__(self, line):
        self.words = iter(line.split())

    def number(self):
        return int(next(self.words))

    def bytes(self):
        word = next(self.words)
        return b"" if word == "-" else bytes.fromhex(word)

    def numbers(self):
        return [self.number() for _ in range(self.number())]

    def names(self):
        return [self.bytes() for _ in range(self.number())]

    def metadata(self):
        head = [self.number() for _ in model.HEADER]
        sets = [self.numbers() for _ in range(3)]
        return Metadata(*head, *sets, [self.mapping() for _ in range(self.number())])

    def mapping(self):
        return self.number(), [(self.number(), self.number(), self.number()) for _ in range(self.number())]

    def name_list(self):
        names, used = self.number(), self.number()
        return NameList(self.bytes(), self.numbers(), names, used)

    def lent(self):
        head = [self.number() for _ in model.HEADER]
        counts = [self.number() for _ in range(4)]
        return Lent(head, counts, [self.numbers() for _ in range(5)])


def words(*values):
    """Values in the words of a case: bytes in hexadecimal, a list after its count."""
    return " ".join(word for value in values for word in spelled(value))


def spelled(value):
    if isinstance(value, bytes):
        return [value.hex() or "-"]
    if isinstance(value, tuple):
        return [word for part in value for word in spelled(part)]
    if isinstance(value, list):
        return [str(len(value)), *spelled(tuple(value))]
    if isinstance(value, NameList):
        return spelled((value.names, value.used, value.bytes, value.ends))
    if isinstance(value, Lent):
        return spelled((*value.head, *value.counts, *value.lists))
    return [str(value)]


def answer_of(call):
    """The answer of a call that gives back a value, and the value or None."""
    try:
        return (0,), call()
    except Refused as refused:
        return refused.answer, None


# Kinds that the Rust answers too.


def map_(case):
    rows, out = [], []
    for step in case.words:
        instrument = case.number()
        if step == "i":
            start, end, symbol = case.number(), case.number(), case.number()
            answer, new = answer_of(
                lambda: model.inserted(rows, model.ROOM, model.NAMES, instrument, start, end, symbol)
            )
            rows = rows if new is None else new
            out.append(words(answer, rows))
        elif step == "g":
            out.append(found(rows, instrument, case.number(), case.number()))
        else:
            moments, hints = case.number(), case.number()
            for moment in range(moments):
                out += [found(rows, instrument, moment, hint) for hint in [*range(hints), model.TOP]]
    return " ; ".join(out)


def found(rows, instrument, moment, hint):
    symbol, hint = model.looked_up(rows, instrument, moment, hint)
    return f"{'-' if symbol is None else symbol} {hint}"


def mappings(case):
    """Room for every record of the case in both tables and in the list of either."""
    steps = [(step, case.number(), case.number(), case.number(), case.bytes()) for step in case.words]
    names = NameList(bytes(sum(len(step[4]) for step in steps)), [0] * len(steps), 0, 0)
    over_time, point = (bytes(48 * len(steps)), 0, names), (bytes(8 * len(steps)), 0, names)
    out = []
    for step, instrument, start, end, name in steps:
        kind = 3 if step == "o" else 2
        body = start.to_bytes(8, "little") + end.to_bytes(8, "little") + name
        record = model.FRAME.pack(16 + len(body), kind, instrument, 0) + body
        answer, new = answer_of(lambda: model.on_record(*over_time, record))
        over_time = new or over_time
        rows = model.rows_of(*over_time[:2])
        out.append(words(answer, [(*row[:3], over_time[2].all()[row[3]]) for row in rows]))
        answer, new = answer_of(lambda: model.on_record_point(*point, record))
        point = new or point
        out.append(words(answer, [(i, point[2].all()[symbol]) for i, symbol in model.entries_of(*point[:2])]))
    return " ; ".join(out)


def number(case):
    return words(*with_values(lambda: model.number_of(case.bytes())))


def utf8(case):
    return "0" if model.is_utf8(case.bytes()) else "4"


def day(case):
    answer, day = answer_of(lambda: model.day_of(case.number()))
    return words(answer) if day is None else words(answer, day, day * model.DAY)


def date(case):
    return words(*with_values(lambda: model.date_of(case.number())))


def with_values(call):
    answer, value = answer_of(call)
    return (answer,) if value is None else (answer, value)


def in_order(metadata):
    """A metadata with its sets and mappings sorted."""
    sets = [sorted(metadata.symbols), sorted(metadata.partial), sorted(metadata.not_found)]
    mappings = [(name, [tuple(i) for i in intervals]) for name, intervals in sorted(metadata.mappings)]
    return (*model.head_of(metadata), *sets, mappings)


def merge(case):
    names = case.names()
    given = [case.metadata() for _ in range(case.number())]
    gathered = model.without_repeats(given[0])
    out = [words(0, in_order(gathered))]
    for added in given[1:]:
        answer, new = answer_of(lambda: model.merged(gathered, added, len(names)))
        if new is None:
            out.append(words(answer))
            break
        gathered = new
        out.append(words(0, in_order(gathered)))
    return " ; ".join(out)


def build(case):
    names = case.names()
    return words(*with_values(lambda: model.built(case.metadata(), names, model.ROOM)))


def build_day(case):
    asked, names = case.number(), case.names()
    return words(*with_values(lambda: model.built_for_day(case.metadata(), names, model.ROOM, asked)))


def streams_of(case):
    """The buffer and the cuts of the streams of a case of `records`."""
    streams = []
    for _ in range(case.number()):
        damaged, times = case.number(), case.numbers()
        streams.append(b"".join(model.FRAME.pack(16, 0, 0, time) for time in times) + bytes(3 * damaged))
    cuts = [0]
    for stream in streams:
        cuts.append(cuts[-1] + len(stream))
    return b"".join(streams), cuts


def records(case):
    """Records of 16 bytes, so that a place is 16 times the record's number; three stray bytes are the damage."""
    hints = case.numbers()
    out = run(RecordMerge, *streams_of(case), hints)
    return " ; ".join(
        f"r {given[1]} {int(given[2]) // 16} {given[6]}" if given[0] == "r" else given[0]
        for given in (answer.split() for answer in out)
    )


def run(open_, *given):
    """Calls to the second end."""
    answer, merge = answer_of(lambda: open_(*given))
    if merge is None:
        return [words(answer)]
    out = []
    while out[-2:] != ["e", "e"]:
        answer, record = answer_of(merge.next)
        if answer != (0,):
            out.append("d " + words(answer[1:]))
        else:
            out.append("e" if record is None else "r " + words(record))
    return out


# Kinds about lent memory. A refused call hands back what it was given.


def check(case):
    return words(answer_of(lambda: model.check(case.bytes(), case.number(), case.number()))[0])


def insert(case):
    table, used, names = case.bytes(), case.number(), case.number()
    row = [case.number() for _ in range(4)]
    answer, new = answer_of(lambda: model.insert(table, used, names, *row))
    table, used = new or (table, used)
    return words(answer, used, table)


def get_for_ts(case):
    table, used, instrument, moment, hint = case.bytes(), *(case.number() for _ in range(4))
    answer, new = answer_of(lambda: model.get_for_ts(table, used, instrument, moment, hint))
    symbol, hint = new or (None, hint)
    return words(answer, int(symbol is not None), symbol or 0, hint)


def compare(case):
    left, left_used, right, right_used = case.bytes(), case.number(), case.bytes(), case.number()
    return comparison(case, left, left_used, right, right_used)


def compare_self(case):
    table, used = case.bytes(), case.number()
    return comparison(case, table, used, table, used)


def comparison(case, *tables):
    names, stretches, count = case.number(), case.bytes(), case.number()
    answer, new = answer_of(lambda: model.compare(*tables, names, stretches))
    stretches, count = new or (stretches, count)
    return words(answer, count, stretches)


def explain(case):
    table, used, names, instrument, moment, held = case.bytes(), *(case.number() for _ in range(5))
    answer, new = answer_of(lambda: model.explain(table, used, names, instrument, moment))
    if new is None:
        return words(answer, (held,) * 8)
    reason, *intervals = new
    first, second = [*intervals, (0,) * 4, (0,) * 4][:2]
    return words(answer, model.REASONS[reason], first, second[1:])


def check_point(case):
    return words(answer_of(lambda: model.check_point(case.bytes(), case.number(), case.number()))[0])


def get_point(case):
    answer, symbol = answer_of(lambda: model.get_point(case.bytes(), case.number(), case.number()))
    return words(answer, int(symbol is not None), symbol or 0)


def naming(case):
    names, name = case.name_list(), case.bytes()
    answer, new = answer_of(lambda: model.naming(names, name))
    n, names = new or (0, names)
    return words(answer, n, names)


def place_of(case):
    answer, place = answer_of(lambda: model.place_of(case.name_list(), case.number()))
    return words(answer, place or (0, 0))


def record_on(call):
    def answer(case):
        given = case.bytes(), case.number(), case.name_list()
        record = case.bytes()
        answer, new = answer_of(lambda: call(*given, record))
        table, used, names = new or given
        return words(answer, used, table, names)

    return answer


def lent_build(case):
    answer, table = model.build(case.bytes(), case.name_list(), case.lent())
    return words(answer[0], answer[1] if answer[0] == 0 else 0, table)


def lent_build_day(case):
    table, asked = case.bytes(), case.number()
    answer, table = model.build_for_day(table, asked, case.name_list(), case.lent())
    return words(answer[0], answer[1] if answer[0] == 0 else 0, table)


def open_metadata(case):
    lent = case.lent()
    answer, new = answer_of(lambda: model.open_metadata(lent))
    return words(answer, new or lent)


def merge_metadata(case):
    names, left, right = case.number(), case.lent(), case.lent()
    answer, new = answer_of(lambda: model.merge_metadata(left, right, names))
    return words(answer, new or left)


def streams(case):
    return " ; ".join(run(RecordMerge, case.bytes(), case.numbers(), case.numbers()))


def runs(case):
    """Runs one after the other on one opening, each with its allowance and a list of so many words of 9; every number held 9 before."""
    given, asked = (case.bytes(), case.numbers(), case.numbers()), case.numbers()
    answer, merge = answer_of(lambda: RecordMerge(*given))
    if merge is None:
        return words(answer)
    return " ; ".join(one_run(merge, allowance, room) for allowance, room in zip(asked[::2], asked[1::2]))


def one_run(merge, allowance, room):
    """A run's numbers, each of which held 9 before, the words of its records, and how many words behind them are not 9 any more."""
    listed = [9] * room
    answer, made = answer_of(lambda: merge.run(allowance, listed))
    if made is None:
        return words(answer[0], (9,) * 6)
    calls, written, last = made
    held, behind = listed[: 3 * written], sum(word != 9 for word in listed[3 * written :])
    if isinstance(last, tuple) and last[0] == 13:
        return words(13, calls, written, 9, last[1:], held, behind)
    last, stream = last if isinstance(last, tuple) else (0 if last is None else 1, 0)
    return words(0, calls, written, last, stream, 0, 9, held, behind)


def plain(case):
    return " ; ".join(run(PlainMerge, case.bytes(), case.numbers(), case.numbers()))


WHOLE = 4095


class Arriving:
    """Streams that come in portions, as a script has them (README.md): each portion and word of an end, and what they answered."""

    def __init__(self, case):
        self.buffer, self.cuts, self.hints, self.script = case.bytes(), case.numbers(), case.numbers(), case.numbers()
        self.streams = [self.buffer[first:end] for first, end in zip(self.cuts, self.cuts[1:])]
        self.answer, self.merge = answer_of(lambda: FeedMerge(len(self.streams), self.hints))
        self.come, self.out, self.used = [0] * len(self.streams), [], 0

    def portion(self, stream, size):
        left = self.streams[stream][self.come[stream] :] if stream < len(self.streams) else b""
        if size == WHOLE and not left:
            self.out.append("x " + words(answer_of(lambda: self.merge.end(stream))[0]))
            return
        answer, taken = answer_of(lambda: self.merge.add(stream, left[:size]))
        self.out.append("p " + words(answer) + ("" if taken is None else f" {taken}"))
        if taken:
            self.come[stream] += taken

    def scripted(self):
        self.used += 1
        return divmod(self.script[(self.used - 1) % len(self.script)], 4096)

    def needed(self, stream):
        """More of the stream: so many bytes as the script has it, or its end."""
        size = self.scripted()[1]
        self.portion(stream, max(1, size) if self.come[stream] < len(self.streams[stream]) else WHOLE)


def feed(case):
    """Calls to the second end, with portions unasked before each and asked for after "need more"."""
    come = Arriving(case)
    merge, out, ends = come.merge, come.out, 0
    if merge is None:
        return words(come.answer)
    while ends < 2:
        come.portion(*come.scripted())
        answer, got = answer_of(merge.next)
        if answer != (0,):
            out.append("d " + words(answer[1:], len(merge.heads)))
        elif got is None:
            out.append("e")
            ends += 1
        elif len(got) == 1:
            out.append(f"n {got[0]} {len(merge.heads)}")
            come.needed(got[0])
        else:
            out.append("r " + words(got, len(merge.heads)))
    return " ; ".join(out)


def feed_runs(case):
    """The same by runs, each with the next allowance and a list of so many words of those asked for, to the second end."""
    come = Arriving(case)
    asked, merge, out, ends, made = case.numbers(), come.merge, come.out, 0, 0
    if merge is None:
        return words(come.answer)
    while ends < 2:
        come.portion(*come.scripted())
        allowance, room = asked[made % len(asked)], asked[(made + 1) % len(asked)]
        made += 2
        said = one_run(merge, allowance, room)
        out.append(said + f" {len(merge.heads)}")
        number, _, _, last, stream = said.split()[:5]
        if number == "0" and last == "2":
            come.needed(int(stream))
        ends += number == "0" and last == "0"
    return " ; ".join(out)


def replay(case):
    return words(model.replay(case.bytes()).encode())


def compare_program(case):
    return words(model.compare_program(case.bytes()).encode())


def explain_program(case):
    return words(model.explain_program(case.bytes()).encode())


KINDS = {
    "map": map_,
    "mappings": mappings,
    "number": number,
    "utf8": utf8,
    "day": day,
    "date": date,
    "merge": merge,
    "build": build,
    "build_day": build_day,
    "records": records,
    "decoder": records,
    "check": check,
    "insert": insert,
    "get_for_ts": get_for_ts,
    "compare": compare,
    "compare_self": compare_self,
    "explain": explain,
    "check_point": check_point,
    "get_point": get_point,
    "naming": naming,
    "place_of": place_of,
    "on_record": record_on(model.on_record),
    "on_record_point": record_on(model.on_record_point),
    "lent_build": lent_build,
    "lent_build_day": lent_build_day,
    "open_metadata": open_metadata,
    "merge_metadata": merge_metadata,
    "streams": streams,
    "feed": feed,
    "feed_runs": feed_runs,
    "runs": runs,
    "plain": plain,
    "replay": replay,
    "compare_program": compare_program,
    "explain_program": explain_program,
}


def answer(line):
    kind, _, rest = line.partition(" ")
    return KINDS[kind.strip()](Case(rest))


if __name__ == "__main__":
    for line in sys.stdin:
        sys.stdout.write(answer(line) + "\n")
