#!/usr/bin/env python3
"""Prints cases, one a line: cases.py PART SIZE [SEED].

PART is `domain` (the rules' equality domain: the Rust and the model agree), `beyond` (outside it: they may not),
`lent` (lent memory: the model and the port alone), `portions` (streams in portions: the same two) or `plain` (the plain
engine: the same two). SIZE is `quick` or `long`.
A seed that was not given is drawn, and printed on standard error. Exits with 2 for another PART, SIZE or SEED.
"""

import random
import sys
from itertools import product

import lent
import model
from answer import Case, streams_of, words
from model import TOP


# The map over time.


def short_histories(points):
    """All histories of up to three inserts over these points and two symbols, each with a sweep of lookups."""
    spans = [(a, b, symbol) for a, b in product(range(points), repeat=2) if a < b for symbol in (0, 1)]
    steps = [words("i", 1, *span) for span in [*spans, (2, 2, 0), (2, 1, 0)]]
    for length in (1, 2, 3):
        for history in product(steps, repeat=length):
            yield f"map {' '.join(history)} w 1 {points + 1} 5"


def long_history(rng):
    """A history over few instruments, its points crowded, at the top or anywhere, with lookups at every edge."""
    instruments = rng.sample([0, 1, 2, 7, 2**32 - 1], rng.randint(1, 3))
    pick = rng.choice([lambda: rng.randrange(24), lambda: TOP - rng.randrange(24), lambda: rng.randrange(2**64)])
    line, seen = "map", [0, TOP]
    for _ in range(rng.randint(3, 40)):
        instrument, (start, end) = rng.choice(instruments), sorted([pick(), pick()])
        if rng.random() < 0.05:
            start, end = end, start
        if seen and rng.random() < 0.3:
            start, end = sorted([rng.choice(seen), end])
        seen += [start, end]
        line += words(" i", instrument, start, end, rng.randrange(3))
        for _ in range(rng.randint(0, 3)):
            moment = min(TOP, max(0, rng.choice(seen) + rng.randint(-1, 1)))
            hint = rng.choice([rng.randrange(8), rng.randrange(2**64), TOP, TOP - 1])
            line += words(" g", rng.choice([*instruments, 3]), moment, hint)
    return line


def mapping_records(rng):
    names = [b"", b"A", b"ESZ4", "\u00e9\u20ac\U0001f600".encode(), b"\xc3", b"\xff\xfe", b"B" * 70]
    line = "mappings"
    for _ in range(rng.randint(1, 12)):
        start, end = (rng.choice([rng.randrange(12), TOP, TOP - 1, 0, 0]) for _ in range(2))
        line += words(" " + rng.choice("mmmvo"), rng.randrange(3), start, end, rng.choice(names))
    return line


# Number text, UTF-8, days.


def number_texts(rng, many):
    for length in range(4):
        for text in product(b"+-019 a", repeat=length):
            yield words("number", bytes(text))
    for value in [0, 1, 4294967294, 4294967295, 4294967296, 4294967300, 42949672950, 2**64 - 1, 2**64, 2**64 + 1]:
        for zeros, plus in product([0, 1, 3, 200], [b"", b"+", b"++"]):
            yield words("number", plus + b"0" * zeros + str(value).encode())
    for _ in range(many):
        text = bytearray(str(rng.randrange(2 ** rng.randint(1, 34))).zfill(rng.randint(0, 40)).encode())
        if rng.random() < 0.5:
            text[rng.randrange(len(text))] = rng.choice(b"+-./:09 \0\x80")
        yield words("number", bytes(text))


def utf8_texts(rng, many):
    for length in (0, 1, 2):
        for text in product(range(256), repeat=length):
            yield words("utf8", bytes(text))
    edges = [0x00, 0x7F, 0x80, 0x8F, 0x90, 0x9F, 0xA0, 0xBF, 0xC0, 0xC1, 0xC2, 0xFF]
    for leads, length in [(range(0xE0, 0x100), 2), (range(0xF0, 0x100), 3)]:
        for lead, rest in product(leads, product(edges, repeat=length)):
            yield words("utf8", bytes([lead, *rest]))
    for _ in range(many):
        widths = [range(0x80), range(0x80, 0x800), range(0x800, 0xD800), range(0xE000, 0x10000), range(2**16, 0x110000)]
        text = bytearray("".join(chr(rng.choice(rng.choice(widths))) for _ in range(60)).encode())
        if rng.random() < 0.7:
            text[rng.randrange(len(text))] = rng.randrange(256)
        yield words("utf8", bytes(text[: rng.randint(0, 255)]))


def dates(years):
    for year, month, day in product(years, range(14), range(33)):
        date = year * 10_000 + month * 100 + day
        if date < 25540722:
            yield f"day {date}"


# Metadata.


def intervals_over(dates):
    return [(a, b, symbol) for a, b in product(dates, repeat=2) if a <= b for symbol in (1, 2)]


def metadata(mappings):
    return model.Metadata(3, 0, 0, 0, 0, 0, 1, 0, 0, 71, [], [], [], mappings)


def meta(given):
    """A metadata in the words of a case."""
    sets = [given.symbols, given.partial, given.not_found]
    return words(*model.head_of(given), *sets, [(name, list(intervals)) for name, intervals in given.mappings])


NAMES = words([b"", b"A", b"B"])


def short_walks(days):
    """All pairs of lists of up to two intervals of one name over these days and two symbols."""
    intervals = intervals_over([20240101 + day for day in range(days)])
    lists = [list(chosen) for length in range(3) for chosen in product(intervals, repeat=length)]
    texts = [meta(metadata([(1, chosen)])) for chosen in lists]
    for left, right in product(texts, repeat=2):
        yield f"merge {NAMES} 2 {left} {right}"


TEXTS = [b"", b"A", b"B", b"7", b"+7", b"007", b"8", b"4294967295", b"4294967296", b"x", b"\xc3\xa9"]
SOME_DATES = [19700101, 19700102, 20240229, 20240301, 20240302, 20240303, 25540720, 25540721]


def any_mappings(rng, heads, symbols, dates, reversed_=0.0):
    mappings = []
    for _ in range(rng.randint(0, 4)):
        intervals = []
        for _ in range(rng.randint(0, 4)):
            start, end = sorted([rng.choice(dates), rng.choice(dates)])
            if rng.random() < reversed_:
                start, end = end, start
            intervals.append((start, end, rng.choice(symbols)))
        mappings.append((rng.choice(heads), intervals))
    return mappings


def any_sets(rng):
    return [[rng.randrange(len(TEXTS)) for _ in range(rng.randint(0, 4))] for _ in range(3)]


def any_merge(rng, dates=SOME_DATES, reversed_=0.0):
    """Up to four metadata, most with equal headers; few symbols, so that conflicts and joins both occur."""
    line = words("merge", TEXTS)
    count = rng.randint(1, 4)
    head = [3, rng.randrange(3), 4, 0, 0, 0, rng.choice([0, 1, 255]), rng.randrange(3), 0, 71]
    line += f" {count}"
    for _ in range(count):
        own = list(head)
        own[2] = rng.choice([4, 4, 5, 65535])
        own[3], own[4], own[5] = (rng.choice([0, 1, 5, rng.randrange(2**64), TOP]) for _ in range(3))
        if rng.random() < 0.1:
            place = rng.choice([0, 1, 6, 7, 8, 9])
            own[place] = 1 - own[place] if place == 8 else rng.choice([0, 1, 2, 3])
        mappings = any_mappings(rng, [1, 2, 3], rng.choice([[1], [1, 2]]), dates, reversed_)
        line += " " + meta(model.Metadata(*own, *any_sets(rng), mappings))
    return line


def any_build(rng, dates=SOME_DATES, reversed_=0.0):
    stypes = rng.choice([(1, 0), (0, 1), (0, 0), (0, 1), (255, 0), (255, 1), (1, 1)])
    numbers, others = [3, 4, 5, 6, 7], [1, 2, 10, 0]
    if rng.random() < 0.3:
        numbers = [*numbers, 0, rng.choice([8, 9, 0])]
    heads, symbols = (others, [*numbers, 0]) if stypes[1] == 0 else (numbers, others)
    head = [3, 0, 0, 0, 0, 0, *stypes, 0, 71]
    return model.Metadata(*head, [], [], [], any_mappings(rng, heads, symbols, dates, reversed_))


def build(rng, **given):
    return f"build {words(TEXTS)} {meta(any_build(rng, **given))}"


def build_day(rng, **given):
    asked = rng.choice(SOME_DATES)
    noon = min(TOP, model.DAYS[rng.choice(SOME_DATES)] * model.DAY + rng.choice([1, model.DAY // 2, model.DAY - 1]))
    midnight = model.DAYS[asked] * model.DAY
    built = any_build(rng, **given)
    built.start = rng.choice([0, 0, 0, noon, midnight, midnight + 1, TOP])
    built.end = rng.choice([0, 0, 0, noon, midnight, midnight + 1, TOP])
    return f"build_day {asked} {words(TEXTS)} {meta(built)}"


# Records.


def short_streams(count, longest, times, hints, damaged=(0,)):
    """All sets of this many streams of up to `longest` records, each with one of the hints or none with any."""
    lists = [list(chosen) for length in range(longest + 1) for chosen in product(range(times), repeat=length)]
    streams = [words(*stream) for stream in product(damaged, lists)]
    for chosen in product(streams, repeat=count):
        for given in product(hints, repeat=count) if hints else [()]:
            yield f"records {words(list(given))} {count} {' '.join(chosen)}"


def long_streams(rng, kind="records", damage=0.0):
    count = rng.choice([1, 2, 3, 4, 16, 17, 255, 256])
    top = rng.choice([3, 50, 2**64])
    line, hints = "", []
    for _ in range(count):
        times = [rng.randrange(top) for _ in range(rng.randrange(9 if count > 16 else 60))]
        if rng.random() < 0.7:
            times.sort()
        if top == 2**64 and times and rng.random() < 0.3:
            times[-1] = TOP
        hints.append(rng.choice([0, times[0] if times else 5, rng.randrange(top)]))
        line += words(" " + ("1" if rng.random() < damage else "0"), times)
    if kind == "records" and rng.random() < 0.4:
        hints = []
    return f"{kind} {words(hints)} {count}{line}"


def whole_streams(rng, long, fewer=1):
    yield from ["records 0 0", "records 1 0 0", "records 1 0 2 0 0 0 0", "records 2 0 0 1 0 0"]
    yield from (line for count in (1, 2) for line in short_streams(count, 3, 3, None))
    yield from (line for count in (1, 2) for line in short_streams(count, 3, 3, range(3)))
    yield from short_streams(3, 3 if long else 2, 3, None)
    yield from short_streams(3, 2 if long else 1, 3, range(3))
    yield from (long_streams(rng) for _ in range((3_000 if long else 300) // fewer))


def damaged_streams(rng, long, fewer=1):
    for count in (1, 2):
        yield from short_streams(count, 2, 3, None, (0, 1))
        yield from short_streams(count, 2, 3, range(2), (0, 1))
    yield from (long_streams(rng, damage=0.2) for _ in range((1_000 if long else 100) // fewer))


def domain(rng, long):
    """The equality domain; and reversed intervals in builds, on which both sides agree as well."""
    times = 10 if long else 1
    yield from short_histories(6 if long else 5)
    yield from (long_history(rng) for _ in range(2_000 * times))
    yield from (mapping_records(rng) for _ in range(5_000 * times))
    yield from number_texts(rng, 20_000 * times)
    yield from utf8_texts(rng, 20_000 * times)
    yield from dates(range(1970, 2555) if long else [*range(1970, 2005), *range(2096, 2501, 4), 2553, 2554])
    yield from (f"date {day}" for day in range(0, 213_504, 1 if long else 7))
    yield from ["date 213503"]
    yield from short_walks(4 if long else 3)
    yield from (any_merge(rng) for _ in range(10_000 * times))
    yield from (build(rng, reversed_=0.05) for _ in range(10_000 * times))
    yield from (build_day(rng, reversed_=0.05) for _ in range(10_000 * times))
    yield from whole_streams(rng, long)
    yield from (long_streams(rng, "decoder") for _ in range(300 * times))


def beyond(rng, long):
    """Damage, dates out of range, and reversed intervals in a metadata merge."""
    times = 10 if long else 1
    outside = [*SOME_DATES, 19691231, 25540722, 99991231]
    yield from damaged_streams(rng, long)
    yield from (f"day {date}" for date in [19691231, 25540722, 99991231, 100000101, 4294967295])
    yield from (f"date {day}" for day in [213_504, 2_932_896, 2_932_897])
    yield from (any_merge(rng, reversed_=0.3) for _ in range(3_000 * times))
    yield from (any_merge(rng, outside) for _ in range(3_000 * times))
    yield from (build(rng, dates=outside) for _ in range(3_000 * times))
    yield from (build_day(rng, dates=outside) for _ in range(3_000 * times))


def plain(rng, long):
    """Streams for the plain engine (RULES, Requests, No. 12): any, damaged ones and wrong openings among them, and 256 of them."""
    times = 10 if long else 1
    for faults in (0, 0.3):
        yield from (lent.merge_case("plain", rng, faults) for _ in range(2_000 * times))
    for _ in range(8 * times):
        streams = [lent.any_stream(rng, 0.2) for _ in range(rng.choice([16, 255, 256, 257]))]
        cuts = [sum(map(len, streams[:n])) for n in range(len(streams) + 1)]
        yield words("plain", b"".join(streams), cuts, [rng.randrange(9) for _ in streams])


def in_portions(rng, line, by_runs=False):
    """A case of `records` or `streams` again, its streams in drawn portions, some of them unasked, by calls or by runs (No. 14); None where
    its cuts are wrong."""
    case = Case(line)
    if next(case.words) == "records":
        hints = case.numbers()
        buffer, cuts = streams_of(case)
    else:
        buffer, cuts, hints = case.bytes(), case.numbers(), case.numbers()
    if cuts[0] != 0 or cuts != sorted(cuts) or cuts[-1] != len(buffer):
        return None
    drawn = [[0, 1, 5, 7], [3, 15, 16, 17], [100, 1023, 1024, 1025], [0, 1, 16, 300, 2000, 4094]]
    sizes = rng.choice(drawn[2 if len(buffer) > 1000 else 0 :])
    script = [4096 * rng.randrange(len(cuts)) + rng.choice([*sizes, 4095]) for _ in range(rng.randrange(1, 8))]
    if rng.random() < 0.1:
        script.append(4096 * rng.choice([len(cuts), 255, 256, 2**51]) + rng.choice([0, 5, 4095]))
    given = words(buffer, cuts, hints, script)
    return f"feed_runs {given} {words(runs_asked(rng))}" if by_runs else f"feed {given}"


def runs_asked(rng):
    """Allowances and words of a list, some refused; the last of them lets a call be made."""
    return lent.asked_runs(rng, 0.3) + [rng.choice([1, 2, 5, 4096]), 3 * rng.choice([1, 2, 30])]


def portions(rng, long):
    """Every case of `records`, of the drawn ones some, and cases of `streams`, again in portions (RULES, Requests, No. 5)."""
    lines = [*whole_streams(rng, long, 3), *damaged_streams(rng, long, 3)]
    lines += (lent.merge_case("streams", rng, faults) for faults in (0, 0.3) for _ in range(20_000 if long else 2_000))
    yield from (line for line in (in_portions(rng, line) for line in lines) if line)
    lines = (lent.merge_case("streams", rng, faults) for faults in (0, 0.3) for _ in range(10_000 if long else 1_000))
    yield from (line for line in (in_portions(rng, line, True) for line in lines) if line)


def asked(part, size, seed=None):
    """The cases that the arguments ask for."""
    maker = {"domain": domain, "beyond": beyond, "lent": lent.cases, "plain": plain, "portions": portions}[part]
    long = {"quick": False, "long": True}[size]
    if seed is None:
        seed = random.randrange(2**32)
        print(f"seed {seed}", file=sys.stderr)
    return maker(random.Random(int(seed)), long)


if __name__ == "__main__":
    try:
        made = asked(*sys.argv[1:])
    except (KeyError, TypeError, ValueError):
        print("cases.py domain|beyond|lent|plain quick|long [SEED]", file=sys.stderr)
        sys.exit(2)
    for line in made:
        print(line)
