#!/usr/bin/env python3
"""Writes the cases of vectors_builds: oracle/build && python3 tools/make_vectors_builds.py > crates/vectors_builds/stdin

Four sources, in this order: the traps of docs/TRAPS.md with the answers written beside them (oracle/traps.py); builds
with one way to earn a refusal and, drawn from all pairs, with two, at one place or at two, and builds at the limits, the
answer written here by the rules' order and held against the plain model; lent memory drawn by oracle/lent.py and answered by the model
(oracle/model.py); and builds answered by dbn's own code (oracle/driver.rs), of one metadata and of several that dbn merged.
dbn's answers are held against the model, too. In merged metadata each name has instruments of its own: where two names
reach one, dbn's answer changes from run to run, since its merged mappings stand in a hash's order.
"""
import random
import subprocess
import sys
from collections import Counter
from copy import deepcopy
from dataclasses import dataclass
from itertools import combinations, product
from pathlib import Path

ORACLE = Path(__file__).resolve().parent.parent / "oracle"
sys.path.insert(0, str(ORACLE))

import cases  # noqa: E402
import lent  # noqa: E402
import model  # noqa: E402
import traps  # noqa: E402
from answer import Case  # noqa: E402
from answer import words as spelled  # noqa: E402
from model import DAY, Lent, Metadata, NameList  # noqa: E402
from sides import WIDTHS, laid, listed, side  # noqa: E402
from traps import BAD, D1, D2, D3, D4, EMPTY, FIVE, NAME_A, NAME_B, NONE, SEVEN, TEXTS, X  # noqa: E402


@dataclass
class Build:
    """A build: the table's length in bytes, the asked date (None: over time), name list, metadata."""

    length: int
    date: int
    names: NameList
    metadata: Lent

    def width(self):
        return 24 if self.date is None else 8

    def words(self):
        """What the build is handed; the bytes of names as their length and those given: the others are 0."""
        names = self.names
        text = names.bytes.rstrip(b"\0")
        listing = spelled(names.names, names.used, len(names.bytes), text, tuple(listed(names.ends)))
        date = () if self.date is None else (self.date,)
        return spelled(*date, self.length) + f" {listing} {side(self.metadata)}"

    def modelled(self):
        """The model's answer, and the table then."""
        table = bytes([9]) * self.length
        if self.date is None:
            return model.build(table, self.names, self.metadata)
        return model.build_for_day(table, self.date, self.names, self.metadata)


def show(build, answer, table, mark=""):
    """A case: behind 0 the number in use and what the table's places in use hold; all else is 0."""
    kind = mark + ("over_time" if build.date is None else "point_in_time")
    answer = answer[:1] if answer[0] else answer
    in_use = build.width() * sum(answer[1:])
    assert not any(table[in_use:]) and len(table) == build.length
    print(kind, build.words(), "=", spelled(answer, *([] if answer[0] else [table[:in_use]])))


def taken(line):
    """A case of lent memory as oracle/README.md has them; None where it is no build."""
    kind, _, rest = line.partition(" ")
    if not kind.startswith("lent_build"):
        return None
    words = Case(rest)
    table = words.bytes()
    date = words.number() if kind == "lent_build_day" else None
    return Build(len(table), date, words.name_list(), words.lent())


def table_of(build, rows):
    """A table that these rows stand in, and nothing else."""
    laid_ = model.laid(b"", 0, rows) if build.date is None else model.laid_entries(b"", rows)
    return laid_ + bytes(build.length - len(laid_))


def expect(build, number, rows=(), mark=""):
    """A case whose answer is not the model's; the model must say the same."""
    answer, table = (number, *([] if number else [len(rows)])), table_of(build, rows)
    assert build.modelled() == (answer, table), (answer, build.modelled(), build)
    show(build, answer, table, mark)


# Ways to earn a refusal. Each changes a good build, which has two mappings; its first two intervals are the first mapping's.

FIRST = {None: (5, DAY, 3 * DAY, NAME_A), D2: (5, NAME_A)}
SECOND = {None: (7, DAY, 3 * DAY, NAME_B), D2: (7, NAME_B)}
ROOM = 3


def good(inverse, date):
    mappings = [(NAME_A, [(D1, D2, FIVE), (D2, D3, FIVE)]), (NAME_B, [(D1, D3, SEVEN)])]
    if inverse:
        mappings = [(FIVE, [(D1, D2, NAME_A), (D2, D3, NAME_A)]), (SEVEN, [(D1, D3, NAME_B)])]
    stypes = (0, 1) if inverse else (1, 0)
    given = Metadata(3, 0, 4, 5, 0, 7, *stypes, 0, 71, [NAME_A], [NONE], [], mappings)
    build = Build(0, date, deepcopy(TEXTS), laid(given, [1, 0, 1, 1, 1]))
    build.length = ROOM * build.width()
    return build


def length(words, more=0):
    def change(build):
        build.length = words * build.width() + more

    return change


def in_use(which, count):
    def change(build):
        build.metadata.counts[which] = count

    return change


def lent_over(which):
    def change(build):
        words = build.metadata.lists[which]
        words += [0] * (WIDTHS[which] * 4097 - len(words))

    return change


def one_word_more(which):
    return lambda build: build.metadata.lists[which].append(0)


def count(mapping, intervals):
    def change(build):
        build.metadata.lists[3][2 * mapping + 1] = intervals

    return change


def listing(**changes):
    def change(build):
        for field, value in changes.items():
            setattr(build.names, field, value(getattr(build.names, field)))

    return change


def texts(*given):
    def change(build):
        build.names = traps.listing(*given)

    return change


def header(**changes):
    def change(build):
        for field, value in changes.items():
            build.metadata.head[model.HEADER.index(field)] = value

    return change


def word(at, value):
    """A word of the interval: 0 its start, 1 its end, 2 its symbol."""

    def way(interval):
        def change(build):
            build.metadata.lists[4][3 * interval + at] = value

        return change

    return way


def dates(start, end):
    def way(interval):
        def change(build):
            build.metadata.lists[4][3 * interval : 3 * interval + 2] = start, end

        return change

    return way


def named(name):
    """The name of the interval's mapping."""

    def way(interval):
        def change(build):
            build.metadata.lists[3][interval // 2 * 2] = name

        return change

    return way


def asked(date):
    def change(build):
        build.date = date

    return change


MEMORY = [
    length(ROOM, 1),
    length(ROOM, -1),
    length(0, 1),
    *(in_use(which, over) for which, over in [(0, 3), (1, 2), (2, 2), (3, 4), (0, 2**64 - 1), (3, 2**63)]),
    *(lent_over(which) for which in range(4)),
    *(one_word_more(which) for which in (3, 4)),
    *(count(1, over) for over in (3, 2**32 - 1)),
    listing(names=lambda names: names + 1),
    listing(names=lambda _: 2**64 - 1),
    listing(used=lambda used: used + 1),
    listing(ends=lambda ends: ends + [0] * (4097 - len(ends))),
    listing(bytes=lambda text: text + bytes(65_537 - len(text))),
]
FORM = [
    listing(used=lambda used: used - 1),
    listing(names=lambda names: names - 1),
    listing(ends=lambda ends: [*ends[:3], ends[1], *ends[4:]]),
    listing(ends=lambda ends: [*ends[:-1], 2**32 - 1]),
    listing(bytes=lambda text: b"\xff" + text[1:]),
    texts(b"", b"\xc3", b"\xa9", b"5", b"x", b"7"),
    texts(b"", b"A", b"B", b"5", b"x", b"7", b"z" * 256),
]
FINE = [
    listing(ends=lambda ends: ends + [0, 2**32 - 1], bytes=lambda text: text + b"\xff\xfe"),
    listing(ends=lambda ends: ends + [0] * (4096 - len(ends)), bytes=lambda text: text + bytes(65_536 - len(text))),
    texts(b"", b"A", b"B", b"5", b"x", b"7", b"z" * 255),
    header(schema=65_535, limit=2**64 - 1, version=255, dataset=NONE, ts_out=1, symbol_cstr_len=2**64 - 1),
]

DONE = 0


def whole(date):
    """The ways that come before any mapping, each with its number, by the rules' order."""
    neither = [header(stype_in=1, stype_out=1), header(stype_in=255, stype_out=7)]
    if date is None:
        return [(15, MEMORY), (14, FORM), (9, neither)]
    outside = [header(start=3 * DAY), header(end=2 * DAY), header(start=2 * DAY, end=1)]
    return [(15, MEMORY), (14, FORM), (11, [asked(BAD), asked(25540722)]), (9, neither), (10, outside)]


def within(inverse, date, interval):
    """The ways of one interval and its mapping's name, by the rules' order. DONE passes over the interval."""
    unnamed = (3, [named(NONE)])
    no_number = (8, [named(X), named(EMPTY)] if inverse else [word(2, X)])
    symbol = [(3, [word(2, NONE), word(2, len(TEXTS.ends))]), (DONE, [word(2, EMPTY)])]
    dated = (11, [word(0, BAD), word(1, 25540722), word(0, 19691231), word(1, 0)])
    if date is not None:
        ways = [dated, (DONE, [dates(D3, D1), dates(D3, D4), dates(D1, D2)]), *symbol, unnamed, no_number]
    else:
        inserted = [(1, [dates(D3, D1)]), (DONE, [dates(D3, D3)])]
        forward = [*symbol, no_number, dated, *inserted, unnamed]
        ways = [unnamed, no_number, *symbol, dated, *inserted] if inverse else forward
    return [(number, [way(interval) for way in own]) for number, own in ways]


def refused(inverse, date, number, *ways):
    """A good build changed by the ways, the last first: the number is the first's."""
    build = good(inverse, date)
    for way in reversed(ways):
        way(build)
    expect(build, number, [FIRST[date]] if number == DONE else [])


def refusals(rng, inverse, date):
    """Each way alone, in the second mapping where it is of one interval; and of two that differ in their order one drawn pair."""
    before, own = whole(date), [*within(inverse, date, 2), (2, [length(1)])]
    for number, ways in own if inverse else before + own:
        for way in ways:
            refused(inverse, date, number, way)
    for (number, ways), (_, later) in combinations(before + own, 2):
        refused(inverse, date, number, rng.choice(ways), rng.choice(later))


def two_places(rng, inverse, date, many):
    """A fault in the first mapping and one in the second: the first decides, whatever their numbers, and so does 2."""
    earlier, later = (
        [(number, way) for number, ways in within(inverse, date, interval) for way in ways if number != DONE]
        for interval in (1, 2)
    )
    for (number, way), (_, other) in rng.sample(list(product(earlier, later)), many):
        refused(inverse, date, number, way, other)
    for _, other in rng.sample(later, 3):
        refused(inverse, date, 2, length(0), other)


def rules(rng):
    for inverse, date in product((False, True), (None, D2)):
        build = good(inverse, date)
        expect(build, 0, [FIRST[date], SECOND[date]])
        refusals(rng, inverse, date)
        two_places(rng, inverse, date, 12)
    for fine, date in product(FINE, (None, D2)):
        build = good(False, date)
        fine(build)
        expect(build, 0, [FIRST[date], SECOND[date]])


def limits():
    """Of nothing: tables of as many places as there may be and one more, and memory of one interval more than there may be."""
    for date in (None, D2):
        build = good(False, date)
        build.metadata = laid(Metadata(3, 0, 4, 5, 0, 7, 1, 0, 0, 71, [], [], [], []), [1, 1, 1, 1, 1])
        for number, places in ((0, 65_536), (15, 65_537)):
            build.length = places * build.width()
            expect(build, number)
        build.length = ROOM * build.width()
        build.metadata.lists[4] = [0] * (WIDTHS[4] * 65_537)
        expect(build, 15)


# Lent memory that the model answers.


def drawn(rng, faults, many, each):
    """A few of each outcome: the call, its number, how many places are in use."""
    met = Counter()
    for _ in range(many):
        build = taken(lent.build_case(rng, faults))
        answer, table = build.modelled()
        outcome = build.date is None, *answer
        met[outcome] += 1
        if met[outcome] <= each:
            show(build, answer, table)


# Answers of dbn's own code.


def driven(line):
    run = subprocess.run([ORACLE / "target/driver"], input=line + "\n", capture_output=True, text=True, check=True)
    return run.stdout.strip()


def by_dbn(given, date, names, room=16):
    """A build that dbn answers, in room enough."""
    kind = "build" if date is None else f"build_day {date}"
    said = Case(driven(f"{kind} {spelled(names)} {cases.meta(given)}"))
    number, rows = said.number(), []
    if number == 0:
        width = 4 if date is None else 2
        rows = [tuple(said.number() for _ in range(width)) for _ in range(said.number())]
    build = Build(0, date, traps.listing(*names), laid(given, [0, 0, 0, 1, 1]))
    build.length = room * build.width()
    expect(build, number, rows, "dbn_")


def one(line):
    kind, _, rest = line.partition(" ")
    words = Case(rest)
    date = words.number() if kind == "build_day" else None
    names = words.names()
    by_dbn(words.metadata(), date, names)


def any_part(rng, inverse):
    """A metadata in which each name reaches its own instruments."""
    reached = {1: [3, 4, 5], 2: [6], 10: [7, 0]}
    mappings = []
    for name in rng.sample(list(reached), rng.randint(1, 3)):
        symbol = rng.choice(reached[name])
        days = sorted(rng.sample(cases.SOME_DATES[:6], rng.choice([2, 3])))
        intervals = [(a, b, name if inverse else symbol) for a, b in zip(days, days[1:])]
        mappings.append((reached[name][0] if inverse else name, intervals))
    head = [3, 0, 4, 0, 0, 0, *((0, 1) if inverse else (1, 0)), 0, 71]
    return Metadata(*head, [1], [], [2], mappings)


def merged_by_dbn(rng):
    """Builds of both kinds from what dbn makes of two or three metadata."""
    parts = [any_part(rng, rng.random() < 0.3)]
    parts += [any_part(rng, parts[0].stype_out == 1) for _ in range(rng.randint(1, 2))]
    said = driven(f"merge {spelled(cases.TEXTS)} {len(parts)} {' '.join(map(cases.meta, parts))}").split(" ; ")
    words = Case(said[-1])
    if words.number() != 0:
        return
    given = words.metadata()
    by_dbn(given, None, cases.TEXTS)
    by_dbn(given, rng.choice(cases.SOME_DATES[1:5]), cases.TEXTS)


print("# The cases of vectors_builds, made by tools/make_vectors_builds.py, which says where the answers are from. A call, what it is")
print("# handed, and behind the = what it answers: 0, the places in use and their bytes, or the number alone; every other place of the")
print("# table then holds 0. A call is handed the asked date (point in time alone); the length of the table, which holds 9s; names and")
print("# bytes in use of the list, the length of its bytes and those given, its ends; and a metadata. That is version, dataset, schema,")
print("# start, end, limit, stype_in, stype_out, ts_out, symbol_cstr_len; symbols, partial, not_found, mappings in use; and five lists")
print("# (symbols, partial, not_found, mappings, intervals). A list is its length, how many places are given, and those: the others")
print("# hold 0. Bytes are hexadecimal, a - for none. `dbn_` marks answers of dbn's own code; the traps stand under their numbers.")
last = None
for trap, (case, said) in traps.traps():
    build = taken(case)
    if build is None:
        continue
    if trap != last:
        print("#", trap)
        last = trap
    answer, table = build.modelled()
    assert spelled(answer[0], sum(answer[1:]), table) == said
    show(build, answer, table)
rng = random.Random(1)
print("# Refusals and their order")
rules(rng)
print("# At the limits, and one over them")
limits()
print("# Lent memory, answered by the model")
drawn(rng, 0, 300, 4)
drawn(rng, 0.3, 600, 3)
print("# Answered by dbn's own code")
for _ in range(40):
    one(cases.build(rng, reversed_=0.05))
    one(cases.build_day(rng, reversed_=0.05))
print("# Merged and answered by dbn's own code")
for _ in range(16):
    merged_by_dbn(rng)
