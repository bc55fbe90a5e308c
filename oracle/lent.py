"""Cases about lent memory: good ones with a little room to spare, and damaged copies of them."""

from itertools import product
from struct import pack

import model
from answer import words
from model import TOP, Lent, NameList

TEXTS = [b"", b"A", b"BC", b"7", b"+7", b"007", b"8", b"x", b"4294967296", "\u00e9".encode()]
DATES = [19700101, 19700102, 20240229, 20240301, 20240302, 25540721]
BAD_DATES = [0, 19691231, 20230229, 25540722, 2**32 - 1]


def damaged(rng, text):
    """Some bytes with one changed, cut off or added."""
    if not text or rng.random() < 0.2:
        return text + rng.randbytes(1)
    at = rng.randrange(len(text))
    if rng.random() < 0.3:
        return text[:at]
    return text[:at] + bytes([rng.choice([0, 1, 255, text[at] ^ 1 << rng.randrange(8)])]) + text[at + 1 :]


def any_rows(rng, names, rows=()):
    """These rows with a few more inserted."""
    rows = list(rows)
    for _ in range(rng.randrange(6)):
        start, end = sorted(rng.choice([rng.randrange(10), TOP - rng.randrange(3)]) for _ in range(2))
        if names:
            row = rng.choice([1, 2, 300]), start, end, rng.randrange(names)
            rows = model.inserted(rows, model.ROOM, names, *row)
    return rows


def any_table(rng, names, faults):
    """A table with some places to spare that hold anything, and its number in use."""
    return table_of(rng, any_rows(rng, names), faults)


def table_of(rng, rows, faults):
    table = model.laid(b"", 0, rows) + rng.randbytes(24 * rng.choice([0, 0, 1, 2, 3]))
    return with_faults(rng, table, len(rows), faults)


def any_points(rng, names, faults):
    instruments = sorted(rng.sample([0, 1, 2, 7, 2**32 - 1], rng.randrange(5))) if names else []
    table = model.laid_entries(b"", [(instrument, rng.randrange(names)) for instrument in instruments])
    return with_faults(rng, table + rng.randbytes(8 * rng.choice([0, 0, 1, 2])), len(instruments), faults)


def with_faults(rng, table, used, faults):
    if rng.random() < faults:
        table = damaged(rng, table)
    if rng.random() < faults / 2:
        used = rng.choice([used + 1, max(0, used - 1), TOP])
    return table, used


def any_names(rng, faults, texts=None):
    texts = rng.sample(TEXTS, rng.randrange(5)) if texts is None else texts
    used = b"".join(texts)
    ends = [sum(map(len, texts[: n + 1])) for n in range(len(texts))]
    spare, places = rng.randbytes(rng.randrange(4)), [rng.randrange(9) for _ in range(rng.choice([0, 1, 2]))]
    given = NameList(used + spare, ends + places, len(ends), len(used))
    if rng.random() < faults:
        given.bytes = damaged(rng, given.bytes)
    if given.ends and rng.random() < faults:
        given.ends[rng.randrange(len(given.ends))] = rng.choice([0, 1, 9, 2**32 - 1])
    if rng.random() < faults / 2:
        given.names = rng.choice([given.names + 1, max(0, given.names - 1), TOP])
    return given


def any_record(rng):
    """A record's bytes, most of them a mapping."""
    start, end = (rng.choice([0, 3, 5, 8, TOP]) for _ in range(2))
    body = pack("<QQ", start, end) + rng.choice([*TEXTS, b"\xff", b"z" * 255, b"z" * 256])
    if rng.random() < 0.1:
        body = body[: rng.randrange(17)]
    record = pack("<HHIQ", 16 + len(body), rng.choice([2, 2, 2, 2, 3, 258]), rng.choice([1, 2, 300]), 4) + body
    return damaged(rng, record) if rng.random() < 0.15 else record


def any_lent(rng, faults, names=len(TEXTS), heads=None, symbols=None):
    """A metadata with some places to spare that hold anything."""

    def name():
        return names + rng.randrange(3) if rng.random() < faults / 8 else rng.randrange(names)

    def interval():
        start, end = sorted([rng.choice(DATES), rng.choice(DATES)])
        if rng.random() < faults / 4:
            start, end = rng.choice([(end, start), (rng.choice(BAD_DATES), end), (start, rng.choice(BAD_DATES))])
        return start, end, rng.choice(symbols) if symbols and rng.random() > faults / 4 else name()

    head = [3, 0, rng.choice([4, 5, 65535]), *(rng.choice([0, 5, TOP]) for _ in range(3)), 1, 0, 0, 71]
    if rng.random() < faults:
        head[rng.choice([0, 1, 6, 7, 8, 9])] ^= 1
    sets = [[name() for _ in range(rng.randrange(4))] for _ in range(3)]
    mappings = []
    for _ in range(rng.randrange(4)):
        own = rng.choice(heads) if heads and rng.random() > faults / 4 else name()
        mappings.append((own, [interval() for _ in range(rng.randrange(4))]))
    given = model.Metadata(*head, *sets, mappings)
    counts = [*map(len, sets), len(mappings)]
    spare = [rng.choice([1, 8, 8, 12]) * width for width in (1, 1, 1, 2, 3)]
    lists = [list_ + [rng.randrange(9) for _ in range(more)] for list_, more in zip(model.lists_of(given), spare)]
    if rng.random() < faults / 8:
        counts[rng.randrange(4)] += rng.choice([1, 5])
    if rng.random() < faults / 8:
        lists[rng.randrange(5)].append(0)
    return Lent(head, counts, lists)


def name_case(rng, faults):
    given = any_names(rng, faults)
    if rng.random() < 0.3:
        return words("place_of", given, rng.randrange(given.names % 9 + 2))
    return words("naming", given, rng.choice([*TEXTS, b"\xff", b"z" * 255, b"z" * 256]))


def table_case(rng, faults):
    names = rng.choice([0, *[3] * 12, 4096, 4097])
    table, used = any_table(rng, min(names, 3), faults)
    start, end = (rng.choice([rng.randrange(10), TOP - rng.randrange(3)]) for _ in range(2))
    instrument = rng.choice([1, 2, 300, 5])
    if rng.random() < 0.2:
        return words("check", table, used, names)
    if rng.random() < 0.3:
        sound, used = any_table(rng, min(names, 3), 0)
        used += 5 if rng.random() < faults else 0
        return words("get_for_ts", sound, used, instrument, start, rng.choice([0, 1, 2, TOP]))
    if rng.random() < 0.8:
        start, end = sorted([start, end])
    return words("insert", table, used, names, instrument, start, end, rng.randrange(4))


def compare_case(rng, faults):
    """Two tables that often have much in common, and a list whose room is about what they need."""
    names = rng.choice([0, *[3] * 12, 4096, 4097])
    left = any_rows(rng, min(names, 3))
    right = any_rows(rng, min(names, 3), left if rng.random() < 0.5 else ())
    need = len(model.disagreements(left, right))
    room = rng.choice([need, need, max(0, need - 1), need + 2, 0])
    known = rng.randrange(3) if rng.random() < faults / 2 else names
    given = known, rng.randbytes(28 * room + (rng.random() < faults / 4)), rng.randrange(9)
    if rng.random() < 0.1:
        return words("compare_self", *table_of(rng, left, faults), *given)
    return words("compare", *table_of(rng, left, faults / 2), *table_of(rng, right, faults / 2), *given)


def explain_case(rng, faults):
    """A question about a table, mostly at a start or an end of one of its intervals, or a moment beside it."""
    names = rng.choice([0, *[3] * 12, 4096, 4097])
    rows = any_rows(rng, min(names, 3))
    near = [point + step for row in rows for point in row[1:3] for step in (-1, 0, 1)]
    moment = rng.choice([point for point in near if 0 <= point <= TOP] + [0, rng.randrange(10), TOP])
    known = rng.randrange(3) if rng.random() < faults / 2 else names
    asked = rng.choice([0, 1, 2, 3, 300, 2**32 - 1]), moment, rng.randrange(9)
    return words("explain", *table_of(rng, rows, faults), known, *asked)


def point_case(rng, faults):
    names = rng.choice([0, *[3] * 12, 4097])
    table, used = any_points(rng, min(names, 3), faults)
    if rng.random() < 0.5:
        return words("check_point", table, used, names)
    sound, used = any_points(rng, min(names, 3), 0)
    used += 5 if rng.random() < faults else 0
    return words("get_point", sound, used, rng.choice([0, 1, 2, 7, 9, 2**32 - 1]))


def record_case(rng, faults):
    names = any_names(rng, faults / 2)
    known = min(names.names, 4)
    if rng.random() < 0.5:
        return words("on_record", *any_table(rng, known, faults / 2), names, any_record(rng))
    return words("on_record_point", *any_points(rng, known, faults / 2), names, any_record(rng))


def build_case(rng, faults):
    names = any_names(rng, faults / 4, TEXTS)
    numbers, others = [3, 4, 5, 6], [1, 2, 9]
    forward, inverse = (others, [*numbers, 0]), (numbers, [*others, 0])
    stypes, (heads, symbols) = rng.choice([((1, 0), forward), ((0, 1), inverse), ((0, 0), forward)])
    given = any_lent(rng, faults, heads=heads, symbols=symbols)
    given.head[6:8] = (1, 1) if rng.random() < 0.05 else stypes
    if rng.random() < 0.5:
        table = rng.randbytes(24 * rng.choice([0, 1, 2, *[8] * 6]) + (rng.random() < faults / 8))
        return words("lent_build", table, names, given)
    day = rng.choice(DATES + BAD_DATES) if rng.random() < faults / 4 else rng.choice(DATES)
    midnight = model.DAYS[20240229] * model.DAY
    given.head[3], given.head[4] = (rng.choice([0, 0, 0, midnight, midnight + 1]) for _ in range(2))
    table = rng.randbytes(8 * rng.choice([0, 1, 2, *[8] * 6]) + (rng.random() < faults / 8))
    return words("lent_build_day", table, day, names, given)


def metadata_case(rng, faults):
    if rng.random() < 0.2:
        return words("open_metadata", any_lent(rng, faults))
    few = rng.choice([[1], [1, 2]])
    left, right = (any_lent(rng, faults, heads=[1, 2, 3], symbols=few) for _ in range(2))
    return words("merge_metadata", rng.choice([*[len(TEXTS)] * 12, 4097]), left, right)


def any_stream(rng, faults):
    stream = b""
    for time in sorted(rng.randrange(9) for _ in range(rng.randrange(5))):
        length = rng.choice([16, 16, 17, 40, 1024])
        stream += pack("<HHIQ", length, rng.choice([0, 2]), rng.randrange(9), time) + bytes(length - 16)
    return damaged(rng, stream) if rng.random() < faults else stream


def stream_case(rng, faults):
    if rng.random() < 0.3:
        streams = [any_stream(rng, faults) for _ in range(rng.randrange(5))]
        sections = [pack("<IH", 6 + len(stream), 1) + stream for stream in streams]
        bundle = b"".join(sections)
        return words("replay", damaged(rng, bundle) if rng.random() < faults else bundle)
    return run_case(rng, faults) if rng.random() < 0.3 else merge_case("streams", rng, faults)


def run_case(rng, faults):
    """Streams, and runs on them (No. 14)."""
    asked = asked_runs(rng, faults)
    return merge_case("runs", rng, faults) + " " + words(asked)


def asked_runs(rng, faults):
    """Runs: few calls and short lists, sometimes too many calls or a list of no whole rows."""
    asked = []
    for _ in range(rng.randrange(1, 9)):
        asked += [rng.choice([0, 1, 2, 3, 5, 9, 4096]), 3 * rng.choice([0, 1, 2, 3, 5, 30])]
        if rng.random() < faults / 4:
            asked[-2 + rng.randrange(2)] = rng.choice([4097, 4099, TOP])
        if asked[-1] > 4099:
            asked[-1] = 4
    return asked


def merge_case(kind, rng, faults):
    """Streams for the merge by the heap (`streams`) or by the plain engine (`plain`)."""
    streams = [any_stream(rng, faults) for _ in range(rng.randrange(5))]
    cuts = [sum(map(len, streams[:n])) for n in range(len(streams) + 1)]
    hints = [rng.randrange(9) for _ in streams] if rng.random() < 0.6 else []
    if rng.random() < faults / 4:
        cuts[rng.randrange(len(cuts))] += 1
    if rng.random() < faults / 4:
        hints.append(0)
    return words(kind, b"".join(streams), cuts, hints)


def short_comparisons(moments):
    """All pairs of tables of one instrument over so many moments and two symbols."""
    symbols = product((None, 0, 1), repeat=moments)
    maps = [model.runs([(m, m + 1, s) for m, s in enumerate(given) if s is not None]) for given in symbols]
    tables = [(model.laid(b"", 0, [(1, *run) for run in runs]), len(runs)) for runs in maps]
    for left, right in product(tables, repeat=2):
        yield words("compare", *left, *right, 2, bytes(28 * 2 * (left[1] + right[1])), 0)


def short_questions(moments):
    """Every moment of all tables of one instrument over so many moments and two symbols, another's beside it or not."""
    for given in product((None, 0, 1), repeat=moments):
        runs = model.runs([(m, m + 1, s) for m, s in enumerate(given) if s is not None])
        for others in ([], [1, 3]):
            rows = sorted([(2, *run) for run in runs] + [(other, 0, moments, 0) for other in others])
            for moment in range(moments + 1):
                yield words("explain", model.laid(b"", 0, rows), len(rows), 2, 2, moment, 9)


def over_limits():
    """Memory at a limit and one over it."""
    for places in (model.ROOM, model.ROOM + 1):
        yield words("check", bytes(24 * places), 0, 0)
        yield words("compare", bytes(24 * places), 0, b"", 0, 0, b"", 0)
        yield words("compare", b"", 0, bytes(24 * places), 0, 0, b"", 0)
        yield words("explain", bytes(24 * places), 0, 0, 7, 5, 9)
        yield words("check_point", bytes(8 * places), 0, 0)
        yield words("naming", NameList(bytes(places), [0], 0, 0), b"A")
    for places in (model.NAMES, model.NAMES + 1):
        yield words("naming", NameList(b"A", [0] * places, 0, 0), b"A")
        for which, width in enumerate([1, 1, 1, 2]):
            lists = [[], [], [], [], []]
            lists[which] = [0] * (width * places)
            yield words("open_metadata", Lent([0] * 10, [0] * 4, lists))


def cases(rng, long):
    yield from over_limits()
    yield from short_comparisons(5 if long else 3)
    yield from short_questions(7 if long else 5)
    parts = [name_case, table_case, point_case, record_case, build_case, metadata_case, stream_case]
    parts += [compare_case, explain_case]
    for faults in (0, 0.3):
        for part in parts:
            for _ in range(20_000 if long else 2_000):
                yield part(rng, faults)
