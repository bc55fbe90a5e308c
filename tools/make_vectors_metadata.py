#!/usr/bin/env python3
"""Writes the cases of vectors_metadata and vectors_openings: oracle/build && python3 tools/make_vectors_metadata.py

crates/vectors_metadata/stdin has the merges, crates/vectors_openings/stdin what is opened and finished.

Five sources, in this order: the traps of docs/TRAPS.md (oracle/traps.py); one merge for each way to earn a refusal and,
drawn from all pairs, one for two ways at once, the answer written here by the rules' order and held against the plain
model; lent memory drawn by oracle/lent.py and answered by the model (oracle/model.py); merges answered by dbn's own code
(oracle/driver.rs); and the rules' limits, the number and the counts written here by its words and held against the model.
The order of dbn's sets and mappings is a hash's: they are written in the order of first arrival. A list at a limit is written
as the rule that makes it.
"""
import random
import subprocess
import sys
from copy import deepcopy
from itertools import product
from pathlib import Path

ROOT = Path(__file__).resolve().parent.parent
ORACLE = ROOT / "oracle"
sys.path.insert(0, str(ORACLE))

import cases  # noqa: E402
import lent  # noqa: E402
import model  # noqa: E402
import traps  # noqa: E402
from answer import Case, answer_of  # noqa: E402
from answer import words as spelled  # noqa: E402
from model import Lent, Metadata  # noqa: E402
from sides import WIDTHS, laid, listed, side  # noqa: E402

NAMES = 9
A, B, C, NONE = 1, 2, 3, 99
D1, D2, D3, D4, BAD = 19700102, 19700103, 19700104, 19700105, 21000229

ABOUT = """\
# The cases of vectors_metadata and vectors_openings, made by tools/make_vectors_metadata.py, which says where the answers are
# from. A call, what it is handed, and behind the = what it answers: 0 and the side as it then is, 6 and the field, or the
# number alone. A side is version, dataset, schema, start, end, limit, stype_in, stype_out, ts_out, symbol_cstr_len; symbols,
# partial, not_found, mappings in use; and five lists (symbols, partial, not_found, mappings, intervals), each as the places
# lent, how many of them are given, and those, or the rule that makes them (crates/sides/src/rule.rt): the others hold 0. `dbn_`
# marks answers of dbn's own code, `limit_` lists at the rules' limits."""

MERGES, OPENINGS = [ABOUT], [ABOUT]


def show(kind, handed, answer, after=None):
    said = " ".join(map(str, answer))
    lines = MERGES if kind.endswith("merge") else OPENINGS
    lines.append(f"{kind} {handed} = {said if after is None else f'{said} {side(after)}'}")


def call(kind, handed, act):
    """A call that the model answers."""
    answer, after = answer_of(act)
    show(kind, handed, answer, after)
    return answer, after


def open_(given):
    return call("open", side(given), lambda: model.open_metadata(given))


def merge(names, left, right):
    return call("merge", f"{names} {side(left)} {side(right)}", lambda: model.merge_metadata(left, right, names))


def finish(given):
    """Finishing changes nothing."""
    answer, _ = answer_of(given.taken)
    show("finish", side(given), answer, given if answer == (0,) else None)


# Ways to earn a refusal. Each changes a case: names, and both sides, whose lists have room for the outcome.


def good():
    head = [3, 0, 4, 5, 0, 7, 1, 0, 0, 71]
    left = Metadata(*head, [A, B], [B], [], [(A, [(D1, D2, A)]), (B, [(D2, D3, B)])])
    right = Metadata(*head, [B, C], [C], [A], [(A, [(D2, D3, A)]), (C, [(D1, D4, C)])])
    return [NAMES, laid(left, [1, 1, 1, 1, 2]), laid(right, [0, 1, 0, 1, 1])]


def counts_over(at, which):
    def change(case):
        case[at].counts[which] = len(case[at].lists[which]) // WIDTHS[which] + 1

    return change


def lent_over(at, which):
    def change(case):
        case[at].lists[which] += [0] * (WIDTHS[which] * 4097 - len(case[at].lists[which]))

    return change


def one_word_more(at, which):
    return lambda case: case[at].lists[which].append(0)


def intervals_over(at, count):
    def change(case):
        case[at].lists[3][1] = count

    return change


def too_many_names(case):
    case[0] = 4097


def field(place):
    def change(case):
        case[2].head[[0, 1, 6, 7, 8, 9][place - 1]] ^= 1

    return change


def dated(at, word, date):
    def change(case):
        case[at].lists[4][word] = date

    return change


def unknown(at, which, word, name=NONE):
    def change(case):
        case[at].lists[which][word] = name

    return change


def unknown_dataset(case):
    case[1].head[1] = case[2].head[1] = NAMES


def reversed_(at, which):
    def change(case):
        words = case[at].lists[4]
        words[3 * which], words[3 * which + 1] = D4, D1

    return change


def conflict(case):
    """A's interval of the added side covers the gathered one's, with another symbol."""
    case[2].lists[4][0:3] = [D1, D3, B]


def no_room(which):
    def change(case):
        case[1].lists[which] = case[1].lists[which][: -WIDTHS[which]]
        if which == 4:
            case[1].lists[4] = case[1].lists[4][: 3 * 3]

    return change


WAYS = {
    15: [
        too_many_names,
        *(counts_over(at, which) for at, which in product((1, 2), range(4))),
        *(lent_over(at, which) for at, which in product((1, 2), range(4))),
        *(one_word_more(at, which) for at, which in product((1, 2), (3, 4))),
        *(intervals_over(at, count) for at, count in product((1, 2), (5, 2**32 - 1))),
    ],
    6: [field(place) for place in range(1, 7)],
    11: [dated(at, 3 + word, date) for at in (1, 2) for word, date in [(0, BAD), (1, 25540722), (1, 0), (0, 19691231)]],
    3: [
        unknown_dataset,
        unknown(1, 0, 0),
        unknown(1, 1, 0, NAMES),
        unknown(2, 0, 1, 2**32 - 1),
        unknown(2, 1, 0),
        unknown(2, 2, 0),
        unknown(1, 3, 2),
        unknown(2, 3, 2, NAMES),
        unknown(1, 4, 5),
        unknown(2, 4, 5, NAMES),
    ],
    1: [reversed_(1, 1), reversed_(2, 1)],
    7: [conflict],
    2: [no_room(which) for which in range(5)],
}


def refusals(rng, pairs):
    ways = [(number, way) for number, own in WAYS.items() for way in own]
    chosen = [[way] for way in ways]
    both = [[one, other] for i, one in enumerate(ways) for other in ways[i + 1 :] if one[0] != other[0]]
    for numbers in product(WAYS, repeat=2):
        own = [pair for pair in both if (pair[0][0], pair[1][0]) == numbers]
        chosen += rng.sample(own, min(len(own), pairs))
    for faults in chosen:
        case = deepcopy(good())
        for _, way in reversed(faults):
            way(case)
        names, left, right = case
        answer, after = merge(names, left, right)
        assert answer[0] == faults[0][0], (answer, faults)
    answer, _ = merge(*good())
    assert answer == (0,)
    for places in product(range(1, 7), repeat=2):
        case = deepcopy(good())
        for place in set(places):
            field(place)(case)
        answer, _ = merge(*case)
        assert answer == (6, min(places))


def openings():
    """Repeats lost, freed places 0, the others kept; and memory that is refused."""
    given = Metadata(3, 0, 4, 5, 0, 7, 1, 0, 0, 71, [A, B, A, A], [B, B], [NONE], [])
    given.mappings = [(A, [(D1, D2, A), (D2, D1, NONE)]), (B, []), (A, [(BAD, D4, A)]), (B, [(D2, D3, B)]), (A, [])]
    open_(laid(given, [2, 1, 1, 2, 3]))
    for way in WAYS[15]:
        case = deepcopy(good())
        way(case)
        for given in case[1:]:
            open_(given)
            finish(given)
    limits = [4096, 4096, 4096, 2 * 4096]
    for which, most in enumerate(limits):
        given = laid(Metadata(*[0] * 10, [], [], [], []), [0] * 5)
        given.lists[which] = [0] * most
        open_(given)


def gather(*given, spare=(4, 4, 4, 4, 9)):
    """Open, merge more in, refused or not, finish: each call on what the one before it left."""
    first, *others = [laid(one, spare) for one in given]
    _, gathered = open_(first)
    for added in others:
        _, after = merge(NAMES, gathered, added)
        gathered = after or gathered
    finish(gathered)


def gatherings():
    def one(*mappings, schema=4, end=0, limit=7):
        return Metadata(3, 0, schema, 5, end, limit, 1, 0, 0, 71, [A], [], [], list(mappings))

    mine = (A, [(D1, D2, A)])
    gather(one(mine, (B, []), mine), one((A, [(D2, D3, A)])), one((C, []), mine))
    gather(one(mine), one((A, [(D1, D2, B)])), one((A, [(D2, D3, B)])))
    gather(one(schema=1), one(schema=2, end=5), one(schema=1))
    gather(one(mine), one((A, [(D1, BAD, A)])), one(mine, end=2**64 - 1))
    gather(one(mine), one((A, [(D3, D4, A)])), one((A, [(D2, D3, B)])), spare=(1, 0, 0, 0, 1))


def by_dbn(line):
    """A case of oracle/cases.py, answered by dbn's own code: its first metadata opened, the others merged in."""
    run = subprocess.run([ORACLE / "target/driver"], input=line + "\n", capture_output=True, text=True, check=True)
    case = Case(line.partition(" ")[2])
    names = len(case.names())
    given = [case.metadata() for _ in range(case.number())]
    gathered = None
    for added, said in zip(given, run.stdout.strip().split(" ; ")):
        answer = Case(said)
        number = answer.number()
        before = gathered or laid(added, [9, 9, 9, 4, 16])
        if number != 0:
            number = [number, answer.number()] if number == 6 else [number]
            show("dbn_merge", f"{names} {side(before)} {side(laid(added, [0] * 5))}", number)
            return
        seen = [before.taken()] + ([added] if gathered else [])
        after = before.holding(in_order_of_arrival(answer.metadata(), seen))
        if gathered:
            show("dbn_merge", f"{names} {side(before)} {side(laid(added, [0] * 5))}", [0], after)
        else:
            show("dbn_open", side(before), [0], after)
        gathered = after


def in_order_of_arrival(outcome, seen):
    """dbn's outcome, its sets and mappings sorted as the names came; each of them is in what it was made from."""
    for field_ in ("symbols", "partial", "not_found"):
        arrived = list(dict.fromkeys(entry for one in seen for entry in getattr(one, field_)))
        setattr(outcome, field_, sorted(getattr(outcome, field_), key=arrived.index))
    arrived = list(dict.fromkeys(name for one in seen for name, _ in one.mappings))
    outcome.mappings.sort(key=lambda mapping: arrived.index(mapping[0]))
    return outcome


# The rules' limits. A list there is made by a rule of crates/sides/src/rule.rt, and written as that rule.

MAPPINGS, INTERVALS, EVERY = 3, 4, 5
MOST, HALF = 4096, 2048
MOST_INTERVALS, HALF_INTERVALS = 65536, 32768
NOTHING = [[], [], [], [], []]


def date(n):
    return 19700101 + n // 324 * 10000 + n // 27 % 12 * 100 + n % 27


def made(letter, first, again, each, count):
    """The first words of a rule."""
    if letter == "n":
        return [first + (i if i < again else i - again) for i in range(count)]
    if letter == "m":
        return [word for name in made("n", first, again, 0, count) for word in (name, each)][:count]
    step = {"d": 1, "e": 2}[letter]
    days = range(first, first + step * (count // 3 + 1), step)
    return [word for n in days for word in (date(n), date(n) + 1, n % MOST)][:count]


def rule_of(which, words):
    """The rule that makes a list."""
    if which == INTERVALS:
        first = next(n for n in range(2 * MOST_INTERVALS) if date(n) == words[0])
        return "e" if words[3] == date(first + 2) else "d", first, 0, 0
    names = words[:: WIDTHS[which]]
    again = names.index(names[0], 1) if names[0] in names[1:] else len(names)
    return ("m", names[0], again, words[1]) if which == MAPPINGS else ("n", names[0], again, 0)


def ruled(given):
    """A lent metadata as `side` writes it, a long list as its rule."""
    out = [*given.head, *given.counts]
    for which, words in enumerate(given.lists):
        lent, count, *words = listed(words)
        if count > 9:
            rule = rule_of(which, words)
            assert made(*rule, count) == words
            words = rule
        out += [lent, count, *words]
    return " ".join(map(str, out))


def limited(lists, room=None, limit=7):
    """A metadata of these lists of words, in memory as long as that of others."""
    head = [3, MOST - 1, 4, 5, 6, limit, 1, 0, 1, 71]
    counts = [len(words) // width for words, width in zip(lists[:4], WIDTHS)]
    return Lent(head, counts, [words + [0] * (len(more) - len(words)) for words, more in zip(lists, room or lists)])


def with_names(which, count, first=0, again=MOST + 1):
    """So many names in one list; mappings have no intervals."""
    lists = deepcopy(NOTHING)
    lists[which] = made("m" if which == MAPPINGS else "n", first, again, 0, WIDTHS[which] * count)
    return lists


def with_intervals(count, first=0, letter="d", names=(0,)):
    """So many intervals, as many of each name."""
    mappings = [word for name in names for word in (name, count // len(names))]
    return [[], [], [], mappings, made(letter, first, 0, 0, 3 * count)]


def full(first=0, again=MOST + 1, count=MOST):
    """Every list at its limit, or with so many names: 16 intervals to a mapping."""
    names = made("n", 0, again, 0, count)
    return [names, names, names, made("m", 0, again, 16, 2 * count), made("d", first, 0, 0, 3 * 16 * count)]


def at_limit(which, over=0):
    """One list at its limit, or over it; or every list at its limit."""
    if which == EVERY:
        return full()
    return with_intervals(MOST_INTERVALS + over) if which == INTERVALS else with_names(which, MOST + over)


def limit(kind, number, given, added=None, after=None):
    """A call of which the rules say this number and, where it is done, that these lists stand in memory after it."""
    if kind == "limit_merge":
        handed = f"{MOST} {ruled(given)} {ruled(added)}"
        answer, held = answer_of(lambda: model.merge_metadata(given, added, MOST))
    elif kind == "limit_open":
        handed = ruled(given)
        answer, held = answer_of(lambda: model.open_metadata(given))
    else:
        handed = ruled(given)
        answer, _ = answer_of(given.taken)
        held = given
    assert answer == (number,), (kind, handed, answer)
    if number != 0:
        show(kind, handed, [number])
        return
    expected = limited(after, given.lists, limit=0 if kind == "limit_merge" else 7)
    assert held == expected, (kind, handed)
    show(kind, handed, [number, ruled(expected)])


def limits_of_sides():
    """A list at its limit, one over it, and with one place over it lent and none in use; and every list at its limit."""
    for which in (*range(5), EVERY):
        at = at_limit(which)
        tried = [(0, at, at)]
        if which != EVERY:
            over = at_limit(which, over=1)
            tried += [(15, over, over), (15, NOTHING, over)]
        for number, lists, room in tried:
            given = limited(lists, room)
            limit("limit_open", number, given, after=lists)
            limit("limit_finish", number, given, after=lists)
            limit("limit_merge", number, given, limited(NOTHING), after=lists)
            limit("limit_merge", number, limited(NOTHING, at), given, after=lists)


def limits_with_repeats():
    """Each name twice in a first metadata: of two mappings with one name the last counts."""

    def opened(given, after):
        limit("limit_open", 0, limited(given), after=after)

    for which in range(4):
        opened(with_names(which, MOST, again=HALF), with_names(which, HALF))
    opened(with_intervals(MOST_INTERVALS, names=(0, 0)), with_intervals(HALF_INTERVALS, HALF_INTERVALS))
    opened(full(again=HALF), full(16 * HALF, count=HALF))


def limits_of_names(which):
    """4,096 entries or mappings of an outcome. Of 4,097 one was never handed out, so that 3 comes before 2."""

    def merged_in(number, given, added, after=None, room=MOST):
        limit("limit_merge", number, limited(given, with_names(which, room)), limited(added), after)

    some, others, all_ = with_names(which, HALF), with_names(which, HALF, HALF), with_names(which, MOST)
    twice = with_names(which, MOST, again=HALF)
    merged_in(0, some, others, all_)
    merged_in(3, some, with_names(which, HALF + 1, HALF))
    merged_in(2, some, others, room=MOST - 1)
    merged_in(0, all_, all_, all_)
    merged_in(0, twice, others, all_)
    merged_in(0, NOTHING, twice, some)


def limits_of_intervals():
    """65,536 intervals of an outcome, and more, in room for every list."""

    def merged_in(number, given, added, after=None):
        limit("limit_merge", number, limited(given, full()), limited(added), after)

    most, half = MOST_INTERVALS, HALF_INTERVALS
    some, all_, twice = with_intervals(half), with_intervals(most), with_intervals(most, names=(0, 0))
    # Of two names; of one name, behind each other and in turns.
    merged_in(0, some, with_intervals(half, half, names=(1,)), with_intervals(most, names=(0, 1)))
    merged_in(2, some, with_intervals(half + 1, half, names=(1,)))
    merged_in(0, some, with_intervals(half, half), all_)
    merged_in(2, some, with_intervals(half + 1, half))
    merged_in(0, with_intervals(half, letter="e"), with_intervals(half, 1, letter="e"), all_)
    merged_in(2, with_intervals(half, letter="e"), with_intervals(half + 1, 1, letter="e"))
    # A name twice in the added one is merged twice; of the gathered one the last counts.
    merged_in(0, NOTHING, twice, all_)
    merged_in(2, with_intervals(1), with_intervals(most, 1, names=(0, 0)))
    merged_in(0, twice, with_intervals(half, most, names=(1,)), with_intervals(most, half, names=(0, 1)))
    merged_in(2, twice, with_intervals(half + 1, most, names=(1,)))
    # Both sides at their limits: the same intervals, others of the same name, others of another name.
    merged_in(0, all_, all_, all_)
    merged_in(2, all_, with_intervals(most, most))
    merged_in(2, all_, with_intervals(most, most, names=(1,)))
    merged_in(0, full(), full(), full())
    merged_in(2, full(), full(most))


for _, (case, said) in traps.traps():
    kind, _, rest = case.partition(" ")
    words = Case(rest)
    if kind == "open_metadata":
        given = words.lent()
        answer, after = open_(given)
        finish(given)
    elif kind == "merge_metadata":
        names, given, added = words.number(), words.lent(), words.lent()
        answer, after = merge(names, given, added)
    else:
        continue
    assert spelled(answer, after or given) == said
rng = random.Random(1)
refusals(rng, 3)
openings()
gatherings()
for faults in (0, 0.3):
    for _ in range(50):
        kind, _, rest = lent.metadata_case(rng, faults).partition(" ")
        words = Case(rest)
        if kind == "open_metadata":
            open_(words.lent())
        else:
            merge(words.number(), words.lent(), words.lent())
for line in rng.sample(list(cases.short_walks(3)), 60):
    by_dbn(line)
for _ in range(40):
    by_dbn(cases.any_merge(rng))
limits_of_sides()
limits_with_repeats()
for which in range(4):
    limits_of_names(which)
limits_of_intervals()
for crate, lines in ("vectors_metadata", MERGES), ("vectors_openings", OPENINGS):
    (ROOT / "crates" / crate / "stdin").write_text("\n".join(lines) + "\n")
