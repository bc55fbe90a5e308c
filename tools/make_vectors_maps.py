#!/usr/bin/env python3
"""Writes the cases of vectors_maps: oracle/build && python3 tools/make_vectors_maps.py > crates/vectors_maps/stdin

Three sources: the traps of docs/TRAPS.md (oracle/traps.py), random lent memory answered by the plain model of the
rules (oracle/model.py), and histories answered by dbn's own code (oracle/driver.rs), each of their inserts and lookups
on the table that the one before it left.
"""
import random
import subprocess
import sys
from collections import Counter
from pathlib import Path

ORACLE = Path(__file__).resolve().parent.parent / "oracle"
sys.path.insert(0, str(ORACLE))

import answer  # noqa: E402
import cases  # noqa: E402
import lent  # noqa: E402
import model  # noqa: E402
import traps  # noqa: E402
from answer import words  # noqa: E402

KINDS = ["check", "insert", "get_for_ts", "check_point", "get_point", "on_record", "on_record_point"]
LONGEST = 1500
NAMES = 3
ROOM = 8


def is_served(case):
    return case.split()[0] in KINDS and len(case) < LONGEST


def show(case, said):
    print(case, "=", said)


def history(line):
    """A history that dbn's own code answered, one case a step."""
    steps = line.split()[1:]
    run = subprocess.run([ORACLE / "target/driver"], input=line + "\n", capture_output=True, text=True, check=True)
    answered = run.stdout.strip().split(" ; ")
    if any(len(words_of) > 2 + 4 * ROOM for words_of in map(str.split, answered)):
        return
    said = iter(answered)
    table, used = bytes(24 * ROOM), 0
    while steps:
        kind, *rest = steps
        answers = next(said).split()
        if kind == "i":
            given, steps = rest[:4], rest[4:]
            number, rows = int(answers[0]), [int(word) for word in answers[2:]]
            rows = [tuple(rows[n : n + 4]) for n in range(0, len(rows), 4)]
            after = table if number else model.laid(table, used, rows)
            count = used if number else len(rows)
            show(words("insert", table, used, NAMES, *map(int, given)), words(number, count, after))
            table, used = after, count
        else:
            (instrument, moment, hint), steps = map(int, rest[:3]), rest[3:]
            symbol, new_hint = answers
            found = (0, 0) if symbol == "-" else (1, int(symbol))
            show(words("get_for_ts", table, used, instrument, moment, hint), words(0, *found, int(new_hint)))


def lent_memory(part, faults):
    """Random lent memory that the model answers."""
    for _ in range(60):
        case = part(rng, faults)
        if is_served(case):
            show(case, answer.answer(case))


def borders():
    """Tables that only just fail the check: two that touch with one symbol, an instrument twice."""
    show(words("check", traps.table(2, (1, 10, 20, 0), (1, 20, 30, 0)), 2, 2), "14")
    show(words("check_point", bytes.fromhex("05000000000000000500000001000000"), 2, 2), "14")


def mapping_calls():
    """A call that joins two intervals, and random ones that the model answers, a few of each outcome: the number, and whether
    the table changed."""
    names = traps.listing(b"A")
    (before, after), record = (traps.table(1, (7, 1, end, 0)) for end in (5, 9)), traps.mapping(7, 5, 9, b"A")
    show(*traps.recording(record, 0, (before, 1, names), (after, 1, names)))
    met = Counter()
    for n in range(400):
        case = lent.record_case(rng, (0, 0.3)[n % 2])
        said = answer.answer(case)
        (call, table), number = case.split()[:2], said.split()[0]
        outcome = call, number, table in said.split()
        met[outcome] += 1
        if met[outcome] <= 5 and is_served(case):
            show(case, said)


print("# The cases of vectors_maps, made by tools/make_vectors_maps.py: a call, what it is handed, and behind the = what it answers.")
print("# Bytes are hexadecimal, a - for none; oracle/README.md has the form of each call")
for _, (case, said) in traps.traps():
    if is_served(case):
        show(case, said)
borders()
rng = random.Random(1)
for faults in (0, 0.3):
    for part in (lent.table_case, lent.point_case):
        lent_memory(part, faults)
for _ in range(13):
    history(cases.long_history(rng))
mapping_calls()
