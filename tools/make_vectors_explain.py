#!/usr/bin/env python3
"""Writes the cases of vectors_explain: python3 tools/make_vectors_explain.py > crates/vectors_explain/stdin

The traps E1 to E15 of an explanation (docs/TRAPS.md), with the answers that stand there."""
import struct

A, B, C = range(3)
IN, UNKNOWN, BEFORE, AFTER, BETWEEN = range(1, 6)
LAST, GREATEST = 2**64 - 1, 2**32 - 1
NAMES = 3


def row(start, end, symbol, instrument=7):
    return struct.pack("<IIQQ", instrument, symbol, start, end)


def show(table, used, names, instrument, moment, number, reason=0, *named):
    numbers = [number for interval in named for number in interval]
    numbers += [0] * (8 - len(numbers))
    print("explain", table.hex() or "-", used, names, instrument, moment, "=", number, reason, *numbers)


def tells(table, instrument, moment, reason, *named, used=None):
    show(table, len(table) // 24 if used is None else used, NAMES, instrument, moment, 0, reason, *named)


def refuses(number, table, instrument, moment, names=NAMES, used=None):
    show(table, len(table) // 24 if used is None else used, names, instrument, moment, number)


print("# The cases of vectors_explain, made by tools/make_vectors_explain.py: a table in bytes, the number in use, the names, an instrument,")
print("# a moment, and behind the = the number, the reason (1 in, 2 unknown, 3 before, 4 after, 5 between) and two intervals: index within")
print("# the instrument, start, end, symbol; 0 where none is named. Bytes are hexadecimal, a - for none")
a, b = (0, 10, 20, A), (1, 30, 40, B)
one, two = row(10, 20, A), row(10, 20, A) + row(30, 40, B)
tells(b"", 7, 5, UNKNOWN)  # E1
tells(one, 7, 9, BEFORE, a)  # E2
tells(one, 7, 10, IN, a)
tells(one, 7, 19, IN, a)
tells(one, 7, 20, AFTER, a)
tells(row(10, 20, A) + row(20, 30, B), 7, 20, IN, (1, 20, 30, B))  # E3
tells(two, 7, 20, BETWEEN, a, b)  # E4
tells(two, 7, 29, BETWEEN, a, b)
tells(two, 7, 30, IN, b)
apart = row(10, 20, A, 1) + row(5, 8, B, 3)
tells(apart, 2, 15, UNKNOWN)  # E5
tells(apart, 1, 25, AFTER, a)
tells(apart, 3, 4, BEFORE, (0, 5, 8, B))
tells(apart, 3, 5, IN, (0, 5, 8, B))
tells(row(0, LAST, A), 7, LAST, AFTER, (0, 0, LAST, A))  # E6
tells(row(0, 5, A), 7, 0, IN, (0, 0, 5, A))  # E7
refuses(14, row(5, 5, A), 9, 5)  # E8
refuses(14, row(10, 20, 3), 7, 15)
refuses(15, one, 7, 15, used=2)
refuses(15, one, 7, 15, names=4097)
refuses(15, one[:-1], 7, 15, used=0)
tells(two, 0, 15, UNKNOWN)  # E9
tells(two, GREATEST, 15, UNKNOWN)
tells(two, 7, 25, AFTER, a, used=1)  # E10
tells(row(10, 20, 0), 7, 15, IN, (0, 10, 20, 0))  # E11
tells(row(10, 20, A) + row(30, 40, A), 7, 25, BETWEEN, a, (1, 30, 40, A))  # E12
three = row(10, 20, A) + row(20, 30, B) + row(40, 50, C)
tells(three, 7, 35, BETWEEN, (1, 20, 30, B), (2, 40, 50, C))  # E13
tells(row(10, 20, A, GREATEST), GREATEST, 25, AFTER, a)  # E14
tells(row(10, 20, A, GREATEST), GREATEST - 1, 5, UNKNOWN)
# an instrument with neighbours on both sides: each of its places
between = row(0, 99, C, 6) + three + row(0, 99, C, 8)
tells(between, 7, 9, BEFORE, a)
tells(between, 7, 20, IN, (1, 20, 30, B))
tells(between, 7, 39, BETWEEN, (1, 20, 30, B), (2, 40, 50, C))
tells(between, 7, 49, IN, (2, 40, 50, C))
tells(between, 7, 50, AFTER, (2, 40, 50, C))
