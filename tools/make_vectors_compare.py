#!/usr/bin/env python3
"""Writes the cases of vectors_compare: python3 tools/make_vectors_compare.py > crates/vectors_compare/stdin

The traps T1 to T20 of two tables side by side (docs/TRAPS.md), with the answers that stand there."""
import struct

A, B, C = range(3)
LAST, GREATEST, NOTHING = 2**64 - 1, 2**32 - 1, 2**32 - 1
NAMES = 3


def row(start, end, symbol, instrument=7):
    return struct.pack("<IIQQ", instrument, symbol, start, end)


def left(start, end, symbol, instrument=7):
    return struct.pack("<IIIQQ", instrument, symbol, NOTHING, start, end)


def right(start, end, symbol, instrument=7):
    return struct.pack("<IIIQQ", instrument, NOTHING, symbol, start, end)


def both(start, end, symbol, other, instrument=7):
    return struct.pack("<IIIQQ", instrument, symbol, other, start, end)


def show(number, count, after, lent, one, other, names=NAMES, used=None):
    words = [one, len(one) // 24, other, len(other) // 24] if used is None else [one, used[0], other, used[1]]
    words = ["compare", *words, names, lent, "=", number, count, after]
    print(*((word.hex() or "-") if isinstance(word, bytes) else word for word in words))


def refuses(number, room_bytes, one, other, **further):
    """The call gets the number, and the list's bytes stay."""
    lent = b"\xa5" * room_bytes
    show(number, 0, lent, lent, one, other, **further)


def differs(one, other, *stretches, **further):
    """The stretches, in a room that just fits them, and with a place more, which stays; a place too few gets 2."""
    whole = b"".join(stretches)
    for more in (b"", b"\xa5" * 28):
        show(0, len(stretches), whole + more, b"\xa5" * len(whole + more), one, other, **further)
    if stretches:
        refuses(2, len(whole) - 28, one, other, **further)


print("# The cases of vectors_compare, made by tools/make_vectors_compare.py: two tables in bytes, each with the number in use, the names,")
print("# the list's bytes, and behind the = the number, the stretches and the list's bytes afterwards. Bytes are hexadecimal, a - for none")
differs(row(10, 20, A), row(10, 20, A))  # T1
differs(row(10, 20, A), b"", left(10, 20, A))  # T2
differs(row(10, 30, A), row(15, 18, B), left(10, 15, A), both(15, 18, A, B), left(18, 30, A))  # T3
differs(row(0, 10, A), row(0, 5, B) + row(5, 10, C), both(0, 5, A, B), both(5, 10, A, C))  # T4
differs(row(0, 10, A) + row(10, 20, B), row(0, 20, A), both(10, 20, B, A))  # T5
differs(row(0, 10, A) + row(10, 20, B), row(0, 10, B) + row(10, 20, A), both(0, 10, A, B), both(10, 20, B, A))  # T6
differs(row(0, 5, A) + row(6, 10, A), row(0, 10, A), right(5, 6, A))  # T7
differs(row(0, 5, A, 1), row(0, 5, A, 2), left(0, 5, A, 1), right(0, 5, A, 2))  # T8
differs(row(10, 20, A, 1) + row(20, 30, A, 2), b"", left(10, 20, A, 1), left(20, 30, A, 2))  # T9
differs(row(0, LAST, A), row(0, LAST, B), both(0, LAST, A, B))  # T10
differs(row(0, 5, 0), row(0, 5, 1), both(0, 5, 0, 1), names=2)  # T11
ill = row(5, 5, A)
refuses(15, 27, ill, b"")  # T12
refuses(14, 28, ill, b"")
refuses(14, 0, ill, ill)
refuses(15, 0, ill, b"", names=4097)
refuses(15, 28, row(0, 5, A), b"\0", used=(1, 0))
differs(  # T13
    row(0, 3, A) + row(4, 7, A), row(2, 5, B),
    left(0, 2, A), both(2, 3, A, B), right(3, 4, B), both(4, 5, A, B), left(5, 7, A),
)
differs(row(0, 5, A) + row(6, 10, A), row(0, 1, B), left(0, 5, A), used=(1, 0))  # T14
refuses(14, 0, b"", ill)  # T15
differs(  # T16
    row(0, 100, A), row(0, 10, A) + row(20, 30, B) + row(40, 50, A),
    left(10, 20, A), both(20, 30, A, B), left(30, 40, A), left(50, 100, A),
)
differs(  # T17
    row(0, 10, A), row(5, 10, A) + row(10, 15, B) + row(20, 25, A) + row(0, 1, A, 9),
    left(0, 5, A), right(10, 15, B), right(20, 25, A), right(0, 1, A, 9),
)
refuses(14, 28, row(0, 5, 2), b"", names=2)  # T18
differs(  # T19
    row(0, 1, A, 0) + row(0, 1, A, GREATEST), row(0, 1, B, GREATEST),
    left(0, 1, A, 0), both(0, 1, A, B, GREATEST),
)
same = row(0, 5, A) + row(6, 10, B) + row(0, 1, C, 9)
differs(same, same)  # T20
# a head that the right table ends first, and one that outlasts it
differs(row(0, 5, A), row(0, 10, B), both(0, 5, A, B), right(5, 10, B))
differs(row(0, 10, A), row(0, 5, B), both(0, 5, A, B), left(5, 10, A))
# numbers in use over the room, a table's length that is no multiple of 24
refuses(15, 28, row(0, 5, A), b"", used=(2, 0))
refuses(15, 28, b"", row(0, 5, A), used=(0, 2))
refuses(15, 28, row(0, 5, A)[:-1], b"", used=(0, 0))
