"""A metadata in lent memory, as the cases of vectors_metadata and vectors_builds write it."""

import model
from model import Lent

WIDTHS = [1, 1, 1, 2, 3]


def listed(words):
    """A list as its places, how many are given, and those: the others hold 0."""
    count = len(words)
    while count and words[count - 1] == 0:
        count -= 1
    return [len(words), count, *words[:count]]


def side(given):
    """A lent metadata: its header, its counts, its five lists."""
    out = [*given.head, *given.counts]
    for words in given.lists:
        out += listed(words)
    return " ".join(map(str, out))


def laid(given, spare):
    """A metadata in lent memory with so many places to spare of each list, which hold 9."""
    lists = [words + [9] * (width * more) for words, width, more in zip(model.lists_of(given), WIDTHS, spare)]
    return Lent(model.head_of(given), [*map(len, model.lists_of(given)[:3]), len(given.mappings)], lists)
