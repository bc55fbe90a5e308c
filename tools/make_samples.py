#!/usr/bin/env python3
"""Writes the bundles and streams of samples/: python3 tools/make_samples.py

samples/README.md says what each shows.
"""
import os
import sys

sys.dont_write_bytecode = True
from make_bundle import bundle, record, section

HERE = os.path.join(os.path.dirname(os.path.abspath(__file__)), "..", "samples")


def morning(start, step, count, instrument):
    """Records of one instrument, one each `step` nanoseconds."""
    return b"".join(record(start + step * i, instrument, body=bytes(8 * (i % 3))) for i in range(count))


OPEN = 1767366000000000000
SECOND = 1000000000

WHOLE = morning(OPEN, 3 * SECOND, 4, 1001)
BROKEN = morning(OPEN + SECOND, 3 * SECOND, 4, 1002)[:-9]

SAMPLES = {
    "printed.bundle": bundle([record(5, 7) + b"\1\2\3", record(6, 7)]),
    "damaged.bundle": bundle([WHOLE, BROKEN, morning(OPEN + 2 * SECOND, 3 * SECOND, 4, 1003)]),
    "one.stream": WHOLE,
    "two.stream": BROKEN,
    "sorted.bundle": bundle([morning(10, 10, 3, 7), b"", morning(5, 20, 2, 8), morning(30, 1, 2, 9)]),
    "bad.bundle": section(record(5, 7)) + section(record(6, 7), kind=2),
}


def main():
    for name, made in SAMPLES.items():
        with open(os.path.join(HERE, name), "wb") as file:
            file.write(made)


if __name__ == "__main__":
    main()
