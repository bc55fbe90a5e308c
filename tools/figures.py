#!/usr/bin/env python3
"""Prints a table of what each crate holds: python3 tools/figures.py

A line counts if it is neither blank nor a comment.
"""
import glob


def lines(pattern, comment):
    count = 0
    for path in glob.glob(pattern, recursive=True):
        for line in open(path, encoding="utf-8"):
            text = line.strip()
            count += bool(text) and not text.startswith(comment)
    return count


crates = [line.replace(":", " ").split()[0] for line in open("crates.txt", encoding="utf-8") if ":" in line.split("#")[0]]
print("| crate | code | definitions and laws | proofs | must-fail edits |")
print("|---|---|---|---|---|")
total = [0, 0, 0, 0]
for crate in crates:
    row = [
        lines(f"crates/{crate}/src/**/*.rt", "//"),
        lines(f"crates/{crate}/specs/**/*.antt", "--"),
        lines(f"crates/{crate}/proofs/**/*.antt", "--"),
        len(glob.glob(f"crates/{crate}/must-fail/*.edit")),
    ]
    total = [a + b for a, b in zip(total, row)]
    print(f"| `{crate}` |", " | ".join(str(n) for n in row), "|")
print("| in all |", " | ".join(str(n) for n in total), "|")
