#!/usr/bin/env python3
"""compare.py CASES ONE OTHER: compares two files of answers to a file of cases, line by line.

Prints for each kind the cases, the answers that were compared, the cases that differ and those that have no answer on a
side or on both, and the shortest case of each sort with both its answers. An answer line that is empty or cut off is
none. Exits with 1 where any case differs; with 2 where an answer is missing, where there are more answers than cases,
where there is no case, and where a file can't be read.
"""

import sys
from itertools import zip_longest

COLUMNS = "cases", "answers", "differ", "missing"


def refused(why):
    print(f"compare: {why}", file=sys.stderr)
    return 2


def whole(line):
    """Whether a line is there, says something and was written to its end."""
    return line is not None and line.strip() != "" and line.endswith("\n")


def told(line):
    return line.strip() if whole(line) else "no answer"


def compared(files):
    """Counts by kind, the shortest case with a fault by kind and fault, and the lines of each file."""
    counts, shortest, lines = {}, {}, [0, 0, 0]
    for case, one, other in zip_longest(*files):
        for place, line in enumerate((case, one, other)):
            lines[place] += line is not None
        if not whole(case):
            continue
        kind = case.split()[0]
        count = counts.setdefault(kind, dict.fromkeys(COLUMNS, 0))
        count["cases"] += 1
        answered = whole(one) and whole(other)
        if answered:
            count["answers"] += one.count(";") + 1
        if answered and one == other:
            continue
        fault = "differ" if answered else "missing"
        count[fault] += 1
        if (kind, fault) not in shortest or len(case) < len(shortest[kind, fault][0]):
            shortest[kind, fault] = case, one, other
    return counts, shortest, lines


def faults(total, lines, paths):
    """Why a comparison shows nothing, whatever the answers say."""
    if lines[0] == 0:
        yield f"{paths[0]}: there is no case"
    if lines[0] != total["cases"]:
        yield f"{paths[0]}: {lines[0]} lines, of which {total['cases']} are whole cases"
    for path, count in zip(paths[1:], lines[1:]):
        if count != lines[0]:
            yield f"{path}: {count} lines of answers to {lines[0]} cases"
    if total["missing"]:
        yield f"{total['missing']} cases have no answer on a side or on both"


def main(paths):
    if len(paths) != 3:
        return refused("asks for three files: compare.py CASES ONE OTHER")
    try:
        with open(paths[0]) as cases, open(paths[1]) as ones, open(paths[2]) as others:
            counts, shortest, lines = compared((cases, ones, others))
    except (OSError, UnicodeDecodeError) as error:
        return refused(error)
    total = {column: sum(count[column] for count in counts.values()) for column in COLUMNS}
    print(f"{'kind':16}", *(f"{column:>9}" for column in COLUMNS))
    for kind, count in [*counts.items(), ("all", total)]:
        print(f"{kind:16}", *(f"{count[column]:9}" for column in COLUMNS))
    for (kind, fault), (case, one, other) in shortest.items():
        print(f"\nshortest case of {kind} {'that differs' if fault == 'differ' else 'without an answer'}")
        print(f"  {case.strip()}\n  {paths[1]}: {told(one)}\n  {paths[2]}: {told(other)}")
    sys.stdout.flush()
    shown = [refused(fault) for fault in faults(total, lines, paths)]
    return 2 if shown else 1 if total["differ"] else 0


sys.exit(main(sys.argv[1:]))
