#!/usr/bin/env python3
"""The smallest input of each departure of the Rust from the rules, with both answers: docs/DIFFERENCES.md by number.

departures.py asks the driver and the model, and exits with 1 where an answer is not the one below.
"""

import subprocess
import sys
from pathlib import Path

import answer
from answer import words
from model import DAY, TOP

HERE = Path(__file__).resolve().parent
D1, D2, D3 = 19700102, 19700103, 19700104
TEXTS = words([b"", b"A", b"B", b"5"])
A, B, FIVE = 1, 2, 3


def metadata(*mappings, stypes=(1, 0)):
    return words(3, 0, 0, 0, 0, 0, *stypes, 0, 71, [], [], [], [(name, list(own)) for name, own in mappings])


def merge(left, right):
    return f"merge {TEXTS} 2 {left} {right}"


plain = metadata((A, [(D1, D2, A)]))
back = metadata((B, [(D2, D1, A)]))
late = metadata((A, [(D1, D2, A), (D2, 25540722, A)]))
clash_and_back = metadata((A, [(D1, D2, B)]), (B, [(D2, D1, A)]))


DEPARTURES = [  # number in docs/DIFFERENCES.md, case, the Rust's answer, the rules'
    (1, "records 0 2 1 1 5 0 1 6", "r 0 0 5 ; d ; e ; e", "r 0 0 5 ; d ; r 1 0 6 ; e ; e"),
    (1, "records 2 0 3 2 0 1 5 1 0", "d ; e ; e", "d ; r 0 0 5 ; e ; e"),
    (2, "records 0 1 1 0", "refused", "d ; e ; e"),
    (2, "records 0 2 0 1 5 1 0", "refused", "d ; r 0 0 5 ; e ; e"),
    (3, "day 19691231", "0 -1 18446657673709551616", "11"),
    (3, "day 25540722", "0 213504 1526290448384", "11"),
    (3, "date 213504", "0 25540722", "11"),
    (3, f"build {TEXTS} {metadata((A, [(D1, 99991231, FIVE)]))}", f"0 1 5 {DAY} 13594541441775828992 1", "11"),
    (3, f"build {TEXTS} {metadata((A, [(D1, 25540722, FIVE)]))}", "1", "11"),
    (3, f"build_day {D1} {TEXTS} {metadata((A, [(D1, 25540722, FIVE)]))}", "0 1 5 1", "11"),
    (3, merge(late, plain), f"0 {late} ; 0 {late}", f"0 {late} ; 11"),
    (4, f"build_day 25540722 {TEXTS} {metadata(stypes=(1, 1))}", "9", "11"),
    (5, merge(back, metadata()), f"0 {back} ; 0 {back}", f"0 {back} ; 1"),
    (6, merge(plain, clash_and_back), f"0 {plain} ; 7", f"0 {plain} ; 1"),
    (
        7,
        f"build {words([b'A', b'A', b'5'])} {metadata((0, [(D1, D2, 2)]), (1, [(D2, D3, 2)]))}",
        f"0 1 5 {DAY} {3 * DAY} 0",
        f"0 2 5 {DAY} {2 * DAY} 0 5 {2 * DAY} {3 * DAY} 1",
    ),
    (8, "mappings m 1 0 1 " + "61" * 256, f"0 1 1 0 1 {'61' * 256} ; 0 1 1 {'61' * 256}", "4 0 ; 4 0"),
]
CHECKED = [  # the same with the Rust built with overflow checks
    (9, f"map i 1 10 20 0 g 1 15 {TOP}", "panic", "0 1 1 10 20 0 ; 0 0"),
]


def rust(driver, cases):
    given = "".join(case + "\n" for case in cases)
    ran = subprocess.run([HERE / "target" / driver], input=given, stdout=subprocess.PIPE, text=True, check=True)
    return ran.stdout.splitlines()


def main():
    wrong = 0
    for driver, departures in [("driver", DEPARTURES), ("driver-checked", CHECKED)]:
        answers = rust(driver, [case for _, case, _, _ in departures])
        for (number, case, theirs, ours), said in zip(departures, answers, strict=True):
            if (said, answer.answer(case)) != (theirs, ours):
                wrong += 1
                print(f"{number}: {case}\n  Rust {said}\n  rules {answer.answer(case)}")
    two = metadata((A, [(D1, D2, FIVE)]), (B, [(D1, D2, FIVE)]))
    by_hash = set(rust("driver", [f"build_merged {TEXTS} 1 {two}"] * 64))
    if by_hash != {f"0 1 5 {DAY} {2 * DAY} {last}" for last in (A, B)}:
        wrong += 1
        print(f"10: {by_hash}")
    print(f"departures: {len(DEPARTURES) + len(CHECKED) + 1} cases, {wrong} wrong")
    sys.exit(1 if wrong else 0)


main()
