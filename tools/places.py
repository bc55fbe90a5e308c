#!/usr/bin/env python3
"""Counts the places in src/ that docs/DESIGN-PASS.md speaks of: python3 tools/places.py COMMIT [-v]

By text alone, so a row is where to look and no verdict; -v lists each place.
"""
import collections
import re
import subprocess
import sys


def git(*words):
    return subprocess.run(["git", *words], capture_output=True, text=True, check=True).stdout


VISIBLE = r"(?:pub(?:\([^)]*\))? )?"
FUNCTION = re.compile(rf'^\s*{VISIBLE}(?:extern "C" )?fn (\w+)(?:<[^(]*>)?\((.*?)\)\s*(?:->|requires|ensures|\{{|\n)', re.S | re.M)
ANSWERS = r"^\s+(Refused|Refuse|Failed|Bad|Conflict|Stuck|Undated|Nothing|Unknown|Passed|Skip|End)\b"
BY_HAND = (
    "wide|place|slot|same|lesser|greater|later|number|number_of|from_bool|header_of|words_of|is_same|comes_first|same_value|side|pack"
    "|copy|clear|from_word|word|gone|cut|made|skip|ordering"
)
rows = {
    "1a": "enums with a variant that says refused, none, the end or the like",
    "1b": "structs with a flag",
    "1c": "constants of one digit, for kinds, states or refusals",
    "3": "`while` and `loop`",
    "4": "functions with the name of a comparison, a copy or a conversion",
    "5a": "texts that stand in the `requires` of three functions or more",
    "5b": "functions of six parameters or more, exports aside",
    "6": "functions with a number in use, or with places, beside a buffer",
    "7": "parameters that are a flag",
}
found = {row: [] for row in rows}
required = collections.Counter()
commit = sys.argv[1]
for path in git("ls-tree", "-r", "--name-only", commit).split("\n"):
    if not re.match(r"crates/[^/]+/src/.*\.rt$", path):
        continue
    text = git("show", f"{commit}:{path}")
    for name, body in re.findall(rf"^{VISIBLE}enum (\w+)[^{{]*\{{(.*?)^\}}", text, re.S | re.M):
        if re.search(ANSWERS, body, re.M):
            found["1a"].append(f"{path} {name}")
    for name, body in re.findall(rf"^{VISIBLE}struct (\w+)[^{{;]*\{{(.*?)^\}}", text, re.S | re.M):
        found["1b"] += [f"{path} {name}.{field}" for field in re.findall(rf"^\s+{VISIBLE}(\w+): bool,", body, re.M)]
    found["1c"] += [f"{path} {name}" for name in re.findall(r"^(?:pub )?const (\w+): (?:u8|u16|u32|u64) = \d;", text, re.M)]
    found["3"] += [f"{path} {loop}" for loop in re.findall(r"^\s*(while .*|loop) \{", text, re.M)]
    for name, inside in FUNCTION.findall(text):
        parameters = [part for part in re.split(r",(?![^<(]*[>)])", inside) if part.strip()]
        names = [part.split(":")[0].strip() for part in parameters]
        if re.fullmatch(BY_HAND, name):
            found["4"].append(f"{path} {name}")
        if len(parameters) >= 6 and f'extern "C" fn {name}' not in text:
            found["5b"].append(f"{path} {name} ({len(parameters)})")
        pairs = [{"from", "to"}, {"names", "ends"}]
        if {"used", "held"} & set(names) or any(pair <= set(names) for pair in pairs) or ("count" in names and "[" in inside):
            found["6"].append(f"{path} {name}")
        found["7"] += [f"{path} {name} {part.strip()}" for part in parameters if part.strip().endswith(": bool")]
    for clause in re.findall(r"requires (?:\w+ )?\{(.*?)\}\n", text, re.S):
        required[" ".join(clause.split())] += 1
found["5a"] = [f"{times} times {clause}" for clause, times in required.items() if times >= 3]
for row, says in rows.items():
    print(f"{row:3}{len(found[row]):5}  {says}")
    if "-v" in sys.argv:
        print(*("          " + place for place in found[row]), sep="\n")
