#!/usr/bin/env python3
"""Brings the names that this repository gives to definitions, lemmas and what they bind to one spelling: words in snake case, types and
modules in camel case. Functions, fields and strings of src/ and names of the kit keep theirs.

usage: tools/spelling.py [--write]      at the top; without --write it says what would change, and what falls together
"""
import glob
import os
import re
import sys

W = r"[^\s(){}.;,@\"«»\[\]\\]+"
TOKEN = re.compile(r"(?P<skip>--[^\n]*|\"(?:[^\"\\]|\\.)*\"|«[^»]*»)|(?P<word>" + W + ")")
RUST = re.compile(r"(?P<skip>//[^\n]*|b?\"(?:[^\"\\]|\\.)*\"|b?'(?:[^'\\]|\\.)')|(?P<word>" + W + ")")
USE = re.compile(r"(?m)^\s*(?:ghost |pub )*use ([^\s{};]+?)(?:\.\{([^}]*)\})?(?: as (\S+?))?;?\s*$")
# What falls together, or would hide another name: old name, new name.
GIVEN = dict(line.split() for line in """
by_name by_name_lem
goes_on goes_on_lem
kept-at kept_at_lem
left-of left_of_lem
right_of right_of_lem
rows_written rows_written_lem
turn_in turn_in_lem
""".split("\n") if line.strip())


def snake(name):
    if "≢" in name or "◌" in name:
        return name
    if name in GIVEN:
        return GIVEN[name]
    first, *rest = name.split("-")
    if re.match(r"[a-z_]", first):
        first = lower(first)
    return "_".join([first, *[lower(it) if re.match(r"[a-z]", it) else it for it in rest]])


def lower(name):
    return re.sub(r"(?<=[a-z0-9'])([A-Z])", lambda it: "_" + it.group(1), name).lower() if re.search(r"[a-z0-9'][A-Z]", name) else name


def files():
    for path in sorted(glob.glob("crates/*/**/*.antt", recursive=True)):
        if "/out/" not in path:
            yield path


def parts(listed):
    """The names of a use line's braces: (name, what it is called here)."""
    for it in (listed or "").split(","):
        words = it.split()
        if words:
            yield words[0], words[-1]


def own(module, crates):
    it = re.match(r"Rattle\.(\w+)\.(specs|proofs)", module)
    return bool(it and it.group(1) in crates)


DEFINED = [
    re.compile(r"(?m)^\s*(?:(?:abbrev|unfoldable|opaque|pub|data|record|mod|module|abstract|private|instance)\s+)*(" + W + r")\s*(?=:|\(|\{|$)"),
    re.compile(r"(?m)^\s*(?:(?:abbrev|unfoldable|opaque|pub)\s+)*((?:" + W + r"[ ]+)+):[ ]"),
    re.compile(r"\blet\s+(" + W + ")"),
    re.compile(r"λ\s+((?:" + W + r"\s*)+)\."),
    re.compile(r"[({]((?:" + W + r"\s+)+):\s"),
    re.compile(r"[({;]\s*(" + W + r")\s*="),
]


def main():
    write = "--write" in sys.argv
    crates = {os.path.basename(it) for it in glob.glob("crates/*")}
    texts = {it: open(it, encoding="utf-8").read() for it in files()}
    names = set()
    for path, text in texts.items():
        bare = re.sub(r"--[^\n]*|\"(?:[^\"\\]|\\.)*\"", "", text)
        for way in DEFINED:
            for it in way.findall(bare):
                names.update(it.split())
        # what a clause binds by pattern stands at the left of an equation
        for line in bare.split("\n"):
            head = line.split(" = ")[0] if " = " in line and not line.startswith("use ") else ""
            names.update(re.findall(W, head))
        for it in re.finditer(r"(" + W + r")\s*↦", bare):
            names.add(it.group(1))
        for it in re.findall(r"(?m)[\[|]([^\[|↦]*)↦", bare):
            names.update(re.findall(W, it))
    kit_all = set()
    for text in texts.values():
        for module, listed, _ in USE.findall(text):
            if not own(module, crates):
                kit_all.update(name for name, _ in parts(listed))
    table = {it: snake(it) for it in names if re.match(r"[A-Za-z_]", it) and snake(it) != it and not re.match(r"Need-", it)}
    # a lemma that would have its function's name
    camel = {new for old, new in table.items() if "-" not in old}
    table = {old: f"{new}_lem" if "-" in old and new in camel else new for old, new in table.items()}
    trouble = 0
    done = {}
    rust = {it: open(it, encoding="utf-8").read() for it in sorted(glob.glob("crates/*/src/**/*.rt", recursive=True))}
    for path, text in [*texts.items(), *rust.items()]:
        is_proof = path.endswith("/Proof.antt")
        kit = set()
        for module, listed, _ in USE.findall(text):
            if not own(module, crates) or re.search(r"\.(Tie|Statement|Lts|Goals|Given|Met)$", module):
                kit.update(name for name, _ in parts(listed))
        seen = {}

        def turn(it):
            word = it.group("word")
            if word is None:
                skipped = it.group("skip")
                if skipped.startswith(("--", "//")):
                    return re.sub(r"(?<![\w-])[a-z][a-z0-9]*(?:[A-Z][a-z0-9]*)+(?:-[\w-]+)?(?![\w])|(?<=`)" + W + "(?=`)", lambda n: table.get(n.group(), n.group()) if n.group() not in kit else n.group(), skipped)
                return skipped
            if it.start() and text[it.start() - 1] == "." and re.search(r"(?<![\w.])(tie|goal)\.$", text[: it.start()]):
                return word
            new = word if word in kit else table.get(word, word)
            seen.setdefault(new, set()).add(word)
            return new

        done[path] = (TOKEN if path.endswith(".antt") else RUST).sub(turn, text)
        for new, olds in sorted(seen.items()):
            if len(olds) > 1:
                trouble += 1
                print(f"together: {path}: {' '.join(sorted(olds))} -> {new}")
    news = {}
    for old, new in table.items():
        news.setdefault(new, []).append(old)
    for new, olds in sorted(news.items()):
        if len(olds) > 1 or new in names and new not in table:
            print(f"both: {' '.join(sorted(olds))} -> {new}{' (is there)' if new in names else ''}")
        if new in kit_all:
            print(f"kit: {' '.join(olds)} -> {new}")
    print(f"names: {len(table)}, files: {sum(done[it] != t for it, t in [*texts.items(), *rust.items()])}, falling together: {trouble}")
    if write:
        for path, text in done.items():
            with open(path, "w", encoding="utf-8") as it:
                it.write(text)


main()
