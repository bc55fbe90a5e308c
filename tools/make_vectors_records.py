#!/usr/bin/env python3
"""Writes the data of vectors_records: oracle/build && python3 tools/make_vectors_records.py

In crates/vectors_records/stdin stand the cases, in stdout what the program must write. The answers come from the plain model of
the rules (oracle/model.py); those of the traps and borders also stand below, by hand, and those that are headed `dbn` were given by
dbn's own code (oracle/driver.rs).
"""
import os
import random
import subprocess
import sys

ROOT = os.path.join(os.path.dirname(os.path.abspath(__file__)), "..")
sys.dont_write_bytecode = True
sys.path.insert(0, os.path.join(ROOT, "oracle"))
from make_bundle import bundle, record, section
from model import PlainMerge, RecordMerge, Refused, replay
from traps import complaint_pairs, plain_runs

LATEST = 2**64 - 1

cases, written = [], []


def title(name):
    cases.append("= " + name)
    written.append(name + "\n")


def replayed(name, made, by_hand=None):
    """A bundle and its replay. Zeros at its end are not written out: the number in front is its length."""
    text = replay(made)
    assert by_hand is None or by_hand == text, (name, text)
    title(name)
    cases.append(f"b {len(made)} {made.rstrip(bytes(1)).hex().upper()}")
    written.append(text)


def told(buffer, cuts, hints, engine):
    """The answers of a merge to its first end and of one call more, a line each; or a refused opening."""
    try:
        merge = engine(buffer, cuts, hints)
    except Refused as refused:
        return f"{refused.answer[0]}\n"
    text = ""
    while True:
        try:
            handed = merge.next()
        except Refused as refused:
            text += " ".join(str(number) for number in refused.answer) + "\n"
            continue
        if handed is None:
            return text + "end\nend\n"
        text += "record " + " ".join(str(number) for number in handed) + "\n"


def case_line(kind, buffer, cuts, hints):
    """The line of a case: hints, cuts and the buffer."""
    numbers = [len(hints), *hints, len(cuts), *cuts]
    return f"{kind} {' '.join(str(number) for number in numbers)} {buffer.hex().upper()}".rstrip()


def merged(name, streams, hints, by_hand=None, cuts=None):
    """Streams and hints, merged to the first end and asked once more, by both engines; or a refused opening."""
    buffer = b"".join(streams)
    if cuts is None:
        cuts = [sum(len(stream) for stream in streams[:i]) for i in range(len(streams) + 1)]
    text = told(buffer, cuts, hints, RecordMerge)
    assert by_hand is None or by_hand == text, (name, text)
    assert text == told(buffer, cuts, hints, PlainMerge), name
    title(name)
    cases.append(case_line("m", buffer, cuts, hints))
    written.append(f"{text}plain\n{text}")


def traps():
    stray = b"\1\2\3"
    replayed("printed: a record and 3 stray bytes, a record", bundle([record(5, 7) + stray, record(6, 7)]), "0 5 7\n0 damaged 16\n1 6 7\nend\n")
    replayed("time 0 goes out before the damage of stream 1", bundle([record(0, 7), stray]), "0 0 7\n1 damaged 0\nend\n")
    replayed("time 5 after it, and is not lost", bundle([record(5, 7), stray]), "1 damaged 0\n0 5 7\nend\n")
    merged("hints 0 and 10 over first records 5 and 1", [record(5, 7), record(1, 7)], [0, 10],
           "record 0 0 16 1 7 5\nrecord 1 0 16 1 7 1\nend\nend\n")
    merged("record (5, 0) before hint (5, 1)", [record(5, 7), record(1, 8)], [0, 5], "record 0 0 16 1 7 5\nrecord 1 0 16 1 8 1\nend\nend\n")
    merged("hint (5, 0) is read before record (5, 1)", [record(1, 7), record(5, 8)], [5, 0],
           "record 0 0 16 1 7 1\nrecord 1 0 16 1 8 5\nend\nend\n")
    merged("after a damage report no stream is read on in", [record(1, 7) + record(9, 7), b"\1", record(4, 7)], [0, 3, 4],
           "record 0 0 16 1 7 1\n13 1 0 1\nrecord 2 0 16 1 7 4\nrecord 0 16 16 1 7 9\nend\nend\n")
    replayed("the last time of all, and instrument", bundle([record(LATEST, 2**32 - 1)]), "0 18446744073709551615 4294967295\nend\n")
    replayed("256 streams of one record", bundle([record(300 - p, p) for p in range(256)]))
    replayed("a record of 1,024 bytes", bundle([record(5, 7, body=bytes(1008)) + record(6, 7)]), "0 5 7\n0 6 7\nend\n")
    merged("and one of 1,025", [record(5, 7, body=bytes(1009))], [], "13 0 0 2\nend\nend\n")
    merged("one empty stream", [b""], [], "end\nend\n")
    merged("cuts 0 alone", [], [], "12\n", cuts=[0])
    merged("no cuts", [], [], "12\n", cuts=[])
    merged("no hints for two streams", [record(5, 7), b""], [], "record 0 0 16 1 7 5\nend\nend\n")
    merged("one hint for two streams", [record(5, 7), b""], [0], "12\n")
    merged("cuts that fall", [record(5, 7)], [], "12\n", cuts=[0, 16, 8, 16])
    merged("cuts that end before the buffer does", [record(5, 7)], [], "12\n", cuts=[0, 15])
    merged("cuts that do not start at 0", [record(5, 7)], [], "12\n", cuts=[1, 16])
    merged("16 bytes left, length 17", [record(5, 7, length=17)], [], "13 0 0 3\nend\nend\n")
    merged("15 bytes left, length 0", [record(5, 7, length=0)[:15]], [], "13 0 0 1\nend\nend\n")
    merged("0 bytes left", [record(5, 7)], [], "record 0 0 16 1 7 5\nend\nend\n")
    merged("M12: times 5, 5 and 5, 4", [record(5, 7) + record(5, 7), record(5, 7) + record(4, 7)], [],
           "record 0 0 16 1 7 5\nrecord 0 16 16 1 7 5\nrecord 1 0 16 1 7 5\nrecord 1 16 16 1 7 4\nend\nend\n")
    replayed("no input", b"", "bad bundle\n")
    replayed("one empty stream", bytes([6, 0, 0, 0, 1, 0]), "end\n")
    replayed("and a byte more", bytes([6, 0, 0, 0, 1, 0, 9]), "bad bundle\n")


def printed(answers):
    """Answers of oracle/traps.py as the program prints them."""
    said = {"r": "record", "d": "13", "e": "end"}
    return "".join(" ".join([said[word], *rest]) + "\n" for word, *rest in map(str.split, answers))


def requested():
    """The runs of the traps of requests No. 11 and No. 12, as oracle/traps.py writes them."""
    for number, (name, streams, hints, answers) in [*enumerate(complaint_pairs()), *enumerate(plain_runs())]:
        merged(f"{name}, run {number}", streams, list(hints), printed(answers))


def plains():
    """Wrong openings and wrong memory (No. 12), and drawn streams."""
    for cuts, hints in [([], []), ([0], []), ([0, 15], []), ([0, 16, 8, 16], []), ([0, 16], [1, 2]), ([0] * 257 + [16], [])]:
        merged(f"No. 12, {len(cuts)} cuts and {len(hints)} hints", [record(5, 7)], hints, "12\n", cuts)
    title("No. 12, 9: 255 marks, 257 streams")
    cases.append(case_line("w", record(5, 7), [0, 16], [0]))
    written.append("15\nopened 1 1\n15\n15\nrecord 0 0 16 1 7 5\n")
    rng = random.Random(12)
    for i in range(40):
        streams = [stream(rng, 5) for _ in range(rng.randrange(1, 9))]
        merged(f"drawn merge {i}", streams, [] if i % 2 else [rng.randrange(9) for _ in streams])


def borders():
    good = section(record(5, 7))
    for extra in range(1, 6):
        replayed(f"a section and {extra} bytes of another", good + good[:extra], "bad bundle\n")
    replayed("a section's length of 5", section(b"", length=5), "bad bundle\n")
    replayed("a section's length of 0", section(b"", length=0), "bad bundle\n")
    replayed("a section's length one past the end", section(record(5, 7), length=23), "bad bundle\n")
    replayed("a section's length of 4294967295", section(record(5, 7), length=2**32 - 1), "bad bundle\n")
    replayed("kind 2", good + section(record(5, 7), kind=2), "bad bundle\n")
    replayed("kind 0", section(record(5, 7), kind=0), "bad bundle\n")
    replayed("kind 257: both bytes count", section(record(5, 7), kind=257), "bad bundle\n")
    replayed("256 empty streams", bundle([b""] * 256), "end\n")
    replayed("257 empty streams", bundle([b""] * 257), "bad bundle\n")
    replayed("60,000 bytes", section(bytes(59994)), "0 damaged 0\nend\n")
    replayed("60,001 bytes", section(bytes(59995)), "bad bundle\n")
    replayed("60,000 bytes in two streams", section(bytes(1)) + section(bytes(59987)), "0 damaged 0\n1 damaged 0\nend\n")


def stream(rng, most):
    """A stream of random records, cut or damaged at random; some are empty."""
    made, time = b"", rng.randrange(4)
    for _ in range(rng.randrange(most)):
        time = max(0, time + rng.randrange(-1, 4))
        made += record(time, rng.randrange(2**32), rng.choice([0, 1, 2, 65535]), bytes(rng.randrange(256) for _ in range(rng.choice([0, 0, 1, 40]))))
    how = rng.randrange(6)
    if how == 0:
        made = made[:max(0, len(made) - rng.randrange(1, 20))]
    elif how == 1:
        made += record(time, 1, length=rng.choice([0, 15, 17, 1024, 1025, 65535]))
    elif how == 2:
        made += bytes(rng.randrange(1, 16))
    return made


def drawn():
    rng = random.Random(4)
    replayed("256 streams, some damaged, some empty", bundle([stream(rng, 4) for _ in range(256)]))
    for i in range(40):
        replayed(f"drawn {i}", bundle([stream(rng, 5) for _ in range(rng.randrange(1, 9))]))


def answered_by_dbn(times, hints):
    """What dbn's own decoder answers for streams of records at these times, record by record to the second end."""
    words = [len(hints), *hints, len(times)]
    for stream in times:
        words += [0, len(stream), *stream]
    case = "records " + " ".join(str(word) for word in words) + "\n"
    run = subprocess.run([os.path.join(ROOT, "oracle/target/driver")], input=case, capture_output=True, text=True, check=True)
    text = ""
    for line in run.stdout.strip().split(" ; "):
        kind, *numbers = line.split()
        if kind == "r":
            stream, place, time = (int(number) for number in numbers)
            text += f"record {stream} {16 * place} 16 1 {stream} {time}\n"
        else:
            text += {"e": "end\n"}[kind]
    return text


def recorded():
    rng = random.Random(5)
    for i in range(40):
        times = [[rng.choice([0, 1, 2, 3, 9, LATEST]) for _ in range(rng.randrange(6))] for _ in range(rng.randrange(1, 9))]
        hints = [] if i % 2 else [rng.choice([0, 1, 2, 9]) for _ in times]
        merged(f"dbn {i}", [b"".join(record(time, p) for time in stream) for p, stream in enumerate(times)], hints, answered_by_dbn(times, hints))


def main():
    traps()
    requested()
    borders()
    drawn()
    recorded()
    plains()
    for name, parts in [("stdin", [line + "\n" for line in cases]), ("stdout", written)]:
        with open(os.path.join(ROOT, "crates/vectors_records", name), "w") as file:
            file.write("".join(parts))


if __name__ == "__main__":
    main()
