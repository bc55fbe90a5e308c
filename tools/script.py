"""What the scripts at the root that are written in Python share: text maps and questions read, a proved program run on
sections, and output that is whole or not there, with a status of 2 and the reason on standard error."""

import os
import signal
import subprocess
import tempfile
from pathlib import Path

import text_map
from make_bundle import section

PROGRAM = Path(__file__).resolve().parent / "program"
BAD_LINES = 20  # the most that are told of all files
STANDARD_INPUT = "standard input"
DONE, FAILED = 0, 2


class Stop(Exception):
    """Why a script ends with status 2; nothing where that has been told."""


def run(name, main, words):
    """The status to end with: what `main` answers for these words, or 2 with its reason on standard error."""
    signal.signal(signal.SIGINT, signal.SIG_DFL)
    try:
        return main(words)
    except Stop as stop:
        why = str(stop)
    except Exception as error:  # a traceback would end with 1, which is an answer
        why = f"broke off: {error!r}"
    if why:
        tell(f"{name}: {why}\n")
    return FAILED


def write(to, text):
    """Writes a whole text to an open file."""
    left = memoryview(text.encode("utf-8", "surrogateescape"))
    while left:
        left = left[os.write(to, left) :]


def tell(text):
    """Writes a text to standard error; where that can't be, the status alone tells."""
    try:
        write(2, text)
    except OSError:
        pass


def put(text):
    """Writes a whole text to standard output; where its reader has gone the script ends as others do."""
    signal.signal(signal.SIGPIPE, signal.SIG_DFL)
    try:
        write(1, text)
    except OSError as error:
        raise Stop(f"standard output: {error.strerror}") from None


def read_map(path, names):
    """The map of a file, whose names join the given ones, and its bad lines as they are told."""
    try:
        map_, bad = text_map.read(path, names)
    except OSError as error:
        raise Stop(f"{path}: {error.strerror}") from None
    return map_, told(path, bad)


def read_questions(path):
    """The questions of a file, or of standard input where there is no path, and its bad lines as they are told."""
    try:
        with open(0 if path is None else path, "rb", closefd=path is not None) as file:
            questions, bad = text_map.read_questions(file)
    except OSError as error:
        raise Stop(f"{path or STANDARD_INPUT}: {error.strerror}") from None
    return questions, told(path or STANDARD_INPUT, bad)


def told(path, bad):
    return [f"{path}:{number}: {reason}\n" for number, reason in bad]


def stop_if(bad):
    """Tells bad lines and stops, if there are any."""
    if bad:
        more = len(bad) - BAD_LINES
        tell("".join(bad[:BAD_LINES]) + (f"and {more} bad lines more\n" if more > 0 else ""))
        raise Stop


def read_maps(paths):
    """The maps of these files, and the bytes of their names; a file that can't be read and bad lines are told."""
    names, maps, bad = text_map.Names(), [], []
    for path in paths:
        map_, lines = read_map(path, names)
        maps.append(map_)
        bad += lines
    stop_if(bad)
    return maps, names.all()


def printed_by(program, *sections):
    """The lines that a proved program prints for sections (kind, content), and whether it ended well."""
    try:
        with tempfile.TemporaryFile() as given:
            given.write(b"".join(section(content, kind) for kind, content in sections))
            given.seek(0)
            ran = subprocess.run([PROGRAM, program], stdin=given, stdout=subprocess.PIPE)
    except OSError as error:
        raise Stop(f"the program can't be run: {error}") from None
    lines = ran.stdout.decode("ascii", "replace").split("\n")
    if len(lines) > 1 and (lines[0] == "bad bundle" or "refused" in lines[0].split(" ")):
        raise Stop(f"the program answers: {lines[0]}")
    if lines[-1] != "" or ran.returncode != DONE:
        raise Stop("" if ran.returncode == FAILED else f"the program broke off with status {ran.returncode}")
    return lines[:-1]


def lines_of(program, *sections):
    """Its lines up to the last, which is `end`."""
    lines = printed_by(program, *sections)
    if lines[-1:] != ["end"]:
        raise Stop("the program broke off before its last line")
    return lines[:-1]


def answers_of(program, questions, *sections):
    """Its lines where it prints one a question."""
    lines = printed_by(program, *sections)
    if len(lines) != questions:
        raise Stop(f"the program answers {len(lines)} of {questions} questions")
    return lines
