"""The common parts of the checks. They find and start the programs, compare texts, and report failures.

A check is a script of checks/ that passes its function to `run`. Its help is the text at its top. In that text, the
line `    checks/NAME ..` is the usage.
"""
import itertools
import os
import shlex
import subprocess
import sys
from typing import NamedTuple

LIB = os.path.dirname(os.path.realpath(__file__))
TOP = os.path.dirname(os.path.dirname(LIB))
NAME = "checks/" + os.path.basename(sys.argv[0])

# The paths of the built programs, relative to the top of the repository.
PROGRAM = "crates/mencius/out/mencius"
LAWS = "crates/test_laws/out/test_laws"

# The most seconds for a call of a program.
SECONDS = 120
# The number of characters of a long text that a message shows.
SHOWN = 2000


class Failure(Exception):
    """A check has failed."""


class Ended(NamedTuple):
    """The end of a program: its status as a shell reports it, its standard output and its standard error."""
    status: int
    printed: str
    said: str


def fail(text):
    raise Failure(text)


def say(text):
    """Prints a line. ./check names a file in CHECK_SKIPPED, which collects the lines about skipped parts."""
    print(f"{NAME}: {text}", flush=True)
    if text.startswith("SKIPPED: ") and "CHECK_SKIPPED" in os.environ:
        with open(os.environ["CHECK_SKIPPED"], "a", encoding="utf-8") as file:
            file.write(f"{NAME}: {text}\n")


# ---- a check, from its command line to its end

def run(check, *defaults, most=None, options=()):
    """Calls a check with the programs of the command line and the words after them. `defaults` replace missing
    programs. The command line may have `most` words, or one word for each program if `most` is None."""
    words = command_line(len(defaults) if most is None else most, options)
    try:
        check(*programs(words, defaults), *words[len(defaults):])
    except Failure as failure:
        sys.exit(f"{NAME}: {failure}")


def command_line(most, options):
    """The words of the command line. Only these options may begin with a hyphen."""
    words = sys.argv[1:]
    text = sys.modules["__main__"].__doc__.strip()
    if words in (["--help"], ["-h"]):
        print(text)
        sys.exit(0)
    if len(words) > most or any(word.startswith("-") and word not in options for word in words):
        usage = next(line for line in text.splitlines() if line.startswith("    checks/"))
        print("usage: " + usage.strip(), file=sys.stderr)
        sys.exit(2)
    return words


def programs(words, defaults):
    """The paths of the programs that the first words name. The built programs replace missing words."""
    for word in words[:len(defaults)]:
        if not is_program(word):
            fail(f"{word} is not an executable program")
    for default in defaults[len(words):]:
        if not is_program(os.path.join(TOP, default)):
            builder = "`./mencius --build`" if default == PROGRAM else "`./check crates`"
            fail(f"{default} does not exist. {builder}, at the top of the repository, builds it.")
    paths = [*words[:len(defaults)], *(os.path.join(TOP, default) for default in defaults[len(words):])]
    return [os.path.realpath(path) for path in paths]


def is_program(path):
    return os.path.isfile(path) and os.access(path, os.X_OK)


# ---- compiling C

def compiled(source, path, *options):
    """Compiles a C file of this folder, and returns the path of the result."""
    compiler = shlex.split(os.environ.get("CC", "cc"))
    source = os.path.join(LIB, source)
    try:
        subprocess.run([*compiler, "-O2", "-o", path, source, *options], check=True)
    except (OSError, subprocess.CalledProcessError) as error:
        fail(f"{os.path.basename(source)} can't be compiled: {error}")
    return path


# ---- starting a program

def start(call, given="", seconds=SECONDS, **options):
    """Starts a program with a text, bytes or an open file as standard input, and waits until it ends."""
    if isinstance(given, str):
        given = given.encode("utf-8", "surrogateescape")
    standard_input = {"input": given} if isinstance(given, bytes) else {"stdin": given}
    try:
        done = subprocess.run(call, stdout=subprocess.PIPE, stderr=subprocess.PIPE, timeout=seconds, check=False,
                              **standard_input, **options)
    except subprocess.TimeoutExpired:
        fail(f"{place_of(call, given, SHOWN)}\nit does not end within {seconds} s")
    status = done.returncode if done.returncode >= 0 else 128 - done.returncode
    return Ended(status, text_of(done.stdout), text_of(done.stderr))


def text_of(printed):
    """The output as a text. Bytes that are not UTF-8 become surrogates, so different bytes have different texts."""
    return printed.decode("utf-8", "surrogateescape")


def place_of(call, given, most=300):
    """A call as a message shows it, without the folders of its program, and with `most` characters of its input."""
    words = [word if isinstance(word, str) else repr(word) for word in call]
    behind = f" < {given[:most]!r}" if isinstance(given, (str, bytes)) else ""
    return " ".join([os.path.basename(words[0]), *words[1:]]) + behind


# ---- comparing

def start_to(call, given, status, place=None, **options):
    """Starts a program that must end with this status. Messages name the place, or the call if `place` is None."""
    ended = start(call, given, **options)
    if ended.status != status:
        fail(f"{place or place_of(call, given)}\nit ends with status {ended.status} instead of {status}\n"
             + shortened(ended.printed + ended.said))
    return ended


def compare(call, given, wanted, place=None):
    """The program must end with status 0, print this text, and leave standard error empty."""
    place = place or place_of(call, given)
    ended = start_to(call, given, 0, place)
    expect(place, wanted, ended.printed)
    expect(place + ", standard error", "", ended.said)


def expect(place, wanted, found):
    """Fails at the first line in which two texts differ."""
    if wanted == found:
        return
    lines = itertools.zip_longest(wanted.split("\n"), found.split("\n"), fillvalue="(no more lines)")
    number, pair = next((number, pair) for number, pair in enumerate(lines, 1) if pair[0] != pair[1])
    # A long line is shown from shortly before the first difference.
    begin = max(0, len(os.path.commonprefix(pair)) - SHOWN // 2)
    left, right = (shortened(line[begin:]) for line in pair)
    fail(f"{place}\nline {number} differs\nwanted: {left}\nfound:  {right}")


def shortened(text):
    return text if len(text) <= SHOWN else text[:SHOWN] + " .."
