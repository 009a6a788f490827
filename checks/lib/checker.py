"""The crates of the repository, the command that checks one of them, and what the checker says of its functions."""
import os
import re
import subprocess
from typing import NamedTuple

from shared import TOP, fail


# The folders of a crate that a check reads.
PARTS = ("src", "specs", "proofs")


class Crate(NamedTuple):
    """A crate of crates.txt, with the words before its colon and the libraries after it."""
    name: str
    words: tuple
    named: tuple

    @property
    def folder(self):
        return f"{TOP}/crates/{self.name}"

    @property
    def library(self):
        """The folder of its built library."""
        return f"{self.folder}/out/rlib"


def read_crates():
    """The crates by name."""
    with open(f"{TOP}/crates.txt", encoding="utf-8") as file:
        lines = [line.partition("#")[0].strip() for line in file]
    found = {}
    for head, _, named in (line.partition(":") for line in lines if line):
        name, *words = head.split()
        found[name] = Crate(name, tuple(words), tuple(named.split()))
    return found


def crates_below(crate, crates):
    """The crates of the repository that a crate names, and all below these, each once."""
    found = {}
    for below in (crates[name] for name in crate.named if name in crates):
        found |= {it.name: it for it in [below, *crates_below(below, crates)]}
    return list(found.values())


def find_kit():
    """The folder of the kit. `rt doc` names a page in it."""
    try:
        page = subprocess.run(["rt", "doc"], check=True, capture_output=True, text=True).stdout.strip()
    except (OSError, subprocess.CalledProcessError) as error:
        fail(f"the kit is missing, because rt doc fails: {error}")
    return os.path.dirname(page)


def kit_version():
    return subprocess.run(["rt", "version"], check=True, capture_output=True, text=True).stdout.strip()


def is_built(crate):
    """Whether the library of a crate is newer than the crate's sources. Its files may be older, if rt ci has taken over
    the results of an earlier run, so this goes by the folder."""
    if not os.path.exists(f"{crate.library}/{crate.name}.rlib"):
        return False
    made = os.path.getmtime(crate.library)
    return all(os.path.getmtime(file) <= made for file in files_of(crate))


def files_of(crate):
    """The files of a crate that a check reads."""
    return [f"{place}/{name}" for part in PARTS for place, _, names in os.walk(f"{crate.folder}/{part}")
            for name in names]


def check_command(crate, crates, kit):
    """The words that check a crate whose files are in the current folder, over the built libraries below it."""
    below = crates_below(crate, crates)
    for it in below:
        if not is_built(it):
            fail(f"the library {it.name} is missing, or older than its sources. rt lib in crates/{it.name} builds it")
    root = "main" if os.path.exists(f"{crate.folder}/src/main.rt") else "lib"
    words = [f"{kit}/bin/rattle", "check", "--crate-name", crate.name, f"src/{root}.rt", "--jobs", "1"]
    for name in ["std", *crate.named]:
        words += ["--extern", f"{name}={crates[name].library if name in crates else f'{kit}/rlibs'}/{name}.rlib"]
    for place in [f"{kit}/rlibs", *[it.library for it in below]]:
        words += ["-L", f"dependency={place}"]
    if "staticlib" in crate.words:
        words += ["--crate-type", "staticlib"]
    return [*words, "--antt-project", f"{kit}/rattle/logic/antt-project.json", "--logic-built", f"{kit}/logic_built"]


# ---- what the checker says

class Verdict(NamedTuple):
    """What the checker says of a function, and the goals that it found open there."""
    words: str
    goals: list

    @property
    def calls_unproved(self):
        return "it calls " in self.words


def read_verdicts(crate, printed):
    """What the checker printed of each function, by its path in the crate.

    A line `fn CRATE::PATH: WORDS` ends what it says of a function. The goals are in notes above it that name a place of
    src, and in errors that name the function's own proof, as in `./proofs/line/read/Answers.antt:3:1: error: ..`. A loop
    for which no measure is written, and which therefore need not end, is only in the words.
    """
    found, in_code, in_proofs = {}, [], {}
    for line in printed.splitlines():
        if told := re.match(rf"fn {crate.name}::(.+?): (.*)", line):
            path = told[1]
            endless = ["that its loop ends"] if told[2].startswith("no proof: expected a measure ") else []
            found[path] = Verdict(told[2], [*in_proofs.get(path.replace("::", "/"), []), *in_code, *endless])
            in_code = []
        elif told := re.match(r"(?:note: )?src/\S+:\d+:\d+: .*\(`(\S+)`\)", line):
            in_code.append(told[1])
        elif told := re.match(r"\./proofs/(\S+)/\w+\.antt:\d+:\d+: error: `([^`]+)`: (?!.*( has no | is not in scope|"
                              r"was not admitted))", line):
            in_proofs.setdefault(told[1], []).append(told[2])
    return found
