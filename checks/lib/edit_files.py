"""The edits of a crate, which checks/edits tries: their files, the functions that they change, and the changed texts.
Also empties the other functions."""
import glob
import os
import re
from typing import NamedTuple

from shared import fail

# The proof files of a function, and a proof with a hole.
PROOF_FILES = ("Answers.antt", "Invariants.antt", "Proof.antt")
HOLE = """use Rattle.{crate}.proofs.{path}.Statement.{{statement}}

pub {name}_spec : {{M : Type 1}} → statement M
{name}_spec = ?
"""

# The beginning of a function and of an `impl` block, each with its indentation.
FUNCTION = re.compile(r'( *)(?:pub(?:\([a-z]+\))? )?(?:const )?(?:extern "C" )?fn (\w+)')
IMPL = re.compile(r"impl(?:<[^>]*>)? (?:(\w+)(?:<.*>)? for )?(\w+)")


class Change(NamedTuple):
    """A text of a file that appears exactly once, and the text that replaces it."""
    file: str
    old: str
    new: str


class Edit(NamedTuple):
    """An edit. If it is apart, it also changes other things than the body of one function."""
    name: str
    changes: tuple
    functions: tuple
    is_apart: bool

    @property
    def is_harmless(self):
        return "/harmless" in self.name


def read_edits(crate):
    """The edits of a crate, in the order of their names."""
    return [read_edit(crate, place) for place in sorted(glob.glob(f"{crate.folder}/edits/*.edit"))]


def read_edit(crate, place):
    name = f"{crate.name}/{os.path.basename(place).removesuffix('.edit')}"
    with open(place, encoding="utf-8") as opened:
        lines = opened.read().splitlines()
    file, old, changes, functions = None, None, [], []
    for line in lines:
        word, _, rest = line.partition(": ")
        if word == "file":
            file = rest
        elif word == "old":
            old = rest
        elif word == "function":
            functions.append(rest)
        elif word.rstrip(":") == "new" and file and old:
            changes.append(Change(file, old, rest))
            old = None
        else:
            fail(f"{name}: an edit has no such line: {line}")
    around = dict.fromkeys(function_around(crate, change) for change in changes)
    functions = functions or [path for path in around if path]
    if not functions:
        fail(f"{name}: it changes a text outside of functions, so it needs a line function:")
    return Edit(name, tuple(changes), tuple(functions), is_apart=list(around) != functions)


def function_around(crate, change):
    """The path of the function in whose body a text is, or None. It relies on the layout of `rt fmt`, by which the last
    line of a function is a brace with the indentation of its first line."""
    before, found, _ = read_source(crate, change.file).partition(change.old)
    if not found:
        return None
    line = before.rpartition("\n")[2] + change.old
    depth = len(line) - len(line.lstrip(" "))
    name = None
    for line in reversed(before.split("\n")[:-1]):
        begin = FUNCTION.match(line)
        if name is None and line.strip() == "}":
            depth = min(depth, line.index("}"))
        elif name is None and begin and len(begin[1]) < depth:
            name, depth = begin[2], len(begin[1])
        if name and depth == 0:
            return "::".join([*modules_of(change.file), name])
        if name and (block := IMPL.match(line)):
            return "::".join([*modules_of(file_of(crate, block[2])), block[2] + (block[1] or ""), name])
    return None


def modules_of(file):
    """The modules of a file of src, from the crate's root."""
    return [it for it in file.removeprefix("src/").removesuffix(".rt").split("/") if it != "lib"]


def file_of(crate, name):
    """The file that defines a type of the crate. A method is named after it, no matter where its `impl` is."""
    for place in glob.glob(f"{crate.folder}/src/**/*.rt", recursive=True):
        file = os.path.relpath(place, crate.folder)
        if re.search(rf"^(pub(\([a-z]+\))? )?(struct|enum) {name}\b", read_source(crate, file), re.MULTILINE):
            return file
    fail(f"{crate.name} defines no type {name}")


def read_source(crate, file):
    try:
        with open(f"{crate.folder}/{file}", encoding="utf-8") as opened:
            return opened.read()
    except OSError as error:
        fail(f"{crate.name}/{file} can't be read: {error.strerror}")


def apply(crate, edit, texts):
    """The texts of the changed files by their paths, with an edit applied to `texts` or, where these lack a file, to the
    crate's own file. It is None if an old text does not appear exactly once."""
    changed = dict(texts)
    for file, old, new in edit.changes:
        text = changed.get(file) or read_source(crate, file)
        if text.count(old) != 1:
            return None
        changed[file] = text.replace(old, new)
    return changed


# ---- functions without their bodies

def empty_others(crate, folder, kept):
    """Empties the bodies of all functions in a copy of a crate, except those with the kept paths, and replaces their
    proofs with holes. Returns the paths of the emptied ones. Constant functions and methods of traits stay as they are.
    """
    emptied = []
    for place in glob.glob(f"{folder}/src/**/*.rt", recursive=True):
        with open(place, encoding="utf-8") as opened:
            lines = opened.read().split("\n")
        found = [row for row in bodies(crate, os.path.relpath(place, folder), lines) if row[0] not in kept]
        for path, first, last in reversed(found):
            lines[first:last] = ["loop {}"]
            write_hole(crate, folder, path)
        with open(place, "w", encoding="utf-8") as opened:
            opened.write("\n".join(lines))
        emptied += [path for path, _, _ in found]
    return emptied


def bodies(crate, file, lines):
    """The path of each function and method in a file, with the numbers of its body's first line and of the line after
    its body. It relies on the layout of `rt fmt`, by which clauses are indented further than the function."""
    block = None
    for number, line in enumerate(lines):
        begin = FUNCTION.match(line)
        if not line.startswith((" ", "#", "/")) and line and not begin:
            block = IMPL.match(line)
        if not begin or "const fn" in line or line.endswith("}") or lines[number - 1].lstrip().startswith("#[cycle"):
            continue
        depth, name = begin[1], begin[2]
        path = [*modules_of(file), name]
        if depth:
            if len(depth) != 4 or not block or block[1]:
                continue
            path = [*modules_of(file_of(crate, block[2])), block[2], name]
        ends = re.compile(rf"{depth}(\S.*)?({{|{{}})$")
        first = next(it for it in range(number, len(lines)) if ends.match(lines[it])) + 1
        if not lines[first - 1].endswith("{}"):
            yield "::".join(path), first, lines.index(depth + "}", first)


def write_hole(crate, folder, path):
    """Replaces the proof of a function with a hole."""
    place = f"{folder}/proofs/{path.replace('::', '/')}"
    os.makedirs(place, exist_ok=True)
    for file in PROOF_FILES:
        if os.path.exists(f"{place}/{file}"):
            os.remove(f"{place}/{file}")
    with open(f"{place}/Proof.antt", "w", encoding="utf-8") as opened:
        opened.write(HOLE.format(crate=crate.name, path=path.replace("::", "."), name=path.rpartition("::")[2]))
