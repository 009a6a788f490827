"""The definitions in the folders `specs`, each with its place, its text, and the definitions that it names.

A definition begins at the left margin with its name, after words such as `abbrev` and `pub`. The comment directly above
it, its clauses, and the indented lines below them belong to it. Imports determine the definition that a name refers to.
"""
import os
import re
from collections import deque

from shared import TOP

COMMENT = "--"
HEADER = re.compile(r"^((?:abbrev |unfoldable |pub |record |data )*)([^\s(){}:]+)(.*)$")
NO_DEFINITION = re.compile(r"(?:pub )?(?:use|mod) |infix|open ")
USE = re.compile(r"^\s*(?:pub |ghost )*use ([^\s{;]+?)(?:\.\{([^}]*)\})?(?: as (\S+?))?;?\s*$", re.MULTILINE)
TOKEN = re.compile(r"\|\||⊎|[^\s(){}\[\];,λ→×⊎↦|@]+")
# Words of the language, and three constructors that need no import.
WORDS = set("""let in if then else do elim record data where open use as cond λ Type abbrev pub unfoldable unfolding
module infixl infixr infix rw cc omega absurd tt Unit ⊥ refl""".split())
# Patterns of the kit that begin with a small letter.
SMALL_CONSTRUCTORS = {"no_items", "item", "no_members", "member", "zero", "suc"}


class Definition:
    """A definition. It may also stand for a contract, because a contract names definitions too."""

    def __init__(self, module, path, name, kind, line):
        self.module, self.path, self.name, self.kind, self.line = module, path, name, kind, line
        self.comment, self.lines = [], []
        # The keys of the definitions, the names of the kit, and the types of Rust that it names.
        self.names, self.kit, self.types = set(), set(), set()

    @property
    def key(self):
        return f"{self.module}.{self.name}"

    @property
    def text(self):
        return "\n".join(self.comment + self.lines)

    @property
    def code_count(self):
        """The number of lines that are neither blank nor comments."""
        return sum(1 for line in self.lines if line.strip() and not line.strip().startswith(COMMENT))

    @property
    def line_count(self):
        """The number of lines that are not blank, including comments."""
        return len(self.comment) + sum(1 for line in self.lines if line.strip())


def without_comment(line):
    """A line without its comment, and without the text inside quotes."""
    line = re.sub(r'"(?:[^"\\]|\\.)*"', '""', line)
    return re.sub(r"(?:(?<=[ (])|^)--(?:[ -].*)?$|//.*$", "", line)


def imports(text):
    """The names that a text imports, each with its module and its name in that module, and the names of modules."""
    names, modules = {}, {}
    for path, items, alias in USE.findall(text):
        if not items:
            modules[alias or path.split(".")[-1]] = path
        for item in filter(None, map(str.strip, items.split(","))):
            old, _, new = item.partition(" as ")
            if old == "self":
                modules[path.split(".")[-1]] = path
            names[(new or old).strip()] = (path, old.strip())
    return names, modules


def bound_names(text):
    """The names that a text binds in types, by λ, by let, and by an arrow in a do block."""
    found = set()
    for names in re.findall(r"[({]([^(){}:]+) : ", text):
        found.update(names.split())
    for names in re.findall(r"λ ([^.]*)\.", text):
        found.update(re.findall(r"[^\s():]+", names))
    return found.union(re.findall(r"\blet (\S+)", text), re.findall(r"(\S+) ←", text))


class SpecFile:
    """A file of definitions."""

    def __init__(self, path, module):
        self.path, self.module = path, module
        with open(os.path.join(TOP, path), encoding="utf-8") as file:
            self.text = file.read()
        self.names, self.modules = imports(self.text)
        self.handed_on = imports("\n".join(line for line in self.text.split("\n") if line.startswith("pub use ")))[0]
        self.definitions = {}
        self.read_definitions()
        self.constructors = {name: found for found in self.definitions.values() for name in constructors_of(found)}

    def read_definitions(self):
        comment, current = [], None
        for number, line in enumerate(self.text.split("\n"), 1):
            if not line.strip():
                comment = []
            elif line.startswith(COMMENT):
                comment.append(line)
            elif NO_DEFINITION.match(line):
                comment = comment if line.startswith("infix") else []
            elif line[0] in " \t})]" or line.startswith("unfolding "):
                if current:
                    current.lines.append(line)
            elif current and is_clause_of(current, line):
                current.lines.append(line)
                comment = []
            else:
                words, name, _ = HEADER.match(line).groups()
                kind = next((word for word in ("record", "data", "abbrev", "unfoldable") if word in words.split()), "plain")
                current = Definition(self.module, self.path, name, kind, number)
                current.comment, current.lines, comment = comment, [line], []
                self.definitions[name] = current


def is_clause_of(definition, line):
    """Whether a line at the left margin is another clause of a definition. The definition may define an operator."""
    words, name, _ = HEADER.match(line).groups()
    if words.split():
        return False
    parts = definition.name.replace("◌", " ").split()
    return name == definition.name or "◌" in definition.name and bool(parts) and all(part in line.split() for part in parts)


def constructors_of(definition):
    if definition.kind != "data":
        return []
    return [found.group(1) for line in definition.lines[1:] if (found := re.match(r"\s+(?:pub )?([^\s:]+) :", line))]


class Specs:
    """All definitions of the repository, each with the definitions that it names."""

    def __init__(self):
        self.files, self.views = {}, {}
        crates = os.path.join(TOP, "crates")
        self.crates = sorted(name for name in os.listdir(crates) if os.path.isdir(os.path.join(crates, name)))
        for crate in self.crates:
            for path in files_below(os.path.join("crates", crate, "specs"), ".antt"):
                if os.path.basename(path) != "Lib.antt":
                    below = os.path.relpath(path, os.path.join("crates", crate, "specs"))
                    module = f"Rattle.{crate}.specs.{below[:-len('.antt')].replace(os.sep, '.')}"
                    self.files[module] = SpecFile(path, module)
        for crate in self.crates:
            for path in files_below(os.path.join("crates", crate, "src"), ".rt"):
                self.read_views(crate, read(path))
        self.by_key = {found.key: found for file in self.files.values() for found in file.definitions.values()}
        for file in self.files.values():
            for found in file.definitions.values():
                NameReader(self, file, found).read()

    def read_views(self, crate, text):
        """Notes the definitions that contracts see in place of a crate's types: `ghost Value` in `impl Model for`."""
        for name, body in re.findall(r"impl(?:<[^>]*>)? Model for (\w+)[^{]*\{(.*?)^\}", text, re.DOTALL | re.MULTILINE):
            value = re.search(r"ghost Value = \{(.*?)\};", body, re.DOTALL)
            if value:
                names, modules = imports(text)
                own_names, own_modules = imports(body)
                found = [self.meaning(token, {**names, **own_names}, {**modules, **own_modules})
                         for token in TOKEN.findall(value.group(1))]
                self.views[crate, name] = [meaning for meaning in found if meaning]

    def look_up(self, module, name):
        """The meaning of a name in a module: a definition, a type of Rust, or a name of the kit."""
        file = self.files.get(module)
        if file:
            found = file.definitions.get(name) or file.constructors.get(name)
            if found:
                return "definition", found.key
            return self.look_up(*file.handed_on[name]) if name in file.handed_on else None
        declared = re.match(r"Rattle\.(\w+)\.specs\.declared\.(.*)$", module)
        if declared and declared.group(1) in self.crates:
            return "type", (declared.group(1), declared.group(2).split(".TheVariants")[0].split(".")[-1])
        return "kit", (module, name)

    def meaning(self, token, names, modules, file=None):
        head, _, rest = token.partition(".")
        if head in names:
            return self.look_up(*names[head])
        if rest and head in modules:
            return self.look_up(modules[head], rest.split(".")[0])
        if file and (head in file.definitions or head in file.constructors):
            return self.look_up(file.module, head)
        return None

    def note(self, definition, meaning):
        """Notes a meaning that a definition names."""
        kind, what = meaning or (None, None)
        if kind == "definition" and what != definition.key:
            definition.names.add(what)
        elif kind == "kit":
            definition.kit.add(what)
        elif kind == "type":
            definition.types.add(what)
            for view in self.views.get(what, []):
                self.note(definition, view)

    def contract(self, path, function=None, clauses=None):
        """A contract with all names in the clauses of a function in a file of code. None stands for all functions, or
        all clauses."""
        text = read(path)
        names, modules = imports(re.sub(r"ghost use [^;]*;", lambda use: use.group().replace("\n", " "), text))
        body = "\n".join(map(without_comment, text.split("\n")))
        found = Definition("contract", path, function or "all", "contract", 0)
        for name, rest in re.findall(r"\bfn (\w+)(.*?)(?=\n(?:pub|fn|#|///)|\Z)", body, re.DOTALL):
            if function in (None, name):
                for label, clause in clauses_in(rest):
                    if clauses is None or label in clauses:
                        self.note_all(found, clause, names, modules)
        return found

    def note_all(self, definition, text, names, modules):
        bound = bound_names(text)
        for token in TOKEN.findall(text):
            token = token.rstrip(".")
            if token.split(".")[0] not in bound:
                self.note(definition, self.meaning(token, names, modules))

    def reached(self, roots):
        """The definitions that the roots name, directly or through other definitions, by their keys."""
        found, waiting = {}, deque(key for root in roots for key in sorted(root.names))
        while waiting:
            key = waiting.popleft()
            if key not in found:
                found[key] = self.by_key[key]
                waiting.extend(sorted(found[key].names))
        return found


def clauses_in(text):
    """The clauses after the name of a function, each with its label or None."""
    for found in re.finditer(r"\b(?:ensures|requires)\s+(\w+)?\s*\{", text):
        end, depth = found.end(), 1
        while depth:
            depth += {"{": 1, "}": -1}.get(text[end], 0)
            end += 1
        yield found.group(1), text[found.end():end - 1]


class NameReader:
    """Reads the names in a definition, except the names that it binds. In a pattern, only constructors count."""

    def __init__(self, specs, file, definition):
        self.specs, self.file, self.definition = specs, file, definition
        operators = [name for name in [*file.names, *file.definitions] if "◌" in name and name.replace("◌", " ").split()]
        self.operators = {name.replace("◌", " ").split()[0]: name for name in operators}

    def meaning(self, token):
        return self.specs.meaning(token, self.file.names, self.file.modules, self.file)

    def read(self):
        lines = [without_comment(line) for line in self.definition.lines]
        if self.definition.kind in ("record", "data"):
            self.read_fields(lines)
        else:
            self.read_clauses(lines)

    def read_text(self, text, bound):
        if "←" in text and "◌>>=◌" in self.operators.values():
            self.specs.note(self.definition, self.meaning("◌>>=◌"))
        for token in TOKEN.findall(text):
            token = token.rstrip(".")
            if not token or token in WORDS:
                continue
            if token in self.operators:
                self.specs.note(self.definition, self.meaning(self.operators[token]))
            if token.split(".")[0] not in bound:
                self.specs.note(self.definition, self.meaning(token))

    def read_fields(self, lines):
        head, fields = [], []
        for line in lines:
            if re.match(r"  (?:pub )?[^\s(){}:]+ :(?: |$)", line) and (fields or " where" in " ".join(head)):
                fields.append(line)
            elif fields:
                fields[-1] += " " + line
            else:
                head.append(line)
        head = re.sub(r"^.*?\b(?:record|data)\s+\S+", "", " ".join(head))
        bound = bound_names(head)
        self.read_text(head, bound)
        for field in fields:
            name, _, kind = field.strip().removeprefix("pub ").partition(" :")
            self.read_text(kind, bound | bound_names(kind))
            if self.definition.kind == "record":
                bound.add(name)

    def read_clauses(self, lines):
        clauses = []
        for line in lines:
            if clauses and line[:1] in tuple(" \t})]"):
                clauses[-1] += " " + line
            else:
                clauses.append(line)
        kind = clauses[0].partition(" : ")[2] or clauses[0]
        self.read_text(kind, bound_names(kind))
        for clause in clauses[1:]:
            left, _, right = (clause + " ").partition(" = ")
            bound = self.read_pattern(left)
            self.read_text(right, bound | bound_names(right))

    def read_pattern(self, text):
        """Notes the constructors of a pattern. Returns the other names, which the pattern binds."""
        bound = set()
        for token in TOKEN.findall(text):
            head = token.rstrip(".").split(".")[0]
            if head == self.definition.name:
                continue
            meaning = self.meaning(token)
            if meaning and is_constructor(head, token, meaning, self.specs):
                self.specs.note(self.definition, meaning)
            else:
                bound.add(head)
        return bound


def is_constructor(head, token, meaning, specs):
    if head[:1].isupper() or "." in token or not head[:1].isalpha():
        return True
    kind, what = meaning
    return kind == "kit" and what[1] in SMALL_CONSTRUCTORS or kind == "definition" and specs.by_key[what].kind == "data"


def files_below(folder, ending):
    """The paths of the files with this ending in a folder, relative to the top of the repository."""
    found = []
    for path, folders, names in os.walk(os.path.join(TOP, folder)):
        folders.sort()
        found += [os.path.relpath(os.path.join(path, name), TOP) for name in sorted(names) if name.endswith(ending)]
    return found


def read(path):
    with open(os.path.join(TOP, path), encoding="utf-8") as file:
        return file.read()
