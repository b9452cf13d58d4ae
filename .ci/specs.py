"""The definitions of crates/*/specs: what each file defines, and which definitions each of them names.

`trust.py`, `map.py` and `cases.py` stand on it. It reads names, and proves nothing. A variable isn't taken for a definition of
the same name, where its own definition binds it by `(NAME : ..)` or on the left of `=`.
"""

import re
from itertools import takewhile
from pathlib import Path

ROOT = Path(__file__).resolve().parent.parent
CRATES = ROOT / "crates"
NAME = r"[^\W\d][\w'\-]*"
WORDS = re.compile(rf"{NAME}(?:\.{NAME})*")
HEAD = re.compile(rf"((?:abbrev|unfoldable|opaque|pub|record|data) )*({NAME})")
BOUND = re.compile(r"[({]([^(){}:=]+) : ")
CONSTRUCTOR = re.compile(r"\s+([A-Z][\w']*) :")
TYPE = r"^(?:pub(?:\([a-z ]+\))? )?(?:(trait) {0}\b.*?^}}|(?:struct|enum) {0}\b.*?(?:;$|^}}|}}$))"
IMPORT = re.compile(rf"^(?:pub |ghost )?use Rattle\.([\w.]+?)(?:\.\{{([^}}]*)\}})?(?: as ({NAME}))?;?$", re.M)


class Definition:
    """A name with its lines, comments left out, and the words in them."""

    def __init__(self, path, name):
        self.path, self.name = path, name
        self.lines, self.words = [], set()

    def add(self, line):
        self.lines.append(line)
        self.words.update(WORDS.findall(line.split(" -- ")[0]))

    def uses(self):
        """The words of its lines but for its variables."""
        bound = set()
        for line in self.lines:
            for names in BOUND.findall(line):
                bound.update(names.split())
            if line.lstrip().startswith(self.name + " ") and " = " in line:
                bound.update(word for word in WORDS.findall(line.split(" = ")[0]) if word[0].islower())
        return sorted(self.words - bound - {self.name})


def imports_of(text):
    """The names that a file takes from modules: those by name, as name -> (module, name there), and modules with another name."""
    names, modules = {}, {}
    for module, listed, alias in IMPORT.findall(text):
        for one in listed.split(","):
            there, _, here = one.strip().partition(" as ")
            names[here or there] = (module, there)
        if alias:
            modules[alias] = module
    return names, modules


class SpecFile:
    """A file of definitions, with what it imports; `owners` says of which definition a constructor is."""

    def __init__(self, path):
        self.path = path
        self.text = path.read_text()
        self.names, self.modules = imports_of(self.text)
        self.definitions, self.owners = {}, {}
        self.read()

    def read(self):
        """Each line belongs to the definition that the last line at the margin names. Behind `module` the margin is two wider."""
        now, modules = None, [(0, set())]
        for line in self.text.split("\n"):
            bare = line.lstrip()
            if not bare or bare.startswith("--") or line.startswith(("use ", "pub use ", "pub mod ")):
                continue
            indent = len(line) - len(bare)
            while indent < modules[-1][0]:
                modules.pop()
            if bare.startswith("module "):
                now = None
                modules.append((indent + 2, set(WORDS.findall(line)) | modules[-1][1]))
                continue
            head = HEAD.match(bare)
            if head and indent == modules[-1][0]:
                now = self.definitions.setdefault(head.group(2), Definition(self.path, head.group(2)))
                now.words |= modules[-1][1]
            if now:
                now.add(line)
                made = CONSTRUCTOR.match(line)
                if made and re.search(r"\bdata\b", now.lines[0]):
                    self.owners[made.group(1)] = now.name

    def first_comment(self):
        """The comment that the file begins with, as one text."""
        return " ".join(line[2:].strip() for line in takewhile(lambda line: line.startswith("--"), self.text.split("\n")))


class Specs:
    """All files, read when they are asked for."""

    def __init__(self):
        self.files, self.types = {}, {}

    def file(self, path):
        if path not in self.files:
            self.files[path] = SpecFile(path)
        return self.files[path]

    def type_of_code(self, module):
        """The struct or enum that `specs.declared` shows, by its lines in src/, or the ghosts of a trait. What it names isn't followed."""
        crate, way = module.split(".specs.declared.")
        *folders, kind = way.removesuffix(".TheVariants").split(".")
        path = CRATES / crate / "src" / ("/".join(folders) + ".rt" if folders else "lib.rt")
        if (path, kind) not in self.types:
            one = Definition(path, kind)
            text = path.read_text() if path.exists() else ""
            found = re.search(TYPE.format(kind), text, re.M | re.S)
            lines = found.group(0).split("\n") if found else []
            one.lines = [line for line in lines if line.strip() and "//" not in line and ("ghost " in line or not found.group(1))]
            self.types[path, kind] = one
        return self.types[path, kind]

    def find(self, module, name):
        """A definition by its module and name; none where it isn't this repository's."""
        if ".specs.declared." in module:
            return self.type_of_code(module) if (CRATES / module.split(".")[0]).exists() else None
        crate, *way = module.split(".")
        path = CRATES / crate / ("/".join(way) + ".antt")
        return self.here(self.file(path), name) if path.exists() else None

    def here(self, file, word):
        """The definition that a word in a file names."""
        first, _, rest = word.partition(".")
        if first in file.modules and rest:
            return self.find(file.modules[first], rest.split(".")[0])
        name = file.owners.get(first, first)
        if name in file.definitions:
            return file.definitions[name]
        return self.find(*file.names[first]) if first in file.names else None

    def below(self, starts):
        """All definitions that these rest on, themselves with them, in the order in which they are met."""
        met, left = {}, list(starts)
        while left:
            one = left.pop(0)
            if one is None or (one.path, one.name) in met:
                continue
            met[one.path, one.name] = one
            if one.path.suffix == ".antt":
                left += [self.here(self.file(one.path), word) for word in one.uses()]
        return list(met.values())
