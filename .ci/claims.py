#!/usr/bin/env python3
"""Checks what the documents claim against the contracts of the code; `.ci/run` runs it.

Each table in README.md and docs/*.md with the columns `Call` and `Clause` is read. A call of a row has to exist, and each clause
of the row has to be one of every call of that row (a row without a clause stands for a contract without names). In one of docs/proved*.md a
section `## NAME` stands for each crate of crates.txt, and its tables have to name each public call of that crate with all its
clauses. A name `CLAUSE.FIELD` is a field of a record that the clause says, or that a definition it says is made of.
Then each clause is changed by a letter in turn, which has to be refused: so the check itself is checked.

Lines of code in README.md that stand behind a line `From FILE:` have to stand in that file, in this order and without a gap. Where a part
of it names a script of examples/, the numbered lines that it shows are lines of that script, and `N ..` in the first cell of a row one
of its report.
"""

import re
import sys
from pathlib import Path

ROOT = Path(__file__).resolve().parent.parent
NAMES = re.compile(r"`([^`]+)`")
DEFINED = re.compile(r"\b[A-Z]\w*")


class Call:
    """A function of a crate: its owner (a type or trait, or none), its name, and the names of its clauses."""

    def __init__(self, crate, file, owner, name, public, of_trait):
        self.crate = crate
        self.file = file
        self.owner = owner
        self.name = name
        self.public = public
        self.of_trait = of_trait
        self.clauses = []
        self.said = {}

    def full(self):
        return f"{self.owner}::{self.name}" if self.owner else self.name


def source_files(crate):
    for file in sorted((ROOT / "crates" / crate / "src").rglob("*.rt")):
        if not file.name.endswith("tests.rt"):
            yield file


def owner_of(line):
    """The type or trait that this line begins the body of, whether it is a trait, and the trait that is implemented."""
    head = re.sub(r"^(pub(\([a-z ]+\))? )?", "", line)
    trait = re.match(r"trait (\w+)", head)
    if trait:
        return trait.group(1), True, None
    block = re.match(r"impl(<.*?>)? (?:([\w:]+)(?:<[^{]*?>)? for )?(\w+)", head)
    if block:
        return block.group(3), False, block.group(2)
    return None, False, None


def words_of_clause(lines):
    """The definitions that the clause which these lines begin with names."""
    depth, text = 0, ""
    for line in lines:
        text += line + "\n"
        depth += line.count("{") - line.count("}")
        if depth == 0:
            break
    return set(DEFINED.findall(text))


def definitions_of(crate):
    """The definitions of a crate: the fields of each, where it is a record, and the definitions that it names."""
    found = {}
    for file in sorted((ROOT / "crates" / crate / "specs").rglob("*.antt")):
        fields, words = set(), set()
        for line in file.read_text().split("\n"):
            head = re.match(r"(?:pub )?(?:record|data|abbrev) (?:pub )?(\w+)", line)
            if head:
                fields, words = found.setdefault(head.group(1), (set(), set()))
            if not line.startswith(("use ", "--")):
                fields.update(re.findall(r"^  pub (\w+) :", line))
                words.update(DEFINED.findall(line))
    return found


def calls_of(crate):
    """All functions of a crate outside its tests, and the laws that its traits state."""
    calls, laws = [], {}
    for file in source_files(crate):
        owner, in_trait, of_trait, call = None, False, None, None
        lines = file.read_text().split("\n")
        for number, line in enumerate(lines):
            if line.startswith("mod tests {"):
                break
            if re.match(r"\S", line) and not line.startswith(("#", "/")):
                owner, in_trait, of_trait = owner_of(line)
            found = re.match(r"(    )?(pub(?:\([a-z ]+\))? )?(?:const |extern \"C\" )?fn (\w+)", line)
            if found:
                call = Call(crate, file, owner if found.group(1) else None, found.group(3),
                            found.group(2) == "pub " or in_trait, of_trait if found.group(1) else None)
                calls.append(call)
            clause = re.match(r"\s+ensures\*? (\w+) \{", line)
            if clause and call:
                call.clauses.append(clause.group(1))
                call.said[clause.group(1)] = words_of_clause(lines[number:])
            law = re.match(r"    ghost (\w+): \{", line)
            if law and in_trait:
                laws.setdefault(owner, []).append(law.group(1))
    return calls, laws


def exported_names(crate):
    """The names that a library shows: those of its `pub use`, and its public modules."""
    root = ROOT / "crates" / crate / "src" / "lib.rt"
    if not root.exists():
        return None
    text = root.read_text()
    names = set()
    for many, one in re.findall(r"^pub use [\w:]+::(?:\{([^}]*)\}|(\w+));", text, re.M):
        names.update(re.findall(r"\w+", many or one))
    return names, set(re.findall(r"^pub mod (\w+);", text, re.M))


class Code:
    def __init__(self):
        lines = (ROOT / "crates.txt").read_text().splitlines()
        self.crates = [line.split(":")[0].split()[0] for line in lines if line.strip() and not line.startswith("#")]
        self.calls, self.laws, self.definitions = [], {}, {}
        for crate in self.crates:
            calls, laws = calls_of(crate)
            self.calls += calls
            self.laws.update(laws)
            self.definitions[crate] = definitions_of(crate)

    def fields(self, call):
        """The fields of what each clause of a call says, as CLAUSE.FIELD."""
        found = []
        for clause, words in call.said.items():
            left, seen = list(words), set()
            while left:
                word = left.pop()
                if word in seen or word not in self.definitions[call.crate]:
                    continue
                seen.add(word)
                fields, more = self.definitions[call.crate][word]
                found += [f"{clause}.{field}" for field in fields]
                left += more
        return found

    def clauses(self, call):
        """The clauses of a call, with those of the trait's where it implements one."""
        own = list(call.clauses)
        if call.of_trait:
            for other in self.calls:
                if other.owner == call.of_trait and other.name == call.name:
                    own += other.clauses
        return own

    def named(self, crate, name):
        """The clauses of each call, or trait, of this name; none where there is none."""
        found = [self.clauses(call) + self.fields(call) for call in self.calls
                 if call.full() == name and crate in (None, call.crate)]
        if not found and "::" not in name:
            of_trait = [c for call in self.calls if call.owner == name and crate in (None, call.crate) for c in call.clauses]
            laws = self.laws.get(name, [])
            methods = [c for call in self.calls if call.of_trait and call.owner == name for c in self.clauses(call)]
            if of_trait or laws or methods or any(call.owner == name for call in self.calls):
                found = [of_trait + laws + methods]
        return found

    def public_calls(self, crate):
        shown = exported_names(crate)
        if shown is None:
            return []
        names, modules = shown
        return [call for call in self.calls if call.crate == crate and call.public and not call.of_trait
                and ((call.owner or call.name) in names or (not call.owner and call.file.stem in modules))]


def tables(text):
    """Rows of tables with the columns Call and Clause: the section's heading, the line's number, both cells."""
    section, columns, last = None, None, ""
    for number, line in enumerate(text.split("\n"), 1):
        if line.startswith("## "):
            section = line[3:].strip()
        if not line.startswith("|"):
            columns = None
            continue
        cells = [cell.strip() for cell in line.strip().strip("|").split("|")]
        if "Call" in cells and "Clause" in cells:
            columns, last = (cells.index("Call"), cells.index("Clause")), ""
        elif columns and not set(line) <= set("|- "):
            last = cells[columns[0]] or last
            yield section, number, last, cells[columns[1]]


def names_in(cell):
    """The names of calls in a cell; one without an owner has that of the name before it."""
    owner, names = None, []
    for name in NAMES.findall(cell):
        parts = name.split("::")
        crate = parts.pop(0) if len(parts) > 1 and parts[0].islower() else None
        if len(parts) == 2:
            owner = parts[0]
        elif owner and parts[0][0].islower() and not crate:
            parts = [owner, parts[0]]
        else:
            owner = None
        names.append((crate, "::".join(parts)))
    return names


def check_row(code, crate, cell, clauses):
    """What is wrong with a row."""
    wrong = []
    for own_crate, name in names_in(cell):
        found = code.named(own_crate or crate, name)
        if not found:
            wrong.append(f"there is no call `{name}`" + (f" in {own_crate or crate}" if own_crate or crate else ""))
        for clause in clauses:
            if found and not any(clause in some for some in found):
                wrong.append(f"`{clause}` is no clause of `{name}`")
    return wrong


def check_tables(code):
    wrong, rows = [], 0
    for file in [ROOT / "README.md", *sorted((ROOT / "docs").glob("*.md"))]:
        proved = file.name.startswith("proved")
        for section, number, cell, clause in tables(file.read_text()):
            crate = section if section in code.crates else None
            clauses = NAMES.findall(clause)
            rows += 1
            at = f"{file.relative_to(ROOT)}:{number}"
            wrong += [f"{at}: {w}" for w in check_row(code, crate, cell, clauses)]
            if proved and not names_in(cell):
                wrong.append(f"{at}: a row without a call")
            for one in clauses:
                if not check_row(code, crate, cell, [one + "x"]):
                    wrong.append(f"{at}: `{one}x` passes for a clause")
    return wrong, rows


def check_proved(code):
    """That docs/proved*.md have each crate, and each public call of it with all its clauses; a row of a trait counts for its methods.
    Libraries without public calls, as crates of tests are, stand in the heading of a section, one or several."""
    told = {}
    text = "\n".join(file.read_text() for file in sorted((ROOT / "docs").glob("proved*.md")))
    sections = {name for line in text.split("\n") if line.startswith("## ") for name in line[3:].strip().split(", ")}
    for section, _, cell, clause in tables(text):
        for _, name in names_in(cell):
            told.setdefault(section, {}).setdefault(name, set()).update(NAMES.findall(clause))
    wrong = []
    for crate in code.crates:
        if crate not in told and crate in sections and exported_names(crate) and not code.public_calls(crate):
            continue
        if crate not in told:
            wrong.append(f"docs/proved*.md: crate {crate} isn't there")
            continue
        for call in code.public_calls(crate):
            if call.full() not in told[crate]:
                wrong.append(f"docs/proved*.md: the public call `{call.full()}` of {crate} isn't named")
                continue
            has = told[crate][call.full()] | told[crate].get(call.owner, set())
            for clause in code.clauses(call):
                if clause not in has:
                    wrong.append(f"docs/proved*.md: the clause `{clause}` of `{call.full()}` of {crate} isn't named")
    return wrong


def check_quotes():
    """That code in README.md is the code of the files that it is said to be from."""
    wrong, quotes = [], 0
    parts = re.split(r"^From `([^`]+)`.*:\n", (ROOT / "README.md").read_text(), flags=re.M)
    for file, text in zip(parts[1::2], parts[2::2]):
        block = re.match(r"\n*((?:    .*\n|\n)+)", text)
        quotes += 1
        lines = [line[4:] for line in (block.group(1) if block else "").rstrip().split("\n")]
        path = ROOT / file
        source = path.read_text().split("\n") if path.exists() else []
        at = range(len(source) - len(lines) + 1)
        if not block or not any(source[i:i + len(lines)] == lines for i in at):
            wrong.append(f"README.md: the code from {file} doesn't stand there")
    return wrong, quotes


def check_examples():
    """That README.md shows scripts of examples/ and their reports as they are."""
    wrong, shown = [], 0
    for part in re.split(r"^## ", (ROOT / "README.md").read_text(), flags=re.M):
        name = re.search(r"^`(examples/[\w-]+\.script)`", part, re.M)
        if not name:
            continue
        script = (ROOT / name.group(1)).read_text().split("\n")
        report = (ROOT / (name.group(1) + ".stdout")).read_text().split("\n")
        lines = re.findall(r"^    (\d+)  (.*)$", part, re.M)
        told = [line for cell in re.findall(r"^\| (.*?) \|", part, re.M) for line in NAMES.findall(cell)]
        wrong += [f"README.md: line {number} of {name.group(1)} isn't `{line}`" for number, line in lines
                  if script[int(number) - 1:int(number)] != [line]]
        wrong += [f"README.md: `{line}` is no line of the report of {name.group(1)}" for line in told if line not in report]
        shown += len(lines) + len(told)
    return wrong, shown


def main():
    code = Code()
    wrong, rows = check_tables(code)
    wrong += check_proved(code)
    quoted, quotes = check_quotes()
    shown_wrong, shown = check_examples()
    wrong += quoted + shown_wrong
    print("\n".join(wrong + [f"claims: {rows} rows, {quotes} quotes, {shown} lines of examples, {len(wrong)} wrong"]))
    sys.exit(1 if wrong else 0)


main()
