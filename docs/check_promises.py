#!/usr/bin/env python3
"""Says for each row of docs/PROMISES.md whether what it names is in the sources; exit 1 where something isn't.

Of a section `## CRATE`, for each row of its table:

- in the second column the names between backquotes are functions of the crate and clauses (`ensures NAME`) of these
  functions; a `;` begins other functions, and 'the same' means those named last. `Type::name` is a function of a type;
- names in brackets, and all in the first column that are written as definitions are (`IsServed`, `duty_in`), are
  definitions, types or cases of the crate; `of CRATE` behind a name says of which other crate;
- a row that is proved names a function, a type or a module of proofs/; a row that is tested names a crate with tests.

No sentence has more than forty words.
"""
import re
import sys
from functools import lru_cache
from pathlib import Path

TOP = Path(__file__).resolve().parent.parent
PAGE = TOP / "docs" / "PROMISES.md"
FUNCTION = re.compile(r"\s*(?:pub(?:\([^)]*\))? )?(?:unsafe )?fn (\w+)")
CLAUSE = re.compile(r"\s*ensures (\w+)\*? ?\{")
DEFINED = re.compile(r"\s*(?:pub record|pub data|abbrev pub|unfoldable pub|pub) ([\w'-]+)")
TYPE = re.compile(r"\s*(?:pub(?:\([^)]*\))? )?(?:struct|enum|trait|type|const|static) (\w+)")
WORD = re.compile(r"\w+")


class Crate:
    def __init__(self, name):
        self.folder = TOP / "crates" / name
        self.functions = {}
        self.definitions = set()
        self.words = set()
        for file in self.folder.glob("src/**/*.rt"):
            self.read_source(file.read_text().split("\n"))
        for file in self.folder.glob("specs/**/*.antt"):
            for line in file.read_text().split("\n"):
                if match := DEFINED.match(line):
                    self.definitions.add(match.group(1))
                self.words.update(WORD.findall(line.split("--")[0]))
        self.modules = {file.stem for file in self.folder.glob("proofs/*.antt")}

    def read_source(self, lines):
        clauses = set()
        for line in lines:
            if match := FUNCTION.match(line):
                clauses = self.functions.setdefault(match.group(1), set())
            elif match := CLAUSE.match(line):
                clauses.add(match.group(1))
            elif match := TYPE.match(line):
                self.definitions.add(match.group(1))
            if not line.strip().startswith("//"):
                self.words.update(WORD.findall(line))

    def has(self, name):
        return name in self.definitions or name in self.functions or name in self.modules


@lru_cache(maxsize=None)
def crate(name):
    return Crate(name) if (TOP / "crates" / name / "src").is_dir() else None


def names_in(cell, home):
    """Each name between backquotes, with whether it stands in brackets and the crate that it is of."""
    depth, of = 0, home
    for match in re.finditer(r"[()]|`([^`]*)`(?: of `?(\w+)`?)?", cell):
        if match.group(0) in "()":
            depth += 1 if match.group(0) == "(" else -1
            of = home
        else:
            other = crate(match.group(2)) if match.group(2) else None
            of = other or (of if depth else home)
            yield match.group(1), depth > 0, of


def is_definition(name):
    return re.fullmatch(r"[A-Z]\w*[a-z]\w*|[a-z]\w*_\w+", name) is not None


def check_functions(cell, home, last, say):
    """The second column of a row that is proved; answers the functions that it named last."""
    found = False
    for group in cell.split(";"):
        functions = last if "the same" in group else []
        for name, inner, of in names_in(group, home):
            short = name.split("::")[-1]
            named = [clauses for _, clauses in functions]
            if inner:
                if not (of.has(name) or any(name in clauses for clauses in named)):
                    say(f"there is no {name}")
            elif short in of.functions and (short, of.functions[short]) not in functions:
                functions = functions + [(short, of.functions[short])]
            elif any(short in clauses for clauses in named):
                continue
            elif of.has(short):
                found = True
            else:
                say(f"{name} is no function, and no clause of {', '.join(n for n, _ in functions) or 'one'}")
        found = found or bool(functions) or "proofs/" in group
        last = functions or last
    if not found:
        say("it names no function")
    return last


def check_row(row, home, last, say):
    promise, where, how = row
    for sentence in re.split(r"(?<=[.])\s", promise):
        if len(sentence.split()) > 40:
            say("a sentence has more than forty words")
    for name, _, of in names_in(promise, home):
        if is_definition(name) and not (of.has(name) or name in of.words):
            say(f"there is no {name}")
    if how == "proved":
        return check_functions(where, home, last, say)
    if how not in ("tested", "neither"):
        say(f"'{how}' is none of proved, tested, neither")
    for name in re.findall(r"\b\w+_tests\b", where):
        if crate(name) is None:
            say(f"there is no crate {name}")
    return last


def main():
    section, home, last = None, None, []
    rows = wrong = 0
    for number, line in enumerate(PAGE.read_text().split("\n"), 1):
        def say(what):
            nonlocal wrong
            wrong += 1
            print(f"PROMISES.md:{number}: {section}: {what}")

        if line.startswith("## "):
            section, last = line[3:].strip(), []
            home = crate(section)
        elif line.startswith("| ") and not re.match(r"\| (promise|-)", line):
            cells = [cell.strip() for cell in line.strip().strip("|").split(" | ")]
            rows += 1
            if home is None or len(cells) != 3:
                say("no section of a crate, or not three columns")
            else:
                last = check_row(cells, home, last, say)
        elif line and not line.startswith(("|", "#")):
            for sentence in re.split(r"(?<=[.])\s", line):
                if len(sentence.split()) > 40:
                    say("a sentence has more than forty words")
    print(f"PROMISES.md: {rows} rows, {wrong} wrong")
    return 1 if wrong or not rows else 0


if __name__ == "__main__":
    sys.exit(main())
