#!/usr/bin/env python3
"""Compares each definition that docs/THEOREM.md, docs/HEADLINE.md and README.md quote with the file named above it.

    docs/check_theorem.py            says what differs; exit 1 where something does, or where nothing is quoted
    docs/check_theorem.py --write    puts each definition as it stands now in the place of its quote

A quote is a line with the file's path between backquotes, an empty line, and a fence. Its first line names the
definition, so a new quote may be written as that line alone (`pub record Ran`) and filled in by --write.

HEADLINE.md lists each definition that `TakesEffect` rests on too, behind its last heading: below the line of a file its
names, one a line (``- `held`: ..``). They are compared with what tools/statement-closure finds, and docs/STATEMENT, the
list of the files that the whole statement cites, with what that makes of the sources now (--write makes it anew).
"""
import importlib.machinery
import importlib.util
import re
import sys
from pathlib import Path

TOP = Path(__file__).resolve().parent.parent
PAGES = ("docs/THEOREM.md", "docs/HEADLINE.md", "README.md")
LISTED = ("docs/HEADLINE.md", "run_effect/specs/Effect:TakesEffect")
FENCE = "```"
HEAD = re.compile(r"\s*(pub fn|pub record|pub data|abbrev pub|unfoldable pub|pub) (\w[\w'-]*)")


def indent(line):
    return len(line) - len(line.lstrip())


def head_of_function(lines, start):
    """The lines of a function before its body."""
    end = start
    while lines[end].strip() != "{" and not lines[end].strip().startswith("{}"):
        end += 1
    return lines[start:end]


def definition(lines, start, name):
    """The lines of a definition: those further in, and further clauses of the same name."""
    margin = indent(lines[start])
    end = start + 1
    while end < len(lines) and lines[end].strip():
        if indent(lines[end]) <= margin and not re.match(re.escape(name) + r"\s", lines[end].strip()):
            break
        end += 1
    return [line[margin:] for line in lines[start:end]]


def found(path, kind, name):
    """The definition of that name in the file, or why there is none."""
    file = TOP / path
    if not file.is_file():
        return None, "there is no such file"
    lines = file.read_text().split("\n")
    starts = [i for i, line in enumerate(lines) if (m := HEAD.match(line)) and m.groups() == (kind, name)]
    if len(starts) != 1:
        return None, f"{len(starts)} definitions of that name"
    if kind == "pub fn":
        return head_of_function(lines, starts[0]), None
    return definition(lines, starts[0], name), None


def quotes(text):
    """Of each quote: its path, and where its lines begin and end in the page. Each fence is a quote."""
    i = 0
    while i < len(text):
        if text[i].startswith(FENCE):
            end = text.index(FENCE, i + 1)
            path = re.fullmatch(r"`(crates/\S+)`", text[i - 2]) if i >= 2 and not text[i - 1] else None
            yield (path.group(1) if path else None), i + 1, end
            i = end
        i += 1


def check_quotes(page, write):
    """How many definitions a page quotes, and how many of them are wrong."""
    path_of_page = TOP / page
    text = path_of_page.read_text().split("\n")
    wrong = count = 0
    written, kept = [], 0
    for path, start, end in quotes(text):
        head = HEAD.match(text[start])
        if path is None or head is None:
            print(f"{page}, line {start}: a fence that quotes no definition of a file")
            wrong += 1
            continue
        count += 1
        now, why = found(path, *head.groups())
        if now is None:
            print(f"{path}: {head.group(2)}: {why}")
            wrong += 1
        elif now != text[start:end]:
            print(f"{path}: {head.group(2)} differs")
            wrong += 1
            written += text[kept:start] + now
            kept = end
    if write:
        path_of_page.write_text("\n".join(written + text[kept:]))
    print(f"{page}: {count} definitions quoted, {wrong} wrong")
    return count, wrong


def listed(page):
    """The names behind the last heading of a page, each with the file in whose list it stands."""
    path, names = None, []
    for line in (TOP / page).read_text().rsplit("\n## ", 1)[1].split("\n"):
        if match := re.fullmatch(r"`(crates/\S+)`", line):
            path = match[1]
        elif match := re.match(r"- `([^`]+)`: ", line):
            names.append((path, match[1]))
    return names


def closure_tool():
    """tools/statement-closure as a module."""
    loader = importlib.machinery.SourceFileLoader("closure", str(TOP / "tools" / "statement-closure"))
    module = importlib.util.module_from_spec(importlib.util.spec_from_loader("closure", loader))
    sys.dont_write_bytecode = True
    loader.exec_module(module)
    return module


def rests_on(root):
    """The definitions that one rests on, each with its file."""
    module = closure_tool()
    ending = {"specs": ".antt", "src": ".rt"}
    return [(f"crates/{crate}/{kind}/{where.replace('.', '/')}{ending[kind]}", name) for crate, kind, where, name in module.closure(root)]


def check_list(page, root):
    """How many names a page lists, and how many of them are wrong, twice there, or lacking."""
    there, due = listed(page), rests_on(root)
    wrong = [f"{page}: {name} of {path} isn't cited" for path, name in there if (path, name) not in due]
    wrong += [f"{page}: {name} of {path} stands there {there.count((path, name))} times" for path, name in due if there.count((path, name)) != 1]
    print("\n".join(wrong + [f"{page}: {len(there)} names listed, {len(wrong)} wrong"]))
    return len(there), len(wrong)


def check_files(write):
    """How many files docs/STATEMENT lists, and how many of its lines aren't what the sources make."""
    page, due = TOP / "docs" / "STATEMENT", closure_tool().files_text()
    if write:
        page.write_text(due)
    there, due = set(page.read_text().splitlines()), set(due.splitlines())
    wrong = [f"docs/STATEMENT: no longer so: {line}" for line in sorted(there - due)]
    wrong += [f"docs/STATEMENT: lacks {line}" for line in sorted(due - there)]
    files = [line for line in there if line.startswith("crates/")]
    print("\n".join(wrong + [f"docs/STATEMENT: {len(files)} files listed, {len(wrong)} wrong"]))
    return len(files), len(wrong)


def main():
    write = "--write" in sys.argv[1:]
    checks = [check_quotes(page, write) for page in PAGES] + [check_list(*LISTED), check_files(write)]
    return 1 if any(wrong or not count for count, wrong in checks) else 0


if __name__ == "__main__":
    sys.exit(main())
