#!/usr/bin/env python3
"""Says whether crates.txt is in the order of the layers, and docs/ARCHITECTURE.md's drawing is true; exit 1 where not.

In crates.txt each library of the repository that a line names stands in a line above it. The drawing has each crate but
those of tests and `bench` once, and each stands on crates below it, or to its right in its row, alone. The table below it
has a row for each crate. The code of the crates above `eng_array` names the parts of the core by it alone, but for
what DOORS has; contracts and tests may name what they cite.
"""
import re
import sys
from pathlib import Path

TOP = Path(__file__).resolve().parent.parent
PARTS = ("state", "starts", "fails", "ends", "choice", "events", "parts", "clients", "plan", "log", "job")
DOORS = {("eng_crew", "job"), ("top_plan", "plan")}


def crates():
    """The libraries that each crate stands on, in the order of the file."""
    named = {}
    for line in (TOP / "crates.txt").read_text().split("\n"):
        if line.strip() and not line.startswith("#"):
            head, libraries = line.split(":", 1)
            named[head.split()[0]] = libraries.split()
    return named


def drawing(named):
    """The crates of the drawing, row by row from above: the first block of the page that is set off."""
    rows = []
    for line in (TOP / "docs" / "ARCHITECTURE.md").read_text().split("\n"):
        if line.startswith("    "):
            rows.append(line)
        elif rows and line.strip():
            break
    return [word for row in rows for word in row.split() if word in named]


def rows():
    """The crates of the table's rows."""
    table = (TOP / "docs" / "ARCHITECTURE.md").read_text().split("| crate | ")[1].split("\n\n")[0]
    return [line.split("`")[1] for line in table.split("\n") if line.startswith("| `")]


def trespasses(named):
    """The files that call a part of the core past its door."""
    own = {f"eng_{part}" for part in PARTS} | {"eng_array", "bench"}
    for crate in named:
        if crate not in own and not crate.endswith("_tests"):
            for path in sorted((TOP / "crates" / crate / "src").rglob("*.rt")):
                for part in re.findall(rf"^(?:pub )?use eng_({'|'.join(PARTS)})::", path.read_text(), re.M):
                    if (crate, part) not in DOORS:
                        yield f"{path.relative_to(TOP)}: uses eng_{part}, and not by eng_array"


def main():
    named = crates()
    drawn = drawing(named)
    wrong = []
    for name, order, where in (("crates.txt", list(reversed(named)), "above"), ("the drawing", drawn, "below")):
        place = {crate: i for i, crate in enumerate(order)}
        for crate in order:
            wrong += [
                f"{name}: {crate} stands on {library}, which isn't {where} it"
                for library in named[crate]
                if library in place and place[library] < place[crate]
            ]
    for crate in named:
        times = drawn.count(crate)
        if times != (0 if crate == "bench" or crate.endswith("_tests") else 1):
            wrong.append(f"the drawing: {crate} stands there {times} times")
    listed = rows()
    wrong += [f"the table: {crate} has {listed.count(crate)} rows" for crate in named if listed.count(crate) != 1]
    wrong += [f"the table: there is no {crate}" for crate in listed if crate not in named]
    wrong += trespasses(named)
    print("\n".join(wrong + [f"crates.txt and the drawing: {len(named)} crates, {len(wrong)} wrong"]))
    return 1 if wrong or not drawn else 0


if __name__ == "__main__":
    sys.exit(main())
