"""The table of docs/RULES.md, section 3: what each number says that a call returns."""
import os
import re

TOP = os.path.dirname(os.path.dirname(os.path.abspath(__file__)))
COLUMNS = ["number", "condition", "place", "lent room afterwards", "in C"]


def told():
    """What the program steps says of each number from 0 on, nothing of those that it never gives: the last table of section 10."""
    with open(os.path.join(TOP, "docs/RULES.md")) as f:
        section = f.read().split("\n## ")[10]
    assert section.startswith("10. "), section[:20]
    rows = dict(re.findall(r"^\| (\d+) \| (.*) \|$", section, re.M))
    assert list(rows) == [str(n) for n in [*range(1, 11), 14, 15]], list(rows)
    return ["done"] + [rows.get(str(n), "") for n in range(1, 16)]


def refusals():
    """Its rows: the number and the other four columns, as they stand there. It must have these columns, and numbers that rise."""
    with open(os.path.join(TOP, "docs/RULES.md")) as f:
        section = f.read().split("\n## ")[3]
    lines = [[cell.strip() for cell in line[1:-1].split(" | ")] for line in section.split("\n") if line.startswith("|")]
    assert section.startswith("3. ") and lines[0] == COLUMNS, "docs/RULES.md, section 3, has no table of the columns " + ", ".join(COLUMNS)
    rows = [(int(row[0]),) + tuple(row[1:]) for row in lines[2:]]
    for row in rows:
        assert len(row) == len(COLUMNS) and re.fullmatch(r"`OQ3_[A-Z_]+`", row[4]), row
    assert [row[0] for row in rows] == sorted({row[0] for row in rows}), "the numbers of docs/RULES.md, section 3, do not rise"
    return rows
