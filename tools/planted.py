#!/usr/bin/env python3
"""Prints docs/PLANTED.md anew: bugs planted in the proved crates, and what refused each.

    tools/planted.py [LOG..] > NEW        at the top of the repository

The rows of the kept edits are made from crates/*/must-fail/*.edit, and from the lines about them in logs of `rt ci` or
`rt must-fail`. A log tells only of the edits that were tried again: for any other one the page's row stands, if its texts
are the edit's still. The rows by hand, and what stands before and behind the tables, stay as the page has them."""

import os
import re
import sys
from collections import defaultdict, namedtuple
from glob import glob

PAGE = "docs/PLANTED.md"
BY_HAND = "by hand"

# Programs, and what only they use: they are tested by stored output.
PROGRAMS = {"words", "decode", "crosscheck", "relay", "register", "full", "shift"}

# One planted bug: the file of the crate, what was written for what, what refused it, and the edit's name or BY_HAND.
Row = namedtuple("Row", "file planted refused kept")

LOG_LINE = re.compile(r"^rt: must-fail (\S+)/(\S+)\.edit: refused, as it must be: (.*)")
CRATE_LINE = re.compile(r"^## (\w+)$")
IN_SOURCE = re.compile(r"(src/\w+\.rt):(\d+):\d+:")
IN_PROOF = re.compile(r"proofs/(?:\S*/)?(\w+)/\w+\.antt:\d+:\d+:")
FUNCTION = re.compile(r'^(\s*)(?:pub(?:\(crate\))? )?(?:const )?(?:extern "C" )?fn (\w+)')
# the fact that has no proof: in a note it stands in parentheses, in an error in front of a colon
FACT = re.compile(r"\(`([^`]+)`\)|error: `([^`]+)`:")


def crates_in_order():
    """The crates as crates.txt has them, lowest first."""
    with open("crates.txt") as lines:
        names = [line.split(":")[0].split()[0] for line in lines if ":" in line and not line.startswith("#")]
    return [name for name in names if name not in PROGRAMS]


def edit_at(path):
    """The fields of an edit: its file, the old text and the new one, with the blanks in front that make a text the only one."""
    fields = {}
    with open(path) as lines:
        for line in lines:
            name, _, text = line.rstrip("\n").partition(": ")
            fields[name] = text
    return fields


def refusals_in(logs):
    """What each log line says of its edit. Where two logs tell of one edit, the later log counts."""
    said = {}
    for log in logs:
        with open(log, errors="replace") as lines:
            for line in lines:
                found = LOG_LINE.match(line)
                if found:
                    said[found.group(1), found.group(2)] = found.group(3)
    return said


def function_at(path, line_number):
    """The function in whose text this line stands, if it is one's: each ends at a brace as far in as it begins."""
    name = end = None
    with open(path) as lines:
        for number, line in enumerate(lines, 1):
            found = FUNCTION.match(line)
            if found:
                name, end = found.group(2), found.group(1) + "}"
            if number == line_number:
                return name
            if line.rstrip() == end:
                name = end = None
    return None


def place_of(path, text):
    """The number of the line that has this text."""
    with open(path) as lines:
        for number, line in enumerate(lines, 1):
            if text in line:
                return number
    return 0


def clause_of(fact):
    """The clause that a fact belongs to, in short: facts are named after the way through the body that leads to them."""
    named = re.search(r"-clause-(\w+)", fact)
    asked = re.match(r"(?:.*-)?(\w+)-requires", fact)
    if asked:
        return f"what `{asked.group(1)}` requires" + (f", `{named.group(1)}`" if named else "")
    if fact.startswith("invariant_of"):
        return "invariant of the type" + (f", `{named.group(1)}`" if named else "")
    if fact.startswith("loop"):
        return "the loop, at its start" if fact.endswith("-init") else "the loop, in a round"
    if fact.startswith("returns"):
        return f"`{named.group(1)}`" if named else "its `ensures`"
    return f"`{fact}`"


def refused_by(crate, said):
    """Function and clause, from what the log says."""
    source = IN_SOURCE.search(said)
    proof = IN_PROOF.search(said)
    fact = FACT.search(said)
    if source:
        function = function_at(f"crates/{crate}/{source.group(1)}", int(source.group(2)))
    else:
        function = proof.group(1) if proof else None
    where = f"`{function}`" if function else "the type"
    return f"{where}: {clause_of(fact.group(1) or fact.group(2))}" if fact else where


def shortened(old, new, most=48, around=16):
    """Both texts, without most of what they share at the ends where they are long."""
    if max(len(old), len(new)) <= most:
        return old, new
    front = len(os.path.commonprefix([old, new]))
    back = len(os.path.commonprefix([old[front:][::-1], new[front:][::-1]]))
    start = max(0, front - around)
    end = max(0, back - around)

    def cut(text):
        return ("…" if start else "") + text[start : len(text) - end] + ("…" if end else "")

    return cut(old), cut(new)


def code(text):
    """A text as code in a cell of a table."""
    return "`" + " ".join(text.split()).replace("|", "\\|") + "`"


def row_of(crate, name, edit, said, on_page):
    """The row of one kept edit."""
    file = os.path.basename(edit["file"])
    old, new = shortened(edit["old"].strip(), edit["new"].strip())
    planted = f"{code(old)} → {code(new)}"
    if (crate, name) in said:
        return Row(file, planted, refused_by(crate, said[crate, name]), name)
    for row in on_page[crate]:
        if (row.file, row.planted, row.kept) == (file, planted, name):
            return row
    # nothing tells which clause it was: the function that has the planted line
    source = f"crates/{crate}/{edit['file']}"
    function = function_at(source, place_of(source, edit["old"]))
    return Row(file, planted, f"`{function}`" if function else "what uses it", name)


def kept_rows(said, on_page):
    """The rows of the kept edits, by crate."""
    rows = defaultdict(list)
    for path in sorted(glob("crates/*/must-fail/*.edit")):
        crate, name = path.split("/")[1], os.path.basename(path)[: -len(".edit")]
        rows[crate].append(row_of(crate, name, edit_at(path), said, on_page))
    return rows


def cells_of(line):
    """The cells of a table's line."""
    return [cell.strip() for cell in re.split(r"(?<!\\)\|", line.strip())[1:-1]]


def read_page():
    """What stands before the tables, their rows by crate, and what stands behind them."""
    before, rows, behind = [], defaultdict(list), []
    crate = None
    with open(PAGE) as lines:
        for line in lines:
            heading = CRATE_LINE.match(line)
            if heading:
                crate = heading.group(1)
            elif behind or (crate and line.startswith("## ")):
                behind.append(line)
            elif not crate:
                before.append(line)
            elif len(cells_of(line)) == len(Row._fields):
                rows[crate].append(Row(*cells_of(line)))
    return before, rows, behind


def main():
    before, on_page, behind = read_page()
    kept = kept_rows(refusals_in(sys.argv[1:]), on_page)
    print("".join(before), end="")
    for crate in crates_in_order():
        rows = kept[crate] + [row for row in on_page[crate] if row.kept == BY_HAND]
        if not rows:
            continue
        print(f"## {crate}\n")
        print("| module | planted | refused by | edit |")
        print("|---|---|---|---|")
        for row in sorted(rows, key=lambda row: (row.file, row.kept == BY_HAND)):
            print("| " + " | ".join(row) + " |")
        print()
    print("".join(behind), end="")


main()
