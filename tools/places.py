#!/usr/bin/env python3
"""Lists the places in src/ that docs/DESIGN-PASS.md counts, point by point, as they stand at a commit or, with no word, in the tree.
usage: tools/places.py [COMMIT]"""
import collections
import glob
import os
import re
import subprocess
import sys

ROOT = os.path.join(os.path.dirname(os.path.abspath(__file__)), "..")

# Point 1: what a function answers in place of an `Option`, a `Result` or a `bool`.
NUMBERS = r"u8|Told|Reading|Judged|Tallied|Progress|Checked|Parsed|Digit|Compared|CheckedText|frames::Passed"
# Point 4: conversions that are written out, by the names that they have or had.
WRITTEN_OUT = r"number|wide|told|tell|header_counts|refused_reading|accepted_reading|one_if|is_other|answer_of|order_number"
# Point 5: parameters that travel together.
TOGETHER = {
    "the tables of a sheet": ("assignment", "permission"),
    "a channel table and its n": ("channels", "n"),
    "a flow table and its n": ("table", "n"),
    "two flow tables and their n": ("before", "after", "n"),
    "the lists of roles and their lengths": ("lists", "used"),
    "a buffer and a place in it": ("text|out", "at|pen|start"),
    "marks and verdict bytes": ("marks", "verdicts"),
    "rows, width and place of a cell": ("rows", "columns|width"),
}
# Point 6: a buffer with a length beside it.
BESIDE = {
    "separations and their count": ("separations", "count"),
    "a list and how much of it is used": ("bytes|order|chain", "used|tail|count"),
}
# Point 7: a flag that says which step to run.
FLAGS = r"permits|short|long|ragged|ended"


def sources(commit):
    if commit:
        listed = subprocess.run(["git", "-C", ROOT, "ls-tree", "-r", "--name-only", commit, "--", "crates"], capture_output=True, text=True, check=True)
        for path in listed.stdout.split():
            if path.endswith(".rt"):
                yield path, subprocess.run(["git", "-C", ROOT, "show", f"{commit}:{path}"], capture_output=True, text=True, check=True).stdout
    else:
        for path in sorted(glob.glob(os.path.join(ROOT, "crates", "*", "src", "*.rt"))):
            with open(path, encoding="utf-8") as file:
                yield os.path.relpath(path, ROOT), file.read()


def functions(text):
    """Each function's name, parameters and result."""
    for found in re.finditer(r"^ *(?:pub )?(?:extern \"C\" )?fn (\w+)(?:<[^(]*>)?\(([^)]*)\)(?: -> ([^\n{]+))?", text, re.M):
        names = [part.split(":")[0].replace("mut ", "").strip() for part in found[2].split(",") if ":" in part]
        yield found[1], names, (found[3] or "").strip()


def travel(names, parts):
    return all(any(re.fullmatch(part, name) for name in names) for part in parts)


def main():
    commit = sys.argv[1] if len(sys.argv) > 1 else None
    places = collections.defaultdict(list)
    for path, text in sources(commit):
        crate = path.split("/")[1]
        for kind, name in re.findall(r"^pub (enum|struct) (\w+)", text, re.M):
            places[f"types: {kind}s"].append(f"{crate}::{name}")
        for name, names, result in functions(text):
            here = f"{crate}::{name}"
            if re.fullmatch(NUMBERS, result):
                places["1: answers as a number or a record"].append(f"{here} -> {result}")
            if re.fullmatch(WRITTEN_OUT, name):
                places["4: conversions written out"].append(here)
            for what, parts in TOGETHER.items():
                if travel(names, parts):
                    places[f"5: {what}"].append(here)
            for what, parts in BESIDE.items():
                if travel(names, parts):
                    places[f"6: {what}"].append(here)
            if any(re.fullmatch(FLAGS, name) for name in names):
                places["7: a flag that says what to do"].append(here)
        for line in re.findall(r"^ *(while [^\n]*?) *\{$", text, re.M):
            places["3: loops by `while`"].append(f"{crate}: {line}")
        for line in re.findall(r"^ *((?:for|loop) ?[^\n]*?) *\{$", text, re.M):
            places["loops by `for`"].append(f"{crate}: {line}")
    for what in sorted(places):
        print(f"{what}: {len(places[what])}")
        for place in places[what]:
            print(f"    {place}")


main()
