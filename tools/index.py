#!/usr/bin/env python3
"""Checks docs/PROMISES.md against the tree: each name that it cites stands in the crate that it is cited for, each theorem has a line above
it, or above the record that it fills, that says what it carries, each edit stands in a row, and so does each public function. A public call
has an `ensures` with the contract that its row cites, no `requires`, and a forwarder in the test face. And each edit says at which fact the
prover refuses it: that is the first error that `rt ci` told of it.
usage: tools/index.py LOG, where LOG has what `rt ci` printed. Of each fault it prints a line; the last line is 'N passed, M failed', with
status 1 where M is not 0."""
import glob
import os
import re
import sys

ROOT = os.path.join(os.path.dirname(os.path.abspath(__file__)), "..")
MOST_NAMES = 12

# What a column cites, by its heading; None where it cites nothing.
COLUMNS = {
    "sentence": None, "number": None, "misreading": None, "program": None, "place": None, "crate": None, "point": None,
    "definition": "definition", "contract": "definition", "theorem": "theorem", "determined by": "theorem",
    "wrong edits": "edit", "wrong programs refused": "edit", "call": "call", "calls": "bound", "functions": "inner",
    "where it stands": "function", "where": "file",
}


def files(pattern):
    found = {}
    for path in sorted(glob.glob(os.path.join(ROOT, pattern), recursive=True)):
        with open(path, encoding="utf-8", errors="replace") as file:
            found[os.path.relpath(path, ROOT)] = file.read()
    return found


def crate_of(path):
    return path.split(os.sep)[1]


def edit_of(path):
    return crate_of(path), os.path.basename(path)[: -len(".edit")]


# ---- what the crates have


def theorems(lines):
    """Each name with a type, and whether a comment (no mere heading) stands above it or above the record that it fills."""
    above = dict(zip(lines[1:], lines))
    for line in lines:
        typed = re.match(r"(?:pub )?(\S+) :(?: (.*))?$", line.strip())
        if typed:
            record = next((l for l in lines if re.match(r"(pub )?record %s :" % re.escape(typed[2] or "?"), l)), line)
            yield typed[1], any(re.match(r"-- [^-\s]", above.get(l, "").strip()) for l in (line, record))


def functions(text):
    """Each function's name, whether it is public, whether a trait has given it the name, and its text up to the next one."""
    heads = list(re.finditer(r'^( *)(?:#\[[^\n]*\] *)?(pub )?(?:const )?(?:extern "C" )?fn (\w+)', text, re.M))
    for head, following in zip(heads, heads[1:] + [None]):
        block = re.findall(r"^(?:pub )?(?:impl|trait)\b.*", text[: head.start()], re.M)
        of_trait = bool(head[1] and re.match(r"(?:pub )?trait\b|impl\b.* for ", block[-1]))
        yield head[3], bool(head[2]), of_trait, text[head.start() : following.start() if following else len(text)]


class Tree:
    def __init__(self):
        self.crates = sorted(os.listdir(os.path.join(ROOT, "crates")))
        self.definitions, self.theorems, self.functions, self.twice = set(), {}, {}, []
        self.edits = {edit_of(path): text for path, text in files("crates/*/must-fail/**/*.edit").items()}
        for path, text in files("crates/*/specs/*.antt").items():
            for name in re.findall(r"^ *(?:abbrev pub|unfoldable pub|pub record|pub data) (\S+)", text, re.M):
                self.definitions.add((crate_of(path), name))
        for path, text in files("crates/*/proofs/*.antt").items():
            for name, told in theorems(text.split("\n")):
                self.theorems[crate_of(path), name] = told or self.theorems.get((crate_of(path), name), False)
        of_traits = set()
        for path, text in files("crates/*/src/**/*.rt").items():
            for name, public, of_trait, whole in functions(text):
                name = "%s::%s" % (crate_of(path), name)
                # a trait gives its name to several methods, and to no other function beside them
                again = name in self.functions
                self.twice += [name] if again and not (of_trait and name in of_traits) else []
                of_traits |= {name} if of_trait else set()
                if not again:
                    self.functions[name] = (public, whole)


# ---- what the page cites


def rows(page):
    """Each row of each table, as pairs of a heading and a cell."""
    heads = None
    for line in page.split("\n"):
        cells = [cell.strip() for cell in re.split(r"(?<!\\)\|", line)[1:-1]]
        if not cells:
            heads = None
        elif heads is None:
            heads = cells
        elif not set(line) <= set("|- "):
            yield list(zip(heads, cells))


def cited(cell, crates):
    """The names in a cell: a function as `crate::function`, all others with the crate whose name and colon stand before them."""
    crate = "no crate"
    for before, name in re.findall(r"\b([a-z]+):(?= )|`([^`]+)`", cell):
        if before in crates:
            crate = before
        elif "::" in name:
            yield name
        elif name and name not in ("requires", "ensures", "&mut"):
            yield crate, name


class Check:
    def __init__(self):
        self.passed, self.faults = 0, []

    def hold(self, right, fault):
        if right:
            self.passed += 1
        else:
            self.faults.append(fault)


def check_cell(check, tree, kind, cell, found):
    known = {"definition": tree.definitions, "theorem": tree.theorems, "edit": tree.edits}
    names = list(cited(cell, tree.crates))
    check.hold(len(names) <= MOST_NAMES, "a cell cites more than %d names: %s .." % (MOST_NAMES, cell[:60]))
    for name in names:
        function = isinstance(name, str)
        if kind == "theorem" and not function and "." in name[1]:
            crate, name, field = (name[0], *name[1].split("."))
            check.hold((crate, field) in tree.theorems, "%s: %s: has no case %s" % (crate, name, field))
            name = (crate, name)
        there = name in (tree.functions if function else known.get(kind, ()))
        check.hold(there, "%s: no such %s" % (name if function else "%s: %s" % name, "function" if function else kind))
        if kind == "theorem" and there and not function:
            check.hold(tree.theorems[name], "%s: %s: no line above it says what it carries" % name)
        found.setdefault(kind, set()).add(name)


def check_rows(check, tree, page):
    """Returns what is cited, by its kind."""
    found = {"call": set(), "bound": set(), "inner": set(), "edit": set()}
    for row in rows(page):
        for head, cell in row:
            check.hold(head in COLUMNS, "no column is headed: %s" % head)
            kind = COLUMNS.get(head)
            if kind == "file":
                for path in re.findall(r"`([^`]*/[^`]*)`", cell):
                    check.hold(os.path.exists(os.path.join(ROOT, path)), "no such file: %s" % path)
            elif kind:
                check_cell(check, tree, kind, cell, found)
        if row[0][0] == "call":
            check_contract(check, tree, dict(row))
    return found


def check_contract(check, tree, row):
    """The row of a public call: what its `ensures` names is what the row cites."""
    name = row["call"].strip("`")
    whole = tree.functions.get(name, (False, ""))[1]
    contract = [cited_name[1] for cited_name in cited(row["contract"], tree.crates)]
    check.hold(contract and row["determined by"], "%s: its row has no contract, or nothing that determines it" % name)
    check.hold("ensures {" in whole and not re.search(r"\brequires\b", whole), "%s: has no `ensures`, or has a `requires`" % name)
    check.hold(all(re.search(r"\b%s\b" % word, whole) for word in contract), "%s: its `ensures` does not name what its row cites" % name)


def check_functions(check, tree, found):
    for name in tree.twice:
        check.hold(False, "%s: there are two" % name)
    for name in sorted(found["bound"] - found["call"]):
        check.hold(False, "%s: is said to be bound, and is no public call" % name)
    faces = "".join(whole for name, (_, whole) in tree.functions.items() if name.startswith("testface::"))
    for name, (public, _) in sorted(tree.functions.items()):
        crate = name.split("::")[0]
        if public and crate != "testface":
            check.hold((name in found["call"]) != (name in found["inner"]), "%s: stands in no row of the public calls or of the inner functions, or in both" % name)
        if name in found["call"] and crate != "sievemarl":
            check.hold(public and name + "(" in faces, "%s: is not public, or the test face does not forward it" % name)


# ---- edits, and what the prover said of them


def enclosing(lines, number):
    """The function whose text, with the attributes above it, has that line."""
    while lines[number - 1].lstrip().startswith("#["):
        number += 1
    heads = [re.match(r' *(?:pub )?(?:const )?(?:extern "C" )?fn (\w+)', line) for line in lines[:number]]
    return next((head[1] for head in reversed(heads) if head), "?")


def edited(tree, crate, label, path):
    """The lines of a file of the crate with the edit made."""
    with open(os.path.join(ROOT, "crates", crate, path), encoding="utf-8") as file:
        text = file.read()
    at, old = "", ""
    for line in tree.edits[crate, label].split("\n"):
        if line.startswith("file: "):
            at = line[len("file: "):]
        elif line.startswith("old: "):
            old = line[len("old: "):]
        elif line.startswith("new:") and at == path:
            text = text.replace(old, line[len("new: "):])
    return text.split("\n")


def fact(tree, crate, label, said):
    """What the first error is in: a law by its name, or a goal of a function. One that only misses a name that the edit took away is none."""
    proof = re.search(r"proofs/(\S+)\.antt:\d+:\d+: error: `([^`]+)`: ", said)
    if proof:
        place, name = proof.groups()
        return "%s's %s" % (os.path.dirname(place).replace("/", "::"), name) if "/" in place else name
    goal = re.search(r"note: (src/\S+\.rt):(\d+):\d+: .*\(`([^`]+)`\)", said)
    if goal:
        return "%s's %s" % (enclosing(edited(tree, crate, label, goal[1]), int(goal[2])), goal[3])
    return None


def refusals(log):
    """What the log of `rt ci` says of each edit that was refused for what it means."""
    for crate, label, said in re.findall(r"must-fail (\w+)/(\w+)\.edit: refused, as it must be: (.*)", log):
        yield (crate, label), said


def check_edits(check, tree, cited_edits, log):
    told = dict(refusals(log))
    for (crate, label), text in sorted(tree.edits.items()):
        check.hold((crate, label) in cited_edits, "%s: %s: the edit stands in no row" % (crate, label))
        said = re.match(r"# .*\n# refused at: (.*)\n", text)
        at = fact(tree, crate, label, told.get((crate, label), ""))
        check.hold(said and said[1] == at, "%s: %s: refused at %s, and not at %s" % (crate, label, at, said and said[1]))


def main():
    check, tree = Check(), Tree()
    page = files("docs/PROMISES.md")[os.path.join("docs", "PROMISES.md")]
    found = check_rows(check, tree, page)
    check_functions(check, tree, found)
    with open(sys.argv[1], encoding="utf-8") as log:
        check_edits(check, tree, found["edit"], log.read())
    for fault in check.faults:
        print("docs/PROMISES.md: " + fault)
    print("%d passed, %d failed" % (check.passed, len(check.faults)))
    return 1 if check.faults else 0


sys.exit(main())
