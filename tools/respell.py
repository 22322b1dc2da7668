#!/usr/bin/env python3
"""Spells the repository's own definitions and lemmas in snake case, as the library does.

usage: python3 tools/respell.py [FOLDER]     once, at the top of the repository or of FOLDER, after the kit's port.py

A name is the repository's own if a file of specs/ or proofs/ defines it: a definition, a lemma, a record's field, a case. Types, modules
and what begins with a capital stay. Where a lemma's name would fall together with the definition that it speaks of, it gets '_lem'; a name
that began with a number begins with 'entity_'. Names are changed in specs/, proofs/ and the clauses of src/, and between backquotes in
comments and pages. Texts in quotes stay, and so do the functions of src/.
"""
import os
import re
import sys

TOKEN = re.compile(r"[^\s(){}\[\],;:=λ.\"`]+")
DEFINED = re.compile(r"^(\s*)((?:abbrev |unfoldable |pub )*)([^\s:(){}]+) :(?:\s|$)")
# in one file: a definition and a lemma of one name
TOGETHER = {
    "scribe/proofs/SheetLaws.antt": {"inOrder": "in_order", "in_order": "in_order_lem"},
    "questions/proofs/Determined.antt": {"case-of": "case_of_lem"},
}


def snake(name):
    new = re.sub(r"[A-Z]", lambda m: ("_" if m.start() else "") + m.group().lower(), name)
    new = new.replace("-", "_")
    return "entity_" + new if new[0].isdigit() else new


def is_older(name):
    return name[0] != "◌" and not name[0].isupper() and ("-" in name or re.search(r"[a-z0-9][A-Z]", name)) and not re.match(r"[-_]", name)


def files(root, ends):
    for folder, dirs, names in os.walk(os.path.join(root, "crates")):
        dirs[:] = sorted(d for d in dirs if d != "out")
        for name in sorted(names):
            if name.endswith(ends):
                yield os.path.join(folder, name)


def own_names(root):
    older, all_names = set(), set()
    for path in files(root, ".antt"):
        answers = os.path.basename(path) == "Proof.antt"
        with open(path, encoding="utf-8") as f:
            for line in f:
                m = DEFINED.match(line)
                if m and not answers:
                    all_names.add(m.group(3))
                    if is_older(m.group(3)):
                        older.add(m.group(3))
    return older, all_names


def renames(older):
    by_new = {}
    for name in sorted(older):
        by_new.setdefault(snake(name), []).append(name)
    new = {}
    for to, names in by_new.items():
        for name in names:
            lemma = len(names) > 1 and "-" in name
            new[name] = to + "_lem" if lemma else to
    return new


def replace(text, new):
    return TOKEN.sub(lambda m: new.get(m.group(), m.group()), text)


def quoted(text, new):
    return re.sub(r"`[^`\n]*`", lambda m: replace(m.group(), new), text)


def code(text, mark, new):
    """The lines of a source: names outside texts and comments, and between backquotes in comments."""
    out = []
    for line in text.split("\n"):
        parts = re.split(r'("(?:[^"\\]|\\.)*")', line)
        done, comment = "", False
        for part in parts:
            if comment:
                done += part
                continue
            if part.startswith('"'):
                done += part
                continue
            at = re.search(r"(^|\s)" + re.escape(mark), part)
            if at:
                done += replace(part[: at.start()], new)
                comment = True
                rest = part[at.start() :]
                done += rest
            else:
                done += replace(part, new)
        at = re.search(r"(^|\s)" + re.escape(mark), done)
        if comment and at:
            # the comment is the rest of the line, from the first mark that stood outside a text
            head = done[: at.start()]
            done = head + quoted(done[at.start() :], new)
        out.append(done)
    return "\n".join(out)


def write(path, old, text):
    if text != old:
        with open(path, "w", encoding="utf-8") as f:
            f.write(text)


def main():
    root = sys.argv[1] if len(sys.argv) > 1 else "."
    older, all_names = own_names(root)
    new = renames(older)
    for path in files(root, (".antt", ".rt")):
        here = dict(new)
        for end, more in TOGETHER.items():
            if path.endswith(end):
                here.update(more)
        with open(path, encoding="utf-8") as f:
            old = f.read()
        write(path, old, code(old, "--" if path.endswith(".antt") else "//", here))
    _, now = own_names(root)
    pages = [os.path.join(root, "README.md")] + [os.path.join(root, "docs", p) for p in sorted(os.listdir(os.path.join(root, "docs"))) if p.endswith(".md")]
    for path in pages:
        with open(path, encoding="utf-8") as f:
            old = f.read()
        words = {w: new.get(w, snake(w)) for w in set(TOKEN.findall(old)) if w in new or (is_older(w) and snake(w) in now)}
        write(path, old, quoted(old, words))
    print(f"{len(new)} names")


if __name__ == "__main__":
    main()
