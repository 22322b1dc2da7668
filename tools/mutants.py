#!/usr/bin/env python3
"""Which definitions does nothing pin? Changes the specs/ of a crate, one token of one line at a time, checks that crate alone, and prints
each mutant that is still proved: either it says the same thing, or no law, example or code of its own crate holds the definition fast.

usage: tools/mutants.py [--most N] [--seed K] CRATE..

It works on a copy of the repository in a temporary folder; what rt keeps in out/ is copied too, so all should be proved before. Refused for its type or
for a missing import counts as refused. docs/PROVING.md says of each mutant that passes why it says the same thing."""
import argparse
import glob
import os
import random
import re
import shutil
import subprocess
import tempfile
import time

ROOT = os.path.join(os.path.dirname(os.path.abspath(__file__)), "..")

# A comparison, a connective, a truth value, an operation, a side: what stands for it in the mutant.
TURNED = [
    (r"(?<![\w.])<(?![\w>])", "≤"), (r"≤", "<"), (r"\bltb\b", "leb"), (r"\bleb\b", "ltb"), (r"\beqb\b", "leb"),
    (r"&&", "||"), (r"\|\|", "&&"), (r"⊎", "×"), (r"×", "⊎"), (r"\btrue\b", "false"), (r"\bfalse\b", "true"), (r"\bnot \(", "("),
    (r" \+ ", " * "), (r" \* ", " + "), (r" / ", " % "), (r" % ", " / "), (r" - 1\b", ""), (r"\bsuc ", ""), (r"\btake\b", "drop"),
    (r"\binl\b", "inr"), (r"\binr\b", "inl"), (r"\bbefore\b", "after"), (r"\bafter\b", "before"),
    (r"\.entry\b", ".exit"), (r"\.exit\b", ".entry"), (r"\bread\b", "write"), (r"\bwrite\b", "read"), (r"\bsource\b", "target"),
    (r"\.subjects\b", ".objects"), (r"\.objects\b", ".subjects"), (r"\.roles\b", ".objects"), (r"\.roles\b", ".subjects"),
    (r"\.assignment\b", ".permission"), (r"\.permission\b", ".assignment"), (r"\.lines\b", ".separations"), (r"\.separations\b", ".lines"),
    (r"\((\S[^()]*|\S[^()]*\([^()]*\)) → ⊥\)", r"(\1)"),
    (r"\b([a-zA-Z]'?) ([a-zA-Z]'?)(?![\w'])", r"\2 \1"), (r"\b([a-z]\w*'?) ∷ ([a-z]\w*'?)(?![\w'])", r"\2 ∷ \1"),
]
# Names of one kind: each is tried as the next one.
KINDS = [
    ["least_assignment", "least_permission", "least_separations", "least_flow", "least_chain", "least_text", "least_marks", "least_verdicts"],
    ["least_label", "least_effect", "least_separations"],
    ["most_subjects", "most_objects", "most_roles", "most_entities", "most_separations", "most_transfers", "most_transfer_bytes", "most_text"],
    ["equal", "below", "above", "incomparable"],
    ["applied", "outside", "barred"],
]


def siblings():
    for kind in KINDS:
        for name, other in zip(kind, kind[1:] + kind[:1]):
            yield (r"(?<![\w.])%s\b(?! =)" % name, other)


def numbers(line):
    for match in re.finditer(r"(?<![\w.])\d+(?![\w.])", line):
        for other in {int(match[0]) + 1, max(int(match[0]) - 1, 0)} - {int(match[0])}:
            yield line[: match.start()] + str(other) + line[match.end():]


def is_heading(line):
    """A comment, an import, or a type that states nothing."""
    bare = line.strip()
    states = re.search(r"→ ⊥|≡|<|≤", line)
    return not bare or bare.startswith(("--", "use ", "infix", "unfolding", "pub mod")) or (bare.startswith(("pub ", "abbrev ", "unfoldable ")) and "=" not in line and not states)


def is_binder(line, start, end):
    """Whether the place is among names that a binder introduces, in an implicit binder, or on the left of a definition."""
    front = line[:start]
    binds = re.match(r"[\w' ]* : ", line[end:]) and re.search(r"[({][\w' ]*$", front)
    defines = " = " in line[end:] and " = " not in front and "record {" not in front and not line.startswith("  pub ")
    return binds or defines or front.count("{") > front.count("}") and "record {" not in front


def mutated(line):
    for pattern, other in TURNED + list(siblings()):
        for match in re.finditer(pattern, line):
            if not is_binder(line, match.start(), match.end()):
                yield line[: match.start()] + match.expand(other) + line[match.end():]
    yield from numbers(line)


def mutants(crate):
    """Each as a file, the lines from and up to where it differs, and what stands there then. A file whose head says "No promise" only ties
    functions together, and is left out."""
    for path in sorted(glob.glob("crates/%s/specs/*.antt" % crate)):
        with open(path, encoding="utf-8") as file:
            lines = file.read().split("\n")
        if any("No promise" in line for line in lines[:3]):
            continue
        refusal = [re.match(r"\s+(∷ )?\(\d+ if ", line) is not None for line in lines]
        for i, line in enumerate(lines):
            if is_heading(line):
                continue
            for other in sorted(set(mutated(line)) - {line}):
                yield path, i, i + 1, [other]
            if refusal[i] and line.lstrip().startswith("∷"):
                yield path, i, i + 1, []
                if refusal[i + 1]:
                    yield path, i, i + 2, [lines[i + 1], line]


def is_proved(crate):
    try:
        return subprocess.run(["rt", "check"], cwd="crates/" + crate, capture_output=True, timeout=1200).returncode == 0
    except subprocess.TimeoutExpired:
        return False


def tried(crate, mutant):
    path, start, end, other = mutant
    with open(path, encoding="utf-8") as file:
        text = file.read()
    lines = text.split("\n")
    try:
        with open(path, "w", encoding="utf-8") as file:
            file.write("\n".join(lines[:start] + other + lines[end:]))
        passes = is_proved(crate)
    finally:
        with open(path, "w", encoding="utf-8") as file:
            file.write(text)
    if passes:
        print("%s:%d\n  - %s\n  + %s" % (path, start + 1, " / ".join(l.strip() for l in lines[start:end]), " / ".join(l.strip() for l in other)), flush=True)
    return passes


def main():
    words = argparse.ArgumentParser()
    words.add_argument("crates", nargs="+")
    words.add_argument("--most", type=int, default=10**6)
    words.add_argument("--seed", type=int, default=1)
    given = words.parse_args()
    with tempfile.TemporaryDirectory() as folder:
        copy = os.path.join(folder, "copy")
        shutil.copytree(ROOT, copy, ignore=shutil.ignore_patterns(".git", "must-fail", "outside"), symlinks=True)
        os.chdir(copy)
        for crate in given.crates:
            every = list(mutants(crate))
            random.Random(given.seed).shuffle(every)
            start = time.time()
            passed = sum(tried(crate, mutant) for mutant in every[: given.most])
            print("%s: %d of %d mutants tried, %d pass, %d s" % (crate, min(given.most, len(every)), len(every), passed, time.time() - start), flush=True)
        os.chdir(ROOT)


main()
