#!/usr/bin/env python3
"""Checks that what docs/READING.md quotes stands in the tree, so that a changed definition changes the page too: each paragraph of a
block is so many lines, one after the other, of a file that the page names before the block. usage: tools/quotes.py. Of each that it does
not find it prints a line; the last line is 'N passed, M failed', with status 1 where M is not 0 or nothing is quoted."""
import os
import re
import sys

ROOT = os.path.join(os.path.dirname(os.path.abspath(__file__)), "..")


def read(path):
    with open(os.path.join(ROOT, path), encoding="utf-8") as file:
        return file.read()


def quoted(page):
    """Each paragraph of a block, and the files that are named between the last block that named some and this one."""
    named = []
    for before, block in re.findall(r"(.*?)^```\n(.*?)^```$", page, re.M | re.S):
        named = re.findall(r"`(crates/[^`*]*\.(?:antt|rt))`", before) or named
        for paragraph in block.strip("\n").split("\n\n"):
            yield paragraph, named


def main():
    quotes = list(quoted(read("docs/READING.md")))
    missing = [quote for quote, named in quotes if not any("\n%s\n" % quote in read(path) for path in named)]
    for quote in missing:
        print("docs/READING.md quotes what stands in no file that it names: " + quote.split("\n")[0])
    print("%d passed, %d failed" % (len(quotes) - len(missing), len(missing)))
    return 1 if missing or not quotes else 0


sys.exit(main())
