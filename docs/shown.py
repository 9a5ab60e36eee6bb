#!/usr/bin/env python3
"""Fails where a piece of code of docs/using.md doesn't stand, line for line, in the test that runs it.

    docs/shown.py

The test is crates/plcr_run/src/using_tests.rt. How far lines are indented doesn't count."""
import os
import re
import sys

ROOT = os.path.dirname(os.path.dirname(os.path.abspath(__file__)))
PAGE = os.path.join(ROOT, "docs", "using.md")
TEST = os.path.join(ROOT, "crates", "plcr_run", "src", "using_tests.rt")


def lines_of(text):
    return "\n".join(line.strip() for line in text.split("\n")) + "\n"


def main():
    test = lines_of(open(TEST, encoding="utf-8").read())
    pieces = re.findall(r"^```rust\n(.*?)\n```$", open(PAGE, encoding="utf-8").read(), re.M | re.S)
    missing = [piece for piece in pieces if "\n" + lines_of(piece) not in test]
    for piece in missing:
        print("not in %s:\n%s" % (os.path.relpath(TEST, ROOT), piece), file=sys.stderr)
    return 1 if missing or not pieces else 0


if __name__ == "__main__":
    sys.exit(main())
