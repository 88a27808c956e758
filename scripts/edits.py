#!/usr/bin/env python3
"""Tells which edits no longer fit the sources.

    scripts/edits.py

Each old text of a must-fail edit, crates/CRATE/must-fail, and of a planted bug, bugs/CRATE, has to stand exactly
once in the file that the edit names, and the new text has to differ from it. Nothing is proved here.
"""
import glob
import os
import sys

TOP = os.path.dirname(os.path.dirname(os.path.abspath(__file__)))


def faults(edit, folder):
    """What keeps the edit from fitting the crate in the folder."""
    path, old, text, pairs = None, None, "", 0
    with open(edit, encoding="utf-8") as lines:
        for line in lines.read().splitlines():
            if line.startswith("file: "):
                path = os.path.join(folder, line[len("file: "):])
                if not os.path.isfile(path):
                    return ["there is no file " + path]
                with open(path, encoding="utf-8") as source:
                    text = source.read()
            elif line.startswith("old: "):
                old = line[len("old: "):]
            elif line.startswith("new:"):
                new = line[len("new:"):].removeprefix(" ")
                if not path or not old:
                    return ["a new text stands before any file or old text"]
                found = text.count(old)
                if found != 1:
                    return ["an old text stands %d times: %s" % (found, old)]
                if new == old:
                    return ["a new text is the old one: " + old]
                text, old, pairs = text.replace(old, new), None, pairs + 1
    return [] if pairs else ["it has no old and new text"]


def main():
    tried, bad = 0, 0
    for pattern, crate_at in (("crates/*/must-fail/*.edit", -3), ("bugs/*/*.edit", -2)):
        for edit in sorted(glob.glob(os.path.join(TOP, pattern))):
            folder = os.path.join(TOP, "crates", edit.split(os.sep)[crate_at])
            tried += 1
            for fault in faults(edit, folder):
                bad += 1
                print("%s: %s" % (os.path.relpath(edit, TOP), fault))
    print("%d edits, %d do not fit" % (tried, bad))
    sys.exit(1 if bad else 0)


if __name__ == "__main__":
    main()
