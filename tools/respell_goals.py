#!/usr/bin/env python3
"""Turns the names of goals and places in a crate's proof files to what the kit calls them.

usage: rt check --generated FOLDER --old-names in the folder of the crate, and then
       python3 tools/respell_goals.py crates/NAME FOLDER/names.json
A name that differs from just one of the kit's by dashes and underscores alone is turned. It prints the files that it changed.
"""

import json
import os
import re
import sys

NAME = r"[A-Za-z][A-Za-z0-9_]*(?:-[A-Za-z0-9_]+)*"
TOKEN = re.compile(r"(?<![\w\u00b7'\u2260-])" + NAME + r"(?![\w'\u00b7-])")


def words(value, into):
    if isinstance(value, str):
        for part in re.findall(NAME, value):
            into.add(part)
    elif isinstance(value, list):
        for part in value:
            words(part, into)
    elif isinstance(value, dict):
        for key, part in value.items():
            if key != "needs" and key != "places" and key != "asked_at":
                words(part, into)
    return into


def main():
    crate, names = sys.argv[1], sys.argv[2]
    with open(names, encoding="utf-8") as f:
        known = json.load(f)
    for path, table in known.items():
        if not path.startswith("Rattle-") or not path.endswith(".Lts"):
            continue
        where = path.split("-proofs.", 1)[1][: -len(".Lts")].replace(".", "/")
        new = words(table, {now for _, now in table["needs"]})
        for place in table["places"]:
            words([place[2], place[4]], new)
        for old, now in table["asked_at"]:
            new.add(now)
        flat = {}
        for n in new:
            flat.setdefault(n.replace("_", "-"), set()).add(n)
        for file in ("Answers.antt", "Invariants.antt"):
            p = os.path.join(crate, "proofs", where, file)
            if not os.path.exists(p):
                p = os.path.join(crate, "proofs", os.path.dirname(where), "+" + os.path.basename(where), file)
            if not os.path.exists(p):
                continue
            with open(p, encoding="utf-8") as f:
                text = f.read()

            def turn(m):
                t = m.group(0)
                if "-" not in t or t in new:
                    return t
                some = flat.get(t.replace("_", "-"), set())
                return next(iter(some)) if len(some) == 1 else t

            turned = TOKEN.sub(turn, text)
            if turned != text:
                with open(p, "w", encoding="utf-8") as f:
                    f.write(turned)
                print(f"{p}: turned")
    return 0


if __name__ == "__main__":
    sys.exit(main())
