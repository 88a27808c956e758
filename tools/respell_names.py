#!/usr/bin/env python3
"""Turns the names of this repository's definitions and lemmas to snake case.

usage: python3 tools/respell_names.py        at the top of the repository, once, after the kit's own script

Types and modules keep their upper camel case. Names of functions, variables and fields of src/ and names that the library
gives stay. It prints the names that would fall together; one of them gets another name by OTHERS below.
"""

import collections
import os
import re
import sys

# lemmas whose name in snake case is taken by the word that they speak of
OTHERS = {
    "is-label": "is_label_holds",
    "in-range": "in_range_holds",
    "not-refused": "not_refused_holds",
    "none-closed": "none_closed_holds",
    "not-posted": "not_posted_holds",
    "not-used": "not_used_holds",
    "levels-told": "levels_told_holds",
    "even-view": "even_view_holds",
    "what-of": "what_of_holds",
    "ok-map": "ok_map_holds",
    "g-levels": "g_levels_hold",
    "no-plan": "no_plan_holds",
    "b-next": "b_next_holds",
    "b-none": "b_none_holds",
    "k-crossing": "k_crossing_holds",
    "k-loan": "k_loan_holds",
    "c-before": "c_before_holds",
    "c-first": "c_first_holds",
    "d-levels": "d_levels_hold",
    "verdict-any": "verdict_any_holds",
    "verdict-none": "verdict_none_holds",
}
# the same where the lemma's name was in snake case already, with the files that use it
LEMMAS = {
    ("crates/dayline/", "digits_from"): "digits_from_holds",
    ("crates/worked_days/", "all_in"): "all_in_holds",
    ("crates/bunker_answers/proofs/", "ruled_out"): "ruled_out_holds",
}
ANSWERS = ("Answers.antt", "Invariants.antt", "Choices.antt", "Proof.antt")
NAME = r"[A-Za-z][A-Za-z0-9_]*(?:-[A-Za-z0-9_]+)*"
TOKEN = re.compile(r"(?<![\w\u00b7'\u2260-])" + NAME + r"(?![\w'\u00b7-])")
DEFINED = re.compile(r"^\s*(?:(?:pub|abbrev|unfoldable|record|data) )*(" + NAME + r")\s*(?:[({].*)?: (.*)$")
IMPORT = re.compile(r"use ([\w.\u00b7]+)\.\{([^}]*)\}")


def snake(name):
    if name in OTHERS:
        return OTHERS[name]
    name = re.sub(r"(?<=[a-z0-9])([A-Z])", r"_\1", name.replace("-", "_"))
    return name.lower()


def old_form(name):
    """Whether a name is neither snake case nor a type's."""
    return "-" in name or (name[0].islower() and name.lower() != name)


def files(top):
    for folder, dirs, names in os.walk(top):
        dirs[:] = sorted(d for d in dirs if d != "out")
        for name in sorted(names):
            yield os.path.join(folder, name)


def read(path):
    with open(path, encoding="utf-8") as f:
        return f.read()


def defined():
    found = collections.defaultdict(set)
    for path in files("crates"):
        if not path.endswith(".antt"):
            continue
        for line in read(path).split("\n"):
            m = DEFINED.match(line)
            if m and not (path.endswith(ANSWERS) and re.match(r"(goal|need)\b", m.group(2))):
                found[m.group(1)].add(path)
    return found


def foreign(text, crates):
    """The names that a file takes from elsewhere than this repository."""
    names = set()
    for path, items in IMPORT.findall(text):
        parts = path.split(".")
        own = len(parts) > 1 and parts[0] == "Rattle" and parts[1] in crates
        if not own or parts[-1] in ("Goals", "Given"):
            names |= {x.split(" as ")[-1].strip() for x in items.split(",")}
    return names


def main():
    crates = set(os.listdir("crates"))
    found = defined()
    turned = {n: snake(n) for n in found if old_form(n)}
    changed = 0
    paths = [p for p in files("crates") if p.endswith((".antt", ".rt", ".edit"))]
    for top in ("docs", "bugs"):
        if os.path.isdir(top):
            paths += [p for p in files(top) if p.endswith((".md", ".edit"))]
    for path in paths:
        text = read(path)
        spared = foreign(text, crates)
        seen = collections.defaultdict(set)

        def turn(m):
            old = m.group(0)
            new = old if old in spared else turned.get(old, old)
            for (part, name), other in LEMMAS.items():
                if old == name and path.startswith(part):
                    new = other
            seen[new].add(old)
            return new

        if path.endswith(".md"):
            new = re.sub(r"`[^`\n]*`", lambda m: TOKEN.sub(turn, m.group(0)), text)
        else:
            new = TOKEN.sub(turn, text)
        for name, olds in seen.items():
            if len(olds) > 1 and path.endswith(".antt"):
                print(f"{path}: {sorted(olds)} fall together as {name}")
        if new != text:
            with open(path, "w", encoding="utf-8") as f:
                f.write(new)
            changed += 1
    print(f"{len(turned)} names turned, in {changed} files")
    return 0


if __name__ == "__main__":
    sys.exit(main())
