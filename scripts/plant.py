#!/usr/bin/env python3
"""Plants bugs, one at a time, and tells which of them the prover refuses.

    rt all check && scripts/plant.py [CRATE..]

bugs/CRATE/ has a file for each bug, in the form of a must-fail edit: the file, the text that stands there
and the text that takes its place. The bugs are tried as must-fail edits in a copy of the repository, so the
repository itself stays as it is. What the gate tries, crates/CRATE/must-fail, counts as planted and refused
already and is only counted here. A bug that is not refused shows a contract that says too little.
"""
import glob
import os
import re
import shutil
import subprocess
import sys
import tempfile

TOP = os.path.dirname(os.path.dirname(os.path.abspath(__file__)))


def edits(folder):
    return sorted(glob.glob(os.path.join(TOP, folder, "*.edit")))


def plant(copy, crates):
    """A copy of the repository in which the bugs stand as must-fail edits."""
    shutil.copytree(os.path.join(TOP, "crates"), os.path.join(copy, "crates"))
    shutil.copy(os.path.join(TOP, "crates.txt"), copy)
    for folder in glob.glob(os.path.join(copy, "crates", "*", "must-fail")):
        shutil.rmtree(folder)
    for crate in crates:
        folder = os.path.join(copy, "crates", crate, "must-fail")
        os.makedirs(folder)
        for edit in edits(os.path.join("bugs", crate)):
            shutil.copy(edit, folder)


def main():
    crates = sys.argv[1:] or sorted(os.listdir(os.path.join(TOP, "bugs")))
    with tempfile.TemporaryDirectory() as copy:
        plant(copy, crates)
        done = subprocess.run(["rt", "must-fail"] + crates, cwd=copy, stdout=subprocess.PIPE, stderr=subprocess.STDOUT)
        text = done.stdout.decode(errors="replace")
    refused = re.findall(r"must-fail (\S+)/\S+: refused", text)
    others = re.findall(r"must-fail (\S+: (?:NOT REFUSED|BAD EDIT).*)", text)
    print("| Crate | In the gate | Planted here | Refused |\n|---|---|---|---|")
    for crate in crates:
        counts = (len(edits(os.path.join("crates", crate, "must-fail"))), len(edits(os.path.join("bugs", crate))))
        print("| `%s` | %d | %d | %d |" % ((crate,) + counts + (refused.count(crate),)))
    for line in others:
        print(line)
    sys.exit(1 if others else 0)


if __name__ == "__main__":
    main()
