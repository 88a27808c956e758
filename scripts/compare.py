#!/usr/bin/env python3
"""Runs the program on days and compares what it prints.

    scripts/compare.py FOLDER             each folder below FOLDER that holds a file `expected`
    scripts/compare.py FOLDER --damage N  N damaged variants of the days there (10,000 is usual)

A day is a folder with bridge.day and hall.day. With `expected`, the output has to be that file, byte
for byte. A damaged variant is a day with some bytes, fields or lines changed, by a generator with a
fixed seed; the program has to answer it as scripts/reference.py does: with a fault and status 1, or
with the day's output and status 0. A crash, another status or more than ten seconds is an error.
The program is crates/dayplan/out/dayplan; --program PATH names another.
"""
import argparse
import os
import random
import subprocess
import sys
import tempfile

import reference

SECONDS = 10
WORDS = [b"0", b"-0", b"01", b"-", b"", b"+1", b"100000000", b"100000001", b"-100000000", b"-100000001",
         b"9999", b"10000", b"64", b"opening", b"Opening", b"label", b"floor roof start", b"\r", b"\xff", b"1440",
         b"-1440", b"1441", b"99999999999999999999"]


def run(program, folder):
    """What the program prints for the day, and its status."""
    done = subprocess.run([program, folder], stdout=subprocess.PIPE, stderr=subprocess.DEVNULL, timeout=SECONDS)
    return done.stdout, done.returncode


def days(top):
    return sorted(path for path, _, files in os.walk(top) if "bridge.day" in files or "hall.day" in files)


def complaint(program, folder, expected):
    """What is wrong with the program's answer, or None."""
    try:
        output, status = run(program, folder)
    except subprocess.TimeoutExpired:
        return "no answer after %d seconds" % SECONDS
    due = 1 if expected.startswith(b"file ") else 0
    if status != due:
        return "status %d, and not %d" % (status, due)
    if output != expected:
        return "printed %r, and not %r" % (output[:200], expected[:200])
    return None


def compare(program, top):
    wrong = total = 0
    for folder in days(top):
        expected = reference.bytes_of(os.path.join(folder, "expected"))
        if expected is None:
            continue
        total += 1
        what = complaint(program, folder, expected)
        if what:
            wrong += 1
            print("%s: %s" % (folder, what))
    return total, wrong


def damaged_bytes(rng, data):
    at = rng.randrange(len(data) + 1)
    kind = rng.randrange(3)
    if kind == 0:
        return data[:at] + data[at + rng.randint(1, 4):]
    byte = bytes([rng.choice([10, 13, 32, 45, 48, 57, 97, 122, rng.randrange(256)])])
    return data[:at] + byte + data[at + (kind == 1):]


def damaged_field(rng, data):
    lines = data.split(b"\n")
    at = rng.randrange(len(lines))
    fields = lines[at].split(b" ")
    i = rng.randrange(len(fields))
    fields[i] = rng.choice(WORDS + rng.choice(lines).split(b" "))
    lines[at] = b" ".join(fields)
    return b"\n".join(lines)


def damaged_line(rng, data):
    lines = data.split(b"\n")
    at, other = rng.randrange(len(lines)), rng.randrange(len(lines))
    kind = rng.randrange(4)
    if kind == 0:
        del lines[at]
    elif kind == 1:
        lines.insert(at, lines[other])
    elif kind == 2:
        lines[at], lines[other] = lines[other], lines[at]
    else:
        lines.insert(at, b"")
    return b"\n".join(lines)


def damaged(rng, data):
    for _ in range(rng.choice([1, 1, 1, 2, 3])):
        data = rng.choice([damaged_bytes, damaged_field, damaged_field, damaged_line])(rng, data)
    return data


def write(folder, name, data):
    path = os.path.join(folder, name)
    if data is None:
        if os.path.exists(path):
            os.remove(path)
        return
    with open(path, "wb") as f:
        f.write(data)


def damage(program, top, count):
    rng, good, wrong, faults = random.Random(1), [], 0, 0
    for folder in days(top):
        files = [reference.bytes_of(os.path.join(folder, name)) for name in ("bridge.day", "hall.day")]
        if None not in files and not reference.answer(*files).startswith(b"file "):
            good.append(files)
    with tempfile.TemporaryDirectory() as folder:
        for i in range(count):
            files = list(rng.choice(good))
            which = rng.randrange(2)
            files[which] = None if rng.randrange(200) == 0 else damaged(rng, files[which])
            write(folder, "bridge.day", files[0])
            write(folder, "hall.day", files[1])
            expected = reference.answer(*files)
            faults += expected.startswith(b"file ")
            what = complaint(program, folder, expected)
            if what:
                wrong += 1
                print("variant %d: %s\n  bridge.day %r\n  hall.day %r" % (i, what, files[0], files[1]))
    print("%d faults, %d answers" % (faults, count - faults))
    return count, wrong


def main():
    parser = argparse.ArgumentParser(description=__doc__, formatter_class=argparse.RawDescriptionHelpFormatter)
    parser.add_argument("folder")
    parser.add_argument("--damage", type=int, metavar="N")
    parser.add_argument("--program", default="crates/dayplan/out/dayplan")
    args = parser.parse_args()
    program = os.path.abspath(args.program)
    total, wrong = damage(program, args.folder, args.damage) if args.damage else compare(program, args.folder)
    print("%d days, %d wrong" % (total, wrong))
    sys.exit(1 if wrong or not total else 0)


if __name__ == "__main__":
    main()
