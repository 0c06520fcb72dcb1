#!/usr/bin/env python3
"""Runs a compiled `cases` on generated calls and compares with oracle.py what only this program reaches: SSS* over a
lent list of states, entry by entry, and the part of a certificate that is handed back; and the best line beside them.

    fuzz_cases.py PROGRAM [--runs N] [--seed S]     N inputs of up to 65,000 bytes each (default 20)
"""
import argparse
import os
import random
import subprocess
import sys
from collections import Counter

import fuzz
import fuzz_library
import make_cases as m
import oracle as o

ROOM = 65000


def call(rng):
    """A file, a call and the lines that it prints."""
    kind = rng.randrange(4)
    table = bytes(fuzz.good_table(rng, rng.choice((30, 60)) if kind == 3 else rng.choice((3, 7, 8, 9, 12))))
    file, n = o.file_of(table), len(table) // 6
    if kind <= 1:
        size = rng.choice((6 * n,) * 9 + (6 * n - 1, 6 * n + 6, rng.randrange(6 * n + 1)))
        allowance = rng.choice((o.MAX_NODES, o.MAX_NODES, 0, 1, rng.randrange(n + 1)))
        part = (table + bytes(m.TABLE_SIZE - len(table)))[:size]
        return file, "states %d %d" % (allowance, size), m.states(part, allowance)
    if kind == 2:
        first, second = fuzz_library.damaged_flags(rng, table), fuzz_library.damaged_flags(rng, table)
        return file, "pair %d%s%s" % (len(first), m.numbers(first), m.numbers(second)), m.choice(table, first, second)
    return file, "best", m.best(table)


def main():
    parser = argparse.ArgumentParser()
    parser.add_argument("program")
    parser.add_argument("--runs", type=int, default=20)
    parser.add_argument("--seed", type=int, default=1)
    args = parser.parse_args()
    rng, program = random.Random(args.seed), os.path.abspath(args.program)
    made = subprocess.run([program], input=b"", capture_output=True, timeout=60).stdout
    bad, kinds = 0, Counter()
    for run in range(args.runs):
        given, want, size = [], [], 0
        while size < ROOM:
            file, line, lines = call(rng)
            title = b"# %d %d\n" % (run, len(given))
            case = title + file + b"@" + line.encode() + b"\n"
            size += len(case)
            if size > 65536:
                break
            given.append(case)
            want.append(title + lines.encode())
            kinds[line.split()[0]] += 1
        got = subprocess.run([program], input=b"".join(given), capture_output=True, timeout=60)
        if (got.stdout, got.stderr, got.returncode) != (made + b"".join(want), b"", 0):
            bad += 1
            parts = got.stdout[len(made):].split(b"# ")[1:]
            wrong = next((i for i, w in enumerate(want) if i >= len(parts) or b"# " + parts[i] != w), None)
            if wrong is not None:
                print("DIFFERS %r\ngot  %r\nwant %r" % (given[wrong], parts[wrong] if wrong < len(parts) else None,
                                                        want[wrong]))
    print("%d runs, %d differ; calls: %s" % (args.runs, bad, ", ".join("%s %d" % k for k in sorted(kinds.items()))))
    sys.exit(1 if bad else 0)


if __name__ == "__main__":
    main()
