#!/usr/bin/env python3
"""Runs a compiled program (standard input to standard output) on generated files and compares it with oracle.py.

    fuzz.py PROGRAM [--good N] [--damaged N] [--large N] [--every] [--seed S] [--keep DIR] [--detail]
            [--capitals]

Good files: random shapes, widths and depths to the limits, second captures, ties, extremes.
Damaged files: every kind below. Large files: 4,096 nodes, whole and damaged.
A few are fed in pieces, with pauses, and a few from a file.
Limits: files of 53,247 to 53,250 bytes and around the size of the program's buffer, always. With --every also each
change of one byte of a small file: cut there, lost, put in, or another byte. A question from 1 to 9 or 16 that no file
got a "no" to is an error.
The program's output, its standard error (must be empty) and its exit status (must be 0) are compared.
With --capitals the program is `capitals`; what it wrote is given to it again, and must not change.
With --detail (for program.c) the program gets the word -d and has to print leaves in order, marks, flags, passes and
replacements too.
Files that differ are kept in DIR (default target/checks); the exit status is 1 if there is one.
"""
import argparse
import os
import random
import subprocess
import sys
import time
from collections import Counter

import oracle as o
import trees

ROOT = os.path.dirname(os.path.dirname(os.path.abspath(__file__)))


# ---------------------------------------------------------------- good files

def good_table(rng, most):
    shape = rng.randrange(6)
    if shape == 0:
        counts = trees.random_counts(rng, rng.randint(1, most), rng.randint(1, 6), rng.choice((0.4, 0.6, 0.8)))
    elif shape == 1:
        counts = trees.random_counts(rng, rng.randint(1, most), 40, 0.5)
    elif shape == 2:
        counts = trees.deep_counts(rng, most, o.MAX_DEPTH, rng.randint(1, 8), 0.4)
    elif shape == 3:
        counts = trees.deep_counts(rng, most, rng.randint(1, o.MAX_DEPTH), 3, 0.8)
    elif shape == 4:
        width = rng.randint(1, min(40, most - 1))
        counts = trees.regular_counts(width, rng.randint(0, min(o.MAX_DEPTH, (most - 1) // width)))
    else:
        counts = trees.regular_counts(2, min((most - 1) // 2, rng.choice((1, 3, 7, 15, 31))))
    return trees.fill(rng, counts, rng.choice(list(trees.VALUES)), trees.second_captures(rng, counts))


def as_file(rng, table):
    """Some in small letters, some in both letter cases, which 16 refuses; and some without the last line feed."""
    file = o.file_of(table, last=rng.random() < 0.7)
    case = rng.random()
    if case < 0.1:
        return file.lower()
    share = rng.choice((0.5, 0.01))
    return bytes(c ^ 32 if case < 0.2 and chr(c).isalpha() and rng.random() < share else c for c in file)


def large_table(rng):
    kind = rng.choice(list(trees.VALUES))
    shape = rng.randrange(3)
    if shape == 0:                                    # exactly 4,096 nodes: 4,095 = 3 * 3 * 5 * 7 * 13
        width = rng.choice((3, 5, 7, 9, 13, 15, 21, 35, 39))
        counts = trees.regular_counts(width, 4095 // width)
    elif shape == 1:
        counts = trees.random_counts(rng, 4096, rng.choice((2, 3, 5, 15, 40)), 0.9)
    else:
        counts = trees.regular_counts(rng.choice((2, 4, 6, 10, 40)), 102)
    again = trees.second_captures(rng, counts)
    if rng.random() < 0.3:
        return trees.ranked(counts, rng.random() < 0.5, again)
    return trees.fill(rng, counts, kind, again)


# ---------------------------------------------------------------- damage

def set_byte(table, k, i, value):
    if 6 * k + i < len(table):
        table[6 * k + i] = value & 255


def damage_byte_3(rng, t):
    set_byte(t, rng.randrange(len(t) // 6), 3, rng.choice((1, 2, 128, 255)))


def damage_count(rng, t):
    k = rng.randrange(len(t) // 6)
    set_byte(t, k, 2, rng.choice((0, 1, 40, 41, 42, 128, 255, t[6 * k + 2] + 1, t[6 * k + 2] - 1)))


def damage_first(rng, t):
    k = rng.randrange(len(t) // 6)
    old = 256 * t[6 * k] + t[6 * k + 1]
    new = rng.choice((0, 1, k, k + 1, old + 1, old - 1, old + 256, 65535, rng.randrange(65536))) & 65535
    set_byte(t, k, 0, new >> 8)
    set_byte(t, k, 1, new)


def damage_value(rng, t):
    k = rng.randrange(len(t) // 6)
    new = rng.choice((32001, -32001, -32768, 32767, 32000, -32000, 1, -1, rng.randrange(65536)))
    set_byte(t, k, 4, new >> 8)
    set_byte(t, k, 5, new)


def drop_frame(rng, t):
    k = rng.randrange(len(t) // 6)
    del t[6 * k:6 * k + 6]


def double_frame(rng, t):
    k = rng.randrange(len(t) // 6)
    t[6 * k:6 * k] = t[6 * k:6 * k + 6]


def swap_frames(rng, t):
    i, j = rng.randrange(len(t) // 6), rng.randrange(len(t) // 6)
    a, b = bytes(t[6 * i:6 * i + 6]), bytes(t[6 * j:6 * j + 6])
    t[6 * i:6 * i + 6], t[6 * j:6 * j + 6] = b, a


def add_leaf(rng, t):
    t += bytes((0, 0, 0, 0, 0, rng.randrange(9)))


def self_naming(rng, t):
    n = len(t) // 6
    t += bytes((n >> 8, n & 255, 1, 0, 0, 0))


TABLE_DAMAGE = [damage_byte_3, damage_count, damage_first, damage_value, drop_frame, double_frame, swap_frames,
                add_leaf, self_naming]


def truncate(rng, f):
    return f[:rng.randrange(len(f) + 1)]


def cr_lf(rng, f):
    return f.replace(b"\n", b"\r\n")


def other_byte(rng, f):
    if not f:
        return f
    i = rng.randrange(len(f))
    return f[:i] + bytes((rng.choice(b"gG/:@`xX \t\r\n\0_+-.,\xff0aF" + bytes((rng.randrange(256),))),)) + f[i + 1:]


def lose_byte(rng, f):
    i = rng.randrange(len(f) + 1)
    return f[:i] + f[i + 1:]


def extra_byte(rng, f):
    i = rng.randrange(len(f) + 1)
    return f[:i] + bytes((rng.choice(b"0f\n\r \0"),)) + f[i:]


def blank_line(rng, f):
    lines = f.split(b"\n")
    lines.insert(rng.randrange(len(lines) + 1), rng.choice((b"", b" ", b"\t", b"0" * 11, b"0" * 13)))
    return b"\n".join(lines)


def wrapped(rng, f):
    return rng.choice((f + b"\n", b"\n" + f, b"\xef\xbb\xbf" + f, f + b"\0", f + b"\x1a", b"0x" + f,
                       f.replace(b"\n", b"\r"),
                       f.replace(b"\n", b"\n\n"), f.replace(b"\n", b" "), f.replace(b"\n", b""), f + f))


FILE_DAMAGE = [truncate, cr_lf, other_byte, other_byte, lose_byte, extra_byte, blank_line, wrapped]


def from_nothing(rng):
    kind = rng.randrange(8)
    size = rng.choice((0, 1, 2, 11, 12, 13, 14, 25, 26, 27, 100, 1000))
    if kind == 0:
        return rng.randbytes(size)
    if kind == 1:
        return bytes(rng.choice(b"0123456789abcdefABCDEF\n") for _ in range(size))
    if kind == 2:
        return b"\n" * size
    if kind == 3:
        return b"0" * size
    if kind == 4:                                     # too deep, alone and with company
        width = rng.choice((1, 1, 2))
        counts = []
        for _ in range(rng.randint(o.MAX_DEPTH, o.MAX_DEPTH + 16)):
            counts += [width] + [0] * (width - 1) if counts else [width]
        counts += [0] * (1 + sum(counts) - len(counts))
        return as_file(rng, trees.fill(rng, counts, "few"))
    if kind == 5:
        return as_file(rng, o.regular(rng.randint(38, 60), rng.randint(1, 3), lambda k: k))
    if kind == 6:
        return b"\n".join(bytes(rng.choice(b"0123") for _ in range(12)) for _ in range(rng.randint(1, 6)))
    return as_file(rng, o.table_of([0], [rng.choice((32000, 32001, -32000, -32001, 32767, -32768, 0, -1, 1))]))


def damaged(rng, most):
    choice = rng.randrange(10)
    if choice == 0:
        return "from nothing", from_nothing(rng)
    table = good_table(rng, most)
    if choice <= 5:
        names = []
        for _ in range(rng.choice((1, 1, 1, 2))):
            f = rng.choice(TABLE_DAMAGE)
            if len(table) >= 6:
                f(rng, table)
            names.append(f.__name__)
        return " ".join(names), as_file(rng, table)
    f = rng.choice(FILE_DAMAGE)
    return f.__name__, f(rng, as_file(rng, table))


def large(rng):
    table = large_table(rng)
    full = o.file_of(table)
    kind = rng.randrange(10)
    if kind <= 4:
        return "large", as_file(rng, table)
    if kind == 5:
        return "large damaged", as_file(rng, (rng.choice(TABLE_DAMAGE)(rng, table), table)[1])
    if kind == 6:
        return "large damaged", rng.choice(FILE_DAMAGE)(rng, full)
    if kind == 7:
        whole = o.file_of(o.regular(15, 273, lambda k: k))
        return "oversize", rng.choice((whole + b"\n", whole + b"0", whole + full, whole * 3, whole + b"\0" * 70000,
                                       o.file_of(o.regular(16, 256, lambda k: k)), rng.randbytes(53249),
                                       o.file_of(o.regular(16, 256, lambda k: k), last=False), b"0" * 3000000))
    if kind == 8:
        return "full size", rng.choice((rng.randbytes(53248), b"\n" * 53248, b"0" * 53247, b"000000000000\n" * 4096,
                                        o.file_of(o.regular(15, 273, lambda k: k), last=False),
                                        o.file_of(o.regular(15, 273, lambda k: 4096 - k))))
    return "large truncated", truncate(rng, full)


# ---------------------------------------------------------------- limits, and every change of one byte

def limits():
    whole = o.file_of(o.regular(15, 273, lambda k: k))           # 4,096 lines, 53,248 bytes
    yield "4096 lines", whole
    yield "4096 lines, last line feed missing", whole[:-1]
    yield "4096 lines and a line feed", whole + b"\n"
    yield "4096 lines and a digit", whole + b"0"
    yield "4097 lines", o.file_of(o.regular(16, 256, lambda k: k))
    for size in (53247, 53248, 53249, 53250, 65535, 65536, 65537, 131072):
        yield "%d leaves' bytes" % size, (b"000000000005\n" * (size // 13 + 1))[:size]
        yield "%d line feeds" % size, b"\n" * size
        yield "%d zero bytes" % size, bytes(size)
        if size > len(whole):
            yield "a tree and more, %d bytes" % size, whole + (b"000000000005\n" * 6000)[:size - len(whole)]
    for width, inner in ((40, 1), (41, 1), (40, 102), (1, o.MAX_DEPTH), (1, o.MAX_DEPTH + 1), (2, 2047), (255, 1),
                         (256, 1)):
        yield "regular %d %d" % (width, inner), o.file_of(o.regular(width, inner, lambda k: k))


OTHER_BYTES = bytes(range(128)) + b"\x80\xaf\xc1\xff"


def every_change():
    leaf, row = (o.file_of(o.table_of_nest(nest)) for nest in (-5, [[1, 2], [3, 4]]))
    for name, file in (("leaf", leaf), ("leaf in small letters", leaf.lower()), ("first row", row)):
        for i in range(len(file) + 1):
            yield "%s cut at %d" % (name, i), file[:i]
            yield "%s from %d" % (name, i), file[i:]
            for byte in b"0f\n\r \0":
                yield "%s, %d put in at %d" % (name, byte, i), file[:i] + bytes((byte,)) + file[i:]
        for i in range(len(file)):
            yield "%s without %d" % (name, i), file[:i] + file[i + 1:]
            for byte in OTHER_BYTES:
                yield "%s, %d at %d" % (name, byte, i), file[:i] + bytes((byte,)) + file[i + 1:]


# ---------------------------------------------------------------- running

def run_plain(program, file):
    p = subprocess.run(program, input=file, capture_output=True, timeout=120)
    return p.stdout, p.stderr, p.returncode


def run_in_pieces(program, file, rng):
    """Writes the file to the program's pipe in pieces with pauses, so that it sees short reads."""
    p = subprocess.Popen(program, stdin=subprocess.PIPE, stdout=subprocess.PIPE, stderr=subprocess.PIPE)
    at, size = 0, max(1, len(file) // 6)
    try:
        while at < len(file):
            p.stdin.write(file[at:at + size])
            p.stdin.flush()
            at += size
            time.sleep(0.002)
            size = max(1, rng.randint(size // 2, size * 2))
    except BrokenPipeError:
        pass
    try:
        p.stdin.close()
    except BrokenPipeError:
        pass
    out, err = p.stdout.read(), p.stderr.read()
    return out, err, p.wait(120)


def run_from_file(program, file, path):
    with open(path, "wb") as f:
        f.write(file)
    with open(path, "rb") as f:
        p = subprocess.run(program, stdin=f, capture_output=True, timeout=120)
    return p.stdout, p.stderr, p.returncode


def cases(rng, args):
    for i in range(args.good):
        yield "good", as_file(rng, good_table(rng, rng.choice((7, 20, 60, 200))))
    for i in range(args.damaged):
        yield damaged(rng, rng.choice((7, 20, 60)))
    for i in range(args.large):
        yield large(rng)
    yield from limits()
    if args.every:
        yield from every_change()


def main():
    parser = argparse.ArgumentParser()
    parser.add_argument("program")
    parser.add_argument("--good", type=int, default=2000)
    parser.add_argument("--damaged", type=int, default=3000)
    parser.add_argument("--large", type=int, default=80)
    parser.add_argument("--every", action="store_true")
    parser.add_argument("--seed", type=int, default=1)
    parser.add_argument("--keep", default=os.path.join(ROOT, "target", "checks"))
    parser.add_argument("--detail", action="store_true")
    parser.add_argument("--capitals", action="store_true")
    args = parser.parse_args()
    program = [os.path.abspath(args.program)] + ["-d"] * args.detail
    os.makedirs(args.keep, exist_ok=True)
    rng = random.Random(args.seed)
    start, total, bad, model_time = time.time(), 0, 0, 0.0
    answers = Counter()
    for name, file in cases(rng, args):
        total += 1
        before = time.time()
        want = o.capitals(file) if args.capitals else o.report(file)
        if args.detail:
            want += o.detail(file).encode()
        model_time += time.time() - before
        answers[want.split()[1].decode() if want.startswith(b"refused") else "result"] += 1
        mode = rng.random()
        if mode < 0.02 and len(file) <= 60000:
            how, got = "in pieces", run_in_pieces(program, file, rng)
        elif mode < 0.05:
            how, got = "from a file", run_from_file(program, file, os.path.join(args.keep, "stdin"))
        else:
            how, got = "piped", run_plain(program, file)
        if args.capitals and not want.startswith(b"refused") and run_plain(program, want) != (want, b"", 0):
            how, got = how + ", twice", run_plain(program, want)
        if got != (want, b"", 0):
            bad += 1
            path = os.path.join(args.keep, "%d-%d" % (args.seed, total))
            with open(path, "wb") as f:
                f.write(file)
            if bad <= 20:
                print("DIFFERS %s (%s, %d bytes, %s): got %r, want %r" % (path, name, len(file), how, got, want))
    print("%d files, %d differ, %.1f s (model %.1f s); answers: %s" % (
        total, bad, time.time() - start, model_time,
        ", ".join("%s %d" % (k, v) for k, v in sorted(answers.items(), key=lambda x: (x[0] == "result", x[0])))))
    due = {str(number) for number in (*range(1, 10), *((16,) if not args.capitals else ()))}
    unasked, wrong = due - set(answers), {"16"} & set(answers) - due
    if unasked or wrong:
        print("no file was refused with %s; refused with %s" % (sorted(unasked), sorted(wrong)))
    sys.exit(1 if bad or unasked or wrong else 0)


if __name__ == "__main__":
    main()
