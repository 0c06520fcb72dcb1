#!/usr/bin/env python3
"""Runs the public calls in this process, over lent memory with guards around it, and compares answers and memory with
oracle.py: those of the library for other languages (library.py), and those of lean.c.

    fuzz_library.py [--count N] [--seed S]      all trees of up to 6 nodes, then N random tables and files, good and
                                                damaged (default 3000)
"""
import argparse
import ctypes
import itertools
import os
import random
import sys
from array import array
from collections import Counter

import fuzz
import library
import oracle as o
import selfcheck

FILLED, UNLISTED, GUARD, TEXT_SIZE = 170, 43690, 64, 256
ONLY_OURS = ("read_line", "children")


class Answer(ctypes.Structure):
    _fields_ = [("refused", ctypes.c_uint8), ("spent", ctypes.c_uint8), ("value", ctypes.c_int32)] + [
        (name, ctypes.c_size_t) for name in ("place", "count", "root_move", "steps")]


class Choice(ctypes.Structure):
    _fields_ = [("refused", ctypes.c_uint8), ("chosen", ctypes.c_uint8), ("place", ctypes.c_size_t),
                ("count", ctypes.c_size_t)]


class Text(ctypes.Structure):
    _fields_ = [("bytes", ctypes.c_uint8 * TEXT_SIZE), ("length", ctypes.c_size_t)]


class FileLine(ctypes.Structure):
    _fields_ = [("bytes", ctypes.c_uint8 * 6), ("read", ctypes.c_uint8), ("at", ctypes.c_size_t)]


class ChildrenOf(ctypes.Structure):
    _fields_ = [("first", ctypes.c_size_t), ("count", ctypes.c_size_t)]


def result(name):
    """The type of what a call answers."""
    return {"report": Text, "shorter": Choice, "read_line": FileLine, "children": ChildrenOf}.get(name, Answer)


def ours():
    """The library for other languages as a shared one, with the prefix of its names."""
    shared, archive = os.path.join(library.WORK, "libbuulset.so"), library.build()
    library.run(["gcc", "-shared", "-o", shared, "-Wl,--whole-archive", archive, "-Wl,--no-whole-archive"])
    return ctypes.CDLL(shared), "buulset_"


def lean():
    """The calls of lean.c, likewise."""
    shared, code = os.path.join(library.WORK, "liblean.so"), os.path.join(library.CHECKS, "lean.c")
    library.run(["gcc", "-O2", "-fPIC", "-shared", "-o", shared, code])
    return ctypes.CDLL(shared), "c_"


def lend(data):
    """The bytes, or the numbers of an array, with guards on both sides, and the words of an argument; a number is its
    own word."""
    if isinstance(data, int):
        return bytearray((FILLED,) * 2 * GUARD), (ctypes.c_size_t(data),)
    room = bytearray((FILLED,) * GUARD) + bytes(data) + bytearray((FILLED,) * GUARD)
    return room, (ctypes.byref((ctypes.c_uint8 * len(room)).from_buffer(room), GUARD), ctypes.c_size_t(len(data)))


def call(side, name, *buffers):
    """The answer, and what the buffers hold afterwards; the guards must be as they were."""
    lib, prefix = side
    function = getattr(lib, prefix + name)
    function.restype = result(name)
    lent = [lend(data) for data in buffers]
    got = function(*itertools.chain.from_iterable(words for _, words in lent))
    for room, _ in lent:
        if set(room[:GUARD] + room[-GUARD:]) != {FILLED}:
            return "%s wrote outside its memory" % name
    left = [bytes(room[GUARD:-GUARD]) for room, words in lent if len(words) > 1]
    fields = (getattr(got, field) for field, _ in got._fields_)
    return tuple(bytes(value) if isinstance(value, ctypes.Array) else value for value in fields), left


def flat(answer, kind=Answer, **fields):
    """What a call should answer, in the order of the fields."""
    if isinstance(answer, o.Refusal):
        fields = {"refused": answer.number, "place": answer.place}
    return tuple(fields.get(field, 0) for field, _ in kind._fields_)


# ---------------------------------------------------------------- what is asked, and what must come

def damaged_flags(rng, table):
    """The certificate of a search, as it is or with a few flags changed, or flags at random."""
    n = len(table) // 6
    marks, flags = bytearray(n), bytearray(n)
    o.search(rng.choice((o.ab, o.mtd)), table, marks, flags)
    kind = rng.randrange(6)
    if kind == 0:
        return flags
    if kind == 1:
        return bytearray(rng.choice((0, 1, 2, 3)) for _ in range(n))
    if kind == 2:
        return flags[:rng.randrange(n + 1)]
    for _ in range(rng.choice((1, 1, 2, 3))):
        flags[rng.randrange(n)] = rng.choice((0, 1, 2, 3, 3, 4, 255))
    return flags


def graft_of(rng, first, second):
    """A node to graft at, mostly a leaf where Max would move; a buffer's length; and the lengths of both tables, mostly
    whole."""
    tree, most = o.Tree(first), len(first) + len(second) - 6
    fit = [k for k in tree.leaves() if tree.is_max[k]]
    node = rng.choice(fit) if fit and rng.random() < 0.8 else rng.choice((rng.randrange(tree.n), tree.n, 9999999))
    size = lambda t: rng.choice((len(t),) * 12 + (len(t) - 1, len(t) + 6, rng.randrange(len(t) + 1)))
    return node, rng.choice((most, most, most + 9, most - 1, 0)), (size(first), size(second))


def wanted_of(rng, table):
    """A node, mostly a leaf, and a wanted value: near the root's, near a border or a limit, or any."""
    tree = o.Tree(table)
    node = rng.choice(tree.leaves()) if rng.random() < 0.9 else rng.choice((rng.randrange(tree.n), tree.n, 9999999))
    about = rng.choice((tree.minimax()[0],) * 3 + (0, o.WIN, -o.WIN, o.MAX_VALUE, -o.MAX_VALUE,
                                                   rng.randint(-33000, 33000)))
    return node, about + rng.choice((0, 0, rng.randint(-2, 2), rng.randint(-20, 20)))


def filled(size):
    return bytearray((FILLED,) * size)


def unlisted(entries):
    return array("H", (UNLISTED,) * entries)


def lent_to(name, marks, flags, entries):
    """What a search may write: marks, certificate, and the list of leaves (02, N14), which the plain engine has not."""
    return (filled(marks), filled(flags)) + (() if name == "plain" else (unlisted(entries),))


def found(r):
    """What a search finds, or where its allowance is spent, by the fields of the answer."""
    if isinstance(r, o.Refusal):
        return {}
    if isinstance(r, o.Spent):
        return {"spent": 1, "value": r.merit, "count": r.leaves, "steps": r.extra}
    return {"value": r.value, "root_move": r.move, "count": r.leaves, "steps": r.extra or 0}


def searches(table, *sizes):
    for name, rule in (("alphabeta", o.ab), ("plain", o.plain), ("mtd", o.mtd)):
        lent = lent_to(name, *sizes)
        r = o.search(rule, table, *lent)
        fields = found(r)
        if name == "plain":             # it gives no count
            fields.pop("count", None)
        yield name, (table, *lent_to(name, *sizes)), flat(r, **fields), (table, *lent)
    yield from allowed(table, *sizes, allowance=o.MAX_NODES)


def allowed(table, *sizes, allowance):
    """02, N6: SSS* within an allowance."""
    lent = lent_to("sss", *sizes)
    r = o.sss_search(table, None, *lent, allowance)
    yield "sss", (table, *lent_to("sss", *sizes), allowance), flat(r, **found(r)), (table, *lent)


def lined(table, entries):
    """The best line, in a list of so many entries."""
    lent = unlisted(entries)
    r = o.best_line(table, lent)
    fields = {} if isinstance(r, o.Refusal) else {"value": r.value, "root_move": r.move, "count": r.length}
    yield "line", (table, unlisted(entries)), flat(r, **fields), (table, lent)


def started(table, *sizes, start):
    """MTD(f) from a starting value."""
    lent = lent_to("mtdf", *sizes)
    r = o.mtdf_search(table, start, *lent)
    yield "mtdf", (table, start, *lent_to("mtdf", *sizes)), flat(r, **found(r)), (table, *lent)


def verified(table, flags):
    r = o.check_proof(table, flags)
    yield "verify", (table, flags), flat(r, value=r), (table, flags)


def shorter(table, first, second):
    """02, N13: 1 or 2 for the certificate that is handed back, and how many flags that are."""
    r = o.shorter(table, first, second)
    fields = {} if isinstance(r, o.Refusal) else {"chosen": r[0] + 1, "count": len(r[1])}
    yield "shorter", (table, first, second), flat(r, Choice, **fields), (table, first, second)


def checked(table):
    r = o.check_table(table)
    yield "check", (table,), flat(r, count=r), (table,)


def written(table, room):
    """The writer, and the reader on what was written."""
    lent = filled(room)
    r = o.write_file(table, lent)
    yield "write", (table, filled(room)), flat(r, count=r), (table, lent)
    if not isinstance(r, o.Refusal):
        yield from reports(lent[:r], len(table))


def converted(file, room):
    """The converter, and once more on what it wrote."""
    lent = filled(room)
    r = o.convert(file, lent)
    yield "convert", (file, filled(room)), flat(r, count=r), (file, lent)
    if not isinstance(r, o.Refusal):
        yield "convert", (lent[:r], filled(r)), flat(r, count=r), (lent[:r], lent[:r])


def reports(file, room):
    lent = filled(room)
    r = o.read_file(file, lent)
    yield "read", (file, filled(room)), flat(r, count=r), (file, lent)
    text = o.report(file)
    yield "report", (file,), (text.ljust(TEXT_SIZE, b"\0"), len(text)), (file,)


def served(file, at, table, node):
    """One line of a file, and the children of a node; these put no questions."""
    got, moved = o.read_line(file, at)
    yield "read_line", (file, at), (bytes(got or 6), int(got is not None), moved), (file,)
    start, end = o.children(table, node)
    yield "children", (table, node), (start // 6 if start < end else 0, (end - start) // 6), (table,)


def grafted(first, node, second, room):
    """A graft; and its result through the writer, the reader and the searches."""
    lent = filled(room)
    r = o.graft(first, node, second, lent)
    yield "graft", (first, node, second, filled(room)), flat(r, count=r), (first, second, lent)
    if not isinstance(r, o.Refusal):
        yield from written(lent[:6 * r], 13 * r)
        yield from searches(lent[:6 * r], r, r, r)


def fill(table):
    """The worst-case filling; and the filled table through the searches."""
    lent = bytearray(table)
    r = o.fill(lent)
    yield "fill", (table,), flat(r, count=r), (lent,)
    if not isinstance(r, o.Refusal):
        n = len(lent) // 6
        yield from searches(lent, n, n, n)


def random_graft(rng, table):
    """The table, good or damaged, and a second one: itself, a large or a small one, now and then damaged."""
    kind = rng.randrange(20)
    second = table if kind == 0 else fuzz.large_table(rng) if kind == 1 else fuzz.good_table(rng,
                                                                                             rng.choice((2, 7, 20, 60)))
    node, room = (0, 60) if o.table_no(table) else graft_of(rng, table, second)[:2]
    if kind == 2:
        rng.choice(fuzz.TABLE_DAMAGE)(rng, second)
    yield from grafted(table, node, second, room)


def least_value(table, node, wanted):
    """The smallest value of a leaf; and, where there is one, the value of the tree that holds it."""
    r = o.least_value(table, node, wanted)
    yield "least_value", (table, node, wanted), flat(r, value=r), (table,)
    if not isinstance(r, o.Refusal):
        held = bytearray(table)
        held[6 * node + 4:6 * node + 6] = (r & 65535).to_bytes(2, "big")
        n = len(table) // 6
        yield from searches(held, n, n, n)


def random_least_value(rng, table):
    yield from least_value(table, *((0, 7) if o.table_no(table) else wanted_of(rng, table)))


# Max moves twice, and at the leaves there are a value just below a win and a win
SECOND = o.table_of_nest([(30990, 31000), 7])


def small_trees():
    """Every tree of up to 6 nodes with every set of second captures, with leaves 0, 1, 2, and with leaves around the
    border of a win; of those of up to 4 nodes, grafts and a wanted value at each node."""
    for table in selfcheck.small_tables(6):
        n = len(table) // 6
        yield from searches(table, n, n, n)
        for allowance in range(n + 1):
            yield from allowed(table, n, n, n + 1, allowance=allowance)
        for start in (-2 ** 31, 0, 1, 2, 30999, 31000, 32001):
            yield from started(table, n, n, n + 1, start=start)
        yield from lined(table, n + 1)
        yield from written(table, 13 * n)
        yield from converted(o.file_of(table, last=False).lower(), 13 * n)
        flags = bytearray(n)
        o.search(o.mtd, table, bytearray(n), flags)
        yield from verified(table, flags)
        yield from fill(table)
        if n <= 4:
            for node in range(n + 1):
                yield from grafted(table, node, SECOND, 6 * (n + 4))
                yield from least_value(table, node, 1)


def least_counts():
    """02, N12: the whole table, and what lies around it and far from it."""
    far = (255, 256, 65535, 65536, 2 ** 32, 2 ** 64 - 1)
    for width, depth in itertools.product((*range(43), *far), (*range(21), *far)):
        r = o.least_leaves(width, depth)
        yield "least_leaves", (width, depth), flat(r, count=r), ()


def random_calls(rng):
    table = fuzz.large_table(rng) if rng.random() < 0.01 else fuzz.good_table(rng, rng.choice((7, 20, 60, 200)))
    n = len(table) // 6
    size = lambda: rng.choice((n, n, n, n, n + 1, n + 50, max(n - 1, 0), 0))
    kind = rng.randrange(6)
    if kind == 0:
        rng.choice(fuzz.TABLE_DAMAGE)(rng, table)
    elif kind == 1:
        table = table[:rng.randrange(len(table) + 1)]
    elif kind == 2 and rng.random() < 0.1:
        table = table + bytes(rng.choice((1, 6, o.MAX_TABLE - len(table), o.MAX_TABLE - len(table) + 1)))
    else:
        yield from verified(table, damaged_flags(rng, table))
        yield from shorter(table, damaged_flags(rng, table), damaged_flags(rng, table))
    yield from checked(table)
    yield from searches(table, size(), size(), size())
    allowance = rng.choice((0, 1, 2, rng.randrange(n + 2), rng.randrange(n + 2), 2 ** 64 - 1))
    yield from allowed(table, size(), size(), size(), allowance=allowance)
    start = rng.choice((-2 ** 31, 2 ** 31 - 1, -32001, 32001, rng.randint(-5, 5), rng.randint(-33000, 33000)))
    yield from started(table, size(), size(), size(), start=start)
    yield from lined(table, size())
    yield from verified(table, bytes(rng.choice((0, 1, 2, 3)) for _ in range(size())))
    yield from written(table, rng.choice((13 * n, 13 * n, 13 * n + 1, 13 * n + 40, max(13 * n - 1, 0), 12 * n, 0)))
    yield from random_graft(rng, table)
    if rng.random() < 0.2:
        yield from random_least_value(rng, table)
    yield from fill(table)
    file = fuzz.damaged(rng, 60)[1] if kind < 3 else fuzz.as_file(rng, table)
    room = rng.choice((6 * n, 6 * n, 6 * n + 7, 6 * n - 1, 0, o.MAX_TABLE))
    yield from reports(file, room)
    place = rng.choice((13 * rng.randrange(n + 1), rng.randrange(13 * n + 3)))
    yield from served(file, place, table, rng.choice((rng.randrange(n + 1), n, n + 1)))
    yield from converted(file, rng.choice((13 * n, 13 * n + 7, max(13 * n - 1, 0), 0, o.MAX_FILE)))
    read = bytearray(o.MAX_TABLE)
    nodes = o.read_file(file, read)
    if not isinstance(nodes, o.Refusal):
        yield from written(read[:6 * nodes], 13 * nodes)


def main():
    parser = argparse.ArgumentParser()
    parser.add_argument("--count", type=int, default=3000)
    parser.add_argument("--seed", type=int, default=1)
    args = parser.parse_args()
    sides, rng, asked, bad = (ours(), lean()), random.Random(args.seed), Counter(), 0
    todo = itertools.chain(least_counts(), small_trees(),
                           itertools.chain.from_iterable(random_calls(rng) for _ in range(args.count)))
    for name, lent, answer, left in todo:
        asked[name] += 1
        want = answer, [bytes(data) for data in left]
        for side in sides[:1] if name in ONLY_OURS else sides:
            got = call(side, name, *lent)
            if got != want:
                bad += 1
                if bad <= 10:
                    given = [data if isinstance(data, int) else bytes(data)[:60] for data in lent]
                    print("DIFFERS %s%s of %r: got %r, want %r" % (side[1], name, given, got[0], answer))
    print("%d differ; calls on each side: %s" % (bad, ", ".join("%s %d" % item for item in sorted(asked.items()))))
    sys.exit(1 if bad else 0)


if __name__ == "__main__":
    main()
