#!/usr/bin/env python3
"""Checks oracle.py against what the papers print (papers.py), examples worked out by hand, all small trees, and random
trees.

    selfcheck.py [COUNT]    COUNT random trees (default 20000)
"""
import itertools
import random
import sys
import time
from array import array

import oracle as o
import papers
import trees

FILLED, UNLISTED = 170, 43690
checks = 0
wrong = []


def same(name, got, want):
    global checks
    checks += 1
    if got != want:
        wrong.append("%s: got %r, want %r" % (name, got, want))


def refused(number, place):
    return b"refused %d %d\n" % (number, place)


def small(leaves):
    a, b, c, d = leaves
    return o.table_of_nest([[a, b], [c, d]])


def listed(r, order):
    """What a search answers; the lent list must hold its leaves in order, and behind them what it held."""
    if not isinstance(r, o.Refusal):
        same("N14 the list", list(order), r.order + [UNLISTED] * (len(order) - len(r.order)))
        same("N14 as many as the count", len(r.order), r.leaves)
    return r


def run(call, table):
    n = len(table) // 6
    marks, proof, order = bytearray(n), bytearray(n), array("H", (UNLISTED,) * (n + 1))
    if call is o.plain_search:
        r = call(table, marks, proof)
    elif call is o.sss_search:
        r = listed(call(table, [None] * n, marks, proof, order), order)
    else:
        r = listed(call(table, marks, proof, order), order)
    return r, list(marks), list(proof)


def allowed(table, allowance):
    """SSS* within an allowance, on zeroed marks and a filled proof."""
    n = len(table) // 6
    marks, proof, order = bytearray(n), bytearray((FILLED,) * n), array("H", (UNLISTED,) * (n + 1))
    r = listed(o.sss_search(table, [None] * n, marks, proof, order, allowance), order)
    return r, list(marks), list(proof)


def changed_elsewhere(rng, table, marks):
    """The table with other values on the leaves without a mark."""
    other = bytearray(table)
    for k in range(len(marks)):
        if o.frame(table, k)[1] == 0 and not marks[k]:
            other[6 * k + 4:6 * k + 6] = (rng.randint(-32000, 32000) & 65535).to_bytes(2, "big")
    return other


def saved(table, room):
    """What the writer answers for a filled buffer of so many bytes, and what the buffer holds then."""
    file = bytearray(b"\x55" * room)
    return o.write_file(table, file), bytes(file)


def joined(first, node, second, room):
    """What a graft answers for a filled buffer of so many bytes, and what the buffer holds then."""
    result = bytearray(b"\x55" * room)
    return o.graft(first, node, second, result), bytes(result)


def cases_of_01():
    for leaves, (value, move, ab, sss) in papers.rows(papers.SMALL_TREES):
        for call, count in ((o.alpha_beta, ab), (o.sss_search, sss), (o.mtd_search, sss)):
            r = run(call, small(leaves))[0]
            same("01 row %s %s" % (leaves, call.__name__), (r.value, r.move, r.leaves), (value, move, count))
    for nest, want in ((-5, (-5, 0, 1)), ([9], (9, 1, 1))):
        for call in (o.alpha_beta, o.mtd_search, o.sss_search):
            r = run(call, o.table_of_nest(nest))[0]
            same("01 %r" % nest, (r.value, r.move, r.leaves), want)
    same("leaf root replacements", run(o.sss_search, o.table_of_nest(-5))[0].extra, 1)
    r, marks, proof = run(o.sss_search, small((1, 2, 3, 4)))
    same("first row replacements", r.extra, 9)
    same("first row flags", proof, [3, 1, 3, 1, 0, 3, 2])
    for call in (o.alpha_beta, o.mtd_search, o.sss_search):
        r = run(call, o.table_of_nest([[7, 1], [7]]))[0]
        same("7 1 / 7", (r.value, r.move, r.leaves), (7, 2, 3))
    one = lambda v: o.file_of(o.table_of_nest(v))
    ok = lambda file: not o.report(file).startswith(b"refused")
    same("32,000", ok(one(32000)) and ok(one(-32000)), True)
    same("32,001", o.report(one(32001)), refused(7, 0))
    same("-32,001", o.report(one(-32001)), refused(7, 0))
    same("40", ok(o.file_of(o.regular(40, 1, lambda k: k))), True)
    same("41", o.report(o.file_of(o.regular(41, 1, lambda k: k))), refused(5, 0))
    deepest = o.MAX_DEPTH
    same("greatest depth", ok(o.file_of(o.regular(1, deepest, lambda k: 5))), True)
    same("one deeper", o.report(o.file_of(o.regular(1, deepest + 1, lambda k: 5))), refused(9, deepest + 1))
    same("4,096", ok(o.file_of(o.regular(15, 273, lambda k: k))), True)
    same("4,097", o.report(o.file_of(o.regular(16, 256, lambda k: k))), refused(2, 0))
    same("4,097 without last line feed", o.report(o.file_of(o.regular(16, 256, lambda k: k), last=False)),
         refused(2, 0))
    t = o.table_of([2, 41] + [0] * 42, [0] * 42)
    t[6 * 2 + 3] = 1
    same("byte 3 at 2, 41 at 1", o.report(o.file_of(t)), refused(5, 1))
    same("one line feed", o.report(b"\n"), refused(3, 0))
    same("sample", o.report(papers.SAMPLE_FILE), papers.SAMPLE_REPORT)
    same("trap: leaf root and a node that names itself", o.table_no(bytes((0, 0, 0, 0, 0, 5, 0, 1, 1, 0, 0, 0))),
         (6, 1))
    arrival = o.sss_by_rule(o.Tree(small((2, 5, 2, 1))), tie=Arrival())
    same("trap: order of arrival values a fourth leaf of 2 5 2 1", len(arrival[1]), 4)


class Arrival:
    """Ties by order of arrival: min() keeps the first of equal keys, and new states are appended."""
    def __call__(self, k):
        return 0


def table_2():
    rows = list(papers.rows(papers.TABLE_2))
    every = sorted(itertools.permutations((1, 2, 3, 4)))
    same("all permutations once, in order", [tuple(leaves) for leaves, _ in rows], every)
    for leaves, (ab, sss) in rows:
        for call, count in ((o.alpha_beta, ab), (o.sss_search, sss), (o.mtd_search, sss)):
            same("table 2 row %s %s" % (leaves, call.__name__), run(call, small(leaves))[0].leaves, count)
    for i, average in enumerate(papers.AVERAGES):
        third = 3 * sum(counts[i] for _, counts in rows)
        same("averages", (third % 24, "%d/3" % (third // 24)), (0, average))


def figure_1():
    """The worked run of section 3.3 in 002; node k has the heap number k + 1."""
    value, order, replacements = o.sss_by_rule(o.Tree(o.table_of_nest(papers.run_tree())))
    same("002, 3.3: value", value, papers.RUN_VALUE)
    same("002, 3.3: order of tips", [k + 1 for k in order], list(papers.RUN_TIPS))
    same("002, 3.3: replacements", replacements, papers.RUN_REPLACEMENTS)


def obligations():
    """Examples worked out by hand, numbered as in the planners' list of obligations."""
    same("B1", o.report(b""), refused(1, 0))
    same("B2", o.decode(b"000000000005"), bytes.fromhex("000000000005"))
    full = o.file_of(o.regular(15, 273, lambda k: k))
    same("B3 full", len(full), 53248)
    same("B3 odd", o.report(b"x" * 53248), refused(3, 0))
    same("B3 longer", o.report(b"x" * 53249), refused(2, 0))
    same("B3 full and one more line feed", o.report(full + b"\n"), refused(2, 0))
    same("B4", o.report(b"000000000005\n\n"), refused(3, 1))
    same("B5", o.report(b"000000000005\r\n"), refused(3, 0))
    same("B6", o.read_file(b"000000010005", bytearray()), (4, 0))
    table = bytearray(b"\xaa" * 20)
    same("B7", (o.read_file(b"000000000005", table), bytes(table)), (1, bytes.fromhex("000000000005") + b"\xaa" * 14))
    f = b"000000000005\n00000000000A"
    same("B8", [o.read_line(f, p)[1] for p in (0, 1, 13, 14, 25, 26, 2 ** 64 - 1)],
         [13, 1, 25, 14, 25, 26, 2 ** 64 - 1])
    same("B48", saved(o.table_of_nest([-5]), 27), (26, b"000101000000\n00000000FFFB\n\x55"))
    same("B48 no table", saved(b"", 0), ((1, 0), b""))
    same("B48 table before buffer", saved(bytes(12), 0), ((8, 2), b""))
    same("B12", [o.table_no(bytes(k)) for k in (1, 13, 24577, 24582)], [(3, 0), (3, 2), (2, 0), (2, 0)])
    same("B13", o.report(b"000100000005"), refused(6, 0))
    same("B16", o.report(b"000000000005\n000000000005"), refused(8, 2))
    same("B20 self", o.children(bytes((0, 0, 1, 0, 0, 0)), 0), (0, 6))
    same("B20 past", o.children(bytes((0, 0, 1, 0, 0, 0)), 2 ** 64 - 1), (0, 0))
    same("B20 reach", o.children(bytes((0, 1, 1, 0, 0, 0)) + bytes(5), 0), (0, 0))
    row = small((1, 2, 3, 4))
    p = lambda s: bytes(map(int, s.split()))
    same("B26", o.check_proof(row, p("3 1 3 1 0 3 2") + b"\xc8"), 3)
    same("B27", o.check_proof(row, p("3 1 3 1 1 3 2")), (12, 1))
    same("B27 zeros", o.check_proof(row, bytes(7)), (12, 0))
    leaf = o.table_of_nest(5)
    same("B27 leaf", [o.check_proof(leaf, bytes((k,))) for k in (3, 1, 2, 0)], [5, (13, 0), (12, 0), (12, 0)])
    # B28: node 1 outside the max tree with a child in it, node 2 broken too
    same("B28", o.check_proof(row, p("3 0 3 1 0 3 3")), (12, 0))
    deep = o.table_of_nest([[[1, 2], [3, 4]], 5])      # 0: 1 2; 1 Min: 3 4; 3 Max: 5 6; 4 Max: 7 8
    same("B28 inside out", o.check_proof(deep, p("3 3 3 3 2 1 1 1 0")), (12, 4))
    # B31: Max(Min(Max(1)), Min(1, 1)) by node number, and the right order
    t = o.Tree(o.table_of_nest([[[1]], [1, 1]]))
    same("B31 by number", o.sss_by_rule(t, tie=lambda k: k)[1], [4, 6, 5])
    same("B31 ab", o.ab(t)[1], [6, 4])
    t = o.Tree(o.table_of_nest([[1], 1]))
    same("B31 smallest", o.sss(t)[1], [3, 2])
    t = o.Tree(o.table_of_nest([[1, 1], 1]))
    same("B32", o.mtd_by_rule(t)[1], [3, 2, 4])
    t = o.Tree(o.table_of_nest([[[[1, 4], 3], 1]]))
    same("B32 not below", o.mtd_by_rule(t)[1], [6, 5, 3])
    same("B34", o.mtd_by_rule(o.Tree(leaf))[2], 2)
    t = o.Tree(o.table_of_nest([[[[1], 3], 1]]))
    same("B35 replacements", o.sss_by_rule(t)[2], 11)
    t = o.Tree(o.table_of_nest([[[1, [1]], 2]]))
    same("B35 second", o.sss_by_rule(t)[2], 11)
    t = o.table_of_nest([[4, 3]])
    same("D mtd note: passes of Max(Min(4, 3))", run(o.mtd_search, t)[0].extra, 3)


def worths():
    """Request N5, worked out by hand: the border on both sides, and trees that values alone would settle otherwise."""
    for depth, value, want in ((0, 31000, 31000), (1, 31000, 30999), (18, 31000, 30982), (18, 30999, 30999),
                               (18, 32000, 31982), (0, -31000, -31000), (1, -31000, -30999), (18, -31000, -30982),
                               (18, -30999, -30999), (18, -32000, -31982), (18, 0, 0)):
        same("worth of %d at depth %d" % (value, depth), o.worth(depth, value), want)
    late = lambda value: [[[[[[[[[[[[[[[[[value]]]]]]]]]]]]]]]]]      # below a root: depth 18
    for nest, value, move, passes in (([30999, 31000], 30999, 1, 2), ([[31000, [31000]]], 30997, 1, 3),
                                      ([30990, late(31000)], 30990, 1, 2), ([-31000, -30999], -30999, 1, 2),
                                      ([[-31000, [-31000]]], -30998, 1, 2), ([-30990, late(-31000)], -30982, 2, 2)):
        for call in (o.alpha_beta, o.mtd_search, o.sss_search):
            r = run(call, o.table_of_nest(nest))[0]
            same("N5 %r %s" % (nest, call.__name__), (r.value, r.move, r.leaves), (value, move, 2))
        same("N5 %r passes" % nest, run(o.mtd_search, o.table_of_nest(nest))[0].extra, passes)
    flags = bytes((3, 1, 3, 3))
    same("N5: 14 by worths", o.check_proof(o.table_of_nest([31000, [31000]]), flags), (14, 0))
    same("N5: one worth", o.check_proof(o.table_of_nest([31000, [31001]]), flags), 30999)


def allowances():
    """Request N6, worked out by hand: (allowance, merit, leaves, replacements) where it is spent."""
    for nest, rows in (([[1, 2], [3, 4]], ((0, 32001, 0, 2), (1, 32001, 1, 4), (2, 3, 2, 6))),
                       ([[2, 3], [4, 1]], ((0, 32001, 0, 2), (1, 32001, 1, 4), (2, 4, 2, 6), (3, 2, 3, 8))),
                       (-5, ((0, 32001, 0, 0),))):
        table = o.table_of_nest(nest)
        for allowance, *want in rows:
            r = allowed(table, allowance)[0]
            same("N6 %r within %d" % (nest, allowance), [r.merit, r.leaves, r.extra], want)
        same("N6 %r within enough" % nest, allowed(table, len(rows)), run(o.sss_search, table))


def one_allowance(rng, table, full, value):
    """What N6 says of a run within an allowance, beside the full run."""
    allowance = rng.randrange(full[0].leaves + 1)
    r, marks, proof = allowed(table, allowance)
    same("spent exactly", isinstance(r, o.Spent), allowance < full[0].leaves)
    if not isinstance(r, o.Spent):
        same("enough", (r, marks, proof), full)
        return
    same("the first leaves", (r.order, sum(marks)), (full[0].order[:allowance], allowance))
    same("merit", value <= r.merit <= o.GREATEST, True)
    same("no more replacements", r.extra <= full[0].extra, True)
    same("the proof is left", set(proof), {FILLED})
    if allowance:
        same("merit never rises", r.merit <= allowed(table, rng.randrange(allowance))[0].merit, True)
    other = changed_elsewhere(rng, table, marks)
    same("spent: passed-over leaves have no influence", allowed(other, allowance), (r, marks, proof))


def orders():
    """Request N14, worked out by hand: the leaves in the order valued, of alpha-beta, and of MTD and SSS*; the
    numbering is breadth-first, so that left to right is not by number where leaves lie at two depths."""
    for nest, ab, others in (([[1, 2], [3, 4]], [3, 4, 5, 6], [3, 5, 6]),
                             ([[4, 1], [2, 3]], [3, 4, 5, 6], [3, 5, 4, 6]), (-5, [0], [0]),
                             ([9], [1], [1]), ([[[1]], [2, 3]], [6, 4, 5], [6, 4, 5]),
                             ([[[2]], [1, 3], 4], [7, 5, 3], [7, 5, 3]),
                             ([[3, 1], 2, [[4, 5]]], [4, 5, 2, 7, 8], [4, 2, 7, 8])):
        table = o.table_of_nest(nest)
        for call, want in ((o.alpha_beta, ab), (o.mtd_search, others), (o.sss_search, others)):
            same("N14 %r %s" % (nest, call.__name__), run(call, table)[0].order, want)
    table = small((1, 2, 3, 4))
    for entries, want in ((0, (10, 0)), (4, (10, 0)), (6, (10, 0)), (7, None), (9, None)):
        for rule in (o.ab, o.mtd, o.sss):
            order = array("H", (UNLISTED,) * entries)
            r = o.search(rule, table, bytearray(7), bytearray(7), order)
            same("N14 a list of %d entries" % entries, r if isinstance(r, o.Refusal) else None, want)
            same("N14 what it holds", list(order),
                 [UNLISTED] * entries if want else r.order + [UNLISTED] * (entries - r.leaves))
    same("N14 questions 1 to 9 come first", o.search(o.mtd, table[:-1], bytearray(7), bytearray(7), array("H")), (3, 6))


def letters():
    """Request N7, worked out by hand: where 16 is asked, its place, and what the converter writes."""
    leaf, bad, other = b"000000000005\n", b"00000000000g\n", b"00000000000a\n"
    for file, no in ((b"00000000fffb", (16, 0)), (leaf + b"00000000000F\n", (8, 2)),
                     (leaf + b"00000000000f\n", (16, 1)),
                     (other + leaf * 4 + bad, (3, 5)), (b"000000010005\n" + leaf * 2 + other, (16, 3)),
                     (b"f" * 53249, (2, 0)),
                     (b"f", (3, 0)), (b"\nf", (3, 0)), (b"00000000000G", (3, 0))):
        same("N7 %r" % file[:30], o.report(file), refused(*no))
        same("N7 %r, no table" % file[:30], o.read_file(file, bytearray()), no)
    same("N7 one line takes small letters", o.read_line(b"00000000fffb\n", 0), (bytes.fromhex("00000000fffb"), 13))
    for file, want in ((b"00000000fFfb", b"00000000FFFB\n"), (b"00000000000g", refused(3, 0)), (b"", refused(1, 0)),
                       (b"0000000a0005", refused(4, 0)), (b"a" * 53249, refused(2, 0)),
                       (b"00000000\x86000", refused(3, 0))):
        same("N7 convert %r" % file[:30], o.capitals(file), want)
    new = bytearray(b"\x55" * 14)
    same("N7 rest of the buffer", (o.convert(b"00000000fffb", new), bytes(new)), (13, b"00000000FFFB\n\x55"))
    new = bytearray(b"\x55" * 12)
    same("N7 short buffer", (o.convert(b"00000000fffb", new), bytes(new)), ((10, 0), b"\x55" * 12))


def second_captures():
    """Request N8, worked out by hand: what question 4 passes, who moves, and trees that the depth would settle
    otherwise."""
    chain = o.file_of(o.table_of_nest([[1, 2]]))
    for node, count, byte, want in ((1, 2, 1, None), (0, 1, 1, (4, 0)), (2, 0, 1, (4, 2)), (1, 2, 2, (4, 1)),
                                    (1, 41, 1, (5, 1)),
                                    (1, 41, 2, (4, 1)), (1, 2, 255, (4, 1))):
        table = o.decode(chain)
        table[6 * node + 2], table[6 * node + 3] = count, byte
        same("N8 question 4: %r" % ((node, count, byte),), o.table_no(table), want)
    same("N8 movers", o.Tree(o.table_of_nest([([([1],)],)])).is_max, [True, True, False, False, True, False])
    for nest, value, move, leaves in (([(1, 2)], 2, 1, (2, 2, 2)), ([[1, 2]], 1, 1, (2, 2, 2)),
                                      ([([(1, 2), 3],)], 1, 1, (3, 3, 3)),
                                      ([(5, 3), [4, (6, 2)]], 5, 1, (3, 3, 3)),
                                      ([[(3, 2), 1], (0, 2)], 2, 2, (5, 5, 5))):
        for call, count in zip((o.alpha_beta, o.mtd_search, o.sss_search), leaves):
            r = run(call, o.table_of_nest(nest))[0]
            same("N8 %r %s" % (nest, call.__name__), (r.value, r.move, r.leaves), (value, move, count))
    for nest, flags, want in (([(1, 2)], "3 3 1 3", 2), ([(1, 2)], "3 3 3 2", (12, 1)), ([[1, 2]], "3 3 3 2", 1)):
        same("N8 certificate %s of %r" % (flags, nest),
             o.check_proof(o.table_of_nest(nest), bytes(map(int, flags.split()))), want)


def grafts():
    """Request N9, worked out by hand: the numbering, the order of the questions, the mover at a leaf, and depths in the
    result."""
    table, row, pair, lone = o.table_of_nest, small((1, 2, 3, 4)), o.table_of_nest([5, 6]), o.table_of_nest(-5)
    want = bytes.fromhex("000102000000 000302000000 000502000000 000000000001 000702000000 000000000003 000000000004"
                         " 000000000005 000000000006")
    same("B64", joined(row, 4, pair, 60), (9, want + b"\x55" * 6))
    want = bytes.fromhex("000101000000 000202000000 000402000000 000601000000 000000000005 000000000006 000000000003")
    same("B64 before an inner node", joined(table([[1, [3]]]), 2, pair, 42), (7, want))
    same("B63 a lone leaf grafted", joined(row, 4, lone, 42)[1], bytes(table([[1, -5], [3, 4]])))
    same("B63 at a lone leaf", joined(lone, 0, pair, 18)[1], bytes(pair))
    same("B63 one table for both", joined(pair, 1, pair, 30)[0], (17, 1))
    same("B61 named", joined(row, 9999999, pair, 60), ((17, 9999999), b"\x55" * 60))
    same("B61 inner", joined(row, 2, pair, 60)[0], (17, 2))
    same("B61 Min's leaf", joined(table([9]), 1, pair, 60)[0], (17, 1))
    same("B61 after Max twice", joined(table([(1, 2)]), 2, pair, 60)[0], (17, 2))
    same("B61 after Min twice", joined(table([[(9,)]]), 3, pair, 36)[1], bytes(table([[([5, 6],)]])))
    same("B62 first table", joined(bytes(12), 9, bytes(6), 0)[0], (8, 2))
    same("B62 second table", joined(row, 9, bytes(12), 0)[0], (8, 2))
    chain = lambda n: o.regular(1, n, lambda k: k)
    same("B63 18 before 10", joined(chain(18), 18, chain(1), 0)[0], (18, 0))
    same("B63 17 before 18", joined(chain(17), 17, chain(18), 0)[0], (17, 17))
    same("B63 depth 18", joined(chain(16), 16, chain(2), 114)[0], 19)
    same("B63 10", joined(row, 4, pair, 53)[0], (10, 0))
    first = o.regular(16, 128, lambda k: k)
    same("B63 4,096 nodes", joined(first, 128, o.regular(23, 89, lambda k: k), o.MAX_TABLE)[0], 4096)
    same("B63 4,097 nodes", joined(first, 128, first, o.MAX_TABLE)[0], (18, 0))
    wins = table([30990, 31000])
    same("B60 alone", o.Tree(wins).minimax()[0], 30999)
    same("B60 at depth 10", o.Tree(joined(chain(10), 10, wins, 78)[1]).minimax()[0], 30990)


def fillings():
    """Request N11, worked out by hand: the ranks by the mover, and the answer; the values that came play no part but
    for question 7."""
    for nest, leaves, want in (([[1, 2], [3, 4]], 4, [[1, 0], [3, 2]]), (-5, 1, 0), ([9], 1, [0]),
                               ([[[9]]], 1, [[[0]]]),
                               ([(1, 2)], 2, [(0, 1)]), ([[(9, 9, 9)]], 3, [[(2, 1, 0)]]),
                               ([7, [7, 7], 7], 4, [0, [2, 1], 3]),
                               ([[[9, 8], 7]], 3, [[[1, 2], 0]]), ([[5, ([6], 7)], 8], 4, [[2, ([1], 0)], 3])):
        table = o.table_of_nest(nest)
        same("B67 %r" % (nest,), (o.fill(table), bytes(table)), (leaves, bytes(o.table_of_nest(want))))
        same("B67 %r costs" % (nest,), run(o.alpha_beta, table)[0].leaves, leaves)
    for table, want in ((bytearray(), (1, 0)), (bytearray(7), (3, 1)), (o.table_of_nest([7, 32001]), (7, 2)),
                        (bytearray(12), (8, 2))):
        before = bytes(table)
        same("B67 refused", (o.fill(table), bytes(table)), (want, before))
    table = o.regular(40, 41, lambda k: k)
    same("B67 a high byte", (o.fill(table), bytes(table[6 * 41 + 4:6 * 41 + 6])), (1600, (39).to_bytes(2, "big")))


def one_filling(rng, table):
    """What 02 says of the worst-case filling, of any accepted table."""
    tree, filled = o.Tree(table), bytearray(table)
    leaves = tree.leaves()
    same("leaves of a filling", o.fill(filled), len(leaves))
    same("an accepted filling", o.table_no(filled), None)
    rank = {k: o.frame(filled, k)[3] for k in leaves}
    same("ranks", sorted(rank.values()), list(range(len(leaves))))
    same("other bytes", [filled[6 * k:6 * k + (6 if tree.kids[k] else 4)] for k in range(tree.n)],
         [table[6 * k:6 * k + (6 if tree.kids[k] else 4)] for k in range(tree.n)])
    below = [[k] if k in rank else [] for k in range(tree.n)]
    for k in range(tree.n - 1, 0, -1):
        below[tree.parent[k]] += below[k]
    for k in range(tree.n):
        rising = tree.kids[k] if tree.is_max[k] else reversed(tree.kids[k])
        blocks = [sorted(rank[x] for x in below[c]) for c in rising]
        whole = [r for block in blocks for r in block]
        same("blocks", whole == list(range(whole[0], whole[0] + len(whole))) if whole else True, True)
    same("every leaf is valued", run(o.alpha_beta, filled)[0].leaves, len(leaves))
    other = changed_elsewhere(rng, table, bytes(tree.n))
    same("values play no part", (o.fill(other), other), (len(leaves), filled))
    same("ranks again", (o.fill(other), other), (len(leaves), filled))


def one_graft(rng, first, second):
    """What 02 says of a graft, of any two tables: at a leaf where Max would move, or at any number."""
    a, b = o.Tree(first), o.Tree(second)
    fit = [k for k in a.leaves() if a.is_max[k]]
    node = rng.choice(fit) if fit and rng.random() < 0.8 else rng.randrange(a.n + 2)
    got, result = joined(first, node, second, 6 * (a.n + b.n))
    if node not in fit:
        same("no leaf of Max's", (got, result), ((17, node), b"\x55" * len(result)))
        return
    depth = a.depth[node]
    if a.n + b.n - 1 > o.MAX_NODES or depth + max(b.depth) > o.MAX_DEPTH:
        same("too large", (got, result), ((18, 0), b"\x55" * len(result)))
        return
    n = a.n + b.n - 1
    same("nodes of a graft", (got, result[6 * n:]), (n, b"\x55" * 6))
    same("accepted graft", o.table_no(result[:6 * n]), None)
    below = b.fold(lambda k: o.worth(depth + b.depth[k], o.frame(second, k)[3]))[0]
    value = a.fold(lambda k: below if k == node else a.worth[k])[0]
    same("value of a graft", o.Tree(result[:6 * n]).minimax()[0], value)
    same("a short buffer", joined(first, node, second, 6 * n - 1)[0], (10, 0))


def least_values():
    """Request N10, worked out by hand: the borders of losses and wins, the root's bounds, and the order of the
    questions."""
    table, chain = o.table_of_nest, lambda n: o.regular(1, n, lambda k: k)
    capped = table([[[[[[[[[[[[[[[[[[0]]]]]]]]]]]]]]]], -30985]])
    floored = table([[[[[[[[[[[[[[[[[[0]]]]]]]]]]]]]]]]], -31986])
    for name, given, node, wanted, want in (
            ("B65 d = 1", chain(1), 1, -30999, -31000), ("B65 d = 18", chain(18), 18, -30990, -31008),
            ("B65 no win", chain(18), 18, 31990, (21, 18)), ("B65 high", capped, 19, -30985, -31003),
            ("B65 low", floored, 19, -31985, (21, 19)), ("B65 settled", table([5, [3, 0]]), 4, 5, -32000),
            ("B65 at the low", table([5, 0]), 2, 5, -32000), ("B65 below it", table([5, 0]), 2, 4, (21, 2)),
            ("B65 a win", chain(18), 18, 31982, 32000), ("B65 itself", chain(18), 18, 30999, 30999),
            ("B66 named", chain(1), 9999999, 0, (19, 9999999)), ("B66 inner", chain(1), 0, 40000, (19, 0)),
            ("B66 outside", chain(1), 1, 40000, (20, 0)), ("B66 below", chain(1), 1, -32001, (20, 0)),
            ("B66 the table first", bytes(12), 0, 40000, (8, 2))):
        same(name, o.least_value(given, node, wanted), want)


def one_least_value(rng, table):
    """What 02 says of a leaf's value for a wanted root value, of any table; each root value is folded anew."""
    tree = o.Tree(table)
    leaf, wanted = rng.choice(tree.leaves()), tree.minimax()[0] + rng.choice((0, 0, rng.randint(-20, 20)))
    if abs(wanted) > o.MAX_VALUE:
        return
    root = lambda v: tree.fold(lambda k: o.worth(tree.depth[k], v) if k == leaf else tree.worth[k])[0]
    got = o.least_value(table, leaf, wanted)
    if isinstance(got, o.Refusal):
        same("no value", (got, [v for v in rng.sample(range(-32000, 32001), 20) if root(v) == wanted]),
             ((21, leaf), []))
    else:
        smaller = [v for v in rng.sample(range(-32000, got + 1), min(20, got + 32001)) if v < got and root(v) == wanted]
        same("smallest value", (root(got), smaller), (wanted, []))
    other = bytearray(table)
    other[6 * leaf + 4:6 * leaf + 6] = (rng.randint(-32000, 32000) & 65535).to_bytes(2, "big")
    same("what the leaf held", o.least_value(other, leaf, wanted), got)


def solution_trees(tree, k, bit):
    """All sets of flagged nodes of one kind below k."""
    if not tree.kids[k]:
        return [frozenset((k,))]
    below = [solution_trees(tree, c, bit) for c in tree.kids[k]]
    if tree.is_max[k] == (bit == 1):
        return [frozenset((k,)).union(*choice) for choice in itertools.product(*below)]
    return [s | {k} for trees_ in below for s in trees_]


def smallest_pair(tree):
    """Fewest leaves, a shared one once, in a max and a min solution tree of equal value; None if too many to list."""
    leaf = lambda s: frozenset(k for k in s if not tree.kids[k])
    most = set(map(leaf, solution_trees(tree, 0, 1)))
    least = set(map(leaf, solution_trees(tree, 0, 2)))
    if len(most) * len(least) > 40000:
        return None
    return min(len(a | b) for a in most for b in least
               if max(tree.worth[k] for k in a) == min(tree.worth[k] for k in b))


def regular_tree(rng, width, depth, kind):
    """All leaves at this depth."""
    return trees.fill(rng, trees.regular_counts(width, sum(width ** i for i in range(depth))), kind)


def least_counts():
    """Request N12: every pair of equal value in small regular trees, and the searches of larger ones; the cap, the
    questions."""
    rng = random.Random(12)
    for width, depth in ((1, 0), (1, 3), (1, 18), (2, 0), (2, 1), (2, 2), (2, 3), (3, 1), (3, 2), (4, 2), (40, 1)):
        for kind in trees.VALUES:
            tree = o.Tree(regular_tree(rng, width, depth, kind))
            leaf = lambda s: frozenset(k for k in s if not tree.kids[k])
            max_trees, min_trees = (set(map(leaf, solution_trees(tree, 0, flag))) for flag in (1, 2))
            sizes = {len(a | b) for a in max_trees for b in min_trees
                     if max(tree.worth[k] for k in a) == min(tree.worth[k] for k in b)}
            same("N12 pairs of %d and %d" % (width, depth), sizes, {o.least_leaves(width, depth)})
    shapes_ = [(w, d) for w in range(1, 41) for d in range(19) if sum(w ** i for i in range(d + 1)) <= o.MAX_NODES]
    same("N12 accepted shapes", (len(shapes_), max(o.least_leaves(*s) for s in shapes_)), (168, 239))
    for width, depth in shapes_:
        table = regular_tree(rng, width, depth, rng.choice(list(trees.VALUES)))
        for search in (o.alpha_beta, o.mtd_search, o.sss_search):
            same("N12 no fewer in %d and %d" % (width, depth),
                 run(search, table)[0].leaves >= o.least_leaves(width, depth), True)
    capped = [(w, d) for w in range(1, 41) for d in range(19) if o.least_leaves(w, d) == o.MAX_LEAST]
    above = [(w, d) for w, d in capped if w ** ((d + 1) // 2) + w ** (d // 2) > 65536]
    same("B68 the cap", (len(above), [s for s in capped if s not in above]), (414, [(8, 10), (32, 6)]))
    for width, depth, want in ((0, 99, (22, 0)), (41, 0, (22, 0)), (40, 19, (23, 0)), (1, 18, 1), (40, 3, 1639),
                               (12, 5, 1871)):
        same("B69 %d and %d" % (width, depth), o.least_leaves(width, depth), want)


def one_start(rng, table, tree, start, a, s, literal):
    """MTD(f) from one starting value, against alpha-beta's result a and that of SSS*, s."""
    call = lambda table, marks, proof, order: o.mtdf_search(table, start, marks, proof, order)
    f, marks, proof = run(call, table)
    same("start: value and move", (f.value, f.move), (a[0].value, a[0].move))
    same("start: none twice", len(set(f.order)), f.leaves)
    same("start: within ab", set(f.order) <= set(a[0].order), True)
    same("start: proof checks", o.check_proof(table, proof), f.value)
    same("start: flagged leaves are valued", all(marks[k] for k in tree.leaves() if proof[k]), True)
    same("start: no more tests than leaves", f.extra <= f.leaves, True)
    same("start: the first move by the bounds", first_by_bounds(tree, set(f.order)), f.move)
    if start == f.value:
        same("start at the value", f.extra <= 2, True)
    if start > 32000:
        same("start above", set(f.order) <= set(s[0].order), True)
    if literal:
        same("start by rule", o.mtdf_by_rule(tree, start), (f.value, f.order, f.extra))
    same("start: passed-over leaves", run(call, changed_elsewhere(rng, table, marks)), (f, marks, proof))


def first_by_bounds(tree, valued):
    """The root move that the bounds of the valued leaves show; the root is Max."""
    low = tree.bounds(valued)[0]
    return next((c for c in tree.kids[0] if low[c] == low[0]), 0)


def one_line(table, tree, move, proof):
    """The best line: a path to a leaf by nodes of the root's value, exactly those in both trees of the proof of SSS*."""
    line = array("H", (UNLISTED,) * (tree.n + 1))
    r = o.best_line(table, line)
    nodes, value = list(line[:r.length]), tree.minimax()
    same("line: the list behind it", list(line[r.length:]), [UNLISTED] * (tree.n + 1 - r.length))
    same("line: a path to a leaf", [tree.parent[k] for k in nodes], [None] + nodes[:-1])
    same("line: its end", list(tree.kids[nodes[-1]]), [])
    same("line: values", {value[k] for k in nodes}, {r.value})
    same("line: both trees", sorted(nodes), [k for k in range(tree.n) if proof[k] == 3])
    same("line: the move", (r.value, r.move, nodes[1] if nodes[1:] else 0), (value[0], move, move))
    same("line: a list one entry short", o.best_line(table, line[:tree.n - 1]), (10, 0))


def one_tree(rng, table, literal, pairs):
    tree = o.Tree(table)
    n = tree.n
    value = tree.minimax()[0]
    a, m, s = (run(c, table) for c in (o.alpha_beta, o.mtd_search, o.sss_search))
    for r, marks, proof in (a, m, s):
        same("value", r.value, value)
        same("no leaf twice", len(set(r.order)), r.leaves)
        same("count is marks", sum(marks), r.leaves)
        same("proof checks", o.check_proof(table, proof), value)
        same("flagged leaves are valued", all(marks[k] for k in tree.leaves() if proof[k]), True)
        same("flags that break are found", isinstance(o.check_proof(table, [f ^ 3 for f in proof]), o.Refusal), True)
        low, high = tree.bounds(set(r.order))
        same("bounds meet at the root", (low[0], high[0]), (value, value))
    for start in value + rng.randint(-1, 1), rng.choice((-2 ** 31, 32001, rng.randint(-33000, 33000))):
        one_start(rng, table, tree, start, a, s, literal)
    counts = [sum(1 for k in tree.leaves() if r[2][k]) for r in (a, s)]
    fewer = int(counts[1] < counts[0])
    same("N13: the shorter proof", o.shorter(table, a[2], s[2]), (fewer, bytes((a[2], s[2])[fewer])))
    same("N13: the only proof", o.shorter(table, b"", s[2]), (1, bytes(s[2])))
    one_line(table, tree, s[0].move, s[2])
    p = run(o.plain_search, table)
    same("plain", (p[0].value, p[0].move, sum(p[1])), (value, a[0].move, len(tree.leaves())))
    same("plain marks the leaves", all(p[1][k] for k in tree.leaves()), True)
    same("plain's proof checks", o.check_proof(table, p[2]), value)
    same("plain left to right", p[0].order, sorted(tree.leaves(), key=lambda k: tree.left[k]))
    same("sss within ab", set(s[0].order) <= set(a[0].order), True)
    same("mtd list is sss list", m[0].order, s[0].order)
    same("ab left to right", a[0].order, sorted(a[0].order, key=lambda k: tree.left[k]))
    same("replacements", s[0].extra <= 2 * n - 1, True)
    values = [o.frame(table, k)[3] for k in range(n)]
    same("worths", all(abs(tree.worth[k]) <= 32000 - tree.depth[k] for k in tree.leaves()), True)
    same("worth is value", all(tree.worth[k] == values[k] for k in tree.leaves() if abs(values[k]) < 31000), True)
    same("passes", m[0].extra <= 1 + len({tree.worth[k] for k in m[0].order}), True)
    if not any(tree.again):
        same("sides by depth", tree.is_max, [d % 2 == 0 for d in tree.depth])
    if literal:
        same("ab by rule", o.ab_by_rule(tree), a[0].order)
        same("mtd by rule", o.mtd_by_rule(tree), (value, m[0].order, m[0].extra))
        same("sss by rule", o.sss_by_rule(tree), (value, s[0].order, s[0].extra))
        allowance = rng.randrange(s[0].leaves)
        same("allowance by rule", o.sss_by_rule(tree, allowance=allowance), o.sss(tree, allowance))
    if pairs:
        least = smallest_pair(tree)
        if least is not None:
            for r in (a, m, s):
                same("smallest pair", least <= r[0].leaves, True)
    # demand 3's last sentence: other values on the leaves passed over change nothing
    for call, r in ((o.alpha_beta, a), (o.mtd_search, m), (o.sss_search, s)):
        same("passed-over leaves have no influence", run(call, changed_elsewhere(rng, table, r[1])), r)
    one_allowance(rng, table, s, value)
    same("written", saved(table, 13 * n + 3), (13 * n, o.file_of(table) + b"\x55" * 3))
    same("a buffer one byte short", saved(table, 13 * n - 1), ((10, 0), b"\x55" * (13 * n - 1)))
    file = o.file_of(table, last=rng.random() < 0.5)
    buffer = bytearray(b"\x55" * o.MAX_TABLE)
    same("read back", (o.read_file(file, buffer), bytes(buffer)), (n, bytes(table) + b"\x55" * (o.MAX_TABLE - 6 * n)))
    for stored in (file, file.lower(), file.title()):
        same("converted", o.capitals(stored), o.file_of(table))


def random_trees(count):
    rng = random.Random(20)
    kinds, before = list(trees.VALUES), None
    for i in range(count):
        shape = i % 4
        if shape == 0:
            counts = trees.random_counts(rng, rng.randint(1, 14), rng.randint(1, 4), 0.7)
        elif shape == 1:
            counts = trees.random_counts(rng, rng.randint(1, 60), rng.randint(1, 6), 0.6)
        elif shape == 2:
            counts = trees.deep_counts(rng, 80, rng.randint(1, o.MAX_DEPTH), 4, 0.5)
        else:
            width = rng.randint(1, 5)
            counts = trees.regular_counts(width, rng.randint(0, o.MAX_DEPTH if width == 1 else 12))
        table = trees.fill(rng, counts, rng.choice(kinds), trees.second_captures(rng, counts))
        same("accepted", o.table_no(table), None)
        one_tree(rng, table, literal=True, pairs=shape == 0)
        one_graft(rng, before or table, table)
        if i % 20 == 0:
            one_least_value(rng, table)
        one_filling(rng, table)
        before = table
    for i in range(24):
        counts = trees.random_counts(rng, 4096, rng.choice((2, 3, 5, 15, 40)), 0.9)
        table = trees.fill(rng, counts, kinds[i % len(kinds)], trees.second_captures(rng, counts))
        one_tree(rng, table, literal=False, pairs=False)


def shapes(n):
    """Child counts in breadth-first order of every ordered tree of n nodes."""
    def grow(counts, total):
        if len(counts) == total:
            if total == n:
                yield counts
            return
        for c in range(n - total + 1):
            yield from grow(counts + [c], total + c)
    yield from grow([], 1)


def small_values(leaves):
    """Every way to give so many leaves 0, 1, 2; or 30,998, 31,000, 31,001, of which the last two are wins."""
    for of in (0, 1, 2), (30998, 31000, 31001):
        yield from itertools.product(of, repeat=leaves)


def small_tables(most):
    """All trees of up to `most` nodes, with every set of second captures and with `small_values`."""
    for n in range(1, most + 1):
        for counts in shapes(n):
            inner = [k for k in range(1, n) if counts[k]]
            for size in range(len(inner) + 1):
                for again in itertools.combinations(inner, size):
                    for values in small_values(counts.count(0)):
                        yield o.table_of(counts, values, again)


def every_small_tree(most):
    rng = random.Random(6)
    for table in small_tables(most):
        one_tree(rng, table, literal=True, pairs=True)


def main():
    count = int(sys.argv[1]) if len(sys.argv) > 1 else 20000
    start = time.time()
    cases_of_01()
    table_2()
    figure_1()
    obligations()
    worths()
    allowances()
    orders()
    letters()
    second_captures()
    grafts()
    least_values()
    fillings()
    least_counts()
    print("papers and examples: %d checks, %d wrong" % (checks, len(wrong)))
    every_small_tree(6)
    print("all trees of up to 6 nodes: %d checks, %d wrong" % (checks, len(wrong)))
    random_trees(count)
    print("all: %d checks, %d wrong, %.1f s" % (checks, len(wrong), time.time() - start))
    for line in wrong[:40]:
        print(line)
    sys.exit(1 if wrong else 0)


if __name__ == "__main__":
    main()
