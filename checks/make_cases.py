#!/usr/bin/env python3
"""Writes the stored cases and what they must give: those of the program `cases` to crates/cases/stdin and
crates/cases/stdout, and those that run_cases.py runs through the library to checks/cases/stdin and checks/cases/stdout.

Expected results come from 01, from table 2 in 002 (papers.py), or from oracle.py, never from the Rattle code. What a
paper gives is compared with the oracle. README.md has the form of the input.

    make_cases.py [DIRECTORY]   (default: the repository's root)
"""
import os
import sys
from array import array

import oracle as o
import papers

ROOT = os.path.dirname(os.path.dirname(os.path.abspath(__file__)))
# the bytes of the longest table, the byte that buffers are filled with, and the number that lists are
TABLE_SIZE, FILLED, UNLISTED = 6 * 4097, 170, 43690
# the program's list of states, its buffers beside that, and its list for a best line
STATES, STATES_ROOM, LINE_ENTRIES = 8, 12, 32

# the calls of the program, with how many numbers each has; the library runs the others
PROGRAM = {("report", 0), ("pair", None), ("states", 2), ("best", 0), ("graft", 2), ("least_value", 4), ("regular", 2)}
stored = {"crates/cases": [b"", b""], "checks/cases": [b"", b""]}      # by folder: the input, and what it must give
titles = set()


def add(title, file, call, want):
    """A case: the file, the line of its call (empty for the report), and the lines that it prints."""
    assert not set(b"#@") & set(file) and "\n" not in title and title not in titles, title
    titles.add(title)
    name, *given = call.split() or ["report"]
    in_program = PROGRAM & {(name, len(given)), (name, None)}
    case = stored["crates/cases" if in_program else "checks/cases"]
    head = b"# " + title.encode() + b"\n"
    case[0] += head + file + (b"@" + call.encode() + b"\n" if call else b"")
    case[1] += head + want.encode()


def file_case(title, file, refused=None, rows=None, call=""):
    """The report of a file, which is meant to be refused = (number, place), or to be accepted, with rows = [(method,
    value, move, leaves)] where these are given; a file that a call makes is not in the input."""
    got = o.report(file).decode()
    if refused:
        assert got == "refused %d %d\n" % refused, (title, got)
    else:
        assert got.startswith("method value move leaves\n"), (title, got)
        assert not rows or got.split("\n", 1)[1] == "".join("%s %d %d %d\n" % r for r in rows), (title, got)
    add(title, b"" if call else file, call, got)


def tree_file(nest, last=True):
    return o.file_of(o.table_of_nest(nest), last=last)


def all_three(value, move, leaves):
    return [(m, value, move, leaves) for m in ("ab", "mtd", "sss")]


ROW = tree_file([[1, 2], [3, 4]])          # 01's sample and first row
LINES = ROW.decode().splitlines()


def lines(changes=(), drop=()):
    """The first row's file with some lines changed or dropped."""
    changes = dict(changes)
    return ("\n".join(changes.get(i, l) for i, l in enumerate(LINES) if i not in drop) + "\n").encode()


def chain(plies, nest):
    for _ in range(plies):
        nest = [nest]
    return nest


def tuple_chain(plies, nest):
    """A root and so many nodes below it, one under the other, where its side moves again; the last of them is
    `nest`."""
    for _ in range(plies - 1):
        nest = (nest,)
    return [nest]


def made_by_program():
    """01, "Also run": as many frames as pass, and as many bytes as one frame more, which the program makes itself."""
    largest = o.file_of(o.regular(15, 273, lambda k: k))
    for title, file, first in (("4096 frames", largest, "method"),
                               ("as many bytes as 4097 frames", b"0" * 13 * 4097, "refused 2 0\n")):
        got = o.report(file).decode()
        assert got.startswith(first), (title, got)
        titles.add(title)
        stored["crates/cases"][1] += b"# " + title.encode() + b"\n" + got.encode()


def limits():
    """01, "Also run": what the limits let pass and what they stop; the library makes the large trees itself."""
    depth = o.MAX_DEPTH
    for title, width, inner, refused in (("40 children", 40, 1, None), ("41 children", 41, 1, (5, 0)),
                                         ("depth %d" % depth, 1, depth, None),
                                         ("depth %d" % (depth + 1), 1, depth + 1, (9, depth + 1)),
                                         ("regular: 4096 frames", 15, 273, None),
                                         ("regular: 4097 frames", 16, 256, (2, 0))):
        call = "made %d %d" % (width, inner) if title.startswith("regular") else ""
        file_case(title, o.file_of(o.regular(width, inner, lambda k: k)), refused=refused, call=call)


def made_grafts():
    """02, N9: 4,096 nodes pass, one more is stopped; at the first leaf of a tree of 2,049 nodes."""
    first = o.regular(16, 128, lambda k: k)
    for title, width, inner, want in (("4096", 23, 89, "4096"), ("4097", 16, 128, "refused 18 0")):
        got = answered(o.graft(first, 128, o.regular(width, inner, lambda k: k), bytearray(o.MAX_TABLE)))
        assert got == want, (title, got)
        add("a graft of %s nodes" % title, b"", "made_graft %d %d" % (width, inner), "graft %s\n" % got)


def least_counts():
    """02, N12: the whole table, a line for each width."""
    row = lambda width: "least%s\n" % numbers(o.least_leaves(width, d) for d in range(o.MAX_DEPTH + 1))
    add("the least counts", b"", "least_counts", "".join(map(row, range(1, o.MAX_CHILDREN + 1))))


def files_of_01():
    file_case("sample of 01", ROW, rows=[("ab", 3, 2, 4), ("mtd", 3, 2, 3), ("sss", 3, 2, 3)])
    file_case("7 1 / 7", tree_file([[7, 1], [7]]), rows=all_three(7, 2, 3))
    file_case("value 32000", tree_file(32000), rows=all_three(32000, 0, 1))
    file_case("value 32001", tree_file(32001), refused=(7, 0))
    table = o.table_of([2, 41] + [0] * 42, [0] * 42)
    table[6 * 2 + 3] = 1
    file_case("byte 3 wrong at node 2, 41 children at node 1", o.file_of(table), refused=(5, 1))
    file_case("one line feed", b"\n", refused=(3, 0))


def rows_of_002():
    for number, ((a, b, c, d), (ab, sss)) in enumerate(papers.rows(papers.TABLE_2), 1):
        tree = o.Tree(o.table_of_nest([[a, b], [c, d]]))
        value, move = tree.minimax()[0], tree.move()
        file_case("table 2 row %d: %d %d %d %d" % (number, a, b, c, d), tree_file([[a, b], [c, d]]),
                  rows=[("ab", value, move, ab), ("mtd", value, move, len(o.mtd(tree)[1])), ("sss", value, move, sss)])
    nest, value, read = papers.run_tree(), papers.RUN_VALUE, len(papers.RUN_TIPS)
    ab = len(o.ab(o.Tree(o.table_of_nest(nest)))[1])
    file_case("run of section 3.3 in 002, tips that it never reads 0", tree_file(nest),
              rows=[("ab", value, 2, ab), ("mtd", value, 2, read), ("sss", value, 2, read)])


def rejected_files():
    """Each kind of rejection of a file: (number, place, title, file)."""
    for number, place, title, file in (
            (1, 0, "empty file", b""),
            (3, 1, "blank line at the end", b"000000000005\n\n"),
            (3, 0, "carriage returns", ROW.replace(b"\n", b"\r\n")),
            (3, 3, "eleven digits", lines({3: LINES[3][:11]})),
            (3, 3, "thirteen digits", lines({3: LINES[3] + "0"})),
            (3, 6, "a letter past F", lines({6: "00000000000G"})),
            (3, 5, "a blank for a digit", lines({5: "000000000 03"})),
            (3, 0, "two lines without a line feed between", ROW.replace(b"\n", b"", 1)),
            (3, 6, "bad line before a bad node", lines({0: "000102010000", 6: "0000"})),
            (3, 6, "cut off in the last line", ROW[:-3]),
            (3, 5, "a small letter in line 0, a g in line 5",
             lines({0: "000102000000".replace("1", "a"), 5: "00000000000g"})),
            (16, 0, "small letters", tree_file(-5).lower()),
            (16, 0, "both letter cases in one line", b"00000000fFfB\n"),
            (16, 6, "a small letter in the last line, which is not closed", lines({6: "00000000000f"})[:-1]),
            (16, 1, "the first of two lines with small letters", lines({1: "000302000a00", 3: "00000000000a"})),
            (16, 3, "a small letter in line 3, byte 3 wrong in line 0", lines({0: "000102010000", 3: "00000000000a"})),
            (4, 0, "byte 3 at the root", lines({0: "000102010000"})),
            (4, 6, "byte 3 at a leaf", lines({6: "000000010004"})),
            (4, 6, "byte 3 = 255 at a leaf", lines({6: "000000FF0004"})),
            (4, 1, "byte 3 = 2", lines({1: "000302020000"})),
            (4, 1, "byte 3 = 2 before 41 children of one node", lines({1: "000329020000"})),
            (5, 1, "byte 3 at a node of 41 children", lines({1: "000329010000"})),
            (4, 0, "byte 3 at a root that is a leaf", b"000000010005\n"),
            (6, 0, "leaf with a first child", b"000100000005\n"),
            (6, 1, "first child one too high", lines({1: "000402000000"})),
            (6, 0, "first child zero", lines({0: "000002000000"})),
            (6, 1, "leaf root, then a node that names itself", b"000000000005\n000101000000\n"),
            (6, 0, "first child before value", lines({0: "000202000001"})),
            (7, 0, "value -32001", tree_file(-32001)),
            (7, 0, "value -32768", tree_file(-32768)),
            (7, 2, "inner node with a value", lines({2: "000502000001"})),
            (7, 1, "value before a later first child", lines({1: "000302000001", 2: "000602000000"})),
            (8, 2, "two leaves and no root above them", b"000000000005\n000000000005\n"),
            (8, 6, "last line missing", lines(drop=(6,))),
            (8, 8, "a leaf too many", ROW + b"000000000005\n"),
            (9, o.MAX_DEPTH + 3, "depth %d beside shallow leaves" % (o.MAX_DEPTH + 1),
             tree_file([1, 2, chain(o.MAX_DEPTH, 5)]))):
        file_case(title, file, refused=(number, place))


def accepted_files():
    """Trees on which a wrong rule evaluates other leaves: value, move, and the leaves of alpha-beta, MTD and SSS*."""
    for title, file, value, move, counts in (
            ("last line feed missing", ROW[:-1], 3, 2, (4, 3, 3)),
            ("value -32000", tree_file(-32000), -32000, 0, (1, 1, 1)),
            ("negative values and ties", tree_file([[-3, 5, -3], [-7, -3, 2], [-3, -1], -3]), -3, 1, (6, 6, 6)),
            ("equal merits: 2 5 2 1", tree_file([[2, 5], [2, 1]]), 2, 1, (3, 3, 3)),
            ("equal leaves: 7 7 7 7", tree_file([[7, 7], [7, 7]]), 7, 1, (3, 3, 3)),
            ("leftmost is not the lower number", tree_file([[[1]], [1, 1]]), 1, 1, (2, 2, 2)),
            ("a low decides nothing in MTD", tree_file([[1, 1], 1]), 1, 1, (3, 3, 3)),
            ("found not below stays so in MTD", tree_file([[[[1, 4], 3], 1]]), 1, 1, (4, 3, 3)),
            ("purge reaches grandchildren", tree_file([[[1, [1]], 2]]), 1, 1, (3, 3, 3))):
        file_case(title, file, rows=[(m, value, move, n) for m, n in zip(("ab", "mtd", "sss"), counts)])


# one value of a win at two depths
TWO_DEPTHS = tree_file([[31000, [31000]]])


def wins_and_losses():
    """02, N5: worths in the place of values, worked out by hand."""
    for title, nest, rows in (
            ("a win at depth 1 and 30999", [30999, 31000], all_three(30999, 1, 2)),
            ("a win at depth 18 and 30990", [30990, chain(17, 31000)], all_three(30990, 1, 2)),
            ("a loss at depth 1 and -30999", [-31000, -30999], all_three(-30999, 1, 2)),
            ("a loss at depth 18 and -30990", [-30990, chain(17, -31000)], all_three(-30982, 2, 2)),
            ("the sooner of two wins", [[[31500]], 31500], all_three(31499, 2, 2)),
            ("the later of two losses", [-31500, [[-31500]]], all_three(-31497, 2, 2)),
            ("30999 at depth 18 is no win", chain(18, 30999), all_three(30999, 1, 1)),
            ("-30999 at depth 18 is no loss", chain(18, -30999), all_three(-30999, 1, 1)),
            ("32000 at depth 18", chain(18, 32000), all_three(31982, 1, 1)),
            ("-32000 at depth 18", chain(18, -32000), all_three(-31982, 1, 1))):
        file_case(title, tree_file(nest), rows=rows)
    file_case("a win at two depths", TWO_DEPTHS, rows=all_three(30997, 1, 2))


# Max(Max(1, 2)); a chain in which Max moves five times; chains of each side, mixed
TWICE, FIVE_TIMES = [(1, 2)], [((((1, 2),),),)]
MIXED = [[(1, 2), (3, 4)], ([2, 5], [2, 1])]


def second_captures():
    """02, N8: the side that moves at a node goes by its byte 3, worked out by hand."""
    for title, nest, rows in (
            ("Max twice above 1 and 2", TWICE, all_three(2, 1, 2)),
            ("Max, then Min", [[1, 2]], all_three(1, 1, 2)),
            ("Max, then Min twice", [[(2, 1)]], all_three(1, 1, 2)),
            ("Max five times", FIVE_TIMES, all_three(2, 1, 2)),
            ("Max 18 times, leaves at depth 18", tuple_chain(17, (3, 8)), all_three(8, 1, 2)),
            ("Max twice, Min, Min twice", [([4, (6, 2)], 1), [(5, 7), 3]], all_three(3, 2, 7)),
            ("a win after a second capture", [(31000, 5), 31000], all_three(30999, 2, 3)),
            ("the row 1 2 3 4 below a second capture", [([1, 2], [3, 4])],
             [("ab", 3, 1, 4), ("mtd", 3, 1, 3), ("sss", 3, 1, 3)]),
            ("chains of both sides", MIXED, [("ab", 2, 2, 7), ("mtd", 2, 2, 4), ("sss", 2, 2, 4)])):
        file_case(title, tree_file(nest), rows=rows)


# ---------------------------------------------------------------- calls on lent memory

LEAF, DEEP = tree_file(5), tree_file([[[1, 2], [3, 4]], 5])


def answered(x):
    return "refused %d %d" % x if isinstance(x, o.Refusal) else "%d" % x


def numbers(data):
    return "".join(" %d" % b for b in data)


def table_of_file(file):
    table = bytearray(o.MAX_TABLE)
    return bytes(table[:6 * o.read_file(file, table)])


def verdict(table, flags):
    return "verify %s\n" % answered(o.check_proof(table, flags))


def choice(table, first, second):
    """Which of two certificates is handed back (02, N13), and its flags."""
    r = o.shorter(table, first, second)
    if isinstance(r, o.Refusal):
        return "shorter %s\nflags\n" % answered(r)
    return "shorter %s\nflags%s\n" % (("first", "second")[r[0]], numbers(r[1]))


def lend(marks, flags, entries):
    """So many bytes of filled buffers for the marks and the certificate, and so many entries of a filled list."""
    return bytearray((FILLED,) * marks), bytearray((FILLED,) * flags), array("H", (UNLISTED,) * entries)


def left(table, marks, proof, order):
    """What a search leaves in its buffers and its list, and the verdict on the certificate."""
    lent = "evaluated%s\ncertificate%s\norder%s\n" % (numbers(marks), numbers(proof), numbers(order))
    return lent + verdict(table, proof)


def searches(table, marks, flags, entries):
    """The three searches and the plain engine with filled buffers and lists of these lengths: results, what they leave,
    and the verdict. The plain engine gives no count and fills no list."""
    text = ""
    for name, call in (("ab", o.alpha_beta), ("mtd", o.mtd_search),
                       ("sss", lambda t, *memory: o.sss_search(t, None, *memory)),
                       ("plain", lambda t, m, p, _: o.plain_search(t, m, p))):
        memory = lend(marks, flags, 0 if name == "plain" else entries)
        r = call(table, *memory)
        if isinstance(r, o.Refusal):
            assert set(memory[0] + memory[1]) <= {FILLED} and set(memory[2]) <= {UNLISTED}
            text += "%s %s\n" % (name, answered(r))
        else:
            counts = () if name == "plain" else (r.leaves, r.extra or 0)
            text += name + numbers((r.value, r.move, *counts)) + "\n"
        text += left(table, *memory)
    return text


def allowed(table, allowance, marks, flags, entries):
    """SSS* within an allowance (02, N6), with filled buffers and a filled list of these lengths."""
    memory = lend(marks, flags, entries)
    r = o.sss_search(table, None, *memory, allowance)
    if isinstance(r, o.Refusal):
        text = " " + answered(r)
    elif isinstance(r, o.Spent):
        text = " spent" + numbers((r.merit, r.leaves, r.extra))
    else:
        text = numbers((r.value, r.move, r.leaves, r.extra))
    return "sss%s\n" % text + left(table, *memory)


def started(table, start, marks, flags, entries):
    """MTD(f) from a starting value, with filled buffers and a filled list of these lengths."""
    memory = lend(marks, flags, entries)
    r = o.mtdf_search(table, start, *memory)
    text = " " + answered(r) if isinstance(r, o.Refusal) else numbers((r.value, r.move, r.leaves, r.extra))
    return "mtdf%s\n" % text + left(table, *memory)


def start_cases():
    """MTD(f), the expected lines worked out by hand: value, move, leaves, tests."""
    for title, file, start, want in (
            ("the first row from its value", ROW, 3, "3 2 3 1"), ("the first row from above", ROW, 32001, "3 2 3 2"),
            ("the first row from below", ROW, -32001, "3 2 4 2"), ("far above", ROW, 999999, "3 2 3 2"),
            ("a lone leaf", LEAF, 0, "5 0 1 1"),
            ("a low spares a leaf, and the last phase finds the first move", tree_file([[1, 1], 1]), 32001, "1 1 3 1"),
            ("the same from the value", tree_file([[1, 1], 1]), 1, "1 1 3 2"),
            ("a win counts by its worth", tree_file([31000]), 30999, "30999 1 1 1")):
        table = table_of_file(file)
        n = len(table) // 6
        got = started(table, start, n, n, n)
        assert got.startswith("mtdf %s\n" % want), (title, got)
        add("start: " + title, file, "start %d %d %d %d %d" % (*difference(start), n, n, n), got)
    for title, sizes in (("short marks", (6, 7, 7)), ("short certificate", (7, 6, 7)), ("short list", (7, 7, 6))):
        got = started(table_of_file(ROW), 3, *sizes)
        assert got.startswith("mtdf refused 10 0\n"), (title, got)
        add("start: " + title, ROW, "start 3 0 %d %d %d" % sizes, got)


def flags_cases():
    """Questions 10 to 14, the expected answers worked out by hand from 01."""
    for title, file, flags, want in (
            ("certificate of the first row", ROW, "3 1 3 1 0 3 2", "3"),
            ("another max tree", ROW, "3 1 3 0 1 3 2", "3"),
            ("bytes past the last node are not asked", ROW, "3 1 3 1 0 3 2 200", "3"),
            ("leaf root", LEAF, "3", "5"),
            ("negative leaf root", tree_file(-32000), "3", "-32000"),
            ("certificate one byte short", ROW, "3 1 3 1 0 3", "refused 10 0"),
            ("no certificate", LEAF, "", "refused 10 0"),
            ("flag 4", ROW, "3 1 3 1 0 3 4", "refused 11 6"),
            ("lowest of two wrong flags", ROW, "3 1 9 1 0 255 2", "refused 11 2"),
            ("flag 4 before the rules", ROW, "0 0 0 0 0 0 4", "refused 11 6"),
            ("all zero", ROW, "0 0 0 0 0 0 0", "refused 12 0"),
            ("all three", ROW, "3 3 3 3 3 3 3", "refused 12 1"),
            ("root not in the max tree", ROW, "2 1 3 1 0 3 2", "refused 12 0"),
            ("a child of Max missing in the max tree", ROW, "3 1 2 1 0 3 2", "refused 12 0"),
            ("two children of Min in the max tree", ROW, "3 1 3 1 1 3 2", "refused 12 1"),
            ("no child of Min in the max tree", ROW, "3 1 3 0 0 3 2", "refused 12 1"),
            ("child of a node outside the max tree", DEEP, "3 3 3 3 2 1 1 1 0", "refused 12 4"),
            ("leaf root, max tree only", LEAF, "1", "refused 13 0"),
            ("leaf root, min tree only", LEAF, "2", "refused 12 0"),
            ("two children of Max in the min tree", ROW, "3 3 3 1 0 3 2", "refused 13 0"),
            ("no child of Max in the min tree", ROW, "3 1 1 1 0 1 0", "refused 13 0"),
            ("a child of Min missing in the min tree", ROW, "3 1 3 1 0 3 0", "refused 13 2"),
            ("child of a node outside the min tree", ROW, "3 1 3 1 2 3 2", "refused 13 1"),
            ("unequal values", ROW, "3 1 3 1 0 2 3", "refused 14 0"),
            ("unequal values, other branch", ROW, "3 3 1 3 2 1 0", "refused 14 0"),
            ("equal values of unequal worths", tree_file([31000, [31000]]), "3 1 3 3", "refused 14 0"),
            ("unequal values of equal worths", tree_file([31000, [31001]]), "3 1 3 3", "30999"),
            ("certificate where Max moves twice", tree_file(TWICE), "3 3 1 3", "2"),
            ("certificate by the depth where Max moves twice", tree_file(TWICE), "3 3 3 2", "refused 12 1"),
            ("certificate where Min moves twice", tree_file([[(2, 1)]]), "3 3 3 2 3", "1"),
            ("two children in the max tree where Min moves twice", tree_file([[(2, 1)]]), "3 3 3 3 3", "refused 12 2")):
        got = verdict(table_of_file(file), bytes(int(x) for x in flags.split()))
        assert got == "verify %s\n" % want, (title, got)
        add(title, file, ("flags " + flags).strip(), got)


def choice_cases():
    """02, N13: the shorter of two certificates, the expected answers worked out by hand."""
    one, other = "3 1 3 1 0 3 2", "3 1 3 0 1 3 2"
    uneven, two_leaves, three_leaves = tree_file([[5, 6], 5]), "3 1 3 1 0", "3 3 1 3 2"
    for title, file, first, second, want in (
            ("two certificates, a tie", ROW, one, other, "first"),
            ("the same, exchanged", ROW, other, one, "first"),
            ("the second is one byte short", ROW, other, "3 1 3 1 0 3", "first"),
            ("the first is one byte short", ROW, "3 1 3 1 0 3", other, "second"),
            ("the second breaks a rule", ROW, one, "3 3 3 3 3 3 3", "first"),
            ("the first has a wrong flag", ROW, "3 1 3 1 0 3 4", one, "second"),
            ("neither: the first one's refusal", ROW, "3 1 3 1 0 3 4", "3 1 3 1 0 3", "refused 11 6"),
            ("neither: the first one's refusal, exchanged", ROW, "3 1 3 1 0 3", "3 1 3 1 0 3 4", "refused 10 0"),
            ("neither, unequal values first", ROW, "3 1 3 1 0 2 3", "0 0 0 0 0 0 0", "refused 14 0"),
            ("flags past the last node are not handed back", ROW, one + " 200 7", "", "first"),
            ("the second has fewer leaves", uneven, three_leaves, two_leaves, "second"),
            ("the first has fewer leaves", uneven, two_leaves, three_leaves, "first"),
            ("a leaf root", LEAF, "3", "3", "first")):
        flags = [bytes(int(x) for x in f.split()) for f in (first, second)]
        got = choice(table_of_file(file), *flags)
        assert got.startswith("shorter %s\n" % want), (title, got)
        add("choice: " + title, file, ("pair %d%s%s" % (len(flags[0]), numbers(flags[0]), numbers(flags[1]))).strip(),
            got)


def buffer_cases():
    """Question 10 of the searches; what they write where it passes."""
    row = table_of_file(ROW)
    got = searches(row, 7, 7, 7)
    assert "sss 3 2 3 9\n" in got and got.count("certificate 3 1 3 1 0 3 2") == 4      # 01, the cases marked P
    assert "sss -5 0 1 1\n" in searches(table_of_file(tree_file(-5)), 1, 1, 1)
    got = searches(table_of_file(TWO_DEPTHS), 5, 5, 5)
    assert "mtd 30997 1 2 3\n" in got                                                    # 02, N5: three passes
    add("marks and certificates: a win at two depths", TWO_DEPTHS, "buffers 5 5 5", got)
    for marks, flags, entries in ((7, 7, 7), (10, 10, 10), (6, 7, 7), (7, 6, 7), (0, 10, 10), (10, 0, 10), (0, 0, 0),
                                  (7, 7, 6), (7, 7, 4),
                                  (10, 10, 0), (7, 7, 9)):
        want = searches(row, marks, flags, entries)
        refused = 4 if min(marks, flags) < 7 else 3 if entries < 7 else 0               # the plain engine has no list
        assert want.count("refused 10 0") - want.count("verify refused 10 0") == refused
        add("buffers of %d and %d bytes and %d entries for 7 nodes" % (marks, flags, entries), ROW,
            "buffers %d %d %d" % (marks, flags, entries), want)
    for title, nest in (("2 3 1 4", [[2, 3], [1, 4]]), ("2 3 4 1", [[2, 3], [4, 1]]), ("4 1 2 3", [[4, 1], [2, 3]]),
                        ("2 5 2 1", [[2, 5], [2, 1]]), ("7 7 7 7", [[7, 7], [7, 7]]), ("7 1 / 7", [[7, 1], [7]]),
                        ("leaf -5", -5),
                        ("single leaf 9", [9]), ("three plies", [[[1, 2], [3, 4]], 5]),
                        ("negative values", [[-1, -9, 4], [-2], -8]),
                        ("a chain", chain(6, 32000)), ("Max twice", TWICE), ("Max five times", FIVE_TIMES),
                        ("chains of both sides", MIXED)):
        file = tree_file(nest)
        room = max(10, len(file) // 13)
        add("marks and certificates: " + title, file, "buffers %d %d %d" % (room, room, room),
            searches(table_of_file(file), room, room, room))


def order_cases():
    """02, N14: the leaves of alpha-beta from left to right, those of MTD and SSS* in one other order, worked out by
    hand; the list is one entry longer than the nodes. Numbers are given breadth-first, so that left to right is not by
    number where leaves lie at two depths."""
    for title, nest, ab, others in (
            ("the first row", [[1, 2], [3, 4]], "3 4 5 6", "3 5 6"),
            ("a leaf is passed over first", [[4, 1], [2, 3]], "3 4 5 6", "3 5 4 6"),
            ("a leaf at depth 3 comes first", [[[1]], [2, 3]], "6 4 5", "6 4 5"),
            ("leaves at three depths", [[[2]], [1, 3], 4], "7 5 3", "7 5 3"),
            ("a leaf between deeper ones", [[3, 1], 2, [[4, 5]]], "4 5 2 7 8", "4 2 7 8")):
        table, n = o.table_of_nest(nest), len(tree_file(nest)) // 13
        got = searches(table, n, n, n + 1)
        for name, want in (("ab", ab), ("mtd", others), ("sss", others)):
            rest = " %d" % UNLISTED * (n + 1 - len(want.split()))
            assert "\norder %s%s\n" % (want, rest) in got[got.index(name + " "):], (title, name, got)
        add("order of leaves: " + title, tree_file(nest), "buffers %d %d %d" % (n, n, n + 1), got)


def allowance_cases():
    """01's small trees at every allowance from 0 to what the full run needs; those of the plan, worked out by hand."""
    by_hand = {("1 2 3 4", 0): "spent 32001 0 2", ("1 2 3 4", 1): "spent 32001 1 4", ("1 2 3 4", 2): "spent 3 2 6",
               ("1 2 3 4", 3): "3 2 3 9",
               ("2 3 4 1", 2): "spent 4 2 6", ("2 3 4 1", 3): "spent 2 3 8", ("leaf -5", 0): "spent 32001 0 0"}
    trees = [("%d %d %d %d" % tuple(leaves), [leaves[:2], leaves[2:]]) for leaves, _ in papers.rows(papers.SMALL_TREES)]
    for name, nest in trees + [("leaf -5", -5), ("single leaf 9", [9])]:
        file = tree_file(nest)
        table = table_of_file(file)
        n = len(table) // 6
        for allowance in range(len(o.sss(o.Tree(table))[1]) + 1):
            want = allowed(table, allowance, n + 1, n + 1, n + 1)
            assert "sss %s\n" % by_hand.pop((name, allowance), "") in want + "sss \n", (name, allowance, want)
            add("allowance of %d: %s" % (allowance, name), file,
                "allowance %d %d %d %d" % (allowance, n + 1, n + 1, n + 1), want)
    assert not by_hand
    table = table_of_file(ROW)
    # 02, N14: the first leaves of the full run's list
    for allowance, order in ((0, ""), (1, " 3"), (2, " 3 5"), (3, " 3 5 6")):
        rest = " %d" % UNLISTED * (9 - len(order.split()))
        assert "\norder%s%s\n" % (order, rest) in allowed(table, allowance, 7, 7, 9)
    for allowance, marks, flags, entries in ((0, 6, 7, 7), (0, 7, 6, 7), (0, 0, 0, 0), (2, 7, 6, 7), (2, 7, 7, 6),
                                             (0, 7, 7, 4)):
        want = allowed(table, allowance, marks, flags, entries)
        assert want.startswith("sss refused 10 0\n")
        add("allowance of %d, buffers of %d and %d bytes, %d entries" % (allowance, marks, flags, entries), ROW,
            "allowance %d %d %d %d" % (allowance, marks, flags, entries), want)


def table_cases():
    """Questions 1 to 9 of a table, put by each call before question 10; zeros follow the frames of the file."""
    for title, file, size, want in (("empty table", LEAF, 0, "refused 1 0"), ("one byte", LEAF, 1, "refused 3 0"),
                                    ("one frame", LEAF, 6, "1"), ("one byte left over", ROW, 43, "refused 3 7"),
                                    ("one byte missing", ROW, 41, "refused 3 6"), ("the whole table", ROW, 42, "7"),
                                    ("a leaf too many in the table", ROW, 48, "refused 8 8"),
                                    ("one frame of seven", ROW, 6, "refused 8 1"),
                                    ("4096 frames of a table", LEAF, 24576, "refused 8 4096"),
                                    ("4096 frames and a byte", LEAF, 24577, "refused 2 0"),
                                    ("4097 frames of a table", LEAF, 24582, "refused 2 0")):
        table = table_of_file(file)
        table = (table + bytes(TABLE_SIZE - len(table)))[:size]
        got = answered(o.check_table(table))
        assert got == want, (title, got)
        add(title, file, "check %d" % size, "check %s\n" % got + verdict(table, b"") + searches(table, 0, 0, 0))


def reader_cases():
    """Question 10 of the reader: six bytes per line; after a "no" the table is as it was."""
    for title, size, file, want in (("table of 41 bytes", 41, ROW, "refused 10 0"), ("table of 42 bytes", 42, ROW, "7"),
                                    ("longer table keeps its rest", 48, ROW, "7"),
                                    ("no table", 0, LEAF, "refused 10 0"),
                                    ("no table, byte 3 wrong", 0, b"000000010005\n", "refused 4 0"),
                                    ("no table, small letters", 0, b"00000000fffb\n", "refused 16 0"),
                                    ("no table, no file", 0, b"", "refused 1 0")):
        table = bytearray((FILLED,) * size)
        got = answered(o.read_file(file, table))
        assert got == want, (title, got)
        add(title, file, "table %d" % size, "read %s\ntable%s\n" % (got, numbers(table)))


def written(table, room):
    """The writer with so many bytes of a filled buffer; and the reader on what it wrote, with a table as long as the
    first."""
    lent = bytearray((FILLED,) * room)
    got = o.write_file(table, lent)
    text = "write %s\nfile%s\n" % (answered(got), numbers(lent))
    if isinstance(got, o.Refusal):
        assert set(lent) <= {FILLED}
        return text
    back = bytearray((FILLED,) * len(table))
    nodes = o.read_file(lent[:got], back)
    assert back == table
    return text + "read %d\ntable%s\n" % (nodes, numbers(back))


def writer_cases():
    """Questions 1 to 10 of the writer; what it writes is read back."""
    for title, file, room, size, want in (("a leaf in 13 bytes", LEAF, 13, 6, "13"),
                                          ("a leaf in 12 bytes", LEAF, 12, 6, "refused 10 0"),
                                          ("letters are capitals", tree_file(-5), 13, 6, "13"),
                                          ("a missing line feed is supplied", ROW[:-1], 91, 42, "91"),
                                          ("91 bytes for 7 nodes", ROW, 91, 42, "91"),
                                          ("longer file keeps its rest", ROW, 99, 42, "91"),
                                          ("90 bytes for 7 nodes", ROW, 90, 42, "refused 10 0"),
                                          ("no file", ROW, 0, 42, "refused 10 0"),
                                          ("byte 3 is written", tree_file(TWICE), 52, 24, "52"),
                                          ("no table, no file", LEAF, 0, 0, "refused 1 0"),
                                          ("too many frames, no file", LEAF, 0, 24582, "refused 2 0"),
                                          ("a byte left over, no file", ROW, 0, 43, "refused 3 7"),
                                          ("a leaf too many, no file", ROW, 0, 48, "refused 8 8"),
                                          ("a leaf too many, a short file", ROW, 5, 48, "refused 8 8")):
        table = table_of_file(file)
        table = (table + bytes(TABLE_SIZE - len(table)))[:size]
        got = written(table, room)
        assert got.startswith("write %s\n" % want), (title, got)
        add("writer: " + title, file, "write %d %d" % (room, size), got)


def printed(file, room):
    """What the converting program lays in so many bytes of a filled buffer."""
    lent = bytearray((FILLED,) * room)
    got = o.output(file, lent)
    if got is None:
        assert set(lent) <= {FILLED}
        return "output no room\ntext%s\n" % numbers(lent)
    length, refusal = got
    return "output %d%s\ntext%s\n" % (length, " " + answered(refusal) if refusal else "", numbers(lent))


def long_output():
    """02, N7: the converter is lent a file of one byte too many."""
    add("output: one byte too many", b"", "long_output 16", printed(b"0" * (o.MAX_FILE + 1), 16))


def output_cases():
    """02, N7: a file with small letters, files that are still refused, each with its line, and short buffers."""
    deep = o.file_of(o.regular(1, o.MAX_DEPTH + 1, lambda k: k))
    for title, file, room, want in (("small letters", b"00000000fffb\n", 16, b"00000000FFFB\n"),
                                    ("capitals stay", tree_file(-5), 13, b"00000000FFFB\n"),
                                    ("a missing line feed is supplied", b"00000000FfFb", 13, b"00000000FFFB\n"),
                                    ("seven lines", ROW, 96, ROW),
                                    ("no byte", b"", 16, b"refused 1 0\n"),
                                    ("a short line", b"00000000fff\n", 16, b"refused 3 0\n"),
                                    ("byte 3 of a leaf", b"00000001fffb\n", 16, b"refused 4 0\n"),
                                    ("a node too deep", deep, 16, b"refused 9 19\n"),
                                    ("room for the line only", ROW, 13, b"refused 10 0\n"),
                                    ("a short buffer", ROW, 12, None), ("a refusal in a short buffer", b"", 11, None),
                                    ("no buffer", LEAF, 0, None)):
        got = printed(file, room)
        if want is None:
            length, want = "no room", b""
        else:
            length = "%d %s" % (len(want), want[:-1].decode()) if want.startswith(b"refused") else "%d" % len(want)
        lent = want + bytes((FILLED,) * (room - len(want)))
        assert got == "output %s\ntext%s\n" % (length, numbers(lent)), (title, got)
        add("output: " + title, file, "output %d" % room, got)


def longer(file, size):
    """So many bytes of a file's table; zeros follow its frames."""
    table = table_of_file(file)
    return (table + bytes(TABLE_SIZE - len(table)))[:size]


def grafted(first, node, second, room):
    """A graft with so many bytes of a filled buffer; and the report of the result's file."""
    lent = bytearray((FILLED,) * room)
    got = o.graft(first, node, second, lent)
    text = "graft %s\nresult%s\n" % (answered(got), numbers(lent))
    if isinstance(got, o.Refusal):
        assert set(lent) <= {FILLED}
        return text
    return text + o.report(o.file_of(lent[:6 * got])).decode()


# Max(30990, 31000), a value just below a win and a win; Max moves twice; and Min does
NEAR_WIN, MAX_TWICE, MIN_TWICE = tree_file([30990, 31000]), tree_file([(5, 6)]), tree_file([[(9,)]])


def graft_cases():
    """Questions 1 to 9 of both tables, 17, 18 and 10; the result is read back through the writer and the reader."""
    pair, chained = tree_file([5, 6]), tree_file(chain(18, 1))
    for title, first, node, second, room, want in (
            ("among other leaves, with a rest", ROW, 4, pair, 60, "9"),
            ("before an inner node", tree_file([[1, [3]]]), 2, pair, 42, "7"),
            ("two levels", ROW, 4, tree_file([[5, 6], [7, 8]]), 78, "13"),
            ("a lone leaf grafted", ROW, 4, LEAF, 42, "7"),
            ("at a lone leaf", LEAF, 0, pair, 18, "3"), ("a lone leaf at a lone leaf", LEAF, 0, tree_file(-5), 6, "1"),
            ("Max moves twice below", tree_file([[1]]), 2, MAX_TWICE, 36, "6"),
            ("Min moves twice above", MIN_TWICE, 3, pair, 36, "6"),
            ("twice above and below", MIN_TWICE, 3, MAX_TWICE, 42, "7"),
            ("a near win at depth 0", LEAF, 0, NEAR_WIN, 18, "3"),
            ("a near win at depth 10", tree_file(chain(10, 1)), 10, NEAR_WIN, 78, "13"),
            ("depth 18", chained, 18, LEAF, 114, "19"),
            ("no node of this number", ROW, 9999999, pair, 60, "refused 17 9999999"),
            ("an inner node", ROW, 2, pair, 60, "refused 17 2"),
            ("a leaf where Min would move", tree_file([9]), 1, pair, 60, "refused 17 1"),
            ("a leaf where Max moved twice", MAX_TWICE, 2, pair, 60, "refused 17 2"),
            ("depth 19", chained, 18, tree_file([9]), 0, "refused 18 0"),
            ("17 before 18", tree_file([9]), 1, chained, 0, "refused 17 1"),
            ("a byte too few", ROW, 4, pair, 53, "refused 10 0"),
            ("no buffer", LEAF, 0, LEAF, 0, "refused 10 0")):
        tables = table_of_file(first), table_of_file(second)
        got = grafted(tables[0], node, tables[1], room)
        assert got.startswith("graft %s\n" % want), (title, got)
        call = (len(tables[0]) // 6, node, room, len(tables[0]), len(tables[1]))
        add("graft: " + title, first + second, "graft %d %d %d %d %d" % call, got)
    for title, first_size, node, second_size, want in (
            ("no tables", 0, 0, 0, "refused 1 0"), ("the first table is too long", 24582, 9, 0, "refused 2 0"),
            ("bytes left over in the first", 43, 9, 13, "refused 3 7"),
            ("the first table before the second", 48, 9, 0, "refused 8 8"),
            ("no second table", 42, 9, 0, "refused 1 0"),
            ("the second table before the node", 42, 9, 13, "refused 3 2"),
            ("a leaf too many in the second", 42, 9, 24, "refused 8 4")):
        got = grafted(longer(ROW, first_size), node, longer(pair, second_size), 0)
        assert got.startswith("graft %s\n" % want), (title, got)
        add("graft: " + title, ROW + pair, "graft 7 %d 0 %d %d" % (node, first_size, second_size), got)


def grafts_of_program():
    """02, N9, with room for any result: an answer of each kind."""
    pair, chained = tree_file([5, 6]), tree_file(chain(18, 1))
    for title, first, node, second, want in (
            ("a result", ROW, 4, pair, "9"), ("depth 18", chained, 18, LEAF, "19"),
            ("no node of this number", ROW, 9999999, pair, "refused 17 9999999"),
            ("an inner node", ROW, 2, pair, "refused 17 2"),
            ("a leaf where Min would move", tree_file([9]), 1, pair, "refused 17 1"),
            ("depth 19", chained, 18, tree_file([9]), "refused 18 0"),
            ("17 before 18", tree_file([9]), 1, chained, "refused 17 1"),
            ("the first tree before the second", b"", 9, b"", "refused 1 0")):
        got = answered(o.graft(table_of_file(first) if first else b"", node, table_of_file(second) if second else b"",
                               bytearray(o.MAX_TABLE)))
        assert got == want, (title, got)
        add("two trees: " + title, first + second, "graft %d %d" % (len(first), node), "graft %s\n" % got)


def states(table, allowance):
    """SSS* over a lent list of states: the list before, the answer, the list then, and the other buffers."""
    entries = [(k, o.SOLVED, k) for k in range(1, STATES + 1)]
    text = lambda word: word + "".join(" %d %s %d" % (k, status.lower(), merit) for k, status, merit in entries) + "\n"
    before, memory = text("before"), lend(STATES_ROOM, STATES_ROOM, STATES_ROOM)
    r = o.sss_search(table, entries, *memory, allowance)
    if isinstance(r, o.Refusal):
        assert text("before") == before
        found = " " + answered(r)
    else:
        spent = isinstance(r, o.Spent)
        result = (r.merit,) if spent else (r.value, r.move)
        found = " spent" * spent + numbers((*result, r.leaves, r.extra))
    lent = "evaluated%s\ncertificate%s\norder%s\n" % tuple(map(numbers, memory))
    return before + "sss%s\n" % found + text("after") + lent


def states_cases():
    """01, "The state list is lent as a slice of entries": longer than the nodes, exactly as long, one short."""
    eight, nine = tree_file([[1, 2], [3, 4], 5]), tree_file([[1, 2], [3, 4], 5, 6])
    for title, file, allowance, size, want in (
            ("one entry more than nodes", ROW, 4096, 42, "3 2 3 9"),
            ("as many entries as nodes", eight, 4096, 48, "5 3 3 7"),
            ("one entry too few", nine, 4096, 54, "refused 10 0"),
            ("a lone leaf", LEAF, 4096, 6, "5 0 1 1"), ("a second capture", MAX_TWICE, 4096, 24, "6 1 2 6"),
            ("spent at once", ROW, 0, 42, "spent 32001 0 2"), ("spent before the last leaf", ROW, 2, 42, "spent 3 2 6"),
            ("spent, as many entries as nodes", eight, 2, 48, "spent 32001 2 5"),
            ("just enough", ROW, 3, 42, "3 2 3 9"),
            ("no table", ROW, 4096, 0, "refused 1 0"), ("a byte left over", ROW, 4096, 43, "refused 3 7"),
            ("a leaf too many", ROW, 4096, 48, "refused 8 8")):
        got = states(longer(file, size), allowance)
        assert not want or "\nsss %s\n" % want in got, (title, got)
        add("states: " + title, file, "states %d %d" % (allowance, size), got)


def best(table):
    """The best line, in a filled list, and what that holds then."""
    line = array("H", (UNLISTED,) * LINE_ENTRIES)
    r = o.best_line(table, line)
    found = " " + answered(r) if isinstance(r, o.Refusal) else numbers((r.value, r.move, r.length))
    return "best%s\nline%s\n" % (found, numbers(line))


def best_cases():
    """The line of play that stays in both trees of the certificate."""
    with open(os.path.join(ROOT, "samples", "ending.tree"), "rb") as f:
        ending = f.read()
    for title, file, line, want in (
            ("the sample's ending", ending, "0 2 9", None), ("the first row", ROW, "0 2 5", "3 2 3"),
            ("a lone leaf", LEAF, "0", "5 0 1"),
            ("as many entries as nodes", tree_file([[1] * 14, [2] * 15]), "0 2 17", None),
            ("one entry too few", tree_file([[1] * 15, [2] * 15]), "", "refused 10 0"),
            ("no table", b"", "", "refused 1 0")):
        got = best(table_of_file(file) if file else b"")
        assert "\nline %s" % line in got and (not want or got.startswith("best %s\n" % want)), (title, got)
        add("best line: " + title, file, "best", got)


def least_value(table, node, wanted):
    """The smallest value of a leaf for a wanted root value."""
    return "least_value %s\n" % answered(o.least_value(table, node, wanted))


def difference(number):
    """A number as two that are not negative."""
    return (max(number, 0), max(-number, 0))


def least_value_cases():
    """02, N10: questions 1 to 9, 19, 20 and 21, and the values around the borders of losses and wins."""
    one, deep, depth = tree_file(chain(1, 0)), tree_file(chain(18, 0)), o.MAX_DEPTH
    pair, settled = tree_file([5, 0]), tree_file([5, [3, 0]])
    capped, floored = tree_file([[chain(16, 0), -30985]]), tree_file([chain(17, 0), -31986])
    below = lambda file: len(file) // 13 - 1
    for title, file, node, wanted, want in (
            ("a lone leaf", LEAF, 0, 7, 7), ("a lone leaf, the least value", LEAF, 0, -32000, -32000),
            ("a loss one ply away", one, 1, -30999, -31000), ("above the losses", one, 1, -30998, -30998),
            ("a win one ply away", one, 1, 31000, 31001),
            ("no loss is worth so little", one, 1, -32000, "refused 21 1"),
            ("no win is worth so much", one, 1, 32000, "refused 21 1"),
            ("a loss at depth 18", deep, depth, -30990, -31008),
            ("the last loss at depth 18", deep, depth, -30982, -31000),
            ("above it", deep, depth, -30981, -30981), ("a win at depth 18", deep, depth, 31982, 32000),
            ("no win at depth 18", deep, depth, 31983, "refused 21 18"),
            ("far above", deep, depth, 31990, "refused 21 18"),
            ("at the upper bound", capped, below(capped), -30985, -31003),
            ("above the upper bound", capped, below(capped), -30984, "refused 21 19"),
            ("below what -32,000 is worth", floored, below(floored), -31985, "refused 21 19"),
            ("what -32,000 is worth", floored, below(floored), -31982, -32000),
            ("below the other choice", pair, 2, 4, "refused 21 2"), ("at the other choice", pair, 2, 5, -32000),
            ("above the other choice", pair, 2, 6, 6), ("settled", settled, 4, 5, -32000),
            ("settled otherwise", settled, 4, 3, "refused 21 4"),
            ("Max moves twice", tree_file([(5, 6)]), 2, 6, -32000), ("the first row", ROW, 4, 3, -32000),
            ("the first row's other move", ROW, 5, 1, -32000),
            ("no such node", ROW, 9999999, 3, "refused 19 9999999"), ("an inner node", ROW, 2, 3, "refused 19 2"),
            ("19 before 20", ROW, 7, 40000, "refused 19 7"), ("too much", ROW, 3, 32001, "refused 20 0"),
            ("too little", ROW, 3, -32001, "refused 20 0"), ("20 before 21", LEAF, 0, 40000, "refused 20 0")):
        table = table_of_file(file)
        got = least_value(table, node, wanted)
        assert got == "least_value %s\n" % want, (title, got)
        add("least value: " + title, file, "least_value %d %d %d %d" % (len(table), node, *difference(wanted)), got)
    for title, size, want in (("no table", 0, "refused 1 0"), ("too many frames", 24582, "refused 2 0"),
                              ("a byte left over", 43, "refused 3 7"), ("a leaf too many", 48, "refused 8 8")):
        got = least_value(longer(ROW, size), 9, 40000)
        assert got == "least_value %s\n" % want, (title, got)
        add("least value: " + title, ROW, "least_value %d 9 40000 0" % size, got)


def fill(table):
    """The worst-case filling of a table, and what it costs alpha-beta."""
    lent = bytearray(table)
    got = o.fill(lent)
    if isinstance(got, o.Refusal):
        assert lent == table
    cost = o.search(o.ab, lent, bytearray(o.MAX_NODES), bytearray(o.MAX_NODES))
    found = " " + answered(cost) if isinstance(cost, o.Refusal) else numbers((cost.value, cost.move, cost.leaves, 0))
    return "fill %s\ntable%s\nab%s\n" % (answered(got), numbers(lent), found)


# Max(a leaf, Min of two, a leaf); Min over blocks of different sizes; and 266 leaves, so that ranks have a high byte
UNEVEN, BLOCKS, MANY = tree_file([7, [7, 7], 7]), tree_file([[[9, 8], 7]]), tree_file([[0] * 38] * 7)


def fill_cases():
    """Questions 1 to 9; the ranks in the lent table, by the mover."""
    for title, file, size, want in (
            ("the first row's shape", ROW, 42, "4"), ("a lone leaf", tree_file(-5), 6, "1"),
            ("a single leaf", tree_file([9]), 12, "1"),
            ("a chain", tree_file(chain(18, 1)), 114, "1"), ("Max moves twice", MAX_TWICE, 24, "2"),
            ("Min moves twice", tree_file([[(9, 9, 9)]]), 36, "3"), ("uneven", UNEVEN, 36, "4"),
            ("blocks", BLOCKS, 36, "3"),
            ("266 leaves", MANY, 1644, "266"), ("no table", LEAF, 0, "refused 1 0"),
            ("a byte left over", ROW, 43, "refused 3 7"),
            ("a leaf too few", ROW, 36, "refused 8 6"), ("a leaf too many", ROW, 48, "refused 8 8")):
        got = fill(longer(file, size))
        assert got.startswith("fill %s\n" % want), (title, got)
        assert want.startswith("refused") or got.endswith(" %s 0\n" % want), (title, got)
        add("fill: " + title, file, "fill %d" % size, got)


def regular_cases():
    """02, N12: the table's corners, the two entries that meet the cap, the questions and their order."""
    for title, width, depth, want in (
            ("width 1, depth 18", 1, 18, "1"), ("width 40, depth 0", 40, 0, "1"), ("width 2, depth 2", 2, 2, "3"),
            ("width 40, depth 4", 40, 4, "3199"), ("just below the cap", 39, 5, "60839"),
            ("the cap met, 8 and 10", 8, 10, "65535"),
            ("the cap met, 32 and 6", 32, 6, "65535"), ("above the cap", 40, 18, "65535"),
            ("width 0", 0, 4, "refused 22 0"),
            ("width 41", 41, 4, "refused 22 0"), ("depth 19", 2, 19, "refused 23 0"),
            ("width before depth", 0, 99, "refused 22 0"),
            ("a large width", 65537, 99999999, "refused 22 0"), ("a large depth", 1, 65536, "refused 23 0")):
        got = answered(o.least_leaves(width, depth))
        assert got == want, (title, got)
        add("regular: " + title, b"", "regular %d %d" % (width, depth), "least %s\n" % got)


def service_cases():
    """One line, and the children of a node."""
    for title, file, at, want in (
            ("first line", ROW, 0, "line 0 1 2 0 0 0 13"), ("second line", ROW, 13, "line 0 3 2 0 0 0 26"),
            ("last line", ROW, 78, "line 0 0 0 0 0 4 91"),
            ("last line without line feed", ROW[:-1], 78, "line 0 0 0 0 0 4 90"),
            ("end of the file", ROW, 91, "no line 91"), ("past the end", ROW, 92, "no line 92"),
            ("far past the end", ROW, 99999, "no line 99999"), ("middle of a line", ROW, 1, "no line 1"),
            ("at a line feed", ROW, 12, "no line 12"),
            ("small letters in a line", b"00000000fffb\n", 0, "line 0 0 0 0 255 251 13"),
            ("carriage return", b"000000000005\r\n", 0, "no line 0"), ("bad digit", b"00000000000g\n", 0, "no line 0"),
            ("empty line", b"\n", 0, "no line 0"), ("line of no file", b"", 0, "no line 0"),
            ("line of a file that is no tree", b"FfFFffFFFFFF0\nFFFFFFFFFFFF\n", 14,
             "line 255 255 255 255 255 255 27")):
        got, moved = o.read_line(file, at)
        text = ("line" + numbers(got) if got else "no line") + " %d" % moved
        assert text == want, (title, text)
        add("one line: " + title, file, "line %d" % at, text + "\n")
    for title, file, node, want in (
            ("root", ROW, 0, " 0 3 2 0 0 0 0 5 2 0 0 0"), ("last family", ROW, 2, " 0 0 0 0 0 3 0 0 0 0 0 4"),
            ("leaf", ROW, 3, ""), ("past the last frame", ROW, 7, ""), ("far past the last frame", ROW, 99999, ""),
            ("only child", tree_file([9]), 0, " 0 0 0 0 0 9")):
        table = table_of_file(file)
        start, end = o.children(table, node)
        assert numbers(table[start:end]) == want, title
        add("children: " + title, file, "kids %d" % node, "children%s\n" % want)


def main():
    root = sys.argv[1] if len(sys.argv) > 1 else ROOT
    for part in (made_by_program, limits, made_grafts, least_counts, long_output, files_of_01, rows_of_002,
                 rejected_files, accepted_files, wins_and_losses, second_captures, states_cases, best_cases,
                 flags_cases, buffer_cases, order_cases, allowance_cases, start_cases, table_cases, reader_cases,
                 writer_cases, output_cases, graft_cases, grafts_of_program, least_value_cases, fill_cases,
                 regular_cases, choice_cases, service_cases):
        part()
    assert len(stored["crates/cases"][0]) < 65536
    for folder, files in stored.items():
        os.makedirs(os.path.join(root, folder), exist_ok=True)
        for name, data in zip(("stdin", "stdout"), files):
            with open(os.path.join(root, folder, name), "wb") as f:
                f.write(data)
        print("%s: %d cases, %d bytes of input, %d bytes that it must give"
              % (folder, files[1].count(b"# "), *map(len, files)))


if __name__ == "__main__":
    main()
