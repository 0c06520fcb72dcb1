#!/usr/bin/env python3
"""A plain model of document 01 ("Minimax analysis of club trees") with requests of 02, written from their sentences.

It shares nothing with the Rattle code: values are signed, lines are split at line feeds, SSS* keeps
Stockman's list. Everything public takes bytes, bytearrays and arrays of numbers as a caller lends them
and changes them as 01 and 02 say; a refused call changes nothing.

    oracle.py < FILE        prints what the program has to print
    oracle.py --detail < FILE   the same, then leaves in order, passes, replacements, marks and flags
    oracle.py --capitals < FILE     what the program `capitals` has to print

Where a rule is given twice here (`..._by_rule`, and a faster one), selfcheck.py compares the two.
"""
import heapq
import sys
from array import array
from collections import namedtuple

MAX_NODES = 4096
MAX_FILE = 53248
MAX_TABLE = 24576
MAX_CHILDREN = 40
MAX_DEPTH = 18
MAX_VALUE = 32000
WIN = 31000
MAX_LEAST = 65535
LEAST, GREATEST = -32001, 32001

Refusal = namedtuple("Refusal", "number place")
Spent = namedtuple("Spent", "merit leaves extra order")     # 02, N6: extra, the replacements so far
LIVE, SOLVED = "LIVE", "SOLVED"

HEX = {c: i for i, c in enumerate(b"0123456789")}
HEX.update({c: 10 + i for i, c in enumerate(b"ABCDEF")})
HEX.update({c: 10 + i for i, c in enumerate(b"abcdef")})
SMALL = b"abcdef"


# ---------------------------------------------------------------- frames and the two services

def frame(table, k):
    """First child, count of children, byte 3 and value of node k."""
    a, b, count, again, c, d = table[6 * k:6 * k + 6]
    value = 256 * c + d
    return 256 * a + b, count, again, value - 65536 if value >= 32768 else value


def children(table, node):
    """The part of the table that holds the children, as (start, end) in bytes; (0, 0) where empty."""
    if node >= len(table) // 6:
        return 0, 0
    first, count, _, _ = frame(table, node)
    start, end = 6 * first, 6 * (first + count)
    if count == 0 or end > len(table):
        return 0, 0
    return start, end


def six_bytes(line):
    """The six bytes of twelve hexadecimal digits, or None."""
    if len(line) != 12 or any(c not in HEX for c in line):
        return None
    return bytes(16 * HEX[line[i]] + HEX[line[i + 1]] for i in range(0, 12, 2))


def read_line(file, at):
    """(frame, moved position), or (None, at) where no line starts there."""
    got = six_bytes(file[at:at + 12]) if at <= len(file) else None
    if got is None:
        return None, at
    if at + 12 == len(file):
        return got, at + 12
    if file[at + 12] == 10:
        return got, at + 13
    return None, at


# ---------------------------------------------------------------- questions 1 to 9

def lines_of(file):
    """A line feed closes a line; the last may be missing."""
    lines = bytes(file).split(b"\n")
    return lines[:-1] if lines[-1] == b"" else lines


def frames_no(table):
    """Questions 4 to 9, on whole frames."""
    n = len(table) // 6
    below = 0                       # child counts of all lower-numbered nodes
    firsts, counts = [], []
    for k in range(n):
        first, count, again, value = frame(table, k)
        if again != 0 and not (again == 1 and count != 0 and k != 0):
            return Refusal(4, k)
        if count > MAX_CHILDREN:
            return Refusal(5, k)
        if count == 0:
            if first != 0:
                return Refusal(6, k)
        elif first != 1 + below or first <= k:
            return Refusal(6, k)
        if (not -MAX_VALUE <= value <= MAX_VALUE) if count == 0 else value != 0:
            return Refusal(7, k)
        below += count
        firsts.append(first)
        counts.append(count)
    if 1 + below != n:
        return Refusal(8, n)
    depth = [0] * n
    for k in range(n):
        for c in range(firsts[k], firsts[k] + counts[k]):
            depth[c] = depth[k] + 1
    for k in range(n):
        if depth[k] > MAX_DEPTH:
            return Refusal(9, k)
    return None


def table_no(table):
    """Questions 1 to 9 of a table."""
    if len(table) == 0:
        return Refusal(1, 0)
    if len(table) > MAX_TABLE:
        return Refusal(2, 0)
    if len(table) % 6 != 0:
        return Refusal(3, len(table) // 6)
    return frames_no(table)


def decode(file):
    """The table of a file, or the refusal by questions 1 to 3 and 16; 3 is put to all lines before 16 is."""
    if len(file) == 0:
        return Refusal(1, 0)
    if len(file) > MAX_FILE:
        return Refusal(2, 0)
    lines, table = lines_of(file), bytearray()
    for i, line in enumerate(lines):
        got = six_bytes(line)
        if got is None:
            return Refusal(3, i)
        table += got
    for i, line in enumerate(lines):
        if any(c in SMALL for c in line):
            return Refusal(16, i)
    return table


# ---------------------------------------------------------------- the tree of an accepted table

def worth(depth, value):
    """What a leaf of this value counts at this depth (N5)."""
    if value >= WIN:
        return value - depth
    if value <= -WIN:
        return value + depth
    return value


class Tree:
    """Node numbers, sides, and the leaves' worths of an accepted table."""

    def __init__(self, table):
        self.n = n = len(table) // 6
        self.kids = kids = []
        self.again = moves_again = []   # the same side moves as at the parent (N8)
        values = []
        for k in range(n):
            first, count, again, value = frame(table, k)
            kids.append(range(first, first + count))
            moves_again.append(again == 1)
            values.append(value)
        self.parent = parent = [None] * n
        self.is_max = is_max = [True] * n
        self.depth = depth = [0] * n
        for k in range(n):
            for c in kids[k]:
                parent[c] = k
                is_max[c] = is_max[k] == moves_again[c]
                depth[c] = depth[k] + 1
        self.worth = [worth(depth[k], values[k]) for k in range(n)]
        self.left = left = [0] * n      # place in left-to-right (depth-first) order
        size = [1] * n
        for k in range(n - 1, 0, -1):
            size[parent[k]] += size[k]
        self.size = size
        for k in range(n):
            at = left[k] + 1
            for c in kids[k]:
                left[c] = at
                at += size[c]

    def leaves(self):
        return [k for k in range(self.n) if not self.kids[k]]

    def fold(self, leaf):
        """The greatest at Max, the least at Min, from leaf(k) at the leaves: a number a node."""
        got = [None] * self.n
        for k in range(self.n - 1, -1, -1):
            if not self.kids[k]:
                got[k] = leaf(k)
            else:
                below = [got[c] for c in self.kids[k]]
                got[k] = max(below) if self.is_max[k] else min(below)
        return got

    def minimax(self):
        return self.fold(lambda k: self.worth[k])

    def bounds(self, valued):
        """Low and high of each node, from a set of valued leaves."""
        low = self.fold(lambda k: self.worth[k] if k in valued else LEAST)
        high = self.fold(lambda k: self.worth[k] if k in valued else GREATEST)
        return low, high

    def move(self):
        """The first child of the root with the root's value, or 0."""
        value = self.minimax()
        return next((c for c in self.kids[0] if value[c] == value[0]), 0)

    def flags(self, valued):
        """The proof read off the bounds."""
        low, high = self.bounds(valued)
        flags = [0] * self.n
        flags[0] = 3
        for k in range(self.n):
            if not self.kids[k]:
                continue
            all_, bit_of_one, bound = (1, 2, low) if self.is_max[k] else (2, 1, high)
            if flags[k] & all_:
                for c in self.kids[k]:
                    flags[c] |= all_
            if flags[k] & bit_of_one:
                one = next(c for c in self.kids[k] if bound[c] == bound[k])
                flags[one] |= bit_of_one
        return flags


# ---------------------------------------------------------------- alpha-beta

def ab_by_rule(tree):
    """Leaves with alpha < beta (Baudet's condition), left to right."""
    value = tree.minimax()
    alpha, beta = [LEAST] * tree.n, [GREATEST] * tree.n
    for k in range(tree.n):
        a, b = alpha[k], beta[k]
        for c in tree.kids[k]:
            alpha[c], beta[c] = a, b
            if tree.is_max[k]:
                a = max(a, value[c])
            else:
                b = min(b, value[c])
    valued = [k for k in tree.leaves() if alpha[k] < beta[k]]
    return sorted(valued, key=lambda k: tree.left[k])


def ab(tree):
    """The pass over the children that stops at the first one that closes the window."""
    leaves = []
    kids, is_max, worth = tree.kids, tree.is_max, tree.worth

    def visit(k, alpha, beta):
        if not kids[k]:
            leaves.append(k)
            return worth[k]
        if is_max[k]:
            best = LEAST
            for c in kids[k]:
                best = max(best, visit(c, max(alpha, best), beta))
                if best >= beta:
                    break
        else:
            best = GREATEST
            for c in kids[k]:
                best = min(best, visit(c, alpha, min(beta, best)))
                if best <= alpha:
                    break
        return best

    return visit(0, LEAST, GREATEST), leaves


# ---------------------------------------------------------------- the plain engine

def plain(tree):
    """02, N1: every leaf, from left to right; Max's turn asks Min's for each child, and Min's asks Max's; where the
    same side moves again, a turn asks itself (N8)."""
    leaves = []

    def turn(k, best, other):
        if not tree.kids[k]:
            leaves.append(k)
            return tree.worth[k]
        return best([turn(c, best, other) if tree.again[c] else turn(c, other, best) for c in tree.kids[k]])

    return turn(0, max, min), leaves


# ---------------------------------------------------------------- MTD

def mtd_by_rule(tree):
    """The rule word by word: each high is worked out anew from the leaves valued so far."""
    leaves, found = [], set()           # found: nodes that a pass found not below
    test, passes = GREATEST, 0

    def high(k):
        if not tree.kids[k]:
            return tree.worth[k] if k in leaves else GREATEST
        return (max if tree.is_max[k] else min)(high(c) for c in tree.kids[k])

    def below(k, earlier, now):
        if high(k) < test:
            return True
        if k in earlier or (k in leaves and tree.worth[k] >= test):
            return False
        if not tree.kids[k]:
            leaves.append(k)
            answer = tree.worth[k] < test
        elif tree.is_max[k]:
            answer = not any(not below(c, earlier, now) for c in tree.kids[k])
        else:
            answer = any(below(c, earlier, now) for c in tree.kids[k])
        if not answer:
            now.add(k)
        return answer

    while True:
        passes += 1
        now = set()
        if not below(0, found, now):
            return test, leaves, passes
        found |= now
        test = high(0)


def mtd(tree):
    """The same with kept highs, each set anew when its node is left."""
    n, kids, is_max, worth = tree.n, tree.kids, tree.is_max, tree.worth
    high, not_below = [GREATEST] * n, [False] * n
    leaves = []
    test, passes = GREATEST, 0

    def below(k):
        if high[k] < test:
            return True
        if not_below[k] or (not kids[k] and high[k] != GREATEST):
            return False                # found so earlier, or a valued leaf: it was below a greater test
        if not kids[k]:
            leaves.append(k)
            high[k] = worth[k]
            answer = worth[k] < test
        elif is_max[k]:
            answer = True
            for c in kids[k]:
                if not below(c):
                    answer = False
                    break
            high[k] = max([high[c] for c in kids[k]])
        else:
            answer = False
            for c in kids[k]:
                if below(c):
                    answer = True
                    break
            high[k] = min([high[c] for c in kids[k]])
        not_below[k] = not answer
        return answer

    while True:
        passes += 1
        if not below(0):
            return test, leaves, passes
        test = high[0]


# ---------------------------------------------------------------- MTD(f)

def mtdf_by_rule(tree, start):
    """000, sections 8 and 9: null-window tests, with the bounds worked out anew from the leaves valued so far; then the
    root's children are tested for the first one with the value."""
    leaves, tests = [], 0

    def bound(k, other):
        if not tree.kids[k]:
            return tree.worth[k] if k in leaves else other
        return (max if tree.is_max[k] else min)(bound(c, other) for c in tree.kids[k])

    def not_below(k, test):
        if bound(k, GREATEST) < test:
            return False
        if bound(k, LEAST) >= test:
            return True
        if not tree.kids[k]:
            leaves.append(k)
            return tree.worth[k] >= test
        return children(k, test)

    def children(k, test):
        return (any if tree.is_max[k] else all)(not_below(c, test) for c in tree.kids[k])

    while bound(0, LEAST) != bound(0, GREATEST):
        low, high = bound(0, LEAST), bound(0, GREATEST)
        answer = not_below(0, min(high, max(low + 1, start)))
        start = bound(0, LEAST) + 1 if answer else bound(0, GREATEST)
        tests += 1
    value = bound(0, LEAST)
    if tree.kids[0]:
        children(0, value)
    return value, leaves, tests


def mtdf(tree, start):
    """The same with kept bounds, each set anew when its node is left."""
    n, kids, is_max, worth = tree.n, tree.kids, tree.is_max, tree.worth
    low, high = [LEAST] * n, [GREATEST] * n
    leaves, tests = [], 0

    def not_below(k, test):
        if high[k] < test:
            return False
        if low[k] >= test:
            return True
        if kids[k]:
            return enter(k, test)
        leaves.append(k)
        low[k] = high[k] = worth[k]
        return worth[k] >= test

    def enter(k, test):
        for c in kids[k]:
            answer = not_below(c, test)
            if answer == is_max[k]:
                break
        best = max if is_max[k] else min
        low[k], high[k] = best([low[c] for c in kids[k]]), best([high[c] for c in kids[k]])
        return answer

    while low[0] != high[0]:
        answer = not_below(0, min(high[0], max(low[0] + 1, start)))
        start = low[0] + 1 if answer else high[0]
        tests += 1
    value = low[0]
    if kids[0]:
        enter(0, value)
    return value, leaves, tests


# ---------------------------------------------------------------- SSS*

def sss_by_rule(tree, tie=None, allowance=None):
    """Stockman's list word by word: (node, status, merit), greatest merit, leftmost in the tree. A leaf that the
    allowance does not cover ends the run with its state's merit, and the state is not replaced (02, N6)."""
    tie = tie or (lambda k: tree.left[k])
    states = [(0, LIVE, GREATEST)]
    leaves, replacements = [], 0
    while True:
        assert states                   # 02, N14: until the root is taken SOLVED
        best = min(states, key=lambda s: (-s[2], tie(s[0])))
        node, status, merit = best
        if node == 0 and status == SOLVED:
            return merit, leaves, replacements
        if status == LIVE and not tree.kids[node] and len(leaves) == allowance:
            return Spent(merit, len(leaves), replacements, leaves)
        states.remove(best)
        replacements += 1
        parent = tree.parent[node]
        if status == LIVE and not tree.kids[node]:
            leaves.append(node)
            states.append((node, SOLVED, min(merit, tree.worth[node])))
        elif status == LIVE and tree.is_max[node]:
            states += [(c, LIVE, merit) for c in tree.kids[node]]
        elif status == LIVE:
            states.append((tree.kids[node][0], LIVE, merit))
        elif tree.is_max[parent]:
            start, end = tree.left[parent], tree.left[parent] + tree.size[parent]
            states = [s for s in states if not start < tree.left[s[0]] < end]
            states.append((parent, SOLVED, merit))
        elif node + 1 in tree.kids[parent]:
            states.append((node + 1, LIVE, merit))
        else:
            states.append((parent, SOLVED, merit))


def sss(tree, allowance=None):
    """The same with a heap; a purged state stays in it until it comes up, and is then dropped."""
    kids, is_max, parent_of, left, worth = tree.kids, tree.is_max, tree.parent, tree.left, tree.worth
    heap = [(-GREATEST, 0, 0, LIVE)]
    purged_below = [False] * tree.n
    leaves, replacements = [], 0

    def purged(k):
        k = parent_of[k]
        while k is not None:
            if purged_below[k]:
                return True
            k = parent_of[k]
        return False

    while True:
        merit, _, node, status = heapq.heappop(heap)
        merit = -merit
        if purged(node):
            continue
        if node == 0 and status == SOLVED:
            return merit, leaves, replacements
        if status == LIVE and not kids[node] and len(leaves) == allowance:
            return Spent(merit, len(leaves), replacements, leaves)
        replacements += 1
        if status == LIVE:
            if not kids[node]:
                leaves.append(node)
                heapq.heappush(heap, (-min(merit, worth[node]), left[node], node, SOLVED))
            elif is_max[node]:
                for c in kids[node]:
                    heapq.heappush(heap, (-merit, left[c], c, LIVE))
            else:
                c = kids[node][0]
                heapq.heappush(heap, (-merit, left[c], c, LIVE))
            continue
        parent = parent_of[node]
        if is_max[parent]:
            purged_below[parent] = True
        elif node + 1 < kids[parent].stop:
            heapq.heappush(heap, (-merit, left[node + 1], node + 1, LIVE))
            continue
        heapq.heappush(heap, (-merit, left[parent], parent, SOLVED))


# ---------------------------------------------------------------- the proof check

def solution_no(tree, flags, bit):
    """The lowest node whose rule of the max tree (bit 1) or the min tree (bit 2) breaks, or None."""
    for k in range(tree.n):
        inside = bool(flags[k] & bit)
        number = sum(1 for c in tree.kids[k] if flags[c] & bit)
        if k == 0 and not inside:
            return 0
        if not inside:
            good = number == 0
        elif not tree.kids[k]:
            good = True
        elif tree.is_max[k] == (bit == 1):
            good = number == len(tree.kids[k])
        else:
            good = number == 1
        if not good:
            return k
    return None


def check_proof(table, flags):
    """Questions 1 to 14; the value."""
    no = table_no(table)
    if no:
        return no
    tree = Tree(table)
    if len(flags) < tree.n:
        return Refusal(10, 0)
    for k in range(tree.n):
        if flags[k] > 3:
            return Refusal(11, k)
    for number, bit in ((12, 1), (13, 2)):
        k = solution_no(tree, flags, bit)
        if k is not None:
            return Refusal(number, k)
    greatest = max(tree.worth[k] for k in tree.leaves() if flags[k] & 1)
    least = min(tree.worth[k] for k in tree.leaves() if flags[k] & 2)
    return greatest if greatest == least else Refusal(14, 0)


def shorter(table, first, second):
    """02, N13: 0 or 1 for the proof that is handed back, with its flags, one a node; or the refusal that stands."""
    no = table_no(table)
    if no:
        return no
    nos = [check_proof(table, flags) for flags in (first, second)]
    good = [i for i in (0, 1) if not isinstance(nos[i], Refusal)]
    if not good:
        return nos[0]
    tree = Tree(table)
    flagged = [sum(1 for k in tree.leaves() if k < len(flags) and flags[k]) for flags in (first, second)]
    i = min(good, key=lambda i: (flagged[i], i))
    return i, bytes((first, second)[i][:tree.n])


# ---------------------------------------------------------------- public calls over lent memory

Result = namedtuple("Result", "value move leaves extra order")   # extra: passes, replacements, or None


def read_file(file, table):
    """Questions 1 to 3, 16, 4 to 10; writes the frames to the start of the table; the number of nodes."""
    got = decode(file)
    if isinstance(got, Refusal):
        return got
    no = frames_no(got)
    if no:
        return no
    if len(table) < len(got):
        return Refusal(10, 0)
    table[:len(got)] = got
    return len(got) // 6


def write_file(table, file):
    """Questions 1 to 10; writes a line of capital digits for each frame to the start of the file; its length
    (02, N3)."""
    no = table_no(table)
    if no:
        return no
    text = b"".join(b"%02X%02X%02X%02X%02X%02X\n" % tuple(table[k:k + 6]) for k in range(0, len(table), 6))
    if len(file) < len(text):
        return Refusal(10, 0)
    file[:len(text)] = text
    return len(text)


def convert(file, new):
    """02, N7: the letters a to f lifted to capitals, then read and written; the length of the new file."""
    table = bytearray(MAX_TABLE)
    n = read_file(bytes(c - 32 if c in SMALL else c for c in file), table)
    return n if isinstance(n, Refusal) else write_file(table[:6 * n], new)


def output(file, text):
    """02, N7: what the converting program prints, at the front of a buffer: the new file, or the line of the refusal;
    its length, and the refusal or None; None alone without room for it."""
    n = convert(file, text)
    if not isinstance(n, Refusal):
        return n, None
    line = b"refused %d %d\n" % n
    if len(text) < len(line):
        return None
    text[:len(line)] = line
    return len(line), n


def check_table(table):
    return table_no(table) or len(table) // 6


def graft(first, node, second, result):
    """Questions 1 to 9 of the first table, then of the second, 17, 18, 10; writes the table of the first tree with the
    second in the leaf's place to the start of the result; its number of nodes (02, N9)."""
    no = table_no(first) or table_no(second)
    if no:
        return no
    tree, grafted = Tree(first), Tree(second)
    if node >= tree.n or tree.kids[node] or not tree.is_max[node]:
        return Refusal(17, node)
    if tree.n + grafted.n - 1 > MAX_NODES or tree.depth[node] + max(grafted.depth) > MAX_DEPTH:
        return Refusal(18, 0)
    table = table_of_nest(nest_of_table(first, {node: nest_of_table(second)}))
    if len(result) < len(table):
        return Refusal(10, 0)
    result[:len(table)] = table
    return len(table) // 6


def least_values(tree, leaf):
    """Each value that the root can have, with the smallest value of the leaf that gives it: all values are tried."""
    value, path, k = tree.minimax(), [], leaf
    while k:
        k, below = tree.parent[k], k
        best = max if tree.is_max[k] else min
        others = [value[c] for c in tree.kids[k] if c != below]
        if others:
            path.append((best, best(others)))
    least = {}
    for v in range(-MAX_VALUE, MAX_VALUE + 1):
        root = worth(tree.depth[leaf], v)
        for best, others in path:
            root = best(root, others)
        least.setdefault(root, v)
    return least


def least_value(table, node, wanted):
    """Questions 1 to 9, 19, 20, 21; the smallest value of the leaf that gives the root the wanted one (02, N10)."""
    no = table_no(table)
    if no:
        return no
    tree = Tree(table)
    if node >= tree.n or tree.kids[node]:
        return Refusal(19, node)
    if abs(wanted) > MAX_VALUE:
        return Refusal(20, 0)
    return least_values(tree, node).get(wanted, Refusal(21, node))


def fill(table):
    """Questions 1 to 9; writes the ranks to the leaves of the table itself: a node's ranks are a block, and those of
    its children lie in it one behind the other, rising from left to right at Max, falling at Min; the number of leaves
    (02, N11)."""
    no = table_no(table)
    if no:
        return no
    tree = Tree(table)
    leaves, start = [0 if kids else 1 for kids in tree.kids], [0] * tree.n
    for k in range(tree.n - 1, 0, -1):
        leaves[tree.parent[k]] += leaves[k]
    for k in range(tree.n):
        at = start[k]
        for c in tree.kids[k] if tree.is_max[k] else reversed(tree.kids[k]):
            start[c] = at
            at += leaves[c]
    for k in tree.leaves():
        table[6 * k + 4:6 * k + 6] = start[k].to_bytes(2, "big")
    return leaves[0]


def least_leaves(width, depth):
    """02, N12: 22 and 23, the width first; the fewest leaves that decide a regular tree, capped."""
    if not 1 <= width <= MAX_CHILDREN:
        return Refusal(22, 0)
    if depth > MAX_DEPTH:
        return Refusal(23, 0)
    return min(width ** ((depth + 1) // 2) + width ** (depth // 2) - 1, MAX_LEAST)


def write_marks(tree, order, marks):
    valued = set(order)
    marks[:tree.n] = bytes(1 if k in valued else 0 for k in range(tree.n))


def finish(tree, outcome, marks, proof):
    if isinstance(outcome, Spent):
        write_marks(tree, outcome.order, marks)
        return outcome
    value, order = outcome[0], outcome[1]
    extra = outcome[2] if len(outcome) > 2 else None
    write_marks(tree, order, marks)
    proof[:tree.n] = bytes(tree.flags(set(order)))
    return Result(value, tree.move(), len(order), extra, order)


def search(rule, table, marks, proof, order=None, states=None):
    """Questions 1 to 10; then the rule. `order` is the lent list whose beginning gets the valued leaves in the order
    valued (02, N14), `states` the lent list of SSS*."""
    no = table_no(table)
    if no:
        return no
    tree = Tree(table)
    if any(b is not None and len(b) < tree.n for b in (marks, proof, order, states)):
        return Refusal(10, 0)
    result = finish(tree, rule(tree), marks, proof)
    if order is not None:
        order[:len(result.order)] = array("H", result.order)
    if states is not None:
        states[:tree.n] = [(0, LIVE, 0)] * tree.n
    return result


def alpha_beta(table, marks, proof, order):
    return search(ab, table, marks, proof, order)


def plain_search(table, marks, proof):
    return search(plain, table, marks, proof)


def mtd_search(table, marks, proof, order):
    return search(mtd, table, marks, proof, order)


def mtdf_search(table, start, marks, proof, order):
    """From any starting value, which is brought between the root's bounds."""
    return search(lambda tree: mtdf(tree, start), table, marks, proof, order)


def sss_search(table, states, marks, proof, order, allowance=None):
    """Without an allowance the run is never stopped, as in the program."""
    return search(lambda tree: sss(tree, allowance), table, marks, proof, order, states)


Line = namedtuple("Line", "value move length")


def best_line(table, line):
    """Questions 1 to 9 of the table and 10 of the list; then at each node the child that is in both trees of the
    certificate of SSS*, the root first. Each node of it is worth the root's value, by plain minimax."""
    no = table_no(table)
    if no:
        return no
    tree = Tree(table)
    if len(line) < tree.n:
        return Refusal(10, 0)
    value, flags = tree.minimax(), tree.flags(set(sss(tree)[1]))
    nodes = [0]
    while tree.kids[nodes[-1]]:
        (child,) = (c for c in tree.kids[nodes[-1]] if flags[c] == 3)
        nodes.append(child)
    assert all(value[k] == value[0] for k in nodes) and tree.worth[nodes[-1]] == value[0]
    line[:len(nodes)] = array("H", nodes)
    return Line(value[0], tree.move(), len(nodes))


# ---------------------------------------------------------------- the program

def report(file):
    """What the program prints, as bytes."""
    table = bytearray(MAX_TABLE)
    n = read_file(file, table)
    if isinstance(n, Refusal):
        return b"refused %d %d\n" % n
    tree = Tree(table[:6 * n])
    move = tree.move()
    text = b"method value move leaves\n"
    for name, rule in ((b"ab", ab), (b"mtd", mtd), (b"sss", sss)):
        value, order = rule(tree)[:2]
        text += b"%s %d %d %d\n" % (name, value, move, len(order))
    return text


def capitals(file):
    """What the program `capitals` prints, as bytes."""
    new = bytearray(MAX_FILE)
    n = convert(file, new)
    return b"refused %d %d\n" % n if isinstance(n, Refusal) else bytes(new[:n])


def detail(file):
    """What the program does not print: leaves in order, passes, replacements, marks, flags."""
    table = bytearray(MAX_TABLE)
    n = read_file(file, table)
    if isinstance(n, Refusal):
        return ""
    table = table[:6 * n]
    text = ""
    for name, call in (("ab", alpha_beta), ("mtd", mtd_search),
                       ("sss", lambda t, m, p, l: sss_search(t, [None] * n, m, p, l))):
        marks, proof, order = bytearray(n), bytearray(n), array("H", bytes(2 * n))
        r = call(table, marks, proof, order)
        text += "%s order %s\n%s marks %s\n%s flags %s\n" % (
            name, " ".join(map(str, order[:r.leaves])), name, " ".join(map(str, marks)), name,
            " ".join(map(str, proof)))
        if r.extra is not None:
            text += "%s %s %d\n" % (name, "passes" if name == "mtd" else "replacements", r.extra)
    return text


# ---------------------------------------------------------------- making tables and files

def table_of(counts, values, again=()):
    """A table from the child counts in breadth-first order and the leaf values in node order; the nodes in `again` have
    byte 3 = 1."""
    table, first, values = bytearray(), 1, iter(values)
    for k, count in enumerate(counts):
        value = 0 if count else next(values)
        table += bytes((first >> 8 & 255, first & 255) if count else (0, 0))
        table += bytes((count & 255, k in again)) + (value & 65535).to_bytes(2, "big")
        first += count
    return table


def file_of(table, last=True):
    lines = [bytes(table[i:i + 6]).hex().upper() for i in range(0, len(table), 6)]
    return ("\n".join(lines) + ("\n" if last else "")).encode()


def table_of_nest(nest):
    """A table from nested lists, as [[1, 2], [3, 4]] for Max(Min(1, 2), Min(3, 4)); a tuple in the place of a list is a
    node where the same side moves as at its parent, as [(1, 2), [3, 4]] for Max(Max(1, 2), Min(3, 4))."""
    level, counts, values, again = [nest], [], [], set()
    while level:
        below = []
        for x in level:
            if isinstance(x, (list, tuple)):
                if isinstance(x, tuple):
                    again.add(len(counts))
                counts.append(len(x))
                below += x
            else:
                counts.append(0)
                values.append(x)
        level = below
    return table_of(counts, values, again)


def nest_of_table(table, instead={}, k=0):
    """The nested lists of an accepted table, from node k down; a node in `instead` has the nest given there."""
    if k in instead:
        return instead[k]
    first, count, again, value = frame(table, k)
    kids = [nest_of_table(table, instead, c) for c in range(first, first + count)]
    return (tuple(kids) if again else kids) if count else value


def regular(width, inner, leaf):
    """Nodes 0 .. inner-1 have `width` children each, so node k's first child is 1 + width * k; leaf(k) elsewhere.

    A chain is width 1, a fan inner 1; 1 + width * inner nodes.
    """
    n = 1 + width * inner
    return table_of([width] * inner + [0] * (n - inner), [leaf(k) for k in range(inner, n)])


def main():
    file = sys.stdin.buffer.read()
    sys.stdout.buffer.write(capitals(file) if "--capitals" in sys.argv[1:] else report(file))
    if "--detail" in sys.argv[1:]:
        sys.stdout.write(detail(file))


if __name__ == "__main__":
    main()
