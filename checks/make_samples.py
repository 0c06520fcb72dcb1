#!/usr/bin/env python3
"""Writes sample files, *.tree with *.expected, what `analyse` prints for each, one for `capitals`, *.tree with
*.capitals, two certificates, and the names of some moves, by oracle.py.

    make_samples.py [DIRECTORY]     (default: samples)
"""
import os
import sys

import oracle as o

# Four moves for White, scores in hundredths of a man. Moves 2 and 4 both reach -20; the first of them is the answer.
# Alpha-beta values 15 of the 19 leaves, SSS* 11.
ENDING = [[-50, [20, 70, -70], [-60, -70, 70]], [0, -20], [[-20, 0, 10], [-60, -60, 40], -70], [-20, 90, 0]]

# White's moves, and Black's answers to the second: the names of the moves to these nodes of ENDING.
NAMES = {1: "31-27", 2: "32-28", 3: "33-29", 4: "34-30", 8: "19-23", 9: "18-23"}

# Two moves for White: a capture, after which White moves again, and one after which Black may capture and move again.
# By the depth alone the value would be 45, with move 2.
CAPTURES = [(-10, 40, [30, 60]), [50, ([45], 20)]]

# Three moves for White: a win after two more moves whatever Black answers, a win at once, and a doubtful one.
WINS = [[[31500], [31500, 80]], 31500, [31500, 20]]


def chain(nodes):
    """A path of nodes, the last one a leaf of value 1."""
    return b"".join(b"%04X01000000\n" % (k + 1) for k in range(nodes - 1)) + b"000000000001\n"


def found(value, move, *counts):
    """What is printed for an accepted file: value, move, and the leaves of alpha-beta, MTD and SSS*."""
    rows = "".join("%s %d %d %d\n" % (name, value, move, n) for name, n in zip(("ab", "mtd", "sss"), counts))
    return "method value move leaves\n" + rows


def refused(number, place):
    return "refused %d %d\n" % (number, place)


def samples():
    """Each file with what it is meant to show; the model must say the same."""
    first = o.file_of(o.table_of_nest([[1, 2], [3, 4]]))
    ending = o.file_of(o.table_of_nest(ENDING))
    wins = o.file_of(o.table_of_nest(WINS))
    captures = o.file_of(o.table_of_nest(CAPTURES))
    # a child count that went up by one: the next inner node's first child no longer fits
    miscounted = ending.split(b"\n")
    miscounted[2] = miscounted[2][:4] + b"03" + miscounted[2][6:]
    wide = b"0001%02X000000\n" % (o.MAX_CHILDREN + 1) + b"000000000000\n" * (o.MAX_CHILDREN + 1)
    return {
        "seven": (first, found(3, 2, 4, 3, 3)),                     # 01's own sample
        "ending": (ending, found(-20, 2, 15, 11, 11)),              # wider: negative values, ties, two depths of leaves
        "wins": (wins, found(31499, 2, 4, 3, 3)),                   # the sooner win is the better one: worths
        "captures": (captures, found(40, 1, 6, 6, 6)),              # second captures: byte 3
        "cut-off": (ending[:200], refused(3, 15)),                  # a transfer that broke off in line 15
        "miscounted": (b"\n".join(miscounted), refused(6, 3)),
        "refused-1": (b"", refused(1, 0)),
        "refused-3": (first + b"\n", refused(3, 7)),                # a blank line at the end
        "refused-4": (b"000000010005\n", refused(4, 0)),
        "refused-5": (wide, refused(5, 0)),                         # a child too many
        "refused-6": (b"000000000005\n000101000000\n", refused(6, 1)),      # a leaf, then a node that is its own child
        "refused-7": (b"000000007D01\n", refused(7, 0)),            # 32,001
        "refused-8": (b"000000000005\n000000000006\n", refused(8, 2)),      # two leaves
        "refused-9": (chain(o.MAX_DEPTH + 2), refused(9, o.MAX_DEPTH + 1)),
        "stored": (wins.lower()[:-1], refused(16, 2)),              # converted it is wins.tree
    }


def certificates():
    """Two of the value of ENDING, a digit a node: as SSS* finds it, and one by move 4 that has a leaf more."""
    table = o.table_of_nest(ENDING)
    tree = o.Tree(table)
    found = bytes(tree.flags(set(o.sss(tree)[1])))
    longer = bytearray(found)
    for node, flag in {2: 1, 4: 3, 8: 0, 9: 1, 13: 3, 14: 2, 15: 2}.items():
        longer[node] = flag
    assert o.check_proof(table, longer) == o.check_proof(table, found) and o.shorter(table, longer, found) == (1, found)
    return {name: bytes(b"0"[0] + flag for flag in flags) + b"\n"
            for name, flags in (("ending", found), ("ending-long", longer))}


def main():
    root = os.path.dirname(os.path.dirname(os.path.abspath(__file__)))
    directory = sys.argv[1] if len(sys.argv) > 1 else os.path.join(root, "samples")
    files = {}
    for name, (file, meant) in samples().items():
        got = o.report(file)
        number = name[len("refused-"):] if name.startswith("refused-") else ""
        if got != meant.encode() or not got.startswith(b"refused %s " % number.encode() if number else b""):
            sys.exit("%s no longer shows what it is meant to: %r, and not %r" % (name, got.decode(), meant))
        files[name + ".tree"], files[name + ".expected"] = file, got
    files["stored.capitals"] = o.capitals(files["stored.tree"])
    if files["stored.capitals"] != files["wins.tree"]:
        sys.exit("stored is no longer converted to wins")
    files.update((name + ".certificate", data) for name, data in certificates().items())
    files["ending.names"] = "".join("%d %s\n" % entry for entry in NAMES.items()).encode()
    for name, data in files.items():
        with open(os.path.join(directory, name), "wb") as f:
            f.write(data)
    print("%d samples, each shows what it is meant to" % (len(samples()) + len(certificates()) + 1))


if __name__ == "__main__":
    main()
