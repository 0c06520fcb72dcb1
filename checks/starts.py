#!/usr/bin/env python3
"""How many leaves MTD(f) evaluates by its starting value, against the other searches: the table of docs/COSTS.md.

    checks/starts.py            # prints it, in a minute or two; counts do not depend on the machine
    checks/starts.py --write    # puts it into docs/COSTS.md
"""
import os
import random
import sys

import library
import oracle as o
import trees

SHAPES = ((2, 8), (2, 10), (3, 6), (5, 4), (5, 5), (10, 3), (15, 3), (40, 2))
TREES = 40
MOST = 100                              # values are from -100 to 100
OFF = (2, 10, 50)
HEAD = "| width | depth | leaves | alpha-beta | SSS* | DUAL* | the value | " + " | ".join("%d off" % d for d in OFF) + \
    " | a leaf changed | a graft |"


def random_table(rng, width, depth):
    counts = [width] * ((width ** depth - 1) // (width - 1)) + [0] * width ** depth
    return o.table_of(counts, [rng.randint(-MOST, MOST) for _ in range(width ** depth)])


def leaf_changed(rng, table):
    """One leaf with another value."""
    leaf = rng.choice(o.Tree(table).leaves())
    return o.table_of_nest(o.nest_of_table(table, {leaf: rng.randint(-MOST, MOST)}))


def grafted(rng, table, width):
    """One leaf with a small tree in its place, as deep as the limits allow, up to two plies."""
    tree = o.Tree(table)
    leaf = rng.choice(tree.leaves())
    plies = 2 if tree.n + width + width * width <= o.MAX_NODES else 1
    below = lambda n: [below(n - 1) for _ in range(width)] if n else rng.randint(-MOST, MOST)
    return o.table_of_nest(o.nest_of_table(table, {leaf: below(plies)}))


def leaves_from(table, start):
    tree = o.Tree(table)
    return len(o.mtdf(tree, start)[1])


def row(width, depth):
    rng = random.Random(1000 * width + depth)
    sums = [0] * (5 + len(OFF) + 2)
    for _ in range(TREES):
        table = random_table(rng, width, depth)
        assert o.table_no(table) is None
        tree = o.Tree(table)
        value = tree.minimax()[0]
        counts = [width ** depth, len(o.ab(tree)[1]), len(o.sss(tree)[1]), leaves_from(table, o.LEAST),
                  leaves_from(table, value)]
        for d in OFF:
            counts.append((leaves_from(table, value - d) + leaves_from(table, value + d)) / 2)
        for other in (leaf_changed(rng, table), grafted(rng, table, width)):
            assert o.table_no(other) is None
            counts.append(leaves_from(other, value))
        sums = [s + c for s, c in zip(sums, counts)]
    return "| %d | %d | %s |" % (width, depth, " | ".join("{:,.0f}".format(s / TREES) for s in sums))


def main():
    text = "\n".join([HEAD, "|" + "---|" * (HEAD.count("|") - 1)] + [row(*shape) for shape in SHAPES]) + "\n"
    if "--write" not in sys.argv[1:]:
        sys.stdout.write(text)
        return
    library.put(os.path.join(library.ROOT, "docs", "COSTS.md"), "starts", text)


if __name__ == "__main__":
    main()
