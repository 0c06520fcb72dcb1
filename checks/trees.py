#!/usr/bin/env python3
"""Random and regular trees for selfcheck.py, fuzz.py and speed.py. Tables are built by oracle.table_of."""
import oracle as o


def random_counts(rng, most, width, inner_chance, depth_limit=o.MAX_DEPTH):
    """Child counts in breadth-first order: at most `most` nodes, `width` children, `depth_limit` plies."""
    counts, depths, total, k = [], [0], 1, 0
    while k < total:
        room = min(width, most - total)
        count = 0
        if depths[k] < depth_limit and room > 0 and (k == 0 or rng.random() < inner_chance):
            count = rng.randint(1, room)
        counts.append(count)
        depths += [depths[k] + 1] * count
        total += count
        k += 1
    return counts


def deep_counts(rng, most, depth, width, wide_chance):
    """At each level a few nodes go on, so that the tree is deep; the rest are leaves."""
    counts, level, total = [], 1, 1
    for d in range(depth + 1):
        going = min(level, rng.randint(1, 4))
        inner = set(rng.sample(range(level), going)) if d < depth else set()
        below = 0
        for i in range(level):
            count = 0
            if i in inner and total < most:
                count = rng.randint(1, min(width, most - total)) if rng.random() < wide_chance else 1
            counts.append(count)
            below += count
            total += count
        level = below
        if level == 0:
            break
    return counts


VALUES = {
    "ties": lambda rng, i, n: rng.randint(0, 2),
    "few": lambda rng, i, n: rng.randint(-4, 4),
    "many": lambda rng, i, n: rng.randint(-32000, 32000),
    "wins": lambda rng, i, n: rng.choice((-1, 1)) * rng.randint(o.WIN - 3, o.WIN + 3),
    "late wins": lambda rng, i, n: rng.choice((-1, 1)) * rng.randint(o.WIN - o.MAX_DEPTH - 1, o.WIN + o.MAX_DEPTH + 1),
    "extremes": lambda rng, i, n: rng.choice((-32000, 32000, 0, -31999, 31999)),
    "equal": lambda rng, i, n: 7,
    "rising": lambda rng, i, n: i - n // 2,
    "falling": lambda rng, i, n: n // 2 - i,
}


def second_captures(rng, counts):
    """Some of the inner nodes other than the root, none, or all: there the same side moves again."""
    chance = rng.choice((0, 0, 0.2, 0.5, 0.8, 1))
    return {k for k in range(1, len(counts)) if counts[k] and rng.random() < chance}


def fill(rng, counts, kind, again=()):
    n = sum(1 for c in counts if c == 0)
    return o.table_of(counts, [VALUES[kind](rng, i, n) for i in range(n)], again)


def regular_counts(width, inner):
    return [width] * inner + [0] * (1 + width * inner - inner)


def ranked(counts, best_first, again=()):
    """Ranks for the leaves so that alpha-beta does best (best child first) or worst (best child last) at every node."""
    tree = o.Tree(o.table_of(counts, [0] * len(counts), again))
    rank = [0] * tree.n
    size = [1 if not tree.kids[k] else 0 for k in range(tree.n)]
    for k in range(tree.n - 1, 0, -1):
        size[tree.parent[k]] += size[k]
    for k in range(tree.n):
        at = rank[k]
        kids = list(tree.kids[k])
        # worst: blocks rising at Max, falling at Min; best: the other way round
        if tree.is_max[k] == best_first:
            kids.reverse()
        for c in kids:
            rank[c] = at
            at += size[c]
    return o.table_of(counts, [rank[k] for k in tree.leaves()], again)
