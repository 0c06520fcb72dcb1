#!/usr/bin/env python3
"""What each public call costs: the shipped library against lean C (lean.c) and lean safe Rust (lean.rs), which give the
same answers and buffers with no needless work, by instructions and by time.

    bench.py [--write]      all tables, in some minutes; --write puts them into docs/COSTS.md
    bench.py TREE..         every call on these trees alone, in seconds

Instructions are counted by valgrind's callgrind, for each call alone. Times are of the processor, the least of many
calls of all sides in turn. Needs the kit, gcc, rustc and valgrind.
"""
import argparse
import glob
import os
import random
import re
import subprocess

import library
import oracle as o
import trees
from library import CHECKS, ROOT, WORK, read, run

PROGRAM = os.path.join(ROOT, "target", "bin", "analyse")
COSTS = os.path.join(ROOT, "docs", "COSTS.md")
BENCH, LEAN, RUST = (os.path.join(WORK, name) for name in ("bench", "lean", "liblean.a"))
CALLS = ("read", "write", "convert", "check", "alphabeta", "plain", "mtd", "mtdf", "sss", "line", "verify", "shorter",
         "graft", "least_value", "fill", "least_leaves", "report")
SEARCHES = ("alphabeta", "mtd", "mtdf", "sss", "report")
WIDTH = o.MAX_CHILDREN

# A string instruction of the processor counts once for each byte in valgrind: the C library is told to use none.
TUNABLES = "glibc.cpu.x86_rep_stosb_threshold=100000000:glibc.cpu.x86_rep_movsb_threshold=100000000"
CALLGRIND, ENVIRONMENT = ["valgrind", "--tool=callgrind"], dict(os.environ, GLIBC_TUNABLES=TUNABLES)


# ---------------------------------------------------------------- the trees

def club(n):
    """What a club may send: n nodes with up to 8 children, some second captures."""
    for seed in range(35, 1000):
        rng = random.Random(seed)
        counts = trees.random_counts(rng, n, 8, 0.3)
        if len(counts) == n:
            return trees.fill(rng, counts, "many", {k for k in range(1, n) if counts[k] and rng.random() < 0.1})
    raise SystemExit("bench: no tree of %d nodes" % n)


def many(counts):
    return trees.fill(random.Random(7), counts, "many")


def comb():
    """A path of nodes with 40 children each, down to the greatest depth; the last child goes on."""
    return [WIDTH] + ([0] * (WIDTH - 1) + [WIDTH]) * (o.MAX_DEPTH - 1) + [0] * WIDTH


def wide_front():
    """SSS* keeps a list of 1,320 states at once."""
    return [40] + [1] * 40 + [33] * 40 + [2] * 1320 + [0] * 2640


def below_path(width, leaves):
    """A path of Max nodes with 40 children each, the last of which goes on; at its end 40 Max nodes with `width`
    children of so many leaves each."""
    counts = [40]
    for _ in range((o.MAX_DEPTH - 4) // 2):
        counts += [0] * 39 + [1, 40]
    return counts + [1] * 40 + [width] * 40 + [leaves] * (40 * width) + [0] * (40 * width * leaves)


def falling(counts):
    """Values such that the root's high falls by one leaf after the other: each leaf is worth less than every leaf of a
    smaller path read upwards; a leaf with an inner sibling is worth least."""
    tree = o.Tree(o.table_of(counts, [0] * len(counts)))

    def key(k):
        path = []
        if any(tree.kids[c] for c in tree.kids[tree.parent[k]]):
            path.append(len(counts))
        while k:
            path.append(k - tree.kids[tree.parent[k]][0])
            k = tree.parent[k]
        return path

    ordered = sorted(tree.leaves(), key=key)
    rank = {k: len(ordered) - i for i, k in enumerate(ordered)}
    return o.table_of(counts, [rank[k] for k in tree.leaves()])


def gathered(leaves):
    """The levels of a tree with so many leaves, 40 children a node as long as there are enough: its counts."""
    counts = [0] * leaves
    while leaves > 1:
        leaves, rest = divmod(leaves, WIDTH)
        counts = [WIDTH] * leaves + [rest] * (rest > 0) + counts
        leaves += rest > 0
    return counts


def path(max_moves, length, trunks, behind=False):
    """A path of nodes with 40 children each on which one side moves again and again: Max from the root on, or Min below
    a root with a single child. The path goes on in its nodes' last child or in the first, the other children are leaves;
    at its end stand trees in which Min moves again and again: one that ends in so many leaves, each worth less than all
    before, or two whose leaves fall in turn. The leaves beside the path decide nothing."""
    top, ends = ([] if max_moves else [1]), len(trunks)
    beside = lambda inner: inner + [0] * (WIDTH - len(inner)) if behind else [0] * (WIDTH - len(inner)) + inner
    levels = [top, [WIDTH]] + [beside([WIDTH]) for _ in range(length - 1)]
    wholes = [gathered(leaves) for leaves in trunks]
    depth = len(levels)
    levels.append(beside([whole[0] for whole in wholes]))
    rests = [whole[1:] for whole in wholes]
    width = [whole[0] for whole in wholes]
    while any(rests):
        level, widths = [], []
        for rest, count in zip(rests, width):
            level += rest[:count]
            widths.append(sum(rest[:count]))
        rests, width = [rest[count:] for rest, count in zip(rests, width)], widths
        levels.append(level)
    counts = [count for level in levels for count in level]
    turns = {sum(map(len, levels[:depth])) + i for i, count in enumerate(levels[depth]) if count and max_moves}
    again = {k for k in range(len(top) + 1, len(counts)) if counts[k] and k not in turns}
    return o.table_of(counts, path_values(counts, max_moves, trunks, ends), again)


def path_values(counts, max_moves, trunks, ends):
    """The values of the leaves, in the order of their numbers: those beside the path, and then those that fall, from -1
    down, so that MTD(f) from 0 starts above them all."""
    beside = counts.count(0) - sum(trunks)
    least = -ends * max(trunks)
    return [least - 1 if max_moves else 1] * beside + [-1 - ends * i - j for j, n in enumerate(trunks) for i in range(n)]


def leaves_of(nodes, length, max_moves):
    """How many leaves a path of that length has below it in a tree of so many nodes, or a little fewer."""
    room = nodes - (not max_moves) - WIDTH * length
    return max(leaves for leaves in range(2, room) if len(gathered(leaves)) <= room)


def one_path(max_moves, nodes, length, behind=False):
    return lambda: path(max_moves, length, [leaves_of(nodes, length, max_moves)], behind)


CLUBS = {"{:,} nodes".format(n): (lambda n: lambda: club(n))(n) for n in (64, 300, 4096)}
SIZES = {"7 nodes": lambda: many(trees.regular_counts(2, 3)), **CLUBS}
SHAPES = {
    "width 2": lambda: many(trees.regular_counts(2, 2047)),
    "width 5": lambda: many(trees.regular_counts(5, 819)),
    "width 15": lambda: many(trees.regular_counts(15, 273)),
    "fan": lambda: many(trees.regular_counts(40, 41)),
    "chain": lambda: many(trees.regular_counts(1, o.MAX_DEPTH)),
}
WORST = {
    "comb": lambda: trees.ranked(comb(), False),
    "wide front": lambda: falling(wide_front()),
    "deep front": lambda: falling(below_path(30, 2)),
    "many passes": lambda: falling(below_path(2, 40)),
    "Min path": one_path(False, 4087, 14),
    "Max path": one_path(True, 4087, 14),
    "Min path, leaves behind": one_path(False, 4087, 14, True),
    "Max path, leaves behind": one_path(True, 4087, 14, True),
    "two in turn": lambda: path(True, 14, [1600, 1600]),
}
TREES = {**SIZES, **SHAPES, **WORST}
GROWTH = {side: {nodes: one_path(side == "Max", nodes, length) for nodes, length in
                 ((245, 3), (488, 6), (1015, 12), (4087, 14))} for side in ("Min", "Max")}


# ---------------------------------------------------------------- what is measured

def build():
    """The bench program, and the programs in lean C and Rust: one program with either's report."""
    source, archive = os.path.join(CHECKS, "%s"), library.build()
    c = ["gcc", "-O2", "-Wall", "-Wextra", "-Werror", "-pthread"]
    run(["rustc", "-O", "--edition", "2024", "-C", "panic=abort", "--crate-type", "staticlib", "-o", RUST,
         source % "lean.rs"])
    rust = [RUST, "-Wl,--as-needed", "-lgcc_s", "-ldl", "-lm"]
    run(c + ["-o", BENCH, source % "bench.c", source % "lean.c", archive] + rust)
    run(c + ["-o", LEAN, source % "program.c", source % "lean.c"])
    run(c + ["-DREPORT=rust_report", "-o", LEAN + "-rust", source % "program.c", source % "lean.c"] + rust)
    run(["tools/build", "analyse"], cwd=ROOT)


def tree_file(name, table):
    assert o.table_no(table) is None, (name, o.table_no(table))
    path = os.path.join(WORK, name.replace(" ", "-") + ".tree")
    with open(path, "wb") as f:
        f.write(o.file_of(table))
    return path


def instructions(path, calls=CALLS):
    """Of each side and call, by the dumps that the bench program asks for."""
    out = os.path.join(WORK, "callgrind")
    for old in glob.glob(out + ".*"):
        os.remove(old)
    run(CALLGRIND + ["--callgrind-out-file=" + out, BENCH, path, "count", *calls], env=ENVIRONMENT)
    got = {}
    for name in glob.glob(out + ".*"):
        text = read(name)
        title = re.search(r"^desc: Trigger: Client Request: (\S+) (\S+)$", text, re.M)
        if title:
            got[title.groups()] = int(re.search(r"^summary: (\d+)", text, re.M).group(1))
    return got


def said(path, mode):
    """The same, as the bench program prints them: nanoseconds (time) or bytes (stack)."""
    return {tuple(line.split()[:2]): float(line.split()[2]) for line in run([BENCH, path, mode]).splitlines()}


def whole(program, path):
    """The instructions of a whole run of a program."""
    with open(path, "rb") as f:
        got = subprocess.run(CALLGRIND + ["--callgrind-out-file=/dev/null", program], stdin=f, stdout=subprocess.DEVNULL,
                             stderr=subprocess.PIPE, text=True, env=ENVIRONMENT).stderr
    return int(re.search(r"Collected : (\d+)", got).group(1))


# ---------------------------------------------------------------- the tables

def number(x, unit=1000):
    x /= unit
    return "{:,.0f}".format(x) if x >= 9.95 else "%.1f" % x if x >= 0.095 else "%.2f" % x


def ratio(got, call, side):
    return "%.2f" % (got["rattle", call] / got[side, call])


def table(head, rows):
    """A markdown table."""
    top, *below = ("| %s |\n" % " | ".join(row) for row in [head] + rows)
    return top + "|" + "---|" * len(head) + "\n" + "".join(below)


def by_call(measured, cell, calls=CALLS):
    """A row a call, a column a tree."""
    return table(["call", *measured],
                 [[call.replace("_", " ")] + [cell(got, call) for got in measured.values()] for call in calls])


def by_tree(measured, cell, calls):
    """A row a tree, a column a call."""
    return table(["tree", *calls], [[name] + [cell(got, call) for call in calls] for name, got in measured.items()])


def ours(got, call):
    return number(got["rattle", call])


def programs(paths, counted):
    rows = []
    for name, path in paths.items():
        own, c, rust = (whole(program, path) for program in (PROGRAM, LEAN, LEAN + "-rust"))
        rows.append([name, number(own), "%.2f" % (own / c), "%.2f" % (own / rust),
                     ratio(counted[name], "report", "c"), ratio(counted[name], "report", "rust")])
    return table(["tree", "thousand instructions", "times C", "times Rust", "report alone, times C", "times Rust"], rows)


def growth():
    """How the worst families grow: thousands of instructions."""
    columns = [("Min", "mtd"), ("Min", "mtdf"), ("Max", "mtd"), ("Max", "mtdf"), ("Max", "sss"), ("Max", "alphabeta")]
    rows = []
    for nodes in GROWTH["Min"]:
        made = {side: family[nodes]() for side, family in GROWTH.items()}
        counted = {side: instructions(tree_file("%s %d" % (side, nodes), t), SEARCHES) for side, t in made.items()}
        rows.append(["{:,}".format(len(made["Min"]) // 6)] + [ours(counted[side], call) for side, call in columns])
    return table(["nodes", *("%s, %s path" % (call, side) for side, call in columns)], rows)


def stacks(measured):
    """The most over some trees, for each call."""
    most = lambda side, call: max(got[side, call] for got in measured)
    return table(["call", "thousand bytes", "lean C", "Rust"],
                 [[call.replace("_", " ")] + [number(most(side, call)) for side in ("rattle", "c", "rust")]
                  for call in CALLS])


def measure():
    """The tables by the names of their places in docs/COSTS.md."""
    paths = {name: tree_file(name, make()) for name, make in TREES.items()}
    counted = {name: instructions(path, CALLS if name in SIZES else SEARCHES) for name, path in paths.items()}
    sizes, worst = ({name: counted[name] for name in family} for family in (SIZES, WORST))
    times = {name: said(paths[name], "time") for name in SIZES}
    yield "program", programs(paths, counted)
    yield "calls", by_call(sizes, ours)
    yield "c", by_call(sizes, lambda got, call: ratio(got, call, "c"))
    yield "rust", by_call(sizes, lambda got, call: ratio(got, call, "rust"))
    yield "times", by_call(times, ours)
    yield "times-c", by_call(times, lambda got, call: ratio(got, call, "c"))
    yield "worst", by_tree(worst, ours, SEARCHES)
    yield "worst-c", by_tree(worst, lambda got, call: ratio(got, call, "c"), SEARCHES)
    yield "growth", growth()
    yield "stack", stacks([said(paths[name], "stack") for name in ("chain", "300 nodes", "width 5")])


def some(names):
    """Every call on these trees alone."""
    counted = {name: instructions(tree_file(name, TREES[name]())) for name in names}
    yield "thousand instructions", by_call(counted, ours)
    yield "times lean C", by_call(counted, lambda got, call: ratio(got, call, "c"))
    yield "times Rust", by_call(counted, lambda got, call: ratio(got, call, "rust"))


def main():
    parser = argparse.ArgumentParser()
    parser.add_argument("trees", nargs="*", metavar="TREE", help=", ".join(TREES))
    parser.add_argument("--write", action="store_true", help="put the tables into docs/COSTS.md")
    args = parser.parse_args()
    unknown = set(args.trees) - set(TREES)
    if unknown:
        parser.error("no such tree: %s" % ", ".join(sorted(unknown)))
    build()
    made = {}
    for title, text in some(args.trees) if args.trees else measure():
        print("%s\n\n%s" % (title, text), flush=True)
        made[title] = text
    if args.write and not args.trees:
        for title, text in made.items():
            library.put(COSTS, title, text)


if __name__ == "__main__":
    main()
