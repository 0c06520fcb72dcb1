#!/usr/bin/env python3
"""The time of `buulset analyse` on an archive beside the same loop in C (c/archive.c): seconds of the processor, user
and system together, the least of several runs each.

    archive.py LOOP COMMAND FOLDER [FILES [NODES]]      makes the archive in FOLDER: 10,000 files of 200 nodes

Both must print the same, and the command take at most 1.8 times as long."""
import os
import random
import resource
import subprocess
import sys

RUNS, MOST = 7, 1.8


def tree(nodes, chance):
    """A tree file of so many nodes: children by chance, at most 17 moves deep."""
    counts, depth = [], [0]
    while len(counts) < len(depth):
        at, last = len(counts), len(counts) + 1 == len(depth)
        wanted = chance.randint(1, 6) if last or chance.random() < .6 else 0
        count = min(wanted, nodes - len(depth)) if depth[at] < 17 else 0
        counts.append(count)
        depth += [depth[at] + 1] * count
    lines, child = [], 1
    for count in counts:
        value = chance.randint(-200, 200) & 0xFFFF
        lines.append("%04X%02X000000\n" % (child, count) if count else "00000000%04X\n" % value)
        child += count
    return "".join(lines)


def archive(folder, files, nodes):
    """The list of the archive's files, which are made first."""
    chance = random.Random(1)
    os.makedirs(folder, exist_ok=True)
    names = [os.path.join(folder, "%05d.tree" % k) for k in range(files)]
    for name in names:
        with open(name, "w") as f:
            f.write(tree(nodes, chance))
    with open(os.path.join(folder, "list"), "w") as f:
        f.write("".join(name + "\n" for name in names))
    return f.name


def time(command, output):
    with open(output, "wb") as f:
        before = resource.getrusage(resource.RUSAGE_CHILDREN)
        subprocess.run(command, stdout=f, check=True)
        after = resource.getrusage(resource.RUSAGE_CHILDREN)
    return after.ru_utime + after.ru_stime - before.ru_utime - before.ru_stime


def main():
    loop, command, folder = sys.argv[1:4]
    files, nodes = (list(map(int, sys.argv[4:])) + [10000, 200][len(sys.argv) - 4:])[:2]
    names = archive(folder, files, nodes)
    runs = ([loop, names], [command, "analyse", "--quiet", "--from", names])
    outputs = [os.path.join(folder, name) for name in ("by-c", "by-command")]
    least = [1e9, 1e9]
    for _ in range(RUNS):
        for k in (0, 1):
            least[k] = min(least[k], time(runs[k], outputs[k]))
    printed = [open(name, "rb").read() for name in outputs]
    ratio = least[1] / least[0]
    print("%d files of %d nodes: %.3f s, in C %.3f s, %.2f times" % (files, nodes, least[1], least[0], ratio))
    sys.exit(printed[0] != printed[1] or ratio > MOST)


if __name__ == "__main__":
    main()
