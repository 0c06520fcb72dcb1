"""Trees with a minimax of their own, and what a page must show of them; it shares nothing with the command."""
import random

NONE = 32001


class Tree:
    def __init__(self, text):
        lines = text.split()
        self.n = len(lines)
        field = [(int(line[0:4], 16), int(line[4:6], 16), int(line[6:8], 16), int(line[8:12], 16)) for line in lines]
        self.children = [range(first, first + count) for first, count, _, _ in field]
        self.again = [again == 1 for _, _, again, _ in field]
        self.parent, depth, self.max = [None] * self.n, [0] * self.n, [True] * self.n
        for k in range(self.n):
            for c in self.children[k]:
                self.parent[c], depth[c] = k, depth[k] + 1
                self.max[c] = self.max[k] if self.again[c] else not self.max[k]
        stored = [value - 65536 if value > 32767 else value for _, _, _, value in field]
        self.worth = [v - d if v >= 31000 else v + d if v <= -31000 else v for v, d in zip(stored, depth)]
        self.value = self.minimax(lambda k: self.worth[k])

    def leaf(self, k):
        return not self.children[k]

    def minimax(self, leaf):
        value = [0] * self.n
        for k in range(self.n - 1, -1, -1):
            below = [value[c] for c in self.children[k]]
            value[k] = leaf(k) if not below else max(below) if self.max[k] else min(below)
        return value

    def bounds(self, evaluated):
        """Low and high: the values where all other leaves hold less than any, and more than any."""
        return [self.minimax(lambda k, end=end: self.worth[k] if k in evaluated else end) for end in (-NONE, NONE)]

    def path(self, k):
        """The nodes above, each with the child that leads on, from below."""
        while self.parent[k] is not None:
            yield self.parent[k], k
            k = self.parent[k]

    def closed(self, k, low, high):
        """Is there, beside the path, a choice of Max and one of Min between which nothing can pass?"""
        most, least = -NONE, NONE
        for above, child in self.path(k):
            for c in self.children[above]:
                if c != child and self.max[above]:
                    most = max(most, low[c])
                elif c != child:
                    least = min(least, high[c])
        return -NONE != most >= least != NONE

    def window(self, leaf):
        """Alpha and beta as SPEC 8.1 has them: by the values of elder siblings."""
        alpha, beta = -NONE, NONE
        for above, child in self.path(leaf):
            for c in self.children[above]:
                if c < child and self.max[above]:
                    alpha = max(alpha, self.value[c])
                elif c < child:
                    beta = min(beta, self.value[c])
        return alpha, beta

    def never(self, order):
        """The highest nodes that a run never enters."""
        entered = {0} | set(order) | {above for leaf in order for above, _ in self.path(leaf)}
        return [k for k in range(1, self.n) if k not in entered and self.parent[k] in entered]


def number(value):
    return str(value).replace("-", "\u2212")


def known(low, high):
    if low == high:
        return number(low)
    if low == -NONE:
        return "" if high == NONE else f"\u2264 {number(high)}"
    return f"\u2265 {number(low)}" if high == NONE else f"{number(low)} to {number(high)}"


def grow(seed):
    """The file of a random tree with many ties, some wins and losses, and some second captures."""
    source = random.Random(seed)
    nodes, k = [[0, 0, 0]], 0  # children, second capture, depth
    while k < len(nodes):
        if nodes[k][2] < 6 and len(nodes) < 100 and (k == 0 or source.random() < 0.6):
            nodes[k][0] = source.randint(1, 4)
            nodes[k][1] = int(k > 0 and source.random() < 0.2)
            nodes += [[0, 0, nodes[k][2] + 1] for _ in range(nodes[k][0])]
        k += 1
    out, first = [], 1
    for children, again, _ in nodes:
        value = 0 if children else source.choice([source.randint(-3, 3), source.randint(-3, 3), 31500, -31500])
        out.append(f"{first if children else 0:04X}{children:02X}{again:02X}{value & 0xFFFF:04X}\n")
        first += children
    return "".join(out)


def regular(width, depth, seed):
    """The file of a tree where every inner node has so many children."""
    source, out, first = random.Random(seed), [], 1
    for _ in range(sum(width ** d for d in range(depth))):
        out.append(f"{first:04X}{width:02X}000000\n")
        first += width
    out += [f"00000000{source.randint(-500, 500) & 0xFFFF:04X}\n" for _ in range(width ** depth)]
    return "".join(out)


def chain(seed):
    """The file of a deep and narrow tree: 18 plies."""
    source, out = random.Random(seed), []
    for level in range(18):
        out.append(f"{1 + 3 * level:04X}0300{0:04X}\n")
        if level:
            out += [f"00000000{source.randint(-90, 90) & 0xFFFF:04X}\n" for _ in range(2)]
    out += [f"00000000{source.randint(-90, 90) & 0xFFFF:04X}\n" for _ in range(3)]
    return "".join(out)
