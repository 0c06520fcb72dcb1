"""Trees, and what the calls give of them."""
from __future__ import annotations

from array import array
from typing import Any, NamedTuple, Optional, Tuple, Union

from .library import as_bytes, call
from .refusal import Refused

Bytes = Union[bytes, bytearray, memoryview]

MAX_NODES = 4096
"""The most nodes of a tree."""
MAX_CHILDREN = 40
"""The most children of a node."""
MAX_DEPTH = 18
"""The most moves from the root to a leaf."""
FRAME_SIZE = 6
"""Bytes of a node in a table."""
LINE_SIZE = 13
"""Bytes of a node in a file, with the line feed."""
MAX_TABLE = FRAME_SIZE * MAX_NODES
"""The most bytes of a table."""
MAX_FILE = LINE_SIZE * MAX_NODES
"""The most bytes of a file."""


def answered(answer: Any) -> Any:
    """The answer of a call, or its refusal as an exception."""
    if answer.refused:
        raise Refused(answer.refused, answer.place)
    return answer


class Search(NamedTuple):
    """What a search finds."""
    value: int
    """The minimax value of the root, over the leaves' worths."""
    root_move: Optional[int]
    """The first child of the root that reaches it; None where the root is a leaf."""
    leaves: int
    """How many leaves were evaluated; `plain` counts none."""
    steps: int
    """Passes of MTD, tests of MTD(f), replacements of SSS*, and 0 for the others."""
    evaluated: bytes
    """An entry a node: 1 for an evaluated leaf, else 0."""
    certificate: bytes
    """An entry a node: 1 in the max solution tree, 2 in the min solution tree, 3 in both, 0 in neither."""
    order: Tuple[int, ...]
    """The evaluated leaves in the order in which they were evaluated; `plain` keeps no list."""


class Stopped(NamedTuple):
    """What is known where its allowance stopped a run of SSS*."""
    merit: int
    """The root's value is at most this; 32,001 says nothing yet."""
    leaves: int
    """How many leaves were evaluated: as many as were allowed."""
    steps: int
    """How many replacements were made."""
    evaluated: bytes
    """An entry a node: 1 for an evaluated leaf, else 0."""
    order: Tuple[int, ...]
    """The evaluated leaves in the order in which they were evaluated."""


class Line(NamedTuple):
    """The best line of a tree: what both sides play if each plays its best."""
    value: int
    """The minimax value of the root, over the leaves' worths; every node of the line has it."""
    nodes: Tuple[int, ...]
    """The nodes from the root to a leaf."""


class Tree:
    """An accepted tree, which never changes. What is not accepted is a `Refused` when the tree is made. In the examples
    `seven` is the tree of samples/seven.tree.

    >>> from buulset import Tree
    >>> tree = Tree.from_file(b"000102000000\\n000000000007\\n00000000FFF7\\n")
    >>> tree
    <Tree of 3 nodes>
    >>> tree.sss().value
    7
    """

    __slots__ = ("_table",)
    _table: bytes

    def __init__(self, table: Bytes) -> None:
        """Takes a table, six bytes a node, as `from_table` does."""
        table = as_bytes(table)
        answered(call("check", table))
        self._table = table

    # making and storing

    @classmethod
    def from_file(cls, file: Bytes) -> Tree:
        """Reads the bytes of a tree file.

        >>> Tree.from_file(b"000000000007\\n").nodes
        1
        >>> Tree.from_file(b"00000000000\\n")
        Traceback (most recent call last):
        ...
        buulset.refusal.Refused: refused 3 0: not whole lines or frames
        """
        file = as_bytes(file)
        table = bytearray(min(FRAME_SIZE * (len(file) // LINE_SIZE + 1), MAX_TABLE))
        nodes = answered(call("read", file, table)).count
        return cls._accepted(table[:FRAME_SIZE * nodes])

    @classmethod
    def from_table(cls, table: Bytes) -> Tree:
        """Takes a table, six bytes a node.

        >>> Tree.from_table(bytes([0, 0, 0, 0, 0, 7])).stored(0)
        7
        """
        return cls(table)

    @classmethod
    def _accepted(cls, table: bytearray) -> Tree:
        """A tree of a table that a call has accepted."""
        tree = cls.__new__(cls)
        tree._table = bytes(table)
        return tree

    def to_file(self) -> bytes:
        """The tree's file, in capitals, every line closed.

        >>> Tree.from_file(b"000000000007").to_file()
        b'000000000007\\n'
        """
        file = bytearray(LINE_SIZE * self.nodes)
        answered(call("write", self._table, file))
        return bytes(file)

    # what stands in it

    @property
    def table(self) -> bytes:
        """The table: six bytes a node."""
        return self._table

    @property
    def nodes(self) -> int:
        """The number of nodes."""
        return len(self._table) // FRAME_SIZE

    def children(self, node: int) -> range:
        """The numbers of a node's children; empty on a leaf and past the last node.

        >>> list(seven.children(0)), list(seven.children(6))
        ([1, 2], [])
        """
        part = call("children", self._table, node)
        return range(part.first, part.first + part.count)

    def stored(self, node: int) -> Optional[int]:
        """What a leaf holds; None for an inner node and past the last node.

        >>> [seven.stored(node) for node in range(seven.nodes)]
        [None, None, None, 1, 2, 3, 4]
        """
        frame = self._frame(node)
        if not frame or frame[2]:
            return None
        return int.from_bytes(frame[4:], "big", signed=True)

    def second_capture(self, node: int) -> bool:
        """Does the same side move at this node as at its parent?"""
        frame = self._frame(node)
        return bool(frame) and frame[3] == 1

    def _frame(self, node: int) -> bytes:
        """The six bytes of a node; none before the first and past the last."""
        return self._table[FRAME_SIZE * node:FRAME_SIZE * (node + 1)] if node >= 0 else b""

    # searches

    def alphabeta(self) -> Search:
        """Alpha-beta.

        >>> found = seven.alphabeta()
        >>> found.value, found.root_move, found.leaves, found.order
        (3, 2, 4, (3, 4, 5, 6))
        """
        return self._found("alphabeta")

    def plain(self) -> Search:
        """Minimax without cuts: every leaf is marked, none is counted.

        >>> seven.plain().value
        3
        """
        return self._found("plain", listed=False)

    def mtd(self) -> Search:
        """MTD; `steps` are its passes.

        >>> seven.mtd().steps
        2
        """
        return self._found("mtd")

    def mtdf(self, start: int) -> Search:
        """MTD(f) from the value `start`, a guess, which changes neither value nor move; `steps` are its tests.

        >>> seven.mtdf(3).leaves, seven.mtdf(-1000).leaves
        (3, 4)
        """
        return self._found("mtdf", before=(start,))

    def sss(self) -> Search:
        """SSS*; `steps` are its replacements.

        >>> found = seven.sss()
        >>> found.value, found.root_move, found.order, found.steps
        (3, 2, (3, 5, 6), 9)
        """
        return self._found("sss", after=(MAX_NODES,))

    def sss_within(self, allowance: int) -> Union[Search, Stopped]:
        """SSS* that evaluates at most `allowance` leaves.

        >>> seven.sss_within(2).merit
        3
        >>> seven.sss_within(3) == seven.sss()
        True
        """
        answer, marks, flags, order = self._searched("sss", after=(allowance,))
        if answer.spent:
            return Stopped(answer.value, answer.count, answer.steps, marks, order)
        return self._result(answer, marks, flags, order)

    def _found(self, name: str, **more: Any) -> Search:
        return self._result(*self._searched(name, **more))

    def _searched(self, name: str, before: Tuple[int, ...] = (), after: Tuple[int, ...] = (),
                  listed: bool = True) -> Tuple[Any, bytes, bytes, Tuple[int, ...]]:
        """The answer of a search and what it left: marks, flags and the list of leaves. `before` are its numbers in
        front of the buffers, `after` those behind them."""
        marks, flags = bytearray(self.nodes), bytearray(self.nodes)
        order = array("H", bytes(2 * self.nodes))
        lent = (marks, flags, order) if listed else (marks, flags)
        answer = answered(call(name, self._table, *before, *lent, *after))
        return answer, bytes(marks), bytes(flags), tuple(order[:answer.count])

    @staticmethod
    def _result(answer: Any, marks: bytes, flags: bytes, order: Tuple[int, ...]) -> Search:
        return Search(answer.value, answer.root_move or None, answer.count, answer.steps, marks, flags, order)

    # the best line

    def line(self) -> Line:
        """The best line: what both sides play if each plays its best.

        >>> seven.line()
        Line(value=3, nodes=(0, 2, 5))
        """
        nodes = array("H", bytes(2 * self.nodes))
        answer = answered(call("line", self._table, nodes))
        return Line(answer.value, tuple(nodes[:answer.count]))

    # certificates

    def verify(self, certificate: Bytes) -> int:
        """Checks a certificate, and gives the value that it certifies: the root's.

        >>> seven.verify(seven.sss().certificate)
        3
        >>> seven.verify(bytes(7))
        Traceback (most recent call last):
        ...
        buulset.refusal.Refused: refused 12 0: the max flags form no solution tree
        """
        return int(answered(call("verify", self._table, certificate)).value)

    def shorter(self, first: Bytes, second: Bytes) -> bytes:
        """Of two certificates the flags of the one with fewer leaves, the first on a tie; where only one is accepted,
        its own. If neither is, the refusal of the first.

        >>> seven.shorter(bytes(7), seven.sss().certificate) == seven.sss().certificate
        True
        """
        first, second = as_bytes(first), as_bytes(second)
        choice = answered(call("shorter", self._table, first, second))
        return (first if choice.chosen == 1 else second)[:choice.count]

    # changes

    def graft(self, node: int, other: Tree) -> Tree:
        """The tree with another in place of a leaf where Max would move.

        >>> seven.graft(4, seven).nodes
        13
        """
        table = bytearray(min(len(self._table) + len(other._table), MAX_TABLE))
        nodes = answered(call("graft", self._table, node, other._table, table)).count
        return self._accepted(table[:FRAME_SIZE * nodes])

    def least_value(self, node: int, wanted: int) -> int:
        """The smallest value of a leaf that gives the root exactly the value `wanted`.

        >>> seven.least_value(5, 4)
        4
        """
        return int(answered(call("least_value", self._table, node, wanted)).value)

    def with_value(self, node: int, value: int) -> Tree:
        """The tree with another value at a leaf: refused with 19 where the node is no leaf, with 7 where no leaf may
        hold the value.

        >>> seven.with_value(5, -120).sss().value
        1
        """
        if self.stored(node) is None:
            raise Refused(19, node)
        # what lies past 16 bits is out of the range of question 7, and so is the nearest that fits
        stored = max(-0x8000, min(value, 0x7FFF))
        table = bytearray(self._table)
        table[FRAME_SIZE * node + 4:FRAME_SIZE * (node + 1)] = stored.to_bytes(2, "big", signed=True)
        return self.from_table(table)

    def filled(self) -> Tuple[Tree, int]:
        """The tree of the same shape that costs alpha-beta most, and its number of leaves.

        >>> hardest, leaves = seven.filled()
        >>> leaves, hardest.alphabeta().leaves
        (4, 4)
        """
        table = bytearray(self._table)
        leaves = int(answered(call("fill", table)).count)
        return self._accepted(table), leaves

    # as a value of Python

    def __len__(self) -> int:
        return self.nodes

    def __eq__(self, other: Any) -> bool:
        return self._table == other._table if isinstance(other, Tree) else NotImplemented

    def __hash__(self) -> int:
        return hash(self._table)

    def __repr__(self) -> str:
        return "<Tree of %d node%s>" % (self.nodes, "" if self.nodes == 1 else "s")

    def __reduce__(self) -> Tuple[Any, ...]:
        return Tree.from_table, (self._table,)
