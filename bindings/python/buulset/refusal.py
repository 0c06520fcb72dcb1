"""The exception that stands for a refusal."""
from __future__ import annotations

from typing import Any

MEANINGS = {
    1: "no bytes",
    2: "too many bytes",
    3: "not whole lines or frames",
    4: "a wrong byte 3",
    5: "too many children",
    6: "a wrong first child",
    7: "a wrong value",
    8: "a wrong number of nodes",
    9: "too deep",
    10: "a lent buffer is too short",
    11: "a wrong flag",
    12: "the max flags form no solution tree",
    13: "the min flags form no solution tree",
    14: "the two solution trees have different values",
    16: "a small letter",
    17: "the node is no leaf where Max would move",
    18: "the grafted tree is too large or too deep",
    19: "the node is no leaf",
    20: "the wanted value is out of range",
    21: "no value of the leaf gives the root the wanted one",
    22: "the width is not 1 to 40",
    23: "the depth is more than 18",
}


class Refused(Exception):
    """The first question that got a "no" (docs/SPEC.md, section 4), and where.

    >>> from buulset import Refused, Tree
    >>> try:
    ...     Tree.from_file(b"000000007D01")
    ... except Refused as refusal:
    ...     print(refusal.number, refusal.place, refusal.meaning)
    7 0 a wrong value
    >>> print(Refused(7, 0))
    refused 7 0: a wrong value
    """

    number: int
    """The number of the question, 1 to 23."""
    place: int
    """Where: a node, a line counted from 0, or 0."""

    def __init__(self, number: int, place: int) -> None:
        super().__init__(number, place)
        self.number = number
        self.place = place

    @property
    def meaning(self) -> str:
        """What the "no" means, in a few words."""
        return MEANINGS.get(self.number, "no question has this number")

    def __str__(self) -> str:
        return "refused %d %d: %s" % (self.number, self.place, self.meaning)

    def __eq__(self, other: Any) -> bool:
        if not isinstance(other, Refused):
            return NotImplemented
        return (self.number, self.place) == (other.number, other.place)

    def __hash__(self) -> int:
        return hash((self.number, self.place))
