"""The calls that need no tree: on files, lines and numbers."""
from __future__ import annotations

from typing import Optional, Tuple

from .library import as_bytes, call
from .tree import LINE_SIZE, MAX_FILE, Bytes, answered


def version() -> int:
    """The version of the library that is loaded: 10,000 times the major, 100 times the minor, and the patch number. The
    module's own is `__version__`, and both have one major number.

    >>> import buulset
    >>> buulset.version() // 10000 == int(buulset.__version__.split(".")[0])
    True
    """
    return int(call("version"))


def check(table: Bytes) -> int:
    """Checks a table, and gives the number of nodes.

    >>> check(bytes(6))
    1
    """
    return int(answered(call("check", table)).count)


def convert(file: Bytes) -> bytes:
    """The file with its letters a to f as capitals and every line closed; the tree does not change.

    >>> convert(b"00000000fff0")
    b'00000000FFF0\\n'
    """
    file = as_bytes(file)
    converted = bytearray(min(LINE_SIZE * (len(file) // LINE_SIZE + 1), MAX_FILE))
    return bytes(converted[:answered(call("convert", file, converted)).count])


def capitals(file: Bytes) -> bytes:
    """What the program `capitals` prints: the converted file, or the line of its refusal.

    >>> capitals(b"00000000fff0"), capitals(b"")
    (b'00000000FFF0\\n', b'refused 1 0\\n')
    """
    printed = bytearray(MAX_FILE)  # a refusal's line has room in it too, so the answer's refusal is that of the line
    return bytes(printed[:call("capitals", file, printed).count])


def report(file: Bytes) -> str:
    """What the program `analyse` prints; it refuses nothing.

    >>> print(report(b"000000000007"), end="")
    method value move leaves
    ab 7 0 1
    mtd 7 0 1
    sss 7 0 1
    """
    text = call("report", file)
    return bytes(text.bytes[:text.length]).decode("ascii")


def refused(number: int, place: int) -> str:
    """The line that the programs print for a refusal.

    >>> refused(3, 15)
    'refused 3 15\\n'
    """
    text = call("refused", number, place)
    return bytes(text.bytes[:text.length]).decode("ascii")


def read_line(file: Bytes, at: int) -> Optional[Tuple[bytes, int]]:
    """The six bytes of the line that starts at a position of a file, in either letter case, and the position past it;
    None where there is no such line. It puts no questions.

    >>> read_line(b"00000000fff0\\n", 0)
    (b'\\x00\\x00\\x00\\x00\\xff\\xf0', 13)
    >>> read_line(b"00000000fff0\\n", 1) is None
    True
    """
    line = call("read_line", file, at)
    return (bytes(line.bytes), int(line.at)) if line.read else None


def digit(byte: int) -> Optional[int]:
    """The number of a hexadecimal digit in either letter case; None for any other byte.

    >>> digit(ord("c")), digit(ord("G"))
    (12, None)
    """
    number = int(call("digit", byte))
    return number if number < 16 else None


def least_leaves(width: int, depth: int) -> int:
    """The fewest leaves that decide a tree of this width and depth in which the sides alternate; 65,535 is that or
    more.

    >>> least_leaves(10, 6)
    1999
    """
    return int(answered(call("least_leaves", width, depth)).count)
