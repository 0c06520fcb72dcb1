"""What the shared library exports: its structures and the parameters of its functions.

`bindings/declarations.py` compares this file with the Rattle source. It imports nothing of the package."""
import ctypes

READ, WRITE, LIST = ctypes.c_char_p, ctypes.POINTER(ctypes.c_char), ctypes.POINTER(ctypes.c_uint16)
SIZE = ctypes.c_size_t


class Answer(ctypes.Structure):
    """What most calls give: `refused` is 0 for a result, otherwise the number of a question; `place` goes with it. Where
    `spent` is 1, `value` is the merit; `count` is what the call counts."""
    _fields_ = [("refused", ctypes.c_uint8), ("spent", ctypes.c_uint8), ("value", ctypes.c_int32), ("place", SIZE),
                ("count", SIZE), ("root_move", SIZE), ("steps", SIZE)]


class Choice(ctypes.Structure):
    """Which of two certificates is chosen, 1 or 2, and how many of its flags count."""
    _fields_ = [("refused", ctypes.c_uint8), ("chosen", ctypes.c_uint8), ("place", SIZE), ("count", SIZE)]


class Children(ctypes.Structure):
    """The number of a node's first child, and how many there are."""
    _fields_ = [("first", SIZE), ("count", SIZE)]


class Line(ctypes.Structure):
    """A line of a file: `read` is 1, `bytes` its frame and `at` the position past it; or 0."""
    _fields_ = [("bytes", ctypes.c_uint8 * 6), ("read", ctypes.c_uint8), ("at", SIZE)]


class Text(ctypes.Structure):
    """A text: `length` bytes, then zeros."""
    _fields_ = [("bytes", ctypes.c_uint8 * 256), ("length", SIZE)]


_BYTES, _LENT = [READ, SIZE], [WRITE, SIZE]
_SEARCH = _BYTES + _LENT + _LENT
_ORDER = [LIST, SIZE]
CALLS = {
    "version": ([], ctypes.c_uint32),
    "read": (_BYTES + _LENT, Answer),
    "read_line": (_BYTES + [SIZE], Line),
    "digit": ([ctypes.c_uint8], ctypes.c_uint8),
    "write": (_BYTES + _LENT, Answer),
    "convert": (_BYTES + _LENT, Answer),
    "capitals": (_BYTES + _LENT, Answer),
    "check": (_BYTES, Answer),
    "children": (_BYTES + [SIZE], Children),
    "alphabeta": (_SEARCH + _ORDER, Answer),
    "plain": (_SEARCH, Answer),
    "mtd": (_SEARCH + _ORDER, Answer),
    "mtdf": (_BYTES + [ctypes.c_int32] + _LENT + _LENT + _ORDER, Answer),
    "sss": (_SEARCH + _ORDER + [SIZE], Answer),
    "line": (_BYTES + _ORDER, Answer),
    "verify": (_BYTES + _BYTES, Answer),
    "shorter": (_BYTES + _BYTES + _BYTES, Choice),
    "graft": (_BYTES + [SIZE] + _BYTES + _LENT, Answer),
    "least_value": (_BYTES + [SIZE, ctypes.c_int32], Answer),
    "fill": (_LENT, Answer),
    "least_leaves": ([SIZE, SIZE], Answer),
    "report": (_BYTES, Text),
    "refused": ([ctypes.c_uint8, SIZE], Text),
}
