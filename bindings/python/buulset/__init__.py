"""Proved minimax searches of analysis trees, by the shared library of Buulset.

    >>> import buulset
    >>> tree = buulset.Tree.from_file(b"000102000000\\n000000000007\\n00000000FFF7\\n")
    >>> found = tree.sss()
    >>> print("value %d, move %d, %d leaves" % (found.value, found.root_move, found.leaves))
    value 7, move 1, 2 leaves

`Tree` has the calls on a tree, this module those on files and numbers. Every call takes any bytes, ends, and gives its
result or raises one `Refused`, with the number of a question, a place, and their meaning. Any number of threads may
call at once. No proof covers this module: it passes bytes and numbers to the proved calls and hands back what they
give."""
from .files import capitals, check, convert, digit, least_leaves, read_line, refused, report, version
from .library import __version__
from .refusal import Refused
from .tree import (FRAME_SIZE, LINE_SIZE, MAX_CHILDREN, MAX_DEPTH, MAX_FILE, MAX_NODES, MAX_TABLE, Line, Search,
                   Stopped, Tree)

__all__ = ["FRAME_SIZE", "LINE_SIZE", "Line", "MAX_CHILDREN", "MAX_DEPTH", "MAX_FILE", "MAX_NODES", "MAX_TABLE",
           "Refused", "Search", "Stopped", "Tree", "__version__", "capitals", "check", "convert", "digit", "least_leaves",
           "read_line", "refused", "report", "version"]
