"""Finds the shared library, loads it, and makes its calls.

It is looked for in this order:

1. the file that the environment variable BUULSET_LIBRARY names, and nowhere else where that is set;
2. beside this package, where pip puts it;
3. in the folder lib above this package, where tools/install and the Debian package put it, and in that of Python;
4. where the system's loader looks."""
from __future__ import annotations

import ctypes
import os
import sys
import threading
from pathlib import Path
from typing import Any, Iterator, Optional, Union

from .calls import CALLS, LIST, READ, WRITE

__version__ = "2.0.0"

_PACKAGE = Path(__file__).resolve().parent
_MAJOR = int(__version__.split(".")[0])
NAME = "libbuulset.so.%d" % _MAJOR

_library: Optional[ctypes.CDLL] = None
_lock = threading.Lock()


def _places() -> Iterator[str]:
    """The paths where the library may be, in the order in which they are tried; the last is a name for the loader."""
    chosen = os.environ.get("BUULSET_LIBRARY")
    if chosen:
        yield os.path.abspath(chosen)
        return
    yield str(_PACKAGE / NAME)
    for folder in _PACKAGE.parents:
        if folder.name == "lib":
            yield str(folder / NAME)
    yield str(Path(sys.prefix) / "lib" / NAME)
    yield NAME


def _load() -> ctypes.CDLL:
    tried = []
    for place in _places():
        if os.sep in place and not os.path.exists(place):
            tried.append(place)
            continue
        try:
            library = ctypes.CDLL(place)
        except OSError as error:
            tried.append("%s (%s)" % (place, error))
            continue
        _declare(library, place)
        return library
    raise ImportError("the shared library of Buulset is not found; looked for " + ", ".join(tried)
                      + ". Set BUULSET_LIBRARY to its path")


def _declare(library: ctypes.CDLL, place: str) -> None:
    """Gives each function its parameters, after a look at the version: another major number has other functions."""
    library.buulset_version.argtypes, library.buulset_version.restype = CALLS["version"]
    found = library.buulset_version()
    if found // 10000 != _MAJOR:
        raise ImportError("%s has version %s, and this module is of version %s" % (place, shown(found), __version__))
    for name, (parameters, result) in CALLS.items():
        function = getattr(library, "buulset_" + name)
        function.argtypes, function.restype = parameters, result


def shown(version: int) -> str:
    """A version as people write it.

    >>> shown(10203)
    '1.2.3'
    """
    return "%d.%d.%d" % (version // 10000, version // 100 % 100, version % 100)


def library() -> ctypes.CDLL:
    """The library; the first call loads it."""
    global _library
    if _library is None:
        with _lock:
            if _library is None:
                _library = _load()
    return _library


def as_bytes(data: Union[bytes, bytearray, memoryview]) -> bytes:
    """A copy of what is lent, which nobody changes during a call; a TypeError for what has no bytes."""
    return memoryview(data).tobytes()


def call(name: str, *arguments: Any) -> Any:
    """A call as it is declared in `calls`: bytes where it reads, a bytearray where it writes bytes, an array of
    unsigned 16-bit numbers where it writes a list of nodes, and numbers. A number that does not fit its parameter is
    an OverflowError here, where ctypes would cut it.

    >>> call("least_leaves", 10, 6).count
    1999
    >>> call("least_leaves", -1, 6)
    Traceback (most recent call last):
    ...
    OverflowError: -1 does not fit c_ulong
    """
    function = getattr(library(), "buulset_" + name)
    kinds, passed = iter(CALLS[name][0]), []
    for argument in arguments:
        kind: Any = next(kinds)
        if kind is READ:
            read = as_bytes(argument)
            passed += [read, len(read)]
            next(kinds)
        elif kind is WRITE:
            passed += [(ctypes.c_char * len(argument)).from_buffer(argument), len(argument)]
            next(kinds)
        elif kind is LIST:
            passed += [(ctypes.c_uint16 * len(argument)).from_buffer(argument), len(argument)]
            next(kinds)
        else:
            if kind(argument).value != argument:
                raise OverflowError("%d does not fit %s" % (argument, kind.__name__))
            passed.append(argument)
    return function(*passed)
