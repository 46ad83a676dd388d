"""The shared library: where it is found, and its functions, each with its types.

It is looked for in this order:
1. the file that the variable HELLO_SO names;
2. libhello.so in this package's folder, where an installation puts it;
3. target/lib/libhello.so of the repository, which bindings/python/make_library makes;
4. libhello.so.0 of the system, which ./install puts there.

It is loaded at the first call, so that what needs no library works without one.
"""

from __future__ import annotations

import ctypes
import functools
import os
import pathlib
from typing import Any

SONAME = "libhello.so.0"
_PACKAGE = pathlib.Path(__file__).resolve().parent


def _candidates() -> list[str]:
    named = os.environ.get("HELLO_SO")
    if named:
        return [os.path.abspath(named)]
    files = [_PACKAGE / "libhello.so", _PACKAGE.parents[2] / "target" / "lib" / "libhello.so"]
    return [*(str(path) for path in files if path.exists()), SONAME]


@functools.lru_cache(maxsize=None)
def library() -> ctypes.PyDLL:
    """The library; ImportError if there is none, with what was tried and what to do."""
    tried = []
    for name in _candidates():
        try:
            # PyDLL: no other Python thread runs during a call, so that two calls never use the same state at once.
            return ctypes.PyDLL(name)
        except OSError as error:
            tried.append(f"{name}: {error}")
    raise ImportError(
        "the HELLO library cannot be loaded. Make it with bindings/python/make_library, or name a libhello.so in the"
        " variable HELLO_SO. Tried:\n  " + "\n  ".join(tried)
    )


class Function:
    """A function of the library, bound when it is first called."""

    __slots__ = ("name", "result", "arguments", "_bound")
    all: dict[str, "Function"] = {}
    """Each function of the package by its name."""

    def __init__(self, name: str, result: Any, *arguments: Any) -> None:
        self.name = name
        self.result = result
        self.arguments = arguments
        self._bound: Any = None
        Function.all[name] = self

    def __call__(self, *arguments: Any) -> Any:
        if self._bound is None:
            bound = getattr(library(), self.name)
            bound.restype = self.result
            bound.argtypes = self.arguments
            self._bound = bound
        return self._bound(*arguments)
