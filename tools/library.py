"""The calls of planbook's shared library, which is PLANBOOK_LIB or else target/libplanbook.so."""
from __future__ import annotations

import ctypes
import os
from typing import Any, Callable, Type

from console import MachineError
from listing import TOP

BYTES = ctypes.c_char_p, ctypes.c_size_t  # bytes that are lent for reading, and their number
BUFFER = ctypes.POINTER(ctypes.c_uint8), ctypes.c_size_t  # bytes that are lent for writing, and their number


class LibraryError(MachineError):
    """The library is missing, or did not answer as it should."""


def numbers(*names: str) -> Type[ctypes.Structure]:
    """What a call answers: four-byte numbers of these names."""
    return type("Numbers", (ctypes.Structure,), {"_fields_": [(name, ctypes.c_uint32) for name in names]})


def call(name: str, result: Any, *kinds: Any) -> Callable[..., Any]:
    """The library's function of this name, with the kinds of what it answers and takes."""
    path = os.path.abspath(os.environ.get("PLANBOOK_LIB") or os.path.join(TOP, "target", "libplanbook.so"))
    if not os.path.isfile(path):
        raise LibraryError("libplanbook.so is not there: ./run builds it, or PLANBOOK_LIB names another one")
    try:
        found = getattr(ctypes.CDLL(path), name)
    except OSError as error:
        raise LibraryError(f"{path}: cannot be loaded as a library ({error})") from None
    except AttributeError:
        raise LibraryError(f"{path}: has no {name}; it is another library, or an old one") from None
    found.argtypes, found.restype = kinds, result
    return found
