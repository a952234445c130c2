"""The shared library: where it is found, and its functions.

Each module of the package declares the C functions of its subject by `function`, as include/mlat_solver.h has them.
ctypes lets go of the interpreter's lock for the time of a call, and the library keeps no state: threads solve side by
side.
"""

from __future__ import annotations

import ctypes
import functools
import os
import pathlib
import sys
from typing import Any, Callable, Iterator, Tuple

#: The environment variable that names the shared library, before all other places.
VARIABLE = "MLAT_SOLVER_LIBRARY"
#: The library's name for the loader, with the major version.
SONAME = "libmlat_solver.so.0"


class LibraryNotFound(OSError):
    """The shared library is not there, cannot be loaded, or has not a function that is asked for."""


def places() -> Iterator[str]:
    """Where the library is looked for, in turn."""
    repository = pathlib.Path(__file__).resolve().parents[2]
    if (repository / "crates.txt").exists():
        yield str(repository / "target" / "sharedlib" / SONAME)
    yield SONAME  # by the loader: LD_LIBRARY_PATH, and what ldconfig knows
    for prefix in dict.fromkeys((sys.prefix, sys.base_prefix, "/usr/local")):
        yield str(pathlib.Path(prefix, "lib", SONAME))


@functools.lru_cache(maxsize=None)
def library() -> ctypes.CDLL:
    """The library, loaded once: the file that MLAT_SOLVER_LIBRARY names and no other; else the repository's, if the
    package stands in one; else the installed one."""
    if sys.byteorder != "little":
        raise LibraryNotFound("the library is for little-endian machines")
    named = os.environ.get(VARIABLE)
    tried = []
    for place in [named] if named else places():
        try:
            return ctypes.CDLL(place)
        except OSError as error:
            tried.append(place if "No such file" in str(error) else f"{place} ({error})")
    raise LibraryNotFound(
        "the shared library of mlat_solver was not found: ./install puts it below a prefix, tools/shared_library into "
        f"the repository's target/, and {VARIABLE} may name its file. Looked for: {', '.join(tried)}"
    )


def function(name: str, *arguments: Any, result: Any = ctypes.c_uint32) -> Callable[..., Any]:
    """The C function of this name, looked up when it is first called: to import the package needs no library."""

    @functools.lru_cache(maxsize=None)
    def bound() -> Any:
        try:
            found = getattr(library(), name)
        except AttributeError:
            raise LibraryNotFound(f"the shared library has no {name}: it is older than this package") from None
        found.argtypes, found.restype = arguments, result
        return found

    def call(*given: Any) -> Any:
        return bound()(*given)

    call.__name__ = name
    return call


def fits(kind: Any, *numbers: int) -> bool:
    """Whether an integer type of C holds the numbers: ctypes takes any other too, and drops its upper bits."""
    return all(kind(number).value == number for number in numbers)


#: Bytes that are lent, or numbers, with how many they are.
LENT: Tuple[Any, Any] = (ctypes.c_void_p, ctypes.c_size_t)


def lent(buffer: Any) -> Tuple[Any, int]:
    """A buffer as `LENT` takes it; the caller holds the first as long as the call goes on. Bytes and writable buffers
    (a bytearray, an array, a numpy array) are lent as they are, read-only ones are copied. None is nothing."""
    if buffer is None:
        return None, 0
    if isinstance(buffer, bytes):
        return buffer, len(buffer)
    view = memoryview(buffer)
    if not view.c_contiguous:
        raise TypeError("a buffer has to be contiguous, its rows one after the other")
    if view.readonly:
        return view.tobytes(), view.nbytes
    return (ctypes.c_char * view.nbytes).from_buffer(buffer), view.nbytes
