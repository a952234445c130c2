"""The version of the shared library."""

from __future__ import annotations

from typing import Tuple

from .library import function

_version = function("mlat_version")


def version() -> Tuple[int, int, int]:
    """Major, minor and patch of the library that is loaded: the package's own
    (`importlib.metadata.version("mlat_solver")`), unless the loader found the library of another version."""
    major, rest = divmod(_version(), 1_000_000)
    return (major, *divmod(rest, 1_000))
