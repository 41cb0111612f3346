"""Finds the shared library, and loads it."""

from __future__ import annotations

import ctypes
import os
from pathlib import Path
from typing import List

NAME = "libtrawlbeacon.so.1"

VARIABLE = "TRAWLBEACON_LIBRARY"
"""The variable of the environment that names the file of the library, before all other places."""

INSTALLED = ("share", "trawlbeacon", "python", "trawlbeacon")
"""Where this folder stands below the prefix of an installation."""


def places() -> List[Path]:
    """Where the library is looked for: only what the variable names, if it is set; else
    beside this file, as in a wheel, and in the lib folder of the installation that this file is a
    part of."""
    named = os.environ.get(VARIABLE)
    if named:
        return [Path(named)]
    here = Path(__file__).resolve().parent
    if here.parts[-4:] == INSTALLED:
        return [here / NAME, here.parents[3] / "lib" / NAME]
    return [here / NAME]


def load() -> ctypes.CDLL:
    """The library at the first of these places that has one."""
    for place in places():
        if place.is_file():
            return ctypes.CDLL(str(place.resolve()))
    looked = ", ".join(str(place) for place in places())
    raise ImportError(f"there is no {NAME}: looked for {looked}; set {VARIABLE} to its path")
