"""Where the built programs are found by the tests."""

from __future__ import annotations

import os

ROOT = os.path.dirname(os.path.dirname(os.path.abspath(__file__)))

# The copy that the Makefile leaves, then the file that `rt run` and `rt ci` leave.
PLACES = ["build/x25", "crates/x25/out/x25"]
PLACES_OF_THE_PLAYER = ["build/x25_refusals", "crates/x25_refusals/out/x25_refusals"]


def last_built(variable: str, places: list[str]) -> str | None:
    """Answers the path of the file that was built last, or None where there is none; the variable,
    if set, names the one to take."""
    files = (
        [os.environ[variable]]
        if variable in os.environ
        else [os.path.join(ROOT, place) for place in places]
    )
    built = [os.path.abspath(path) for path in files if os.path.isfile(path)]
    return max(built, key=os.path.getmtime) if built else None


def find_program() -> str | None:
    """Answers the path of the program `x25` that was built last, or None; the variable X25, if
    set, names the one to take."""
    return last_built("X25", PLACES)


def find_player() -> str | None:
    """Answers the path of the player of scripts `x25_refusals` that was built last, or None; the
    variable X25_REFUSALS, if set, names the one to take."""
    return last_built("X25_REFUSALS", PLACES_OF_THE_PLAYER)


def find_library(ending: str) -> str | None:
    """Answers the path of the library for C that ends so, `a` or `so`, in the folder where `make
    lib` leaves it or that the variable X25_LIBRARY names, or None."""
    path = os.path.join(
        os.path.abspath(os.environ.get("X25_LIBRARY", os.path.join(ROOT, "build"))),
        f"libx25.{ending}",
    )
    return path if os.path.isfile(path) else None
