"""Lines in aligned columns, for people."""
from __future__ import annotations

import unicodedata
from typing import Callable, Sequence

from ._records import NULL

ROUNDED = "Means are rounded half away from zero, to two digits more than their measure has."
# (what stands above and on a letter, and what isn't seen)
WITHOUT_WIDTH = ("Mn", "Me", "Cf")


def coordinate_shown(text: str, mark: str, read: Callable[[str], str]) -> str:
    return "(all)" if mark == "1" else "(null)" if text == NULL else read(text)


def rounded(fraction: str, digits: int, times: int = 1) -> str:
    """A fraction `p/q`, or so many times it, with so many digits behind the point, half away from zero."""
    above, below = map(int, fraction.split("/"))
    above *= times
    units = (2 * abs(above) * 10**digits + below) // (2 * below)
    text = str(units).zfill(digits + 1)
    return ("-" if above < 0 and units else "") + text[:-digits] + "." + text[-digits:]


def aligned(lines: Sequence[Sequence[str]], to_the_left: int) -> str:
    """Lines in columns, of which the first ones stand to the left."""
    shown = [[without_controls(it) for it in line] for line in lines]
    widths = [max(map(columns_of, column)) for column in zip(*shown)]
    return "".join("  ".join(padded(it, width, at < to_the_left) for at, (it, width) in enumerate(zip(line, widths))) + "\n" for line in shown)


def padded(text: str, width: int, is_left: bool) -> str:
    spaces = " " * (width - columns_of(text))
    return text + spaces if is_left else spaces + text


def without_controls(text: str) -> str:
    return text if text.isprintable() else "".join("\ufffd" if unicodedata.category(it) == "Cc" else it for it in text)


def columns_of(text: str) -> int:
    """How many columns of a terminal a text takes."""
    return len(text) if text.isascii() else sum(map(columns_of_character, text))


def columns_of_character(character: str) -> int:
    if unicodedata.category(character) in WITHOUT_WIDTH:
        return 0
    return 2 if unicodedata.east_asian_width(character) in ("W", "F") else 1
