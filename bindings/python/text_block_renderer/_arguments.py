"""What callers pass, as the library takes it. A TypeError says what was expected, and what was passed."""

import ctypes
import operator
from enum import Enum
from typing import TYPE_CHECKING, Any

from .options import Colour

if TYPE_CHECKING:
    from _typeshed import ReadableBuffer

_MOST = 2 ** (8 * ctypes.sizeof(ctypes.c_size_t)) - 1


def utf8(text: str, name: str) -> bytes:
    """A text's bytes. The library refuses the surrogates in it."""
    _expect(isinstance(text, str), name, "a str", text)
    return text.encode("utf-8", "surrogatepass")


def raw(script: "str | ReadableBuffer", name: str) -> bytes:
    """The bytes of a text, or of what has bytes."""
    if isinstance(script, str):
        return utf8(script, name)
    try:
        return memoryview(script).tobytes()
    except TypeError:
        raise _unexpected(name, "a str or a bytes-like object", script) from None


def integer(value: int, name: str, least: int, most: int) -> int:
    """A whole number that isn't out of these bounds, at which ctypes would cut it."""
    try:
        found = operator.index(value)
    except TypeError:
        raise _unexpected(name, "an int", value) from None
    if not least <= found <= most:
        raise ValueError(f"{name} must be from {least} to {most}")
    return found


def size(value: int, name: str) -> int:
    """A number of columns, rows or bytes."""
    return integer(value, name, 0, _MOST)


def member(value: Enum, name: str, kind: type[Enum]) -> int:
    """The number of a member of an enum."""
    _expect(isinstance(value, kind), name, f"a member of {kind.__name__}", value)
    return int(value.value)


def parts(colour: Colour) -> tuple[int, int, int]:
    """The red, green and blue parts of a colour."""
    _expect(isinstance(colour, Colour), "colour", "a Colour", colour)
    red, green, blue = (integer(getattr(colour, part), f"colour.{part}", 0, 255) for part in "rgb")
    return red, green, blue


def _expect(is_so: bool, name: str, expected: str, value: Any) -> None:
    if not is_so:
        raise _unexpected(name, expected, value)


def _unexpected(name: str, expected: str, value: Any) -> TypeError:
    return TypeError(f"{name} must be {expected}, not {type(value).__name__}")
