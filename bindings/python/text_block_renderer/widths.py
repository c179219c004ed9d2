"""How wide texts are."""

from ctypes import byref, c_size_t
from typing import NamedTuple

from . import _library as library
from ._arguments import member, utf8
from ._library import LIBRARY
from .errors import check
from .options import WhiteSpace


class Extent(NamedTuple):
    """How much room something can use, in columns: in fewer than its longest word has, that is cut, and in as many as its
    widest line has, no line is broken.
    """

    longest_word: int
    widest_line: int


def measure(text: str, mode: WhiteSpace = WhiteSpace.NORMAL) -> Extent:
    """How much room a text can use, in a mode of white space. Nothing is drawn.

    `NotUtf8Error` if it has a surrogate, `TypeError` if it isn't a `str` or the mode isn't a `WhiteSpace`.

    >>> measure("bread and butter")
    Extent(longest_word=6, widest_line=16)
    """
    encoded = utf8(text, "text")
    number = member(mode, "mode", WhiteSpace)
    found = library.Extent()
    check(LIBRARY.tbr_measure_n(encoded, len(encoded), number, byref(found)))
    return extent_of(found)


def extent_of(found: library.Extent) -> Extent:
    """An extent that the library has answered."""
    return Extent(found.longest_word, found.widest_line)


def text_width(text: str) -> int:
    """The columns of a text: the sum over its characters, as a renderer counts them.

    Control characters, as a tab or a newline, take none. `NotUtf8Error` if it has a surrogate, `TypeError` if it isn't
    a `str`.
    """
    encoded = utf8(text, "text")
    columns = c_size_t()
    check(LIBRARY.tbr_text_width_n(encoded, len(encoded), byref(columns)))
    return columns.value
