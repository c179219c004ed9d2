"""The options of a renderer and of its calls."""

from enum import Enum
from typing import NamedTuple


class Decorator(Enum):
    """How decorated text is shown."""

    PLAIN = 0
    """By characters, as `[` and `]` about a link."""
    TRIVIAL = 1
    """By nothing but a superscript's `^{` and `}`."""
    RICH = 2
    """As `TRIVIAL`, and by annotations of each piece of a line."""


class ImageRenderMode(Enum):
    """What an image without a title shows."""

    IGNORE_EMPTY = 0
    """Nothing."""
    SHOW_ALWAYS = 1
    """The empty title, as the decorator shows it."""
    FILENAME = 2
    """What follows the last `/` of its source."""


class WhiteSpace(Enum):
    """How white space is treated."""

    NORMAL = 0
    """A stretch of it counts as one space, and as none at the ends of lines."""
    PRE = 1
    """It is kept, and lines are cut where they are full."""
    PRE_WRAP = 2
    """It is kept, and words go on a fresh line where they don't fit."""


class CellAlign(Enum):
    """Where the lines of a cell are in its columns."""

    LEFT = 0
    RIGHT = 1
    CENTRE = 2
    """In the middle, with the odd column on the right."""


class Format(Enum):
    """How lines are shown.

    Only `TEXT` of a renderer that is raw has control characters of a text, a target or a name. Links of `ANSI` and
    `HTML` lead only to `http`, `https`, `mailto` and `ftp`, and to targets without a colon.
    """

    TEXT = 0
    """The text alone."""
    ANSI = 1
    """For a terminal: emphasis, strong and struck out text, code and colours by control sequences, and hyperlinks."""
    HTML = 2
    """What is in a `<pre>`: links, emphasis and colours as elements, and markers as places to link to.

    A character of two columns is in a `<span class="wide">`, to be shown as two characters wide.
    """
    JSON = 3
    """An object of JSON for each line: columns, whether it is a border, and its pieces and markers."""


class Colour(NamedTuple):
    """A colour, by its red, green and blue parts, each from 0 to 255."""

    r: int
    g: int
    b: int
