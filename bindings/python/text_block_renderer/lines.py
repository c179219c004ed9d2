"""The lines of a finished renderer."""

from collections.abc import Iterator
from enum import Enum
from typing import NamedTuple

from .options import Colour


class Kind(Enum):
    """What a stretch of text is."""

    DEFAULT = 0
    """Nothing in particular. Under other decorators than `Decorator.RICH` every annotation is this."""
    LINK = 1
    IMAGE = 2
    EMPHASIS = 3
    STRONG = 4
    STRIKEOUT = 5
    CODE = 6
    PREFORMATTED = 7
    PREFORMATTED_CONTINUED = 8
    """Preformatted text on a line that continues one which was too long."""
    COLOUR = 9
    BACKGROUND = 10


class Annotation(NamedTuple):
    """What a stretch is, with the target of a link or the source of an image, or a colour."""

    kind: Kind
    target: str | None = None
    colour: Colour | None = None


class TaggedString(NamedTuple):
    """A piece of text, as long as its annotations are the same; the outermost stretch comes first."""

    text: str
    annotations: tuple[Annotation, ...]


class FragmentStart(NamedTuple):
    """A marker: the place where a fragment of this name begins."""

    name: str


class _Line(NamedTuple):
    elements: tuple[TaggedString | FragmentStart, ...]
    width: int
    is_border: bool


class TaggedLine:
    """A line: pieces of text, and markers between them. `str` of it is its text.

    width: the columns that it takes.
    is_border: whether it is a border, which may hold texts of cells that span it.
    """

    __slots__ = ("_line",)

    def __init__(self, elements: tuple[TaggedString | FragmentStart, ...], width: int, is_border: bool) -> None:
        self._line = _Line(elements, width, is_border)

    @property
    def elements(self) -> tuple[TaggedString | FragmentStart, ...]:
        return self._line.elements

    @property
    def width(self) -> int:
        return self._line.width

    @property
    def is_border(self) -> bool:
        return self._line.is_border

    def __eq__(self, other: object) -> bool:
        if not isinstance(other, TaggedLine):
            return NotImplemented
        return self._line == other._line

    def __hash__(self) -> int:
        return hash(self._line)

    def __repr__(self) -> str:
        return f"Tagged{self._line!r}".replace("_", "", 1)

    def __iter__(self) -> Iterator[TaggedString | FragmentStart]:
        return iter(self.elements)

    def tagged_strings(self) -> Iterator[TaggedString]:
        """The pieces of text, without the markers."""
        return (element for element in self.elements if isinstance(element, TaggedString))

    def __str__(self) -> str:
        return "".join(piece.text for piece in self.tagged_strings())
