"""The elements of a mail: each kind draws what it shows on a page.

A block calls `end_block` before its content and after it, so that the text that comes next begins a block, however
many of them begin or end there.
"""

from __future__ import annotations

from collections.abc import Iterator

from text_block_renderer import text_width

from .marks import marked
from .page import Page

SUPERSCRIPTS = str.maketrans("0123456789+-=()n", "⁰¹²³⁴⁵⁶⁷⁸⁹⁺⁻⁼⁽⁾ⁿ")
SUBSCRIPTS = str.maketrans("0123456789+-=()", "₀₁₂₃₄₅₆₇₈₉₊₋₌₍₎")
# An image of fewer columns and lines of a screen counts those who open a mail.
LEAST_PIXELS = 2
ITEM_MARK = "* "


class Text:
    """Text between tags."""

    __slots__ = ("_is_blank", "_parts")

    def __init__(self, text: str) -> None:
        self._parts = [text]
        self._is_blank: bool | None = None

    def add(self, text: str) -> None:
        """Adds text at its end."""
        self._parts.append(text)

    def add_after_word(self, text: str) -> None:
        """Adds text after its last word, before the white space at its end."""
        words = self.text.rstrip()
        self._parts = [words, text, self.text[len(words) :]]

    @property
    def text(self) -> str:
        """All of it."""
        if len(self._parts) > 1:
            self._parts = ["".join(self._parts)]
        return self._parts[0]

    def is_blank(self) -> bool:
        """Whether only its white space takes columns."""
        if self._is_blank is None:
            first = self.text.lstrip()[:1]
            self._is_blank = not first or (not " " < first < "\x7f" and not text_width("".join(self.text.split())))
        return self._is_blank

    def draw(self, page: Page) -> None:
        page.add_text(self.text)


class Element:
    """An element that shows its content and nothing else."""

    has_blocks = False

    def __init__(self, tag: str, attributes: dict[str, str]) -> None:
        self.tag = tag
        self.attributes = attributes
        self.children: list[Element | Text] = []
        self._is_blank: bool | None = None

    def add_text(self, text: str) -> None:
        """Adds text after its other children."""
        if self.children and isinstance(self.children[-1], Text):
            self.children[-1].add(text)
        else:
            self.children.append(Text(text))

    def is_blank(self) -> bool:
        """Whether nothing of it is visible, once its children are there."""
        if self._is_blank is None:
            self._is_blank = all(child.is_blank() for child in self.children)
        return self._is_blank

    def draw(self, page: Page) -> None:
        """Draws it on a page."""
        for child in self.children:
            child.draw(page)

    def number(self, name: str, default: int, least: int, most: int) -> int:
        """The number that an attribute has, within these bounds."""
        return whole(self.attributes.get(name, ""), default, least, most)


def whole(text: str, default: int, least: int, most: int) -> int:
    """The number that a text is, within these bounds."""
    try:
        return min(max(int(text[:20]), least), most)
    except ValueError:
        return default


class Unseen(Element):
    """A style sheet, a title, or what the sender has hidden."""

    def is_blank(self) -> bool:
        return True

    def draw(self, page: Page) -> None:
        pass


# ---- stretches of text


class Stretch(Element):
    """A stretch of text of some kind. In a format without other means it has marks at its ends, if it has no blocks."""

    kind = ""
    mark = ""

    def draw(self, page: Page) -> None:
        mark = "" if self.has_blocks or self.is_blank() else self.mark
        page.begin(self.kind, mark)
        super().draw(page)
        page.end(self.kind, mark)


class Emphasis(Stretch):
    """Emphasised text."""

    kind = "emphasis"
    mark = "*"


class Strong(Stretch):
    """Strong text."""

    kind = "strong"
    mark = "**"


class Strikeout(Stretch):
    """Text that isn't valid any longer."""

    kind = "strikeout"


class Code(Stretch):
    """Code in a line of text."""

    kind = "code"
    mark = "`"


class Superscript(Element):
    """A superscript. If it has only digits, it is written by the characters for them."""

    characters = SUPERSCRIPTS
    begin = "^{"

    def small(self) -> str | None:
        """Its text as such characters, where there are some for all of it."""
        if len(self.children) == 1 and isinstance(self.children[0], Text):
            text = self.children[0].text.strip()
            if all(ord(c) in self.characters for c in text):
                return text.translate(self.characters)
        return None

    def draw(self, page: Page) -> None:
        small = self.small()
        page.add_text(self.begin if small is None else small)
        if small is None:
            super().draw(page)
            page.add_text("}")


class Subscript(Superscript):
    """A subscript."""

    characters = SUBSCRIPTS
    begin = "_{"


class Link(Element):
    """A link, which has its marks around its first and its last word."""

    def __init__(self, attributes: dict[str, str]) -> None:
        super().__init__("a", attributes)
        self.target = ""
        self._before = ""
        self._after = ""

    def show(self, text: str) -> None:
        """Shows a text, if nothing else of it is visible."""
        self.children.append(Text(text))
        self._is_blank = None

    def picture(self) -> Image | None:
        """The first image in it that isn't too small to be seen."""
        return next((it for it in inside(self) if isinstance(it, Image) and not it.is_too_small()), None)

    def mark(self, before: str, after: str) -> None:
        """Sets its marks. If it has blocks in it, the second mark goes into the last of them."""
        self._before, self._after = before, after
        if self.has_blocks and (last := last_text(self)):
            last.add_after_word(after)
            self._after = ""

    def draw(self, page: Page) -> None:
        if self.is_blank():
            return
        page.begin_link(self.target, self._before)
        super().draw(page)
        page.end_link(self.target, self._after)


class Image(Element):
    """An image, for which its text is shown."""

    @property
    def title(self) -> str:
        """The text in its place."""
        return (self.attributes.get("alt") or self.attributes.get("title") or "").strip()

    def is_too_small(self) -> bool:
        """Whether it isn't meant to be seen."""
        sides = (
            whole(self.attributes.get(name, "").removesuffix("px"), LEAST_PIXELS, 0, 9999)
            for name in ("width", "height")
        )
        return all(side < LEAST_PIXELS for side in sides)

    def is_blank(self) -> bool:
        return not self.title

    def draw(self, page: Page) -> None:
        if self.title:
            page.add_image(self.title)


class Break(Element):
    """The end of a line."""

    def draw(self, page: Page) -> None:
        page.renderer.new_line_hard()


class WordBreak(Element):
    """A place at which a word may be broken."""

    def draw(self, page: Page) -> None:
        page.add_text("\u200b")


# ---- blocks


class Division(Element):
    """Content on lines of its own."""

    def draw(self, page: Page) -> None:
        page.renderer.new_line()
        super().draw(page)
        page.renderer.new_line()


class Block(Division):
    """A paragraph, or another block with an empty line before it and after it."""

    def draw(self, page: Page) -> None:
        page.renderer.end_block()
        if not self.is_blank():
            super().draw(page)
            page.renderer.end_block()


class Preformatted(Block):
    """A block whose white space is kept."""

    def draw(self, page: Page) -> None:
        page.renderer.end_block()
        page.begin_preformatted()
        Element.draw(self, page)
        page.end_preformatted()
        page.renderer.end_block()


class Rule(Element):
    """A line across the page."""

    def is_blank(self) -> bool:
        return False

    def draw(self, page: Page) -> None:
        page.renderer.start_block()
        page.renderer.add_horizontal_border()
        page.renderer.end_block()


class Heading(Element):
    """A heading of the level that its tag has."""

    @property
    def level(self) -> int:
        return int(self.tag.removeprefix("h"))

    def draw(self, page: Page) -> None:
        if not self.is_blank():
            page.renderer.start_header(self.level)
            super().draw(page)
            page.renderer.end_header(self.level)


class Quote(Element):
    """A quoted block."""

    def draw(self, page: Page) -> None:
        if not self.is_blank():
            page.renderer.start_quote()
            super().draw(page)
            page.renderer.end_quote()


# ---- lists


class Item(Division):
    """An item of a list, which draws its mark."""


class List(Element):
    """A list. One inside an item follows the item's text without an empty line."""

    is_nested = False

    def marks(self, items: list[Item]) -> list[str]:
        """What comes before each item."""
        return [ITEM_MARK] * len(items)

    def marked(self) -> Iterator[tuple[str, Element | Text]]:
        """What is in the list, each after its mark, or after spaces if it isn't an item."""
        items = [child for child in self.children if isinstance(child, Item)]
        marks = self.marks(items)
        columns = max(map(len, marks), default=len(ITEM_MARK))
        left = iter(marks)
        for child in self.children:
            if isinstance(child, Item):
                yield next(left).ljust(columns), child
            elif not child.is_blank():
                yield " " * columns, child

    def draw(self, page: Page) -> None:
        if self.is_blank():
            return
        if not self.is_nested:
            page.renderer.start_block()
        for mark, item in self.marked():
            page.start_inside(len(mark))
            item.draw(page)
            page.end_inside(mark)
        if not self.is_nested:
            page.renderer.end_block()


class OrderedList(List):
    """A list whose items are numbered, by numbers or letters."""

    def marks(self, items: list[Item]) -> list[str]:
        step = -1 if "reversed" in self.attributes else 1
        first = len(items) if step < 0 else 1
        number = self.number("start", first, -(10**6), 10**6)
        found = []
        for item in items:
            number = item.number("value", number, -(10**6), 10**6)
            found.append(marked(number, item.attributes.get("type") or self.attributes.get("type") or "1"))
            number += step
        return found


class Term(Division):
    """The term of a definition."""

    def draw(self, page: Page) -> None:
        mark = "" if self.is_blank() or any(isinstance(it, Stretch) or it.has_blocks for it in inside(self)) else "*"
        page.renderer.new_line()
        page.begin("emphasis", mark)
        Element.draw(self, page)
        page.end("emphasis", mark)
        page.renderer.new_line()


class Definition(Element):
    """The definition of a term, with two columns in front."""

    def draw(self, page: Page) -> None:
        page.start_inside(2)
        super().draw(page)
        page.end_inside("  ")


def inside(element: Element) -> Iterator[Element]:
    """The elements inside of one, in order."""
    for child in element.children:
        if isinstance(child, Element):
            yield child
            yield from inside(child)


def last_text(element: Element) -> Text | None:
    """The last text in an element that is seen."""
    for child in reversed(element.children):
        if child.is_blank() or isinstance(child, Image):
            continue
        return child if isinstance(child, Text) else last_text(child)
    return None
