"""HTML, parsed as a tree of elements."""

from .elements import (
    Block,
    Break,
    Code,
    Definition,
    Division,
    Element,
    Emphasis,
    Heading,
    Image,
    Item,
    Link,
    List,
    OrderedList,
    Preformatted,
    Quote,
    Rule,
    Strikeout,
    Strong,
    Subscript,
    Superscript,
    Term,
    Text,
    Unseen,
    WordBreak,
)
from .links import Targets
from .styles import StyleSheets, font_size, hides
from .tables import Caption, Cell, Row, Table
from .tokens import Tokens, attributes_of

KINDS: dict[str, type[Element]] = {
    **dict.fromkeys("style script title template noframes object iframe audio video select".split(), Unseen),
    **dict.fromkeys("p article section header footer main nav aside figure form fieldset dl details".split(), Block),
    **dict.fromkeys("div center address figcaption summary legend".split(), Division),
    **dict.fromkeys("h1 h2 h3 h4 h5 h6".split(), Heading),
    **dict.fromkeys("em i cite dfn var".split(), Emphasis),
    **dict.fromkeys("strong b".split(), Strong),
    **dict.fromkeys("s strike del".split(), Strikeout),
    **dict.fromkeys("code kbd samp tt".split(), Code),
    **dict.fromkeys("td th".split(), Cell),
    "sup": Superscript,
    "sub": Subscript,
    "img": Image,
    "br": Break,
    "wbr": WordBreak,
    "hr": Rule,
    "pre": Preformatted,
    "blockquote": Quote,
    "ul": List,
    "menu": List,
    "dir": List,
    "ol": OrderedList,
    "li": Item,
    "dt": Term,
    "dd": Definition,
    "table": Table,
    "tr": Row,
    "caption": Caption,
}
# Elements that have no end tag.
VOID = frozenset("area base br col embed hr img input link meta source track wbr".split())
# Those whose attributes are asked for. Others are read only where they may hide the element.
WITH_ATTRIBUTES = frozenset("a base img li ol table td th tr".split())
HEADINGS = frozenset("h1 h2 h3 h4 h5 h6".split())

CELLS = frozenset("td th caption".split())
SECTIONS = frozenset("thead tbody tfoot".split())
ABOVE_CELLS = SECTIONS | {"table", "tr"}
TABLE_PARTS = ABOVE_CELLS | CELLS
# What may be in a table outside of its cells.
OUTSIDE_CELLS = TABLE_PARTS - {"table"} | frozenset("col colgroup form input script style template".split())
# What keeps the place of the text in it.
INLINE = (Emphasis, Strong, Strikeout, Code, Superscript, Subscript, Link, Image, Break, WordBreak)

# Elements that begin a block, and so end a paragraph.
BLOCK_KINDS = (Division, Heading, List, Quote, Rule, Table)
BLOCKS = frozenset(tag for tag, kind in KINDS.items() if issubclass(kind, BLOCK_KINDS))
# What a start tag ends, as far as it is open inside of the innermost of the second tags.
ENDED_BY: dict[str, tuple[frozenset[str], frozenset[str]]] = {
    **dict.fromkeys(BLOCKS, (frozenset({"p"}), TABLE_PARTS | {"li", "blockquote"})),
    **dict.fromkeys(HEADINGS, (HEADINGS | {"p"}, TABLE_PARTS | {"li", "blockquote"})),
    **dict.fromkeys(["dt", "dd"], (frozenset({"dt", "dd"}), frozenset({"dl"}))),
    **dict.fromkeys(SECTIONS | {"caption"}, (TABLE_PARTS - {"table"}, frozenset({"table"}))),
    **dict.fromkeys(["td", "th"], (CELLS, frozenset({"table"}))),
    "tr": (frozenset({"tr", "caption"}), frozenset({"table"})),
    "li": (frozenset({"li"}), frozenset({"ul", "ol", "menu", "dir"})),
    "a": (frozenset({"a"}), TABLE_PARTS),
}
# Elements that are deeper than this come beside what they should be in, so that no mail is too deep to be drawn. The
# cells of a table that is less deep stay in it.
DEEPEST = 200


def parse(text: str, targets: Targets) -> Element:
    """The tree of an HTML text, whose links are numbered by their targets."""
    builder = TreeBuilder(text, targets)
    builder.read()
    targets.number(builder.links)
    return builder.root


class Open:
    """A tag that is open: its element, or the one around it if it isn't an element of its own."""

    __slots__ = ("element", "is_inline", "is_sized", "tag")

    def __init__(self, tag: str, element: Element, is_sized: bool) -> None:
        self.tag = tag
        self.element = element
        self.is_inline = isinstance(element, INLINE)
        self.is_sized = is_sized


class TreeBuilder(Tokens):
    """Builds the tree of a text. Missing and crossed tags are corrected much as in browsers."""

    def __init__(self, text: str, targets: Targets) -> None:
        super().__init__(text)
        self.root = Element("html", {})
        self.links: list[Link] = []
        self._targets = targets
        self._sheets = StyleSheets()
        self._open = [Open("html", self.root, True)]

    def start(self, tag: str, attributes: str) -> None:
        if tag in ENDED_BY:
            self._end(*ENDED_BY[tag], is_outermost=True)
        if self._open[-1].tag in ABOVE_CELLS:
            self._open_cell_for(tag)
        elif tag in CELLS and tag != "caption":
            self._add("tr", {})
        self._add(tag, self._read(tag, attributes) if attributes else {})

    def end(self, tag: str) -> None:
        if self._open[-1].tag == tag and len(self._open) > 1:
            self._open.pop()
        elif any(it.tag == tag for it in self._open):
            bounds = frozenset({"table"}) if tag in TABLE_PARTS else TABLE_PARTS
            self._end(frozenset({tag}), bounds - {tag}, is_outermost=False)

    def text(self, text: str) -> None:
        inner = self._open[-1]
        if inner.tag in ABOVE_CELLS and not text.isspace():
            self._open_cell_for("")
            inner = self._open[-1]
        parent = inner.element
        if isinstance(parent, Unseen):
            if inner.tag == "style":
                self._sheets.read(text)
            return
        if not parent.children and isinstance(parent, Preformatted):
            text = text.removeprefix("\n")
        parent.add_text(text if inner.is_sized else " ")

    def _open_cell_for(self, tag: str) -> None:
        """Opens what is missing in a table: a row for a cell, and a cell for all except parts of tables."""
        if tag not in OUTSIDE_CELLS:
            self.start("td", "")
        elif tag in CELLS and tag != "caption" and self._open[-1].tag != "tr":
            self._add("tr", {})

    def _read(self, tag: str, attributes: str) -> dict[str, str]:
        """The attributes of a tag, if anything is asked of them."""
        if tag in WITH_ATTRIBUTES:
            return attributes_of(attributes)
        small = attributes.lower()
        if "style" in small or "hidden" in small or (self._sheets and ("class" in small or "id" in small)):
            return attributes_of(attributes)
        return {}

    def _add(self, tag: str, attributes: dict[str, str]) -> None:
        outer = self._open[-1]
        element = self._element(tag, attributes, outer.element)
        if element is not outer.element:
            outer.element.children.append(element)
            self._tell(element)
        if tag in VOID or (tag == "form" and outer.tag in ABOVE_CELLS):
            return
        if len(self._open) < DEEPEST or outer.tag in ABOVE_CELLS:
            size = font_size(attributes["style"]) if "style" in attributes else None
            self._open.append(Open(tag, element, outer.is_sized if size is None else size == "some"))

    def _element(self, tag: str, attributes: dict[str, str], outer: Element) -> Element:
        """The element of a tag, of the kind that it is with these attributes, or the one around it."""
        if (attributes and self._is_hidden(tag, attributes)) or isinstance(outer, Unseen):
            return Unseen(tag, attributes)
        if tag == "a" and "href" in attributes:
            link = Link(attributes)
            self.links.append(link)
            return link
        if tag == "base" and "href" in attributes:
            self._targets.set_base(attributes["href"])
        if tag in ("thead", "tfoot") and isinstance(outer, Table):
            outer.has_head = True
        kind = KINDS.get(tag)
        return kind(tag, attributes) if kind else outer

    def _is_hidden(self, tag: str, attributes: dict[str, str]) -> bool:
        """Whether a browser doesn't show an element with these attributes, as the preview text of many mails."""
        return "hidden" in attributes or hides(attributes.get("style", "")) or self._sheets.hide(tag, attributes)

    def _tell(self, element: Element) -> None:
        """Tells the elements around a new one that they have blocks in them."""
        if isinstance(element, INLINE):
            return
        if isinstance(element, List):
            element.is_nested = any(isinstance(outer.element, Item) for outer in self._open)
        for outer in reversed(self._open):
            if outer.is_inline:
                outer.element.has_blocks = True
            elif outer.element.tag == outer.tag:
                return

    def _end(self, tags: frozenset[str], bounds: frozenset[str], is_outermost: bool) -> None:
        """Ends the outermost or innermost open element of these tags inside the bounds, and all inside it."""
        found = 0
        for depth in range(len(self._open) - 1, 0, -1):
            tag = self._open[depth].tag
            if tag in tags:
                found = depth
            if tag in bounds or (found and not is_outermost):
                break
        if found:
            del self._open[found:]
