"""The renderer."""

import ctypes
import warnings
from collections.abc import Iterator
from contextlib import AbstractContextManager, contextmanager
from functools import partial
from types import TracebackType

from . import _library as library
from ._arguments import integer, member, parts, size, utf8
from ._handle import OwnedRenderer
from ._nested import nested
from .errors import NoLineError, RendererError, refusal
from .lines import Annotation, FragmentStart, Kind, TaggedLine, TaggedString
from .options import CellAlign, Colour, Decorator, Format, ImageRenderMode, WhiteSpace
from .tables import Table
from .widths import text_width

# The bytes that most prefixes have at most.
_PREFIX_ROOM = 24


class Renderer:
    """Writes blocks of text, one below another, into lines of a width in columns.

    Its calls have the names of html2text's renderer, where that has such a call. They fill the innermost level that is
    open. A level is a renderer inside another one, to which its lines are added after prefixes or as a cell of a
    table. What begins in a level ends there.

    What `quote`, `link` and others fill by `with` ends there, even if an exception leaves the block. It stays open only
    if the block leaves a level open, or cells waiting in a quote, item or header. `StillOpenError` says so, if no
    other exception is raised.

    A call that does nothing raises a `RendererError`. After `OutOfMemoryError` or `TooNarrowError`, the renderer raises
    that at each later call. All other refusals leave it as it was. `TooNarrowError` is raised only if a line has one
    column. Besides what is said at each call, any that takes memory can raise `OutOfMemoryError`, and any that places a
    word `TooNarrowError`.

    A call checks its arguments before it does anything. It raises `TypeError` if a text isn't a `str`, a number isn't
    whole, or a choice isn't a member of its enum. It raises `ValueError` if a number is out of bounds. Flags may be any
    objects, which count by their truth.

    A renderer may move from thread to thread; a call waits while another thread is in one. Use it by `with`, or `close`
    it.
    """

    def __init__(
        self,
        width: int,
        decorator: Decorator = Decorator.PLAIN,
        *,
        wrap_width: int | None = None,
        allow_width_overflow: bool = False,
        pad_block_width: bool = False,
        draw_borders: bool = True,
        wrap_links: bool = True,
        include_link_footnotes: bool = False,
        use_unicode_strikeout: bool = True,
        img_mode: ImageRenderMode = ImageRenderMode.IGNORE_EMPTY,
        raw: bool = False,
    ) -> None:
        """A renderer of this many columns. `BadWidthError` at 0.

        wrap_width: the most columns that a line of wrapped text takes, where these are fewer.
        allow_width_overflow: a character that is wider than a line goes on a line of its own, and isn't refused as too
            narrow.
        pad_block_width: lines are filled with spaces up to their width.
        draw_borders: borders of tables are drawn.
        wrap_links: the targets of footnotes are cut where they don't fit a line.
        include_link_footnotes: links show numbers, and their targets are listed by number after the text.
        use_unicode_strikeout: struck out text has strokes.
        img_mode: what an image without a title shows.
        raw: control characters of prefixes, and of the targets in footnotes, stay as they are. Otherwise they
            are shown as a browser shows them, so that an escape is `%1B`.
        """
        self._owned = OwnedRenderer(
            library.Options(
                size=ctypes.sizeof(library.Options),
                width=size(width, "width"),
                wrap_width=0 if wrap_width is None else size(wrap_width, "wrap_width"),
                decorator=member(decorator, "decorator", Decorator),
                images=member(img_mode, "img_mode", ImageRenderMode),
                overflow=allow_width_overflow,
                pad=pad_block_width,
                footnotes=include_link_footnotes,
                wrap_links=wrap_links,
                strikeout_strokes=use_unicode_strikeout,
                draw_borders=draw_borders,
                raw=raw,
            )
        )

    def close(self) -> None:
        """Frees the renderer and its lines. A second call does nothing."""
        self._owned.close()

    def __enter__(self) -> "Renderer":
        return self

    def __exit__(
        self, kind: type[BaseException] | None, raised: BaseException | None, trace: TracebackType | None
    ) -> None:
        self.close()

    def __del__(self) -> None:
        owned = getattr(self, "_owned", None)
        if owned and not owned.is_closed:
            warnings.warn("a renderer wasn't closed", ResourceWarning, source=self)
            owned.close()

    # ---- taking its lines

    def into_lines(self) -> Iterator[TaggedLine]:
        """Its lines, one by one, with the footnotes of its links after them. It can't be filled any longer.

        `StillOpenError` if a level is open or cells wait.
        """
        self._owned.call("finish")
        return self._lines()

    def into_string(self, format: Format = Format.TEXT) -> str:
        """Its lines in a format, each with a newline. It can't be filled any longer, and refuses as `into_lines`
        does."""
        shown = member(format, "format", Format)
        if format is Format.TEXT:
            length = self._owned.number("finish_text")
            return self._owned.text(length, "text")
        self._owned.call("finish")
        return self._owned.text(0, "text_as", shown)

    def into_strings(self, format: Format = Format.TEXT) -> Iterator[str]:
        """Its lines in a format one by one, without newlines. It can't be filled any longer, and refuses as
        `into_lines` does.
        """
        shown = member(format, "format", Format)
        self._owned.call("finish")
        return (self._owned.text(0, "line_as", shown) for _ in self._taken())

    def _taken(self) -> Iterator[library.Line]:
        while True:
            try:
                yield self._owned.fill(library.Line(), "next_line")
            except NoLineError:
                return

    def _lines(self) -> Iterator[TaggedLine]:
        return map(self._line, self._taken())

    def _line(self, line: library.Line) -> TaggedLine:
        text = self._owned.text(line.bytes, "line_text").encode()
        elements = tuple(self._element(place, text) for place in range(line.pieces))
        return TaggedLine(elements, line.columns, line.is_border)

    def _element(self, place: int, text: bytes) -> TaggedString | FragmentStart:
        piece = self._owned.fill(library.Piece(), "get_piece", place)
        if piece.kind:
            return FragmentStart(self._owned.text(piece.name_bytes, "marker_name", place))
        annotations = tuple(self._annotation(place, at) for at in range(piece.annotations))
        return TaggedString(text[piece.begin : piece.end].decode(), annotations)

    def _annotation(self, piece: int, place: int) -> Annotation:
        found = self._owned.fill(library.Annotation(), "get_annotation", piece, place)
        kind = Kind(found.kind)
        if kind in (Kind.LINK, Kind.IMAGE):
            return Annotation(kind, self._owned.text(found.target_bytes, "annotation_target", piece, place))
        if kind in (Kind.COLOUR, Kind.BACKGROUND):
            return Annotation(kind, colour=Colour(found.red, found.green, found.blue))
        return Annotation(kind)

    # ---- text, blocks and lines

    def add_inline_text(self, text: str) -> None:
        """Adds text. The mode that was pushed last says how white space is treated.

        The end of a text doesn't end a word: two texts without white space between them make one. `NotUtf8Error` if it
        has a surrogate.
        """
        self._owned.with_text("add_text_n", text)

    def start_block(self) -> None:
        """Begins a block: ends the open line, and adds an empty one if any line has content."""
        self._owned.call("start_block")

    def end_block(self) -> None:
        """Ends a block: the next text begins a new one. In `NORMAL` white space before that text is ignored.

        This call is allowed at any time.
        """
        self._owned.call("end_block")

    def start_table(self) -> None:
        """Begins a table, as `start_block` begins a block."""
        self._owned.call("start_table")

    def new_line(self) -> None:
        """Ends the open line, if there is one."""
        self._owned.call("new_line")

    def new_line_hard(self) -> None:
        """Ends the open line. If none is open, or it has no columns, an empty one is added."""
        self._owned.call("new_line_hard")

    def add_empty_line(self) -> None:
        """Ends the open line, and adds an empty one."""
        self._owned.call("add_empty_line")

    def add_horizontal_border(self) -> None:
        """Ends the open line, and adds a border of the level's width."""
        self._owned.call("add_border")

    def add_horizontal_border_width(self, columns: int) -> None:
        """Ends the open line, and adds a border of this many columns: 0, or more than the level has, are allowed."""
        self._owned.call("add_border_width", size(columns, "columns"))

    def push_ws(self, mode: WhiteSpace) -> None:
        """Begins a mode of white space. Before any has begun, the mode is `NORMAL`."""
        self._owned.call("push_white_space", member(mode, "mode", WhiteSpace))

    def pop_ws(self) -> None:
        """Ends the mode that was pushed last. `NothingToEndError` if none was."""
        self._owned.call("pop_white_space")

    def record_frag_start(self, name: str) -> None:
        """Adds a marker to the text, as an anchor for links. `NotUtf8Error` if it has a surrogate."""
        self._owned.with_texts("add_marker_n", name=name)

    # ---- decorated text: an end asks only that its own beginning came more often, and else raises `NothingToEndError`

    def start_link(self, target: str) -> None:
        """Begins a link to a target, which may be empty. `NotUtf8Error` if it has a surrogate."""
        self._owned.with_texts("start_link_n", target=target)

    def end_link(self) -> None:
        """Ends the link that was begun last, and with footnotes shows its number."""
        self._owned.call("end_link")

    def start_emphasis(self) -> None:
        """Begins emphasised text."""
        self._owned.call("start_emphasis")

    def end_emphasis(self) -> None:
        """Ends emphasised text."""
        self._owned.call("end_emphasis")

    def start_strong(self) -> None:
        """Begins strong text."""
        self._owned.call("start_strong")

    def end_strong(self) -> None:
        """Ends strong text."""
        self._owned.call("end_strong")

    def start_strikeout(self) -> None:
        """Begins struck out text. If strokes are on, each character of it that takes columns gets one."""
        self._owned.call("start_strikeout")

    def end_strikeout(self) -> None:
        """Ends struck out text."""
        self._owned.call("end_strikeout")

    def start_code(self) -> None:
        """Begins code."""
        self._owned.call("start_code")

    def end_code(self) -> None:
        """Ends code."""
        self._owned.call("end_code")

    def start_superscript(self) -> None:
        """Begins a superscript."""
        self._owned.call("start_superscript")

    def end_superscript(self) -> None:
        """Ends a superscript."""
        self._owned.call("end_superscript")

    def push_preformat(self) -> None:
        """Begins a preformatted stretch. It is only an annotation: push `WhiteSpace.PRE` to keep white space."""
        self._owned.call("start_preformatted")

    def pop_preformat(self) -> None:
        """Ends a preformatted stretch."""
        self._owned.call("end_preformatted")

    def push_colour(self, colour: Colour) -> None:
        """Begins text in a colour. `ValueError` if a part of it isn't between 0 and 255."""
        self._owned.call("start_colour", *parts(colour))

    def pop_colour(self) -> None:
        """Ends the colour that was pushed last."""
        self._owned.call("end_colour")

    def push_bgcolour(self, colour: Colour) -> None:
        """Begins text on a background in a colour. `ValueError` if a part of it isn't between 0 and 255."""
        self._owned.call("start_background", *parts(colour))

    def pop_bgcolour(self) -> None:
        """Ends the background that was pushed last."""
        self._owned.call("end_background")

    def add_image(self, source: str, title: str) -> None:
        """Adds an image, shown by its title. `img_mode` says what one without a title shows."""
        self._owned.with_texts("add_image_n", source=source, title=title)

    # ---- quotes, items of lists and headers: an end takes the innermost level, whichever call began it, and raises
    # `NothingToEndError` where that is none or a cell, and `StillOpenError` where cells wait in it

    def start_quote(self) -> None:
        """Begins a quoted block, each line of which comes after the decorator's prefix.

        `TooNarrowError`, which isn't kept, if the prefix leaves no column and no overflow is allowed.
        `OutOfMemoryError` isn't kept if the prefix takes memory: `failure` tells.
        """
        self._owned.call("start_quote")

    def end_quote(self) -> None:
        """Ends a quoted block."""
        self._owned.call("end_quote")

    def start_item(self) -> None:
        """Begins an item of a list. It refuses as `start_quote` does.

        Its first line comes after the decorator's prefix, and the others after as many spaces.
        """
        self._owned.call("start_item")

    def end_item(self) -> None:
        """Ends an item of a list."""
        self._owned.call("end_item")

    def start_ordered_item(self, number: int) -> None:
        """Begins the item of a list that has this number. `ValueError` past 64 bits.

        It refuses as `start_quote` does.
        """
        self._owned.call("start_ordered_item", _number(number))

    def end_ordered_item(self, number: int) -> None:
        """Ends the item that was begun with this number."""
        self._owned.call("end_ordered_item", _number(number))

    def start_header(self, level: int) -> None:
        """Begins a header of a level, of which 1 is the highest. Each line of this block comes after a prefix.

        It refuses as `start_quote` does. `BadArgumentError` above 255, if the decorator has a prefix for headers.
        """
        self._owned.call("start_header", size(level, "level"))

    def end_header(self, level: int) -> None:
        """Ends the header that was begun with this level."""
        self._owned.call("end_header", size(level, "level"))

    # ---- quotes, items, headers and stretches of text that `with` fills

    def quote(self) -> AbstractContextManager[None]:
        """Fills a quoted block, with empty lines around it, as `start_quote` and `end_quote` say.

        >>> with Renderer(20) as mail:
        ...     with mail.quote():
        ...         mail.add_inline_text("See you at nine, at the gate.")
        ...     print(mail.into_string(), end="")
        > See you at nine,
        > at the gate.
        """
        return nested(self.depth, self.start_quote, self.end_quote)

    def item(self) -> AbstractContextManager[None]:
        """Fills an item of a list, as `start_item` and `end_item` say.

        >>> with Renderer(20) as mail:
        ...     with mail.item():
        ...         mail.add_inline_text("Bring bread and some cake.")
        ...     print(mail.into_string(), end="")
        * Bring bread and
          some cake.
        """
        return nested(self.depth, self.start_item, self.end_item)

    def ordered_item(self, number: int) -> AbstractContextManager[None]:
        """Fills the item of a list that has this number, as `start_ordered_item` and `end_ordered_item` say.

        >>> with Renderer(12) as page:
        ...     for number, text in (9, "bread"), (10, "milk and cake"):
        ...         with page.ordered_item(number):
        ...             page.add_inline_text(text)
        ...     print(page.into_string(), end="")
        9. bread
        10. milk and
            cake
        """
        return nested(self.depth, partial(self.start_ordered_item, number), partial(self.end_ordered_item, number))

    def prefixed(self, first: str, others: str) -> AbstractContextManager[None]:
        """Fills a block whose first line comes after `first`, and each other after `others`, in the columns that the
        wider of the two leaves, also in a table. It refuses as `start_quote` does.

        >>> with Renderer(20) as page:
        ...     with page.prefixed("• ", "  "):
        ...         page.add_inline_text("Bring bread and some cake.")
        ...     print(page.into_string(), end="")
        • Bring bread and
          some cake.
        """
        utf8(first, "first")
        utf8(others, "others")
        prefix = max(text_width(first), text_width(others))
        return nested(self.depth, partial(self.start_prefixed, prefix), partial(self.append_subrender, first, others))

    def header(self, level: int) -> AbstractContextManager[None]:
        """Fills a header of a level, with empty lines around it, as `start_header` and `end_header` say.

        >>> with Renderer(20) as page:
        ...     with page.header(1):
        ...         page.add_inline_text("Prices")
        ...     page.add_inline_text("Bread: 3.20")
        ...     print(page.into_string().splitlines())
        ['# Prices', '', 'Bread: 3.20']
        """
        return nested(self.depth, partial(self.start_header, level), partial(self.end_header, level))

    def link(self, target: str) -> AbstractContextManager[None]:
        """Fills a link to a target, which may be empty. `NotUtf8Error` if it has a surrogate.

        >>> with Renderer(24, include_link_footnotes=True) as page:
        ...     with page.link("https://example.org"):
        ...         page.add_inline_text("the rules")
        ...     print(page.into_string().splitlines())
        ['[the rules][1]', '', '[1]: https://example.org']
        """
        return nested(self.depth, partial(self.start_link, target), self.end_link)

    def emphasis(self) -> AbstractContextManager[None]:
        """Fills emphasised text.

        >>> with Renderer(24, Decorator.RICH) as page:
        ...     with page.emphasis(), page.strong(), page.code():
        ...         page.add_inline_text("now")
        ...     piece = next(next(page.into_lines()).tagged_strings())
        >>> [annotation.kind.name for annotation in piece.annotations]
        ['EMPHASIS', 'STRONG', 'CODE']
        """
        return nested(self.depth, self.start_emphasis, self.end_emphasis)

    def strong(self) -> AbstractContextManager[None]:
        """Fills strong text."""
        return nested(self.depth, self.start_strong, self.end_strong)

    def strikeout(self) -> AbstractContextManager[None]:
        """Fills struck out text. If strokes are on, each character of it that takes columns gets one.

        >>> with Renderer(24) as page:
        ...     with page.strikeout():
        ...         page.add_inline_text("rat")
        ...     print(ascii(page.into_string()))
        'r\\u0336a\\u0336t\\u0336\\n'
        """
        return nested(self.depth, self.start_strikeout, self.end_strikeout)

    def code(self) -> AbstractContextManager[None]:
        """Fills code."""
        return nested(self.depth, self.start_code, self.end_code)

    def superscript(self) -> AbstractContextManager[None]:
        """Fills a superscript.

        >>> with Renderer(24) as page:
        ...     page.add_inline_text("x")
        ...     with page.superscript():
        ...         page.add_inline_text("2")
        ...     print(page.into_string(), end="")
        x^{2}
        """
        return nested(self.depth, self.start_superscript, self.end_superscript)

    @contextmanager
    def preformatted(self) -> Iterator[None]:
        """Fills preformatted text, whose white space is kept: a newline ends a line, and a full line is cut.

        It is `push_ws` with `WhiteSpace.PRE` and `push_preformat`, and the ends of both.

        >>> with Renderer(20) as page:
        ...     with page.preformatted():
        ...         page.add_inline_text("foo\\n  bar   wib\\n")
        ...     page.add_inline_text("and   as usual")
        ...     print(page.into_string(), end="")
        foo
          bar   wib
        and as usual
        """
        with self.white_space(WhiteSpace.PRE), nested(self.depth, self.push_preformat, self.pop_preformat):
            yield

    def colour(self, colour: Colour) -> AbstractContextManager[None]:
        """Fills text in a colour. `ValueError` if a part of it isn't between 0 and 255.

        >>> with Renderer(24, Decorator.RICH) as page:
        ...     with page.background(Colour(0, 0, 0)), page.colour(Colour(255, 128, 0)):
        ...         page.add_inline_text("now")
        ...     piece = next(next(page.into_lines()).tagged_strings())
        >>> [(annotation.kind.name, annotation.colour) for annotation in piece.annotations]
        [('BACKGROUND', Colour(r=0, g=0, b=0)), ('COLOUR', Colour(r=255, g=128, b=0))]
        """
        return nested(self.depth, partial(self.push_colour, colour), self.pop_colour)

    def background(self, colour: Colour) -> AbstractContextManager[None]:
        """Fills text on a background in a colour. `ValueError` if a part of it isn't between 0 and 255."""
        return nested(self.depth, partial(self.push_bgcolour, colour), self.pop_bgcolour)

    def white_space(self, mode: WhiteSpace) -> AbstractContextManager[None]:
        """Fills text in a mode of white space.

        >>> with Renderer(5) as page:
        ...     with page.white_space(WhiteSpace.PRE_WRAP):
        ...         page.add_inline_text("ab  cd")
        ...     print(page.into_string(), end="")
        ab
        cd
        """
        return nested(self.depth, partial(self.push_ws, mode), self.pop_ws)

    # ---- tables that find their widths

    @contextmanager
    def table(self) -> Iterator[Table]:
        """Fills a table whose columns are as wide as browsers make them, from the longest word and the widest line of
        each cell. If the longest words don't fit side by side, the cells come one below another.

        It is drawn where the outermost table ends. Until then some calls raise `InTableError`: questions, but for
        `depth`, `failure` and prefixes, and cells of given widths.

        >>> with Renderer(24) as page:
        ...     with page.table() as table:
        ...         for item, price in ("Bread and butter", "3.20"), ("Tea", "12.00"):
        ...             with table.row():
        ...                 with table.cell():
        ...                     page.add_inline_text(item)
        ...                 with table.cell(align=CellAlign.RIGHT):
        ...                     page.add_inline_text(price)
        ...     print(page.into_string(), end="")
        ────────────────┬─────
        Bread and butter│ 3.20
        ────────────────┼─────
        Tea             │12.00
        ────────────────┴─────
        """
        with nested(self.depth, self.start_auto_table, self.end_auto_table):
            yield Table(self._owned)

    def start_auto_table(self) -> None:
        """Begins a table. What is called until its end is recorded, and drawn there.

        `StillOpenError` if cells of given widths wait for their row, `RowDoesNotFitError` if such cells overhang.
        """
        self._owned.call("start_auto_table")

    def start_auto_cell(self, columns: int = 1, rows: int = 1, align: CellAlign = CellAlign.LEFT) -> None:
        """Opens a cell of the table that is open. `NoTableError` if none is, or a cell of it is."""
        alignment = member(align, "align", CellAlign)
        self._owned.call("start_auto_cell", size(columns, "columns"), size(rows, "rows"), alignment)

    def end_auto_cell(self) -> None:
        """Closes the cell. `NothingToEndError` if it isn't innermost."""
        self._owned.call("end_auto_cell")

    def end_auto_row(self) -> None:
        """Ends the row of the cells that came. `NothingToEndError` if the table isn't innermost."""
        self._owned.call("end_auto_row")

    def end_auto_table(self) -> None:
        """Ends the table, and draws the outermost. `NothingToEndError` if it isn't innermost, `StillOpenError` if cells
        came after the last row.
        """
        self._owned.call("end_auto_table")

    # ---- levels, and rows of cells

    @contextmanager
    def subrender(self, width: int, first: str, others: str) -> Iterator[None]:
        """Fills a level of this many columns, and adds its lines: the first after `first`, each other after `others`.

        Leave room for the prefixes, as by `width_minus`. If an exception leaves the block, the level stays open.
        """
        utf8(first, "first")  # a prefix is refused here, and not where the block ends
        utf8(others, "others")
        self.start_subrender(width)
        yield
        self.append_subrender(first, others)

    def start_subrender(self, width: int) -> None:
        """Opens a level of this many columns, whose lines `append_subrender` takes. `BadWidthError` at 0."""
        self._owned.call("start_sub", size(width, "width"))

    def start_prefixed(self, prefix: int) -> None:
        """Opens a level of the columns that a prefix of so many leaves, also in a table.

        `append_subrender` takes its lines, with prefixes that are no wider. It refuses as `start_quote` does.
        """
        self._owned.call("start_prefixed", size(prefix, "prefix"))

    def append_subrender(self, first: str, others: str) -> None:
        """Closes the level that one of these opened, and adds its lines, after these prefixes, to the one outside.

        `NothingToEndError` if the innermost level isn't such a level, `StillOpenError` if cells wait in it.
        """
        self._owned.with_texts("append_sub_n", first=first, others=others)

    @contextmanager
    def cell(self, width: int, span: int = 1, align: CellAlign = CellAlign.LEFT) -> Iterator[None]:
        """Fills a cell of this many columns that spans this many rows, and then waits for a row.

        If an exception leaves the block, the cell stays open.
        """
        self.start_cell(width, span, align)
        yield
        self.end_cell()

    def start_cell(self, width: int, span: int = 1, align: CellAlign = CellAlign.LEFT) -> None:
        """Opens a cell. `BadWidthError` at 0 columns, `BadArgumentError` at 0 rows."""
        alignment = member(align, "align", CellAlign)
        self._owned.call("start_cell", size(width, "width"), size(span, "span"), alignment)

    def end_cell(self) -> None:
        """Closes the cell that is open, which then waits for a row.

        `NothingToEndError` if the innermost level isn't a cell, `StillOpenError` if cells wait in it.
        """
        self._owned.call("end_cell")

    def append_columns_with_borders(self, collapse: bool = False) -> None:
        """Adds the waiting cells as a row, side by side, joined to a border that is the last line, with a border below.

        What is left of a cell that spans several rows overhangs into the next row. With `collapse`, borders at the tops
        and bottoms of cells are merged with those of the row. `RowDoesNotFitError` if cells are in the way of what
        overhangs; the cells still wait then.
        """
        self._owned.call("add_row", collapse)

    def append_vert_row(self) -> None:
        """Adds the waiting cells one below another, however many rows they span."""
        self._owned.call("add_vertical_row")

    # ---- questions, of the innermost level that is open, which change nothing

    def failure(self) -> RendererError | None:
        """The refusal that is kept, if there is one."""
        return refusal(self._owned.refusal())

    def empty(self) -> bool:
        """Whether it has no line, and no text on an open one."""
        return self._owned.flag("is_empty")

    def has_overhang(self) -> bool:
        """Whether cells overhang, since they span more rows than were added. Lines that they still have at the end are
        lost."""
        return self._owned.flag("has_overhang")

    def width(self) -> int:
        """Its columns."""
        return self._owned.number("width")

    def width_minus(self, prefix_len: int, min_width: int) -> int:
        """The columns that it has left after a prefix, but at least `min_width`.

        `TooNarrowError`, which isn't kept, if fewer are left and no overflow is allowed.
        """
        return self._owned.number("width_minus", size(prefix_len, "prefix_len"), size(min_width, "min_width"))

    def depth(self) -> int:
        """How many levels are open inside the renderer."""
        return self._owned.number("open_levels")

    def open_links(self) -> int:
        """How many links are open."""
        return self._owned.number("open_links")

    def waiting_cells(self) -> int:
        """How many cells wait for a row."""
        return self._owned.number("waiting_cells")

    # ---- the prefixes of the decorator, for `append_subrender`

    def header_prefix(self, level: int) -> str:
        """What comes before each line of a header of the given level, as `## `."""
        return self._owned.text(_PREFIX_ROOM, "header_prefix", size(level, "level"))

    def quote_prefix(self) -> str:
        """What comes before each line of a quoted block, as `> `."""
        return self._owned.text(_PREFIX_ROOM, "quote_prefix")

    def unordered_item_prefix(self) -> str:
        """What comes before the first line of an item of a list, as `* `. As many spaces come before the other
        lines."""
        return self._owned.text(_PREFIX_ROOM, "item_prefix")

    def ordered_item_prefix(self, number: int) -> str:
        """What comes before the first line of an item with this number, as `3. `. `ValueError` past 64 bits."""
        return self._owned.text(_PREFIX_ROOM, "ordered_item_prefix", _number(number))


def _number(number: int) -> int:
    """The number of an item, as the library takes it."""
    return integer(number, "number", -(2**63), 2**63 - 1)
