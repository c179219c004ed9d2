"""Tables: where their cells are, and which of them have content."""

from bisect import bisect_left
from collections.abc import Iterable, Iterator
from typing import NamedTuple, TypeVar

from text_block_renderer import CellAlign

from .elements import Block, Division, Element, Unseen
from .layouts import is_layout
from .page import Page

# As many columns and rows as browsers let a cell span.
MOST_COLUMNS = 1000
MOST_ROWS = 65534
ALIGNMENTS = {"right": CellAlign.RIGHT, "center": CellAlign.CENTRE}


class Cell(Division):
    """A cell of a table."""

    @property
    def align(self) -> CellAlign:
        style = self.attributes.get("style", "").replace(" ", "").lower()
        by_style = next((name for name in ALIGNMENTS if f"text-align:{name}" in style), "")
        return ALIGNMENTS.get(self.attributes.get("align", "").lower() or by_style, CellAlign.LEFT)


class Row(Block):
    """A row of a table."""

    def cells(self) -> list[Cell]:
        return [child for child in self.children if isinstance(child, Cell)]


class Caption(Block):
    """What is above a table."""


Part = TypeVar("Part", Row, Caption)


class Place(NamedTuple):
    """Where a cell is, by its first row and column, and how many of them it spans."""

    cell: Cell
    row: int
    column: int
    rows: int
    columns: int


def placed(rows: Iterable[Row], count: int) -> Iterator[Place]:
    """Each cell where a browser has it: in the first columns of its row that no cell from above takes."""
    free_from: list[int] = []

    def is_free(column: int, row: int) -> bool:
        return column >= len(free_from) or free_from[column] <= row

    for row, element in enumerate(rows):
        column = 0
        for cell in element.cells():
            while not is_free(column, row):
                column += 1
            wanted = range(column, column + cell.number("colspan", 1, 1, MOST_COLUMNS))
            columns = next((taken for taken in wanted if not is_free(taken, row)), wanted.stop) - column
            spanned = min(cell.number("rowspan", 1, 0, MOST_ROWS) or MOST_ROWS, count - row)
            yield Place(cell, row, column, spanned, columns)
            free_from += [0] * (column + columns - len(free_from))
            free_from[column : column + columns] = [row + spanned] * columns
            column += columns


def seen(rows: list[Row]) -> list[list[Place]]:
    """The cells of each row, without the rows and columns in which no cell with content begins."""
    places = list(placed(rows, len(rows)))
    begun = [place for place in places if not place.cell.is_blank()]
    kept_rows = sorted({place.row for place in begun})
    kept_columns = sorted({place.column for place in begun})
    left = (moved(place, kept_rows, kept_columns) for place in places)
    shown: list[list[Place]] = [[] for _ in kept_rows]
    for place in sorted((it for it in left if it.rows and it.columns), key=lambda it: it.column):
        shown[place.row].append(place)
    for row in shown:
        while row and is_filled(row[-1]):
            row.pop()
    return shown


def is_filled(place: Place) -> bool:
    """Whether the library puts an empty cell there if none is given, at the end of a row."""
    return place.rows == place.columns == 1 and place.cell.is_blank()


def moved(place: Place, rows: list[int], columns: list[int]) -> Place:
    """The place if only these rows and columns are left."""
    row, column = bisect_left(rows, place.row), bisect_left(columns, place.column)
    return place._replace(
        row=row,
        column=column,
        rows=bisect_left(rows, place.row + place.rows) - row,
        columns=bisect_left(columns, place.column + place.columns) - column,
    )


class Table(Element):
    """A table. If its columns don't fit beside one another, the cells of each row come one below another.

    A table that is only for the layout has no lines, and each cell is on lines of its own.
    """

    has_head = False

    def parts(self, kind: type[Part]) -> list[Part]:
        """Its rows or captions, in order."""
        return [element for element in within(self) if isinstance(element, kind)]

    def cells(self) -> list[list[Cell]]:
        """The cells of its rows."""
        return [row.cells() for row in self.parts(Row)]

    def draw(self, page: Page) -> None:
        captions = self.parts(Caption)
        for caption in captions:
            caption.draw(page)
        if not captions and is_layout(self):
            for row in self.parts(Row):
                row.draw(page)
        elif rows := seen(self.parts(Row)):
            draw_rows(page, rows)


def draw_rows(page: Page, rows: list[list[Place]]) -> None:
    """Draws rows of cells as a table."""
    page.start_table()
    for row in rows:
        for place in row:
            page.renderer.start_auto_cell(place.columns, place.rows, place.cell.align)
            place.cell.draw(page)
            page.renderer.end_auto_cell()
        page.renderer.end_auto_row()
    page.end_table()


def within(table: Element) -> Iterator[Element]:
    """The elements of a table that aren't inside a cell of it, or inside another table."""
    for child in table.children:
        if isinstance(child, Element):
            yield child
            if not isinstance(child, (Row, Cell, Table, Unseen)):
                yield from within(child)
