"""Which tables hold data, and which are only for the layout.

A table has data where the sender says so: by `border`, `rules`, `summary`, a caption, a head, or header cells beside
others. It also has data if two rows have numbers in the same column, if cells side by side have borders by their
styles, or if nothing says how it looks. All others are for the layout, and so are tables of the role `presentation`.
"""

from __future__ import annotations

import re
from collections.abc import Iterator
from itertools import zip_longest
from typing import TYPE_CHECKING

from .elements import Element, Text
from .styles import is_zero, properties

if TYPE_CHECKING:
    from .tables import Cell, Table

# What tables and cells without any layout have.
BARE_TABLE = frozenset("id title lang dir rules summary role".split())
BARE_CELL = frozenset("id title lang dir colspan rowspan headers scope abbr align nowrap".split())
LONGEST_NUMBER = 24
MOST_SPACES = 200
# A table of more rows times columns isn't laid out.
MOST_PLACES = 1_000_000
NUMBER = r"(?:[A-Z]{3}|[^\w\s])?\s?[-+−]?\s?\d[\d.,:/'’\s-]*(?:[^\w\s]|[A-Za-z]{1,3})?"


def is_layout(table: Table) -> bool:
    """Whether a table is only for the layout, so that a browser draws no lines in it."""
    if table.attributes.get("role") in ("presentation", "none"):
        return True
    rows = table.cells()
    if len(rows) * max(map(columns, rows), default=0) > MOST_PLACES:
        return True
    return not (is_said(table, rows) or has_borders(rows) or is_bare(table, rows) or has_numbers(rows))


def columns(row: list[Cell]) -> int:
    """How many columns the cells of a row span."""
    return sum(cell.number("colspan", 1, 1, MOST_PLACES) for cell in row)


def is_said(table: Table, rows: list[list[Cell]]) -> bool:
    """Whether the sender says that a table has data."""
    told = table.attributes
    if told.get("border", "0").strip() != "0" or told.get("rules", "none") != "none" or told.get("summary", "").strip():
        return True
    tags = {cell.tag for row in rows for cell in row if not cell.is_blank()}
    return table.has_head or tags == {"td", "th"}


def has_borders(rows: list[list[Cell]]) -> bool:
    """Whether cells side by side have borders by their styles."""
    return any(sum(map(has_border, row)) > 1 for row in rows)


def has_border(cell: Cell) -> bool:
    """Whether a cell has a border on all sides by its style."""
    width = properties(cell.attributes.get("style", "")).get("border", "none").split()
    return bool(width) and width[0] not in ("none", "hidden") and not is_zero(width[0])


def is_bare(table: Table, rows: list[list[Cell]]) -> bool:
    """Whether nothing says how a table looks."""
    cells = (cell.attributes.keys() for row in rows for cell in row)
    return table.attributes.keys() <= BARE_TABLE and all(names <= BARE_CELL for names in cells)


def has_numbers(rows: list[list[Cell]]) -> bool:
    """Whether two rows have numbers in the same column beside another one, which has nothing else below its head."""
    beside = ([is_number(cell) for cell in row] for row in rows if len(row) > 1)
    return any(len(told) > 1 and all(told[-2:]) and all(told[1:]) for told in map(known, zip_longest(*beside)))


def known(told: tuple[bool | None, ...]) -> list[bool]:
    """What is known of the cells of a column that have content."""
    return [it for it in told if it is not None]


def is_number(cell: Cell) -> bool | None:
    """Whether the text of a cell is a number, or None if it has no text."""
    if cell.is_blank():
        return None
    text = ""
    for part in texts(cell):
        text = (text + part[:MOST_SPACES]).lstrip()
        if len(text) > MOST_SPACES:
            return False
    return len(text.rstrip()) <= LONGEST_NUMBER and re.fullmatch(NUMBER, text.rstrip()) is not None


def texts(element: Element) -> Iterator[str]:
    """The texts in an element."""
    for child in element.children:
        if isinstance(child, Text):
            yield child.text
        else:
            yield from texts(child)
