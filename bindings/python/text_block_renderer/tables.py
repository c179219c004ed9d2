"""Tables that find their widths."""

from contextlib import AbstractContextManager
from functools import partial

from . import _library as library
from ._arguments import member, size
from ._handle import OwnedRenderer
from ._nested import nested
from .options import CellAlign
from .widths import Extent, extent_of


class Table:
    """A table that finds its widths, as `Renderer.table` gives it. Rows are filled by `with`, and so are cells in them."""

    def __init__(self, owned: OwnedRenderer) -> None:
        self._owned = owned

    def row(self) -> AbstractContextManager[None]:
        """Fills a row of cells."""
        return nested(self._depth, _nothing, partial(self._owned.call, "end_auto_row"))

    def cell(self, columns: int = 1, rows: int = 1, align: CellAlign = CellAlign.LEFT) -> AbstractContextManager[None]:
        """Fills a cell that spans so many columns and rows, by the renderer's calls.

        0 counts as 1, and more than 1,000 columns as 1,000. `NoTableError` if a cell of the table is open.
        """
        start = partial(
            self._owned.call,
            "start_auto_cell",
            size(columns, "columns"),
            size(rows, "rows"),
            member(align, "align", CellAlign),
        )
        return nested(self._depth, start, partial(self._owned.call, "end_auto_cell"))

    def measure(self) -> Extent:
        """How much room can be used by what came so far in the innermost cell, or block in it.

        `InTableError` if no cell is open.
        """
        return extent_of(self._owned.fill(library.Extent(), "measure_open"))

    def _depth(self) -> int:
        return self._owned.number("open_levels")


def _nothing() -> None:
    """What begins a row: its first cell."""
