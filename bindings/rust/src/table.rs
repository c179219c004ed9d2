//! Tables that find their widths.

use crate::{CellAlign, Error, Renderer};

/// A table that a closure fills, row by row.
pub struct Table<'a> {
    renderer: &'a mut Renderer,
}

/// A row of a table that a closure fills, cell by cell.
pub struct Row<'a> {
    renderer: &'a mut Renderer,
}

/// A cell of a table: the columns and rows that it spans, and where its lines are in its columns.
///
/// An alignment by itself is a cell of one column and one row, and so is `()`, with its lines at the left.
#[derive(Clone, Copy, Debug, PartialEq, Eq)]
pub struct TableCell {
    pub(crate) columns: usize,
    pub(crate) rows: usize,
    pub(crate) align: CellAlign,
}

impl TableCell {
    /// A cell that spans this many columns: 0 counts as 1, and more than 1,000 as 1,000.
    pub fn columns(self, columns: usize) -> TableCell {
        TableCell { columns, ..self }
    }

    /// A cell that spans this many rows, if as many come: 0 counts as 1.
    pub fn rows(self, rows: usize) -> TableCell {
        TableCell { rows, ..self }
    }

    /// A cell whose lines are here in its columns.
    pub fn align(self, align: CellAlign) -> TableCell {
        TableCell { align, ..self }
    }
}

impl Default for TableCell {
    fn default() -> TableCell {
        TableCell { columns: 1, rows: 1, align: CellAlign::Left }
    }
}

impl From<()> for TableCell {
    fn from((): ()) -> TableCell {
        TableCell::default()
    }
}

impl From<CellAlign> for TableCell {
    fn from(align: CellAlign) -> TableCell {
        TableCell::default().align(align)
    }
}

impl Table<'_> {
    /// Fills a row, which ends where the closure returns, even if that refuses.
    pub fn row(&mut self, fill: impl FnOnce(&mut Row<'_>) -> Result<(), Error>) -> Result<(), Error> {
        self.renderer.nest(|it| fill(&mut Row { renderer: it }), Renderer::end_auto_row)
    }
}

impl Row<'_> {
    /// Fills a cell, by the same calls as a page. It ends where the closure returns, even if that refuses.
    pub fn cell(
        &mut self,
        cell: impl Into<TableCell>,
        fill: impl FnOnce(&mut Renderer) -> Result<(), Error>,
    ) -> Result<(), Error> {
        self.renderer.start_auto_cell(cell)?;
        self.renderer.nest(fill, Renderer::end_auto_cell)
    }

    /// Adds a cell of one column and one row with a text, at the left or elsewhere.
    pub fn text(&mut self, cell: impl Into<TableCell>, text: &str) -> Result<(), Error> {
        self.cell(cell, |it| it.add_inline_text(text))
    }
}

impl Renderer {
    /// Fills a table whose columns are as wide as browsers make them, from the longest word and the widest line of each
    /// cell. If the longest words don't fit side by side, the cells come one below another.
    ///
    /// It is drawn where the outermost table ends. Until then some calls answer `InTable`: questions, but for
    /// [`depth`](Renderer::depth), [`failure`](Renderer::failure) and prefixes, and cells of given widths.
    ///
    /// It doesn't begin where such cells wait for their row, which is `StillOpen`, or overhang, which is
    /// `RowDoesNotFit`.
    ///
    /// ```
    /// use text_block_renderer::{CellAlign, Options, Renderer, TableCell};
    ///
    /// let mut page = Renderer::new(&Options::plain(24))?;
    /// page.table(|table| {
    ///     for (item, price) in [("Bread and butter", "3.20"), ("Tea", "12.00")] {
    ///         table.row(|row| {
    ///             row.text((), item)?;
    ///             row.text(CellAlign::Right, price)
    ///         })?;
    ///     }
    ///     table.row(|row| row.text(TableCell::default().columns(2), "Paid in cash"))
    /// })?;
    /// assert_eq!(
    ///     page.into_string()?,
    ///     "────────────────┬─────\n\
    ///      Bread and butter│ 3.20\n\
    ///      ────────────────┼─────\n\
    ///      Tea             │12.00\n\
    ///      ────────────────┴─────\n\
    ///      Paid in cash          \n\
    ///      ──────────────────────\n"
    /// );
    /// # Ok::<(), text_block_renderer::Error>(())
    /// ```
    pub fn table(&mut self, fill: impl FnOnce(&mut Table<'_>) -> Result<(), Error>) -> Result<(), Error> {
        self.start_auto_table()?;
        self.nest(|it| fill(&mut Table { renderer: it }), Renderer::end_auto_table)
    }
}
