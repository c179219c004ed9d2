use crate::handle::Handle;
use crate::sys;
use crate::{Cell, Colour, Error, Extent, Format, Lines, Options, TableCell, WhiteSpace};
use std::fmt;

/// Writes blocks of text, one below another, into lines of a width in columns.
///
/// Its calls have the names of html2text's renderer, where that has such a call. They fill the innermost level that is
/// open. A level is a renderer inside another one, to which its lines are added after prefixes or as a cell of a table.
/// What begins in a level ends there.
///
/// After a call has answered `OutOfMemory` or `TooNarrow`, the renderer answers that to each later call. All other
/// refusals leave it as it was. [`TooNarrow`](Error::TooNarrow) is answered only if a line has one column. Besides what
/// is said at each call, any that takes memory can answer `OutOfMemory`, and any that places a word `TooNarrow`.
///
/// It is `Send`: it may move from one thread to another. It isn't `Sync`, since the library takes one call at a time,
/// and even a question may change what the renderer keeps:
///
/// ```compile_fail,E0277
/// fn is_shared<T: Sync>() {}
/// is_shared::<text_block_renderer::Renderer>();
/// ```
pub struct Renderer {
    handle: Handle,
}

/// Making a renderer, and taking its lines.
impl Renderer {
    /// A renderer. `BadWidth` if its width is 0.
    pub fn new(options: &Options) -> Result<Renderer, Error> {
        Ok(Renderer { handle: Handle::new(options)? })
    }

    /// Its lines, with the footnotes of its links after them. `StillOpen` if a level is open or cells wait.
    pub fn into_lines(self) -> Result<Lines, Error> {
        self.handle.plain(sys::tbr_finish)?;
        Ok(Lines::new(self.handle))
    }

    /// The text of its lines, each with a newline. It refuses as [`into_lines`](Renderer::into_lines) does.
    pub fn into_string(self) -> Result<String, Error> {
        // SAFETY: the renderer is live, and so is the answer.
        let bytes = self.handle.ask(|it, bytes| unsafe { sys::tbr_finish_text(it, bytes) })?;
        Lines::new(self.handle).text_of(bytes)
    }

    /// Its lines in a format, each with a newline. It refuses as [`into_lines`](Renderer::into_lines) does.
    pub fn into_string_as(self, format: Format) -> Result<String, Error> {
        match format {
            Format::Text => self.into_string(),
            _ => self.into_lines()?.text_as(format),
        }
    }
}

/// Text, blocks and lines.
impl Renderer {
    /// Adds text. The mode that was pushed last says how white space is treated. The end of a text doesn't end a word:
    /// two texts without white space between them make one.
    pub fn add_inline_text(&mut self, text: &str) -> Result<(), Error> {
        self.handle.with_text(sys::tbr_add_text_n, text)
    }

    /// Begins a block: ends the open line, and adds an empty one if any line has content.
    pub fn start_block(&mut self) -> Result<(), Error> {
        self.handle.plain(sys::tbr_start_block)
    }

    /// Ends a block: the next text begins a new one. In `Normal` white space before that text is ignored. This call
    /// is allowed at any time.
    pub fn end_block(&mut self) -> Result<(), Error> {
        self.handle.plain(sys::tbr_end_block)
    }

    /// Begins a table, as `start_block` begins a block.
    pub fn start_table(&mut self) -> Result<(), Error> {
        self.handle.plain(sys::tbr_start_table)
    }

    /// Ends the open line, if there is one.
    pub fn new_line(&mut self) -> Result<(), Error> {
        self.handle.plain(sys::tbr_new_line)
    }

    /// Ends the open line. If none is open, or it has no columns, an empty one is added.
    pub fn new_line_hard(&mut self) -> Result<(), Error> {
        self.handle.plain(sys::tbr_new_line_hard)
    }

    /// Ends the open line, and adds an empty one.
    pub fn add_empty_line(&mut self) -> Result<(), Error> {
        self.handle.plain(sys::tbr_add_empty_line)
    }

    /// Ends the open line, and adds a border of the level's width.
    pub fn add_horizontal_border(&mut self) -> Result<(), Error> {
        self.handle.plain(sys::tbr_add_border)
    }

    /// Ends the open line, and adds a border of this many columns: 0, or more than the level has, are allowed.
    pub fn add_horizontal_border_width(&mut self, columns: usize) -> Result<(), Error> {
        // SAFETY: the renderer is live.
        self.handle.call(|it| unsafe { sys::tbr_add_border_width(it, columns) })
    }

    /// Begins a mode of white space. Before any has begun, the mode is `Normal`.
    pub fn push_ws(&mut self, mode: WhiteSpace) -> Result<(), Error> {
        // SAFETY: the renderer is live.
        self.handle.call(|it| unsafe { sys::tbr_push_white_space(it, mode as u32) })
    }

    /// Ends the mode that was pushed last. `NothingToEnd` if none was.
    pub fn pop_ws(&mut self) -> Result<(), Error> {
        self.handle.plain(sys::tbr_pop_white_space)
    }

    /// Adds a marker to the text, as an anchor for links.
    pub fn record_frag_start(&mut self, name: &str) -> Result<(), Error> {
        self.handle.with_text(sys::tbr_add_marker_n, name)
    }
}

/// Decorated text. An end needs only an open beginning of its own kind in the level, and answers `NothingToEnd` if
/// there is none. So stretches may overlap.
impl Renderer {
    /// Begins a link to a target, which may be empty.
    pub fn start_link(&mut self, target: &str) -> Result<(), Error> {
        self.handle.with_text(sys::tbr_start_link_n, target)
    }

    /// Ends the link that was begun last, and with footnotes shows its number.
    pub fn end_link(&mut self) -> Result<(), Error> {
        self.handle.plain(sys::tbr_end_link)
    }

    /// Begins emphasised text.
    pub fn start_emphasis(&mut self) -> Result<(), Error> {
        self.handle.plain(sys::tbr_start_emphasis)
    }

    /// Ends emphasised text.
    pub fn end_emphasis(&mut self) -> Result<(), Error> {
        self.handle.plain(sys::tbr_end_emphasis)
    }

    /// Begins strong text.
    pub fn start_strong(&mut self) -> Result<(), Error> {
        self.handle.plain(sys::tbr_start_strong)
    }

    /// Ends strong text.
    pub fn end_strong(&mut self) -> Result<(), Error> {
        self.handle.plain(sys::tbr_end_strong)
    }

    /// Begins struck out text. If strokes are on, each character of it that takes columns gets one, U+0336.
    pub fn start_strikeout(&mut self) -> Result<(), Error> {
        self.handle.plain(sys::tbr_start_strikeout)
    }

    /// Ends struck out text.
    pub fn end_strikeout(&mut self) -> Result<(), Error> {
        self.handle.plain(sys::tbr_end_strikeout)
    }

    /// Begins code.
    pub fn start_code(&mut self) -> Result<(), Error> {
        self.handle.plain(sys::tbr_start_code)
    }

    /// Ends code.
    pub fn end_code(&mut self) -> Result<(), Error> {
        self.handle.plain(sys::tbr_end_code)
    }

    /// Begins a superscript.
    pub fn start_superscript(&mut self) -> Result<(), Error> {
        self.handle.plain(sys::tbr_start_superscript)
    }

    /// Ends a superscript.
    pub fn end_superscript(&mut self) -> Result<(), Error> {
        self.handle.plain(sys::tbr_end_superscript)
    }

    /// Begins a preformatted stretch. It is only an annotation: push `Pre` to keep white space.
    pub fn push_preformat(&mut self) -> Result<(), Error> {
        self.handle.plain(sys::tbr_start_preformatted)
    }

    /// Ends a preformatted stretch.
    pub fn pop_preformat(&mut self) -> Result<(), Error> {
        self.handle.plain(sys::tbr_end_preformatted)
    }

    /// Begins text in a colour.
    pub fn push_colour(&mut self, colour: Colour) -> Result<(), Error> {
        let Colour { r, g, b } = colour;
        // SAFETY: the renderer is live.
        self.handle.call(|it| unsafe { sys::tbr_start_colour(it, r, g, b) })
    }

    /// Ends the colour that was pushed last.
    pub fn pop_colour(&mut self) -> Result<(), Error> {
        self.handle.plain(sys::tbr_end_colour)
    }

    /// Begins text on a background in a colour.
    pub fn push_bgcolour(&mut self, colour: Colour) -> Result<(), Error> {
        let Colour { r, g, b } = colour;
        // SAFETY: the renderer is live.
        self.handle.call(|it| unsafe { sys::tbr_start_background(it, r, g, b) })
    }

    /// Ends the background that was pushed last.
    pub fn pop_bgcolour(&mut self) -> Result<(), Error> {
        self.handle.plain(sys::tbr_end_background)
    }

    /// Adds an image, shown by its title. The options say what one without a title shows.
    pub fn add_image(&mut self, source: &str, title: &str) -> Result<(), Error> {
        self.handle.with_texts(sys::tbr_add_image_n, source, title)
    }
}

/// Quotes, items of lists and headers. A start opens a level in the columns that the decorator's prefix leaves, and its
/// end adds the lines of that level after the prefix.
///
/// A start answers `TooNarrow`, which isn't kept, if the prefix leaves no column and no overflow is allowed. An end
/// closes the innermost level, whichever call began it: `NothingToEnd` if none is open or it is a cell, `StillOpen` if
/// cells wait in it. `OutOfMemory` isn't kept if the prefix takes memory: [`failure`](Renderer::failure) tells.
impl Renderer {
    /// Begins a quoted block, each line of which comes after a prefix.
    pub fn start_quote(&mut self) -> Result<(), Error> {
        self.handle.plain(sys::tbr_start_quote)
    }

    /// Ends a quoted block.
    pub fn end_quote(&mut self) -> Result<(), Error> {
        self.handle.plain(sys::tbr_end_quote)
    }

    /// Begins an item of a list. Its first line comes after a prefix, and the others after as many spaces.
    pub fn start_item(&mut self) -> Result<(), Error> {
        self.handle.plain(sys::tbr_start_item)
    }

    /// Ends an item of a list.
    pub fn end_item(&mut self) -> Result<(), Error> {
        self.handle.plain(sys::tbr_end_item)
    }

    /// Begins the item of a list that has this number.
    pub fn start_ordered_item(&mut self, number: i64) -> Result<(), Error> {
        // SAFETY: the renderer is live.
        self.handle.call(|it| unsafe { sys::tbr_start_ordered_item(it, number) })
    }

    /// Ends the item that was begun with this number.
    pub fn end_ordered_item(&mut self, number: i64) -> Result<(), Error> {
        // SAFETY: the renderer is live.
        self.handle.call(|it| unsafe { sys::tbr_end_ordered_item(it, number) })
    }

    /// Begins a header of a level, of which 1 is the highest. Each line of this block comes after a prefix.
    /// `BadArgument` above 255, if the decorator has a prefix for headers.
    pub fn start_header(&mut self, level: usize) -> Result<(), Error> {
        // SAFETY: the renderer is live.
        self.handle.call(|it| unsafe { sys::tbr_start_header(it, level) })
    }

    /// Ends the header that was begun with this level.
    pub fn end_header(&mut self, level: usize) -> Result<(), Error> {
        // SAFETY: the renderer is live.
        self.handle.call(|it| unsafe { sys::tbr_end_header(it, level) })
    }
}

/// Tables that find their widths, as [`table`](Renderer::table) fills them. An end is refused with `NothingToEnd` if what
/// it would end isn't innermost.
impl Renderer {
    /// Begins a table. What is called until its end is recorded, and drawn there.
    pub fn start_auto_table(&mut self) -> Result<(), Error> {
        self.handle.plain(sys::tbr_start_auto_table)
    }

    /// Opens a cell of the table that is open. `NoTable` if none is, or a cell of it is.
    pub fn start_auto_cell(&mut self, cell: impl Into<TableCell>) -> Result<(), Error> {
        let TableCell { columns, rows, align } = cell.into();
        // SAFETY: the renderer is live.
        self.handle.call(|it| unsafe { sys::tbr_start_auto_cell(it, columns, rows, align as u32) })
    }

    /// Closes the cell.
    pub fn end_auto_cell(&mut self) -> Result<(), Error> {
        self.handle.plain(sys::tbr_end_auto_cell)
    }

    /// Ends the row of the cells that came.
    pub fn end_auto_row(&mut self) -> Result<(), Error> {
        self.handle.plain(sys::tbr_end_auto_row)
    }

    /// Ends the table. The outermost is drawn. `StillOpen` if cells came after the last row.
    pub fn end_auto_table(&mut self) -> Result<(), Error> {
        self.handle.plain(sys::tbr_end_auto_table)
    }

    /// How much room can be used by what came so far in the innermost cell of a table, or block in it. `NoTable` if no
    /// table is open, `InTable` if no cell of it is.
    pub fn measure_open(&self) -> Result<Extent, Error> {
        let mut found = sys::Extent::default();
        // SAFETY: the renderer is live, and so is the answer.
        self.handle.call(|it| unsafe { sys::tbr_measure_open(it, &mut found) })?;
        Ok(found.into())
    }
}

/// Levels, and rows of cells.
impl Renderer {
    /// Fills a level of this many columns, and adds its lines: the first after `first`, each other after `others`.
    /// `BadWidth` at 0 columns. Leave room for the prefixes, as by [`width_minus`](Renderer::width_minus).
    ///
    /// If `fill` refuses, its refusal is the answer, and the level stays open.
    ///
    /// ```
    /// use text_block_renderer::{Options, Renderer};
    ///
    /// let mut renderer = Renderer::new(&Options::plain(20))?;
    /// renderer.add_inline_text("She wrote:")?;
    /// renderer.subrender(18, "> ", "> ", |quote| quote.add_inline_text("See you at nine, at the gate."))?;
    /// assert_eq!(renderer.into_string()?, "She wrote:\n> See you at nine,\n> at the gate.\n");
    /// # Ok::<(), text_block_renderer::Error>(())
    /// ```
    pub fn subrender(
        &mut self,
        width: usize,
        first: &str,
        others: &str,
        fill: impl FnOnce(&mut Renderer) -> Result<(), Error>,
    ) -> Result<(), Error> {
        self.start_subrender(width)?;
        fill(self)?;
        self.append_subrender(first, others)
    }

    /// Opens a level of this many columns, whose lines `append_subrender` takes. `BadWidth` at 0.
    pub fn start_subrender(&mut self, width: usize) -> Result<(), Error> {
        // SAFETY: the renderer is live.
        self.handle.call(|it| unsafe { sys::tbr_start_sub(it, width) })
    }

    /// Opens a level of the columns that a prefix of so many leaves, also in a table. `append_subrender` takes its lines,
    /// with prefixes that are no wider. `TooNarrow`, which isn't kept, if no column is left and no overflow is allowed.
    pub fn start_prefixed(&mut self, prefix: usize) -> Result<(), Error> {
        // SAFETY: the renderer is live.
        self.handle.call(|it| unsafe { sys::tbr_start_prefixed(it, prefix) })
    }

    /// Closes the level that one of these opened, and adds its lines to the one outside: the first after `first`, each
    /// other after `others`. `NothingToEnd` if the innermost level isn't such a level, `StillOpen` if cells wait in it.
    pub fn append_subrender(&mut self, first: &str, others: &str) -> Result<(), Error> {
        self.handle.with_texts(sys::tbr_append_sub_n, first, others)
    }

    /// Fills a cell, which then waits for a row. `BadWidth` at 0 columns, `BadArgument` at 0 rows.
    ///
    /// If `fill` refuses, its refusal is the answer, and the cell stays open.
    pub fn cell(
        &mut self,
        cell: impl Into<Cell>,
        fill: impl FnOnce(&mut Renderer) -> Result<(), Error>,
    ) -> Result<(), Error> {
        self.start_cell(cell)?;
        fill(self)?;
        self.end_cell()
    }

    /// Opens a cell. `BadWidth` at 0 columns, `BadArgument` at 0 rows.
    pub fn start_cell(&mut self, cell: impl Into<Cell>) -> Result<(), Error> {
        let Cell { width, span, align } = cell.into();
        // SAFETY: the renderer is live.
        self.handle.call(|it| unsafe { sys::tbr_start_cell(it, width, span, align as u32) })
    }

    /// Closes the cell that is open, which then waits for a row. `NothingToEnd` if the innermost level isn't a cell,
    /// `StillOpen` if cells wait in it.
    pub fn end_cell(&mut self) -> Result<(), Error> {
        self.handle.plain(sys::tbr_end_cell)
    }

    /// Adds the waiting cells as a row, side by side, with a border below. If the last line is a border, the row joins
    /// it. What is left of a cell that spans several rows overhangs into the next row. With `collapse`, borders at the
    /// tops and bottoms of cells are merged with those of the row.
    ///
    /// `RowDoesNotFit` if cells are in the way of what overhangs; the cells still wait then.
    pub fn append_columns_with_borders(&mut self, collapse: bool) -> Result<(), Error> {
        // SAFETY: the renderer is live.
        self.handle.call(|it| unsafe { sys::tbr_add_row(it, collapse) })
    }

    /// Adds the waiting cells one below another, however many rows they span.
    pub fn append_vert_row(&mut self) -> Result<(), Error> {
        self.handle.plain(sys::tbr_add_vertical_row)
    }
}

/// Questions about the innermost level that is open. They change nothing.
impl Renderer {
    /// The refusal that is kept, if there is one.
    pub fn failure(&self) -> Option<Error> {
        self.handle.plain(sys::tbr_refusal).err()
    }

    /// Whether it has no line, and no text on an open one.
    pub fn empty(&self) -> Result<bool, Error> {
        // SAFETY: the renderer is live, and so is the answer.
        self.handle.ask(|it, answer| unsafe { sys::tbr_is_empty(it, answer) })
    }

    /// Whether cells overhang, since they span more rows than were added. Lines that they still have at the end are
    /// lost.
    pub fn has_overhang(&self) -> Result<bool, Error> {
        // SAFETY: as above.
        self.handle.ask(|it, answer| unsafe { sys::tbr_has_overhang(it, answer) })
    }

    /// Its columns.
    pub fn width(&self) -> Result<usize, Error> {
        // SAFETY: as above.
        self.handle.ask(|it, answer| unsafe { sys::tbr_width(it, answer) })
    }

    /// The columns that it has left after a prefix, but at least `min_width`. `TooNarrow`, which isn't kept, if fewer
    /// are left and no overflow is allowed.
    pub fn width_minus(&self, prefix_len: usize, min_width: usize) -> Result<usize, Error> {
        // SAFETY: as above.
        self.handle.ask(|it, answer| unsafe { sys::tbr_width_minus(it, prefix_len, min_width, answer) })
    }

    /// How many levels are open inside the renderer.
    pub fn depth(&self) -> Result<usize, Error> {
        // SAFETY: as above.
        self.handle.ask(|it, answer| unsafe { sys::tbr_open_levels(it, answer) })
    }

    /// How many links are open.
    pub fn open_links(&self) -> Result<usize, Error> {
        // SAFETY: as above.
        self.handle.ask(|it, answer| unsafe { sys::tbr_open_links(it, answer) })
    }

    /// How many cells wait for a row.
    pub fn waiting_cells(&self) -> Result<usize, Error> {
        // SAFETY: as above.
        self.handle.ask(|it, answer| unsafe { sys::tbr_waiting_cells(it, answer) })
    }
}

/// The prefixes of the decorator, for [`append_subrender`](Renderer::append_subrender). They change nothing.
impl Renderer {
    /// What comes before each line of a header of the given level, as `## `.
    pub fn header_prefix(&self, level: usize) -> Result<String, Error> {
        // SAFETY: the renderer is live, and so is the room.
        self.handle
            .text(PREFIX_ROOM, |it, out, room, length| unsafe { sys::tbr_header_prefix(it, level, out, room, length) })
    }

    /// What comes before each line of a quoted block, as `> `.
    pub fn quote_prefix(&self) -> Result<String, Error> {
        // SAFETY: as above.
        self.handle.text(PREFIX_ROOM, |it, out, room, length| unsafe { sys::tbr_quote_prefix(it, out, room, length) })
    }

    /// What comes before the first line of an item of a list, as `* `. As many spaces come before the other lines.
    pub fn unordered_item_prefix(&self) -> Result<String, Error> {
        // SAFETY: as above.
        self.handle.text(PREFIX_ROOM, |it, out, room, length| unsafe { sys::tbr_item_prefix(it, out, room, length) })
    }

    /// What comes before the first line of an item with this number, as `3. `.
    pub fn ordered_item_prefix(&self, number: i64) -> Result<String, Error> {
        // SAFETY: as above.
        self.handle.text(PREFIX_ROOM, |it, out, room, length| unsafe {
            sys::tbr_ordered_item_prefix(it, number, out, room, length)
        })
    }
}

/// The bytes that are enough for most prefixes.
const PREFIX_ROOM: usize = 24;

impl fmt::Debug for Renderer {
    fn fmt(&self, f: &mut fmt::Formatter<'_>) -> fmt::Result {
        f.debug_struct("Renderer").field("width", &self.width()).field("depth", &self.depth()).finish_non_exhaustive()
    }
}
