use crate::sys;
use std::mem;

/// The settings of a renderer: its width, how decorated text is shown, and more.
///
/// The settings have the names that html2text gives them.
///
/// ```
/// use text_block_renderer::{Options, Renderer};
///
/// let mut renderer = Renderer::new(&Options::plain(9).draw_borders(false))?;
/// for (width, text) in [(3, "a"), (5, "bc")] {
///     renderer.cell(width, |cell| cell.add_inline_text(text))?;
/// }
/// renderer.append_columns_with_borders(false)?;
/// assert_eq!(renderer.into_string()?, "a   bc   \n");
/// # Ok::<(), text_block_renderer::Error>(())
/// ```
#[derive(Clone, Copy, Debug, PartialEq, Eq)]
pub struct Options {
    width: usize,
    decorator: Decorator,
    wrap_width: Option<usize>,
    allow_width_overflow: bool,
    pad_block_width: bool,
    draw_borders: bool,
    wrap_links: bool,
    include_link_footnotes: bool,
    use_unicode_strikeout: bool,
    img_mode: ImageRenderMode,
    raw: bool,
}

/// How decorated text is shown.
#[derive(Clone, Copy, Debug, PartialEq, Eq)]
enum Decorator {
    Plain = 0,
    Trivial = 1,
    Rich = 2,
}

/// What an image without a title shows.
#[derive(Clone, Copy, Debug, Default, PartialEq, Eq, Hash)]
pub enum ImageRenderMode {
    /// Nothing.
    #[default]
    IgnoreEmpty = 0,
    /// What the decorator makes of the empty title.
    ShowAlways = 1,
    /// What follows the last `/` of its source.
    Filename = 2,
}

impl Options {
    /// A renderer of this many columns that shows decorated text by characters, as `[` and `]` around a link.
    pub fn plain(width: usize) -> Options {
        Options::new(width, Decorator::Plain)
    }

    /// A renderer of this many columns that shows only the text, with `^{` and `}` around superscripts.
    pub fn trivial(width: usize) -> Options {
        Options::new(width, Decorator::Trivial)
    }

    /// A renderer of this many columns that shows only the text, with `^{` and `}` around superscripts, and has
    /// annotations on each piece of a line.
    pub fn rich(width: usize) -> Options {
        Options::new(width, Decorator::Rich)
    }

    fn new(width: usize, decorator: Decorator) -> Options {
        Options {
            width,
            decorator,
            wrap_width: None,
            allow_width_overflow: false,
            pad_block_width: false,
            draw_borders: true,
            wrap_links: true,
            include_link_footnotes: false,
            use_unicode_strikeout: true,
            img_mode: ImageRenderMode::default(),
            raw: false,
        }
    }

    /// The most columns that a line of wrapped text takes. By default, and for 0, they are those of the renderer.
    pub fn wrap_width(self, columns: usize) -> Options {
        let wrap_width = Some(columns).filter(|&columns| columns > 0);
        Options { wrap_width, ..self }
    }

    /// Whether a character that is wider than a line goes on a line of its own. By default it is refused as too narrow.
    pub fn allow_width_overflow(self, allow_width_overflow: bool) -> Options {
        Options { allow_width_overflow, ..self }
    }

    /// Whether lines are filled with spaces up to their width. By default they aren't.
    pub fn pad_block_width(self, pad_block_width: bool) -> Options {
        Options { pad_block_width, ..self }
    }

    /// Whether borders of tables are drawn. By default they are.
    pub fn draw_borders(self, draw_borders: bool) -> Options {
        Options { draw_borders, ..self }
    }

    /// Whether the targets of footnotes are cut where they don't fit a line. By default they are.
    pub fn wrap_links(self, wrap_links: bool) -> Options {
        Options { wrap_links, ..self }
    }

    /// Whether links show numbers, and their targets are listed by number after the text. By default they don't.
    pub fn include_link_footnotes(self, include_link_footnotes: bool) -> Options {
        Options { include_link_footnotes, ..self }
    }

    /// Whether struck out text has strokes. By default it has.
    pub fn use_unicode_strikeout(self, use_unicode_strikeout: bool) -> Options {
        Options { use_unicode_strikeout, ..self }
    }

    /// What an image without a title shows. By default nothing.
    pub fn img_mode(self, img_mode: ImageRenderMode) -> Options {
        Options { img_mode, ..self }
    }

    /// Whether control characters of prefixes, and of the targets in footnotes, stay as they are. By default they are
    /// shown as a browser shows them, so that an escape is `%1B`.
    pub fn raw(self, raw: bool) -> Options {
        Options { raw, ..self }
    }

    pub(crate) fn to_sys(self) -> sys::Options {
        sys::Options {
            size: mem::size_of::<sys::Options>(),
            width: self.width,
            wrap_width: self.wrap_width.unwrap_or(0),
            decorator: self.decorator as u32,
            images: self.img_mode as u32,
            overflow: self.allow_width_overflow,
            pad: self.pad_block_width,
            footnotes: self.include_link_footnotes,
            wrap_links: self.wrap_links,
            strikeout_strokes: self.use_unicode_strikeout,
            draw_borders: self.draw_borders,
            unused: 0,
            raw: self.raw,
        }
    }
}

/// How lines are shown. Only `Text` of a renderer that is raw has control characters of a text, a target or a name.
/// Links of `Ansi` and `Html` lead only to `http`, `https`, `mailto` and `ftp`, and to targets without a colon.
#[derive(Clone, Copy, Debug, Default, PartialEq, Eq, Hash)]
pub enum Format {
    /// Only the text.
    #[default]
    Text = 0,
    /// For a terminal: emphasis, strong and struck out text, code and colours by control sequences, and hyperlinks.
    Ansi = 1,
    /// The content of a `<pre>`: links, emphasis and colours as elements, and markers as places to link to. A character
    /// of two columns is in a `<span class="wide">`, to be shown as two characters wide.
    Html = 2,
    /// An object of JSON for each line: columns, whether it is a border, and its pieces and markers.
    Json = 3,
}

/// How white space is treated.
#[derive(Clone, Copy, Debug, Default, PartialEq, Eq, Hash)]
pub enum WhiteSpace {
    /// A stretch of it counts as one space, and is dropped at the ends of lines.
    #[default]
    Normal = 0,
    /// It is kept, and lines are cut where they are full.
    Pre = 1,
    /// It is kept, and words that don't fit go to a new line.
    PreWrap = 2,
}

/// Where the lines of a cell are in its columns.
#[derive(Clone, Copy, Debug, Default, PartialEq, Eq, Hash)]
pub enum CellAlign {
    /// At the left.
    #[default]
    Left = 0,
    /// At the right.
    Right = 1,
    /// In the middle, with the odd column on the right.
    Centre = 2,
}

/// A cell to open: its columns, the rows that it spans, and where its lines are in the columns.
///
/// A number of columns by itself is a cell of one row whose lines are at the left.
#[derive(Clone, Copy, Debug, PartialEq, Eq)]
pub struct Cell {
    pub(crate) width: usize,
    pub(crate) span: usize,
    pub(crate) align: CellAlign,
}

impl Cell {
    /// A cell of this many columns and one row, with its lines at the left.
    pub fn new(width: usize) -> Cell {
        Cell { width, span: 1, align: CellAlign::Left }
    }

    /// The rows that it takes, at least 1.
    pub fn span(self, span: usize) -> Cell {
        Cell { span, ..self }
    }

    /// Where its lines are.
    pub fn align(self, align: CellAlign) -> Cell {
        Cell { align, ..self }
    }
}

impl From<usize> for Cell {
    fn from(width: usize) -> Cell {
        Cell::new(width)
    }
}

#[cfg(test)]
mod tests {
    use super::*;

    #[test]
    fn a_plain_renderer_has_the_defaults_of_the_library() {
        let mut defaults = sys::Options::default();
        // SAFETY: the options have as many bytes as are told.
        unsafe { sys::tbr_options_init(&mut defaults, mem::size_of::<sys::Options>(), 24) };
        assert_eq!(Options::plain(24).to_sys(), defaults);
    }
}
