use crate::handle::Handle;
use crate::sys;
use crate::{Colour, Error, Format, RichAnnotation, TaggedLine, TaggedLineElement, TaggedString};
use std::fmt;
use std::iter::FusedIterator;

/// The lines of a renderer, one by one. Lines that were taken are freed.
///
/// A line is refused only with `OutOfMemory`, and no line follows a refusal. Like a [`Renderer`](crate::Renderer), it
/// is `Send` and isn't `Sync`.
///
/// ```
/// use text_block_renderer::{Options, Renderer, RichAnnotation};
///
/// let mut renderer = Renderer::new(&Options::rich(20))?;
/// renderer.add_inline_text("See ")?;
/// renderer.start_link("https://example.org")?;
/// renderer.add_inline_text("the rules")?;
/// renderer.end_link()?;
/// for line in renderer.into_lines()? {
///     for piece in line?.tagged_strings() {
///         match piece.tag.as_slice() {
///             [RichAnnotation::Link(target)] => println!("{:?} leads to {target}", piece.s),
///             _ => println!("{:?}", piece.s),
///         }
///     }
/// }
/// # Ok::<(), text_block_renderer::Error>(())
/// ```
pub struct Lines {
    handle: Handle,
    has_ended: bool,
}

impl Lines {
    pub(crate) fn new(handle: Handle) -> Lines {
        Lines { handle, has_ended: false }
    }

    /// The text of the lines that weren't taken yet, each with a newline. It takes no line.
    pub fn text(&self) -> Result<String, Error> {
        self.text_of(0)
    }

    /// The lines that weren't taken yet in a format, each with a newline. It takes no line.
    ///
    /// ```
    /// use text_block_renderer::{Format, Options, Renderer};
    ///
    /// let mut renderer = Renderer::new(&Options::rich(20))?;
    /// renderer.link("javascript:x()", |link| link.add_inline_text("a < b"))?;
    /// let lines = renderer.into_lines()?;
    /// assert_eq!(lines.text_as(Format::Html)?, "<a>a &lt; b</a>\n");
    /// # Ok::<(), text_block_renderer::Error>(())
    /// ```
    pub fn text_as(&self, format: Format) -> Result<String, Error> {
        // SAFETY: the renderer is live, and so is the room.
        self.handle.text(0, |it, out, room, length| unsafe { sys::tbr_text_as(it, format as u32, out, room, length) })
    }

    /// The line that was taken last in a format, without a newline. `NoLine` if none was.
    ///
    /// ```
    /// use text_block_renderer::{Format, Options, Renderer};
    ///
    /// let mut renderer = Renderer::new(&Options::rich(20))?;
    /// renderer.strong(|text| text.add_inline_text("warm"))?;
    /// let mut lines = renderer.into_lines()?;
    /// let line = lines.next().unwrap()?;
    /// assert_eq!(line.to_string(), "warm");
    /// assert_eq!(lines.line_as(Format::Ansi)?, "\u{1b}[1mwarm\u{1b}[22m");
    /// # Ok::<(), text_block_renderer::Error>(())
    /// ```
    pub fn line_as(&self, format: Format) -> Result<String, Error> {
        // SAFETY: as above.
        self.handle.text(0, |it, out, room, length| unsafe { sys::tbr_line_as(it, format as u32, out, room, length) })
    }

    /// The text of the lines that weren't taken yet, where this many bytes are expected.
    pub(crate) fn text_of(&self, bytes: usize) -> Result<String, Error> {
        // SAFETY: the renderer is live, and so is the room.
        self.handle.text(bytes, |it, out, room, length| unsafe { sys::tbr_text(it, out, room, length) })
    }

    fn take(&mut self) -> Result<TaggedLine, Error> {
        // SAFETY: the renderer is live, and so is the answer.
        let line: sys::Line = self.handle.ask(|it, line| unsafe { sys::tbr_next_line(it, line) })?;
        // SAFETY: the renderer is live, and so is the room.
        let text = self
            .handle
            .text(line.bytes, |it, out, room, length| unsafe { sys::tbr_line_text(it, out, room, length) })?;
        Ok(TaggedLine {
            elements: (0..line.pieces).map(|place| self.element(place, &text)).collect::<Result<_, _>>()?,
            width: line.columns,
            is_border: line.is_border,
        })
    }

    /// The element of the line at a place, where the line has this text.
    fn element(&self, place: usize, text: &str) -> Result<TaggedLineElement, Error> {
        // SAFETY: the renderer is live, and so is the answer.
        let piece: sys::Piece = self.handle.ask(|it, piece| unsafe { sys::tbr_get_piece(it, place, piece) })?;
        if piece.kind != sys::TEXT {
            return Ok(TaggedLineElement::FragmentStart(self.marker_name(place, piece.name_bytes)?));
        }
        Ok(TaggedLineElement::Str(TaggedString {
            s: text.get(piece.begin..piece.end).ok_or(Error::NoPiece)?.to_owned(),
            tag: (0..piece.annotations).map(|at| self.annotation(place, at)).collect::<Result<_, _>>()?,
        }))
    }

    fn marker_name(&self, place: usize, bytes: usize) -> Result<String, Error> {
        // SAFETY: the renderer is live, and so is the room.
        self.handle.text(bytes, |it, out, room, length| unsafe { sys::tbr_marker_name(it, place, out, room, length) })
    }

    fn annotation(&self, piece: usize, place: usize) -> Result<RichAnnotation, Error> {
        // SAFETY: the renderer is live, and so is the answer.
        let found: sys::Annotation =
            self.handle.ask(|it, found| unsafe { sys::tbr_get_annotation(it, piece, place, found) })?;
        let target = || self.target(piece, place, found.target_bytes);
        let colour = Colour { r: found.red, g: found.green, b: found.blue };
        Ok(match found.kind {
            sys::LINK => RichAnnotation::Link(target()?),
            sys::IMAGE => RichAnnotation::Image(target()?),
            sys::EMPHASIS => RichAnnotation::Emphasis,
            sys::STRONG => RichAnnotation::Strong,
            sys::STRIKEOUT => RichAnnotation::Strikeout,
            sys::CODE => RichAnnotation::Code,
            sys::PREFORMATTED => RichAnnotation::Preformat(false),
            sys::PREFORMATTED_CONTINUED => RichAnnotation::Preformat(true),
            sys::COLOUR => RichAnnotation::Colour(colour),
            sys::BACKGROUND => RichAnnotation::BgColour(colour),
            _ => RichAnnotation::Default,
        })
    }

    fn target(&self, piece: usize, place: usize, bytes: usize) -> Result<String, Error> {
        // SAFETY: the renderer is live, and so is the room.
        self.handle.text(bytes, |it, out, room, length| unsafe {
            sys::tbr_annotation_target(it, piece, place, out, room, length)
        })
    }
}

impl Iterator for Lines {
    type Item = Result<TaggedLine, Error>;

    fn next(&mut self) -> Option<Self::Item> {
        if self.has_ended {
            return None;
        }
        let taken = self.take();
        self.has_ended = taken.is_err();
        Some(taken).filter(|line| !matches!(line, Err(Error::NoLine)))
    }
}

impl FusedIterator for Lines {}

impl fmt::Debug for Lines {
    fn fmt(&self, f: &mut fmt::Formatter<'_>) -> fmt::Result {
        f.debug_struct("Lines").field("has_ended", &self.has_ended).finish_non_exhaustive()
    }
}
