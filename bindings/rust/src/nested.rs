//! Calls that fill something by a closure, and then end it.

use crate::{text_width, Colour, Error, Renderer, WhiteSpace};
use std::cmp::Ordering;

/// Blocks and stretches of text that a closure fills.
///
/// Each ends when the closure returns, even if that refuses. Its refusal is then the answer, and the renderer can still
/// be used, if the refusal isn't kept.
///
/// The closure has to close the levels that it opens. If it leaves one open, or cells waiting in a block, what it
/// filled isn't ended: the answer is `StillOpen`, or the closure's refusal. If it closed the level that it was in, the
/// answer is `NothingToEnd`.
///
/// ```
/// use text_block_renderer::{Options, Renderer};
///
/// let mut mail = Renderer::new(&Options::plain(24))?;
/// mail.header(2, |header| header.add_inline_text("Sunday"))?;
/// mail.quote(|quote| {
///     quote.add_inline_text("Please ")?;
///     quote.link("https://example.org", |link| link.add_inline_text("bring"))?;
///     quote.item(|item| item.add_inline_text("bread, and a cup or two"))?;
///     quote.item(|item| item.add_inline_text("cake"))
/// })?;
/// mail.add_inline_text("She means it.")?;
/// assert_eq!(
///     mail.into_string()?,
///     "## Sunday\n\n> Please [bring]\n> * bread, and a cup or\n>   two\n> * cake\n\nShe means it.\n"
/// );
/// # Ok::<(), text_block_renderer::Error>(())
/// ```
impl Renderer {
    /// Fills a quoted block, each line of which comes after the decorator's prefix, with empty lines around it.
    ///
    /// `TooNarrow`, which isn't kept, if the prefix leaves no column and no overflow is allowed.
    ///
    /// ```
    /// # use text_block_renderer::{Options, Renderer};
    /// let mut mail = Renderer::new(&Options::plain(20))?;
    /// mail.quote(|quote| quote.add_inline_text("See you at nine, at the gate."))?;
    /// assert_eq!(mail.into_string()?, "> See you at nine,\n> at the gate.\n");
    /// # Ok::<(), text_block_renderer::Error>(())
    /// ```
    pub fn quote(&mut self, fill: impl FnOnce(&mut Renderer) -> Result<(), Error>) -> Result<(), Error> {
        self.start_quote()?;
        self.nest(fill, Renderer::end_quote)
    }

    /// Fills an item of a list. Its first line comes after the decorator's prefix, and the others after as many spaces.
    ///
    /// It refuses as [`quote`](Renderer::quote) does.
    ///
    /// ```
    /// # use text_block_renderer::{Options, Renderer};
    /// let mut list = Renderer::new(&Options::plain(20))?;
    /// for text in ["Bring bread and some cake.", "Come early."] {
    ///     list.item(|item| item.add_inline_text(text))?;
    /// }
    /// assert_eq!(list.into_string()?, "* Bring bread and\n  some cake.\n* Come early.\n");
    /// # Ok::<(), text_block_renderer::Error>(())
    /// ```
    pub fn item(&mut self, fill: impl FnOnce(&mut Renderer) -> Result<(), Error>) -> Result<(), Error> {
        self.start_item()?;
        self.nest(fill, Renderer::end_item)
    }

    /// Fills the item of a list that has a number.
    ///
    /// It refuses as [`quote`](Renderer::quote) does.
    ///
    /// ```
    /// # use text_block_renderer::{Options, Renderer};
    /// let mut list = Renderer::new(&Options::plain(12))?;
    /// for (number, text) in [(9, "bread"), (10, "milk and cake")] {
    ///     list.ordered_item(number, |item| item.add_inline_text(text))?;
    /// }
    /// assert_eq!(list.into_string()?, "9. bread\n10. milk and\n    cake\n");
    /// # Ok::<(), text_block_renderer::Error>(())
    /// ```
    pub fn ordered_item(
        &mut self,
        number: i64,
        fill: impl FnOnce(&mut Renderer) -> Result<(), Error>,
    ) -> Result<(), Error> {
        self.start_ordered_item(number)?;
        self.nest(fill, |it| it.end_ordered_item(number))
    }

    /// Fills a block whose first line comes after `first`, and each other after `others`, in the columns that the wider
    /// of the two leaves, also in a table.
    ///
    /// It refuses as [`quote`](Renderer::quote) does.
    ///
    /// ```
    /// # use text_block_renderer::{Options, Renderer};
    /// let mut list = Renderer::new(&Options::plain(20))?;
    /// list.prefixed("• ", "  ", |item| item.add_inline_text("Bring bread and some cake."))?;
    /// assert_eq!(list.into_string()?, "• Bring bread and\n  some cake.\n");
    /// # Ok::<(), text_block_renderer::Error>(())
    /// ```
    pub fn prefixed(
        &mut self,
        first: &str,
        others: &str,
        fill: impl FnOnce(&mut Renderer) -> Result<(), Error>,
    ) -> Result<(), Error> {
        self.start_prefixed(text_width(first)?.max(text_width(others)?))?;
        self.nest(fill, |it| it.append_subrender(first, others))
    }

    /// Fills a header of a level, of which 1 is the highest. Each line comes after the decorator's prefix, with empty
    /// lines around the block.
    ///
    /// It refuses as [`quote`](Renderer::quote) does, and with `BadArgument` above level 255, if the decorator has a
    /// prefix for headers.
    ///
    /// ```
    /// # use text_block_renderer::{Options, Renderer};
    /// let mut page = Renderer::new(&Options::plain(20))?;
    /// page.header(1, |header| header.add_inline_text("Prices"))?;
    /// page.add_inline_text("Bread: 3.20")?;
    /// assert_eq!(page.into_string()?, "# Prices\n\nBread: 3.20\n");
    /// # Ok::<(), text_block_renderer::Error>(())
    /// ```
    pub fn header(&mut self, level: usize, fill: impl FnOnce(&mut Renderer) -> Result<(), Error>) -> Result<(), Error> {
        self.start_header(level)?;
        self.nest(fill, |it| it.end_header(level))
    }

    /// Fills a link to a target, which may be empty.
    ///
    /// ```
    /// # use text_block_renderer::{Options, Renderer};
    /// let mut page = Renderer::new(&Options::plain(24).include_link_footnotes(true))?;
    /// page.link("https://example.org", |link| link.add_inline_text("the rules"))?;
    /// assert_eq!(page.into_string()?, "[the rules][1]\n\n[1]: https://example.org\n");
    /// # Ok::<(), text_block_renderer::Error>(())
    /// ```
    pub fn link(&mut self, target: &str, fill: impl FnOnce(&mut Renderer) -> Result<(), Error>) -> Result<(), Error> {
        self.start_link(target)?;
        self.nest(fill, Renderer::end_link)
    }

    /// Fills emphasised text.
    ///
    /// ```
    /// # use text_block_renderer::{Options, Renderer, RichAnnotation};
    /// let mut page = Renderer::new(&Options::rich(24))?;
    /// page.emphasis(|text| text.strong(|text| text.code(|text| text.add_inline_text("now"))))?;
    /// let line = page.into_lines()?.next().unwrap()?;
    /// let tags = &line.tagged_strings().next().unwrap().tag;
    /// assert_eq!(tags[..], [RichAnnotation::Emphasis, RichAnnotation::Strong, RichAnnotation::Code]);
    /// # Ok::<(), text_block_renderer::Error>(())
    /// ```
    pub fn emphasis(&mut self, fill: impl FnOnce(&mut Renderer) -> Result<(), Error>) -> Result<(), Error> {
        self.start_emphasis()?;
        self.nest(fill, Renderer::end_emphasis)
    }

    /// Fills strong text.
    pub fn strong(&mut self, fill: impl FnOnce(&mut Renderer) -> Result<(), Error>) -> Result<(), Error> {
        self.start_strong()?;
        self.nest(fill, Renderer::end_strong)
    }

    /// Fills struck out text. If strokes are on, each character of it that takes columns gets one, U+0336.
    ///
    /// ```
    /// # use text_block_renderer::{Options, Renderer};
    /// let mut page = Renderer::new(&Options::plain(20))?;
    /// page.strikeout(|text| text.add_inline_text("rat"))?;
    /// assert_eq!(page.into_string()?, "r\u{336}a\u{336}t\u{336}\n");
    /// # Ok::<(), text_block_renderer::Error>(())
    /// ```
    pub fn strikeout(&mut self, fill: impl FnOnce(&mut Renderer) -> Result<(), Error>) -> Result<(), Error> {
        self.start_strikeout()?;
        self.nest(fill, Renderer::end_strikeout)
    }

    /// Fills code.
    pub fn code(&mut self, fill: impl FnOnce(&mut Renderer) -> Result<(), Error>) -> Result<(), Error> {
        self.start_code()?;
        self.nest(fill, Renderer::end_code)
    }

    /// Fills a superscript.
    ///
    /// ```
    /// # use text_block_renderer::{Options, Renderer};
    /// let mut page = Renderer::new(&Options::plain(20))?;
    /// page.add_inline_text("x")?;
    /// page.superscript(|text| text.add_inline_text("2"))?;
    /// assert_eq!(page.into_string()?, "x^{2}\n");
    /// # Ok::<(), text_block_renderer::Error>(())
    /// ```
    pub fn superscript(&mut self, fill: impl FnOnce(&mut Renderer) -> Result<(), Error>) -> Result<(), Error> {
        self.start_superscript()?;
        self.nest(fill, Renderer::end_superscript)
    }

    /// Fills preformatted text, whose white space is kept: a newline ends a line, and a line is cut where it is full.
    ///
    /// It is [`push_ws`](Renderer::push_ws) with `Pre` and [`push_preformat`](Renderer::push_preformat), and both ends.
    ///
    /// ```
    /// # use text_block_renderer::{Options, Renderer};
    /// let mut page = Renderer::new(&Options::plain(20))?;
    /// page.preformatted(|text| text.add_inline_text("foo\n  bar   wib\n"))?;
    /// page.add_inline_text("and   as usual")?;
    /// assert_eq!(page.into_string()?, "foo\n  bar   wib\nand as usual\n");
    /// # Ok::<(), text_block_renderer::Error>(())
    /// ```
    pub fn preformatted(&mut self, fill: impl FnOnce(&mut Renderer) -> Result<(), Error>) -> Result<(), Error> {
        self.white_space(WhiteSpace::Pre, |it| {
            it.push_preformat()?;
            it.nest(fill, Renderer::pop_preformat)
        })
    }

    /// Fills text in a colour.
    ///
    /// ```
    /// # use text_block_renderer::{Colour, Options, Renderer, RichAnnotation};
    /// let (red, black) = (Colour { r: 255, g: 0, b: 0 }, Colour { r: 0, g: 0, b: 0 });
    /// let mut page = Renderer::new(&Options::rich(20))?;
    /// page.background(black, |text| text.colour(red, |text| text.add_inline_text("no")))?;
    /// let line = page.into_lines()?.next().unwrap()?;
    /// let tags = &line.tagged_strings().next().unwrap().tag;
    /// assert_eq!(tags[..], [RichAnnotation::BgColour(black), RichAnnotation::Colour(red)]);
    /// # Ok::<(), text_block_renderer::Error>(())
    /// ```
    pub fn colour(
        &mut self,
        colour: Colour,
        fill: impl FnOnce(&mut Renderer) -> Result<(), Error>,
    ) -> Result<(), Error> {
        self.push_colour(colour)?;
        self.nest(fill, Renderer::pop_colour)
    }

    /// Fills text on a background in a colour.
    pub fn background(
        &mut self,
        colour: Colour,
        fill: impl FnOnce(&mut Renderer) -> Result<(), Error>,
    ) -> Result<(), Error> {
        self.push_bgcolour(colour)?;
        self.nest(fill, Renderer::pop_bgcolour)
    }

    /// Fills text in a mode of white space.
    ///
    /// ```
    /// # use text_block_renderer::{Options, Renderer, WhiteSpace};
    /// let mut page = Renderer::new(&Options::plain(5))?;
    /// page.white_space(WhiteSpace::PreWrap, |text| text.add_inline_text("ab  cd"))?;
    /// assert_eq!(page.into_string()?, "ab\ncd\n");
    /// # Ok::<(), text_block_renderer::Error>(())
    /// ```
    pub fn white_space(
        &mut self,
        mode: WhiteSpace,
        fill: impl FnOnce(&mut Renderer) -> Result<(), Error>,
    ) -> Result<(), Error> {
        self.push_ws(mode)?;
        self.nest(fill, Renderer::pop_ws)
    }

    /// Fills what was begun, and ends it. If both refuse, the first refusal is the answer.
    pub(crate) fn nest(
        &mut self,
        fill: impl FnOnce(&mut Renderer) -> Result<(), Error>,
        end: impl FnOnce(&mut Renderer) -> Result<(), Error>,
    ) -> Result<(), Error> {
        let begun = self.depth()?;
        let filled = fill(self);
        let ended = self.end_at(begun, end);
        filled.and(ended)
    }

    /// Ends what was begun when this many levels were open, if it is still the innermost.
    fn end_at(&mut self, begun: usize, end: impl FnOnce(&mut Renderer) -> Result<(), Error>) -> Result<(), Error> {
        match self.depth()?.cmp(&begun) {
            Ordering::Greater => Err(Error::StillOpen),
            Ordering::Equal => end(self),
            Ordering::Less => Err(Error::NothingToEnd),
        }
    }
}
