use std::fmt;
use std::slice;
use std::vec;

/// A line: pieces of text under annotations, and markers between them.
///
/// Written by `{}`, it is its text.
#[derive(Clone, Debug, Default, PartialEq, Eq)]
pub struct TaggedLine {
    pub(crate) elements: Vec<TaggedLineElement>,
    pub(crate) width: usize,
    pub(crate) is_border: bool,
}

/// What a line is made of.
#[derive(Clone, Debug, PartialEq, Eq)]
pub enum TaggedLineElement {
    /// A piece of text.
    Str(TaggedString),
    /// The place where a fragment of this name begins. It has no text.
    FragmentStart(String),
}

/// A piece of text, as long as its annotations are the same.
#[derive(Clone, Debug, PartialEq, Eq)]
pub struct TaggedString {
    /// The text.
    pub s: String,
    /// One annotation for each stretch that is open there, the outermost first.
    pub tag: Vec<RichAnnotation>,
}

/// What a stretch of text is.
#[derive(Clone, Debug, Default, PartialEq, Eq)]
#[non_exhaustive]
pub enum RichAnnotation {
    /// Nothing in particular. Under a decorator that isn't rich, every annotation is of this kind.
    #[default]
    Default,
    /// A link to a target.
    Link(String),
    /// Text for an image of this source.
    Image(String),
    /// Emphasised text.
    Emphasis,
    /// Strong text.
    Strong,
    /// Struck out text.
    Strikeout,
    /// Code.
    Code,
    /// Preformatted text, and whether it is on a line that continues one that was too long.
    Preformat(bool),
    /// Text in a colour.
    Colour(Colour),
    /// Text on a background in a colour.
    BgColour(Colour),
}

/// A colour, by its red, green and blue parts.
#[derive(Clone, Copy, Debug, Default, PartialEq, Eq, Hash)]
pub struct Colour {
    /// Red.
    pub r: u8,
    /// Green.
    pub g: u8,
    /// Blue.
    pub b: u8,
}

impl TaggedLine {
    /// Its pieces of text and its markers, in order.
    pub fn iter(&self) -> slice::Iter<'_, TaggedLineElement> {
        self.elements.iter()
    }

    /// Its pieces of text, in order.
    pub fn tagged_strings(&self) -> impl Iterator<Item = &TaggedString> {
        self.elements.iter().filter_map(|element| match element {
            TaggedLineElement::Str(piece) => Some(piece),
            TaggedLineElement::FragmentStart(_) => None,
        })
    }

    /// The characters of its text.
    pub fn chars(&self) -> impl Iterator<Item = char> + '_ {
        self.tagged_strings().flat_map(|piece| piece.s.chars())
    }

    /// The columns that it takes.
    pub fn width(&self) -> usize {
        self.width
    }

    /// Whether it is a border, which may hold texts of cells that span it.
    pub fn is_border(&self) -> bool {
        self.is_border
    }
}

impl fmt::Display for TaggedLine {
    fn fmt(&self, f: &mut fmt::Formatter<'_>) -> fmt::Result {
        self.tagged_strings().try_for_each(|piece| f.write_str(&piece.s))
    }
}

impl IntoIterator for TaggedLine {
    type Item = TaggedLineElement;
    type IntoIter = vec::IntoIter<TaggedLineElement>;

    fn into_iter(self) -> Self::IntoIter {
        self.elements.into_iter()
    }
}

impl<'a> IntoIterator for &'a TaggedLine {
    type Item = &'a TaggedLineElement;
    type IntoIter = slice::Iter<'a, TaggedLineElement>;

    fn into_iter(self) -> Self::IntoIter {
        self.iter()
    }
}
