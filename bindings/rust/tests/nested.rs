//! Blocks and stretches that closures fill give what a script does in which docs/SCRIPT.md's rules write them out.

use text_block_renderer::{render_script, Colour, Error, Options, Renderer, WhiteSpace};

const COLOUR: Colour = Colour { r: 255, g: 128, b: 0 };

/// What a closure fills.
#[derive(Clone, Copy, Debug)]
enum Kind {
    Quote,
    Item,
    Ordered(i64),
    Header(usize),
    Link,
    Emphasis,
    Strong,
    Strikeout,
    Code,
    Superscript,
    Preformatted,
    Colour,
    Background,
    PreWrap,
}

#[derive(Debug)]
enum Node {
    Text(&'static str),
    Filled(Kind, Vec<Node>),
}

/// Numbers that look random, and are the same each time.
struct Numbers(u32);

impl Numbers {
    fn below(&mut self, bound: u32) -> u32 {
        self.0 = self.0.wrapping_mul(1664525).wrapping_add(1013904223);
        (self.0 >> 8) % bound
    }

    fn kind(&mut self) -> Kind {
        match self.below(17) {
            0 | 14 => Kind::Quote,
            1 | 15 => Kind::Item,
            2 => Kind::Ordered(i64::from(self.below(12000)) - 999),
            3 | 16 => Kind::Header(1 + self.below(6) as usize),
            4 => Kind::Link,
            5 => Kind::Emphasis,
            6 => Kind::Strong,
            7 => Kind::Strikeout,
            8 => Kind::Code,
            9 => Kind::Superscript,
            10 => Kind::Preformatted,
            11 => Kind::Colour,
            12 => Kind::Background,
            _ => Kind::PreWrap,
        }
    }

    fn nodes(&mut self, depth: u32) -> Vec<Node> {
        (0..self.below(4)).map(|_| self.node(depth)).collect()
    }

    fn node(&mut self, depth: u32) -> Node {
        const TEXTS: [&str; 5] = ["The baker ", "is back", " on Sundays,  from nine.", "漢字", "a-very-long-word"];
        if depth == 0 || self.below(3) == 0 {
            return Node::Text(TEXTS[self.below(5) as usize]);
        }
        Node::Filled(self.kind(), self.nodes(depth - 1))
    }
}

/// Fills a renderer by closures.
fn fill(r: &mut Renderer, nodes: &[Node]) -> Result<(), Error> {
    for node in nodes {
        match node {
            Node::Text(text) => r.add_inline_text(text)?,
            Node::Filled(kind, inside) => fill_one(r, *kind, inside)?,
        }
    }
    Ok(())
}

fn fill_one(r: &mut Renderer, kind: Kind, inside: &[Node]) -> Result<(), Error> {
    let inside = |r: &mut Renderer| fill(r, inside);
    match kind {
        Kind::Quote => r.quote(inside),
        Kind::Item => r.item(inside),
        Kind::Ordered(number) => r.ordered_item(number, inside),
        Kind::Header(level) => r.header(level, inside),
        Kind::Link => r.link("a", inside),
        Kind::Emphasis => r.emphasis(inside),
        Kind::Strong => r.strong(inside),
        Kind::Strikeout => r.strikeout(inside),
        Kind::Code => r.code(inside),
        Kind::Superscript => r.superscript(inside),
        Kind::Preformatted => r.preformatted(inside),
        Kind::Colour => r.colour(COLOUR, inside),
        Kind::Background => r.background(COLOUR, inside),
        Kind::PreWrap => r.white_space(WhiteSpace::PreWrap, inside),
    }
}

/// These calls as lines of a script, in this many columns.
fn script(nodes: &[Node], columns: usize) -> String {
    nodes
        .iter()
        .map(|node| match node {
            Node::Text(text) => format!("text {text}\n"),
            Node::Filled(kind, inside) => script_of(*kind, inside, columns),
        })
        .collect()
}

fn script_of(kind: Kind, inside: &[Node], columns: usize) -> String {
    let about = |begin: &str, end: &str| format!("{begin}\n{}{end}\n", script(inside, columns));
    let after = |first: &str, others: &str| {
        let left = columns - first.len();
        format!("sub {left}\n{}append {first} | {others}\n", script(inside, left))
    };
    let apart = |prefix: &str| format!("block\n{}endblock\n", after(prefix, prefix));
    let hanging = |prefix: &str| after(prefix, &" ".repeat(prefix.len()));
    match kind {
        Kind::Quote => apart("> "),
        Kind::Item => hanging("* "),
        Kind::Ordered(number) => hanging(&format!("{number}. ")),
        Kind::Header(level) => apart(&format!("{} ", "#".repeat(level))),
        Kind::Link => about("link a", "endlink"),
        Kind::Emphasis => about("em", "endem"),
        Kind::Strong => about("strong", "endstrong"),
        Kind::Strikeout => about("strike", "endstrike"),
        Kind::Code => about("code", "endcode"),
        Kind::Superscript => about("super", "endsuper"),
        Kind::Preformatted => about("ws pre\npre", "endpre\nendws"),
        Kind::Colour => about("colour 255 128 0", "endcolour"),
        Kind::Background => about("bg 255 128 0", "endbg"),
        Kind::PreWrap => about("ws prewrap", "endws"),
    }
}

#[test]
fn random_ones_are_what_the_script_says() -> Result<(), Error> {
    for seed in 0..300 {
        let mut numbers = Numbers(seed);
        let columns = 40 + numbers.below(30) as usize;
        let nodes: Vec<Node> = (0..20).map(|_| numbers.node(4)).collect();
        let mut renderer = Renderer::new(&Options::plain(columns).include_link_footnotes(true))?;
        fill(&mut renderer, &nodes)?;
        let wanted = format!("new {columns} plain footnotes\n{}", script(&nodes, columns));
        assert_eq!(renderer.into_string(), render_script(wanted.as_bytes()).map_err(|it| it.error), "{wanted}");
    }
    Ok(())
}

#[test]
fn the_trivial_decorator_has_no_prefixes() -> Result<(), Error> {
    let mut renderer = Renderer::new(&Options::trivial(4))?;
    renderer.header(usize::MAX, |header| header.add_inline_text("a"))?;
    renderer.item(|item| item.add_inline_text("bcd e"))?;
    assert_eq!(renderer.into_string()?, "a\nbcd\ne\n");
    Ok(())
}

#[test]
fn what_refuses_is_ended() -> Result<(), Error> {
    let mut renderer = Renderer::new(&Options::plain(20))?;
    let refused = renderer.quote(|quote| {
        quote.strikeout(|text| {
            text.add_inline_text("a")?;
            text.end_link()
        })
    });
    assert_eq!(refused, Err(Error::NothingToEnd));
    assert_eq!(renderer.depth(), Ok(0));
    renderer.add_inline_text("b")?;
    assert_eq!(renderer.into_string()?, "> a\u{336}\n\nb\n");
    Ok(())
}

#[test]
fn a_block_that_has_no_columns_is_not_begun() -> Result<(), Error> {
    let mut renderer = Renderer::new(&Options::plain(2))?;
    renderer.add_inline_text("a")?;
    let untouched = |_: &mut Renderer| panic!("a block without columns is filled");
    assert_eq!(renderer.quote(untouched), Err(Error::TooNarrow));
    assert_eq!(renderer.item(untouched), Err(Error::TooNarrow));
    assert_eq!(renderer.ordered_item(i64::MIN, untouched), Err(Error::TooNarrow));
    assert_eq!(renderer.header(usize::MAX, untouched), Err(Error::TooNarrow));
    assert_eq!((renderer.failure(), renderer.depth()), (None, Ok(0)));
    renderer.add_inline_text("b")?;
    assert_eq!(renderer.into_string()?, "ab\n");
    Ok(())
}

#[test]
fn a_header_of_more_levels_than_the_library_takes_is_told() -> Result<(), Error> {
    let mut renderer = Renderer::new(&Options::plain(300))?;
    assert_eq!(renderer.header(256, |_| Ok(())), Err(Error::BadArgument));
    renderer.header(255, |header| header.add_inline_text("a"))?;
    assert_eq!(renderer.into_string()?, format!("{} a\n", "#".repeat(255)));
    Ok(())
}

#[test]
fn a_level_that_is_left_open_or_closed_inside_is_told() -> Result<(), Error> {
    let mut renderer = Renderer::new(&Options::plain(20))?;
    assert_eq!(renderer.quote(|quote| quote.start_subrender(9)), Err(Error::StillOpen));
    assert_eq!(renderer.depth(), Ok(2));
    renderer.append_subrender("", "")?;
    renderer.end_quote()?;
    assert_eq!(renderer.item(Renderer::end_item), Err(Error::NothingToEnd));
    assert_eq!(renderer.item(|item| item.cell(3, |_| Ok(()))), Err(Error::StillOpen));
    assert_eq!((renderer.depth(), renderer.waiting_cells()), (Ok(1), Ok(1)));
    renderer.append_vert_row()?;
    renderer.end_item()?;
    assert_eq!(renderer.depth(), Ok(0));
    Ok(())
}

#[test]
fn a_refusal_that_is_kept_ends_all() -> Result<(), Error> {
    let mut renderer = Renderer::new(&Options::plain(3))?;
    let refused = renderer.quote(|quote| {
        quote.add_inline_text("漢")?;
        quote.new_line()
    });
    assert_eq!(refused, Err(Error::TooNarrow));
    assert_eq!(renderer.failure(), Some(Error::TooNarrow));
    Ok(())
}
