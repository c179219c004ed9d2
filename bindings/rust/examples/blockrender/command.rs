//! What a line of a script asks for.

use crate::text::{byte, number, size, text, two_texts};
use text_block_renderer::{Cell, CellAlign, Colour, Error, ImageRenderMode, Options, Renderer, WhiteSpace};

/// A call without arguments.
type Call = fn(&mut Renderer) -> Result<(), Error>;

/// A line after the first command.
pub enum Command {
    Plain(Call),
    Text(String),
    Marker(String),
    Link(String),
    Image(String, String),
    Border(usize),
    Mode(WhiteSpace),
    Colour(Colour),
    Background(Colour),
    Sub(usize),
    Append(String, String),
    Cell(Cell),
    Row { collapse: bool },
}

impl Command {
    /// What a line asks for; `None` if it isn't a command.
    pub fn parse(line: &str) -> Option<Command> {
        match line.split_once(' ') {
            Some((word, argument)) => Command::with_argument(word, argument),
            None if line == "row" => Some(Command::Row { collapse: false }),
            None => plain(line).map(Command::Plain),
        }
    }

    fn with_argument(word: &str, argument: &str) -> Option<Command> {
        Some(match word {
            "text" => Command::Text(text(argument)?),
            "frag" => Command::Marker(text(argument)?),
            "link" => Command::Link(text(argument)?),
            "image" => two_texts(argument).map(|(source, title)| Command::Image(source, title))?,
            "border" => Command::Border(number(argument)?),
            "ws" => Command::Mode(mode(argument)?),
            "colour" => Command::Colour(colour(argument)?),
            "bg" => Command::Background(colour(argument)?),
            "sub" => Command::Sub(size(argument)?),
            "append" => two_texts(argument).map(|(first, others)| Command::Append(first, others))?,
            "cell" => Command::Cell(cell(argument)?),
            "row" if argument == "collapse" => Command::Row { collapse: true },
            _ => return None,
        })
    }

    /// Makes the call.
    pub fn run(self, renderer: &mut Renderer) -> Result<(), Error> {
        match self {
            Command::Plain(call) => call(renderer),
            Command::Text(text) => renderer.add_inline_text(&text),
            Command::Marker(name) => renderer.record_frag_start(&name),
            Command::Link(target) => renderer.start_link(&target),
            Command::Image(source, title) => renderer.add_image(&source, &title),
            Command::Border(columns) => renderer.add_horizontal_border_width(columns),
            Command::Mode(mode) => renderer.push_ws(mode),
            Command::Colour(colour) => renderer.push_colour(colour),
            Command::Background(colour) => renderer.push_bgcolour(colour),
            Command::Sub(width) => renderer.start_subrender(width),
            Command::Append(first, others) => renderer.append_subrender(&first, &others),
            Command::Cell(cell) => renderer.start_cell(cell),
            Command::Row { collapse } => renderer.append_columns_with_borders(collapse),
        }
    }
}

fn plain(line: &str) -> Option<Call> {
    Some(match line {
        "block" => Renderer::start_block,
        "endblock" => |renderer| renderer.end_block(),
        "table" => |renderer| renderer.start_table(),
        "line" => |renderer| renderer.new_line(),
        "hardline" => |renderer| renderer.new_line_hard(),
        "empty" => |renderer| renderer.add_empty_line(),
        "border" => |renderer| renderer.add_horizontal_border(),
        "endws" => |renderer| renderer.pop_ws(),
        "pre" => |renderer| renderer.push_preformat(),
        "endpre" => |renderer| renderer.pop_preformat(),
        "endlink" => |renderer| renderer.end_link(),
        "em" => |renderer| renderer.start_emphasis(),
        "endem" => |renderer| renderer.end_emphasis(),
        "strong" => |renderer| renderer.start_strong(),
        "endstrong" => |renderer| renderer.end_strong(),
        "strike" => |renderer| renderer.start_strikeout(),
        "endstrike" => |renderer| renderer.end_strikeout(),
        "code" => |renderer| renderer.start_code(),
        "endcode" => |renderer| renderer.end_code(),
        "super" => |renderer| renderer.start_superscript(),
        "endsuper" => |renderer| renderer.end_superscript(),
        "endcolour" => |renderer| renderer.pop_colour(),
        "endbg" => |renderer| renderer.pop_bgcolour(),
        "endcell" => |renderer| renderer.end_cell(),
        "vrow" => |renderer| renderer.append_vert_row(),
        _ => return None,
    })
}

fn mode(word: &str) -> Option<WhiteSpace> {
    match word {
        "normal" => Some(WhiteSpace::Normal),
        "pre" => Some(WhiteSpace::Pre),
        "prewrap" => Some(WhiteSpace::PreWrap),
        _ => None,
    }
}

fn colour(argument: &str) -> Option<Colour> {
    let mut parts = argument.splitn(3, ' ').map(byte);
    Some(Colour { r: parts.next()??, g: parts.next()??, b: parts.next()?? })
}

fn cell(argument: &str) -> Option<Cell> {
    let mut words = argument.splitn(3, ' ');
    let cell = Cell::new(size(words.next()?)?).span(size(words.next()?)?);
    Some(cell.align(match words.next() {
        None | Some("left") => CellAlign::Left,
        Some("right") => CellAlign::Right,
        Some("centre") => CellAlign::Centre,
        Some(_) => return None,
    }))
}

/// What the first command of a script asks for; `None` if the line isn't one.
pub fn opening(line: &str) -> Option<Options> {
    let mut words = line.strip_prefix("new ")?.split(' ');
    let width = size(words.next()?)?;
    let options = match words.next()? {
        "plain" => Options::plain(width),
        "trivial" => Options::trivial(width),
        "rich" => Options::rich(width),
        _ => return None,
    };
    words.try_fold(options.raw(true), option)
}

/// The options with one more set.
fn option(options: Options, word: &str) -> Option<Options> {
    Some(match word {
        "pad" => options.pad_block_width(true),
        "overflow" => options.allow_width_overflow(true),
        "footnotes" => options.include_link_footnotes(true),
        "nowraplinks" => options.wrap_links(false),
        "nostrike" => options.use_unicode_strikeout(false),
        "noborders" => options.draw_borders(false),
        "img=ignore" => options.img_mode(ImageRenderMode::IgnoreEmpty),
        "img=always" => options.img_mode(ImageRenderMode::ShowAlways),
        "img=filename" => options.img_mode(ImageRenderMode::Filename),
        _ => options.wrap_width(size(word.strip_prefix("wrap=")?)?),
    })
}
