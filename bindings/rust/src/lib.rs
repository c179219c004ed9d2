#![doc = include_str!("../README.md")]
#![warn(missing_docs)]

mod error;
mod handle;
mod line;
mod lines;
mod nested;
mod options;
mod renderer;
mod script;
mod sys;
mod table;
mod version;
mod width;

pub use error::Error;
pub use line::{Colour, RichAnnotation, TaggedLine, TaggedLineElement, TaggedString};
pub use lines::Lines;
pub use options::{Cell, CellAlign, Format, ImageRenderMode, Options, WhiteSpace};
pub use renderer::Renderer;
pub use script::{render_script, render_script_raw, ScriptError};
pub use table::{Row, Table, TableCell};
pub use version::version;
pub use width::{measure, text_width, Extent};
