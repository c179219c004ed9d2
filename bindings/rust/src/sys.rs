//! What the library exports, as `include/text_block_renderer.h` declares it.

use std::ffi::c_char;

/// A renderer of the library. Only pointers to it exist.
#[repr(C)]
pub struct Renderer {
    _opaque: [u8; 0],
}

#[repr(C)]
#[cfg_attr(test, derive(Debug, Default, PartialEq))]
pub struct Options {
    pub size: usize,
    pub width: usize,
    pub wrap_width: usize,
    pub decorator: u32,
    pub images: u32,
    pub overflow: bool,
    pub pad: bool,
    pub footnotes: bool,
    pub wrap_links: bool,
    pub strikeout_strokes: bool,
    pub draw_borders: bool,
    pub unused: u16,
    pub raw: bool,
}

#[repr(C)]
pub struct Answer {
    pub status: u32,
    pub line: usize,
    pub length: usize,
}

#[repr(C)]
#[derive(Default)]
pub struct Line {
    pub bytes: usize,
    pub columns: usize,
    pub pieces: usize,
    pub is_border: bool,
}

pub const TEXT: u32 = 0;

#[repr(C)]
#[derive(Default)]
pub struct Piece {
    pub begin: usize,
    pub end: usize,
    pub annotations: usize,
    pub name_bytes: usize,
    pub kind: u32,
}

pub const LINK: u32 = 1;
pub const IMAGE: u32 = 2;
pub const EMPHASIS: u32 = 3;
pub const STRONG: u32 = 4;
pub const STRIKEOUT: u32 = 5;
pub const CODE: u32 = 6;
pub const PREFORMATTED: u32 = 7;
pub const PREFORMATTED_CONTINUED: u32 = 8;
pub const COLOUR: u32 = 9;
pub const BACKGROUND: u32 = 10;

#[repr(C)]
#[derive(Default)]
pub struct Annotation {
    pub target_bytes: usize,
    pub kind: u32,
    pub red: u8,
    pub green: u8,
    pub blue: u8,
}

#[repr(C)]
#[derive(Default)]
pub struct Extent {
    pub longest_word: usize,
    pub widest_line: usize,
}

extern "C" {
    pub fn tbr_render(script: *const c_char, length: usize, out: *mut c_char, room: usize) -> Answer;
    pub fn tbr_render_raw(script: *const c_char, length: usize, out: *mut c_char, room: usize) -> Answer;
    pub fn tbr_text_width_n(text: *const c_char, length: usize, columns: &mut usize) -> u32;
    pub fn tbr_measure_n(text: *const c_char, length: usize, mode: u32, extent: &mut Extent) -> u32;
    #[cfg(test)]
    pub fn tbr_options_init(options: &mut Options, size: usize, width: usize);
    pub fn tbr_new(options: &Options, renderer: &mut *mut Renderer) -> u32;
    pub fn tbr_free(renderer: *mut Renderer);

    pub fn tbr_add_text_n(renderer: *mut Renderer, text: *const c_char, length: usize) -> u32;
    pub fn tbr_start_block(renderer: *mut Renderer) -> u32;
    pub fn tbr_end_block(renderer: *mut Renderer) -> u32;
    pub fn tbr_start_table(renderer: *mut Renderer) -> u32;
    pub fn tbr_new_line(renderer: *mut Renderer) -> u32;
    pub fn tbr_new_line_hard(renderer: *mut Renderer) -> u32;
    pub fn tbr_add_empty_line(renderer: *mut Renderer) -> u32;
    pub fn tbr_add_border(renderer: *mut Renderer) -> u32;
    pub fn tbr_add_border_width(renderer: *mut Renderer, columns: usize) -> u32;
    pub fn tbr_push_white_space(renderer: *mut Renderer, mode: u32) -> u32;
    pub fn tbr_pop_white_space(renderer: *mut Renderer) -> u32;
    pub fn tbr_start_preformatted(renderer: *mut Renderer) -> u32;
    pub fn tbr_end_preformatted(renderer: *mut Renderer) -> u32;
    pub fn tbr_start_link_n(renderer: *mut Renderer, target: *const c_char, length: usize) -> u32;
    pub fn tbr_end_link(renderer: *mut Renderer) -> u32;
    pub fn tbr_start_emphasis(renderer: *mut Renderer) -> u32;
    pub fn tbr_end_emphasis(renderer: *mut Renderer) -> u32;
    pub fn tbr_start_strong(renderer: *mut Renderer) -> u32;
    pub fn tbr_end_strong(renderer: *mut Renderer) -> u32;
    pub fn tbr_start_strikeout(renderer: *mut Renderer) -> u32;
    pub fn tbr_end_strikeout(renderer: *mut Renderer) -> u32;
    pub fn tbr_start_code(renderer: *mut Renderer) -> u32;
    pub fn tbr_end_code(renderer: *mut Renderer) -> u32;
    pub fn tbr_start_superscript(renderer: *mut Renderer) -> u32;
    pub fn tbr_end_superscript(renderer: *mut Renderer) -> u32;
    pub fn tbr_start_colour(renderer: *mut Renderer, red: u8, green: u8, blue: u8) -> u32;
    pub fn tbr_end_colour(renderer: *mut Renderer) -> u32;
    pub fn tbr_start_background(renderer: *mut Renderer, red: u8, green: u8, blue: u8) -> u32;
    pub fn tbr_end_background(renderer: *mut Renderer) -> u32;
    pub fn tbr_add_image_n(
        renderer: *mut Renderer,
        source: *const c_char,
        source_length: usize,
        title: *const c_char,
        title_length: usize,
    ) -> u32;
    pub fn tbr_add_marker_n(renderer: *mut Renderer, name: *const c_char, length: usize) -> u32;
    pub fn tbr_start_quote(renderer: *mut Renderer) -> u32;
    pub fn tbr_end_quote(renderer: *mut Renderer) -> u32;
    pub fn tbr_start_item(renderer: *mut Renderer) -> u32;
    pub fn tbr_end_item(renderer: *mut Renderer) -> u32;
    pub fn tbr_start_ordered_item(renderer: *mut Renderer, number: i64) -> u32;
    pub fn tbr_end_ordered_item(renderer: *mut Renderer, number: i64) -> u32;
    pub fn tbr_start_header(renderer: *mut Renderer, level: usize) -> u32;
    pub fn tbr_end_header(renderer: *mut Renderer, level: usize) -> u32;
    pub fn tbr_start_sub(renderer: *mut Renderer, width: usize) -> u32;
    pub fn tbr_start_prefixed(renderer: *mut Renderer, prefix: usize) -> u32;
    pub fn tbr_append_sub_n(
        renderer: *mut Renderer,
        first: *const c_char,
        first_length: usize,
        others: *const c_char,
        others_length: usize,
    ) -> u32;
    pub fn tbr_start_cell(renderer: *mut Renderer, width: usize, span: usize, alignment: u32) -> u32;
    pub fn tbr_end_cell(renderer: *mut Renderer) -> u32;
    pub fn tbr_add_row(renderer: *mut Renderer, collapse: bool) -> u32;
    pub fn tbr_add_vertical_row(renderer: *mut Renderer) -> u32;
    pub fn tbr_start_auto_table(renderer: *mut Renderer) -> u32;
    pub fn tbr_start_auto_cell(renderer: *mut Renderer, columns: usize, rows: usize, alignment: u32) -> u32;
    pub fn tbr_end_auto_cell(renderer: *mut Renderer) -> u32;
    pub fn tbr_end_auto_row(renderer: *mut Renderer) -> u32;
    pub fn tbr_end_auto_table(renderer: *mut Renderer) -> u32;
    pub fn tbr_measure_open(renderer: *mut Renderer, extent: &mut Extent) -> u32;
    pub fn tbr_finish(renderer: *mut Renderer) -> u32;
    pub fn tbr_finish_text(renderer: *mut Renderer, length: &mut usize) -> u32;

    pub fn tbr_refusal(renderer: *mut Renderer) -> u32;
    pub fn tbr_is_empty(renderer: *mut Renderer, is_empty: &mut bool) -> u32;
    pub fn tbr_has_overhang(renderer: *mut Renderer, has_overhang: &mut bool) -> u32;
    pub fn tbr_width(renderer: *mut Renderer, columns: &mut usize) -> u32;
    pub fn tbr_width_minus(renderer: *mut Renderer, prefix: usize, least: usize, columns: &mut usize) -> u32;
    pub fn tbr_open_levels(renderer: *mut Renderer, count: &mut usize) -> u32;
    pub fn tbr_open_links(renderer: *mut Renderer, count: &mut usize) -> u32;
    pub fn tbr_waiting_cells(renderer: *mut Renderer, count: &mut usize) -> u32;
    pub fn tbr_quote_prefix(renderer: *mut Renderer, out: *mut c_char, room: usize, length: &mut usize) -> u32;
    pub fn tbr_item_prefix(renderer: *mut Renderer, out: *mut c_char, room: usize, length: &mut usize) -> u32;
    pub fn tbr_ordered_item_prefix(
        renderer: *mut Renderer,
        number: i64,
        out: *mut c_char,
        room: usize,
        length: &mut usize,
    ) -> u32;
    pub fn tbr_header_prefix(
        renderer: *mut Renderer,
        level: usize,
        out: *mut c_char,
        room: usize,
        length: &mut usize,
    ) -> u32;

    pub fn tbr_text(renderer: *mut Renderer, out: *mut c_char, room: usize, length: &mut usize) -> u32;
    pub fn tbr_text_as(renderer: *mut Renderer, format: u32, out: *mut c_char, room: usize, length: &mut usize) -> u32;
    pub fn tbr_line_as(renderer: *mut Renderer, format: u32, out: *mut c_char, room: usize, length: &mut usize) -> u32;
    pub fn tbr_next_line(renderer: *mut Renderer, line: &mut Line) -> u32;
    pub fn tbr_line_text(renderer: *mut Renderer, out: *mut c_char, room: usize, length: &mut usize) -> u32;
    pub fn tbr_get_piece(renderer: *mut Renderer, place: usize, piece: &mut Piece) -> u32;
    pub fn tbr_marker_name(
        renderer: *mut Renderer,
        place: usize,
        out: *mut c_char,
        room: usize,
        length: &mut usize,
    ) -> u32;
    pub fn tbr_get_annotation(renderer: *mut Renderer, piece: usize, place: usize, annotation: &mut Annotation) -> u32;
    pub fn tbr_annotation_target(
        renderer: *mut Renderer,
        piece: usize,
        place: usize,
        out: *mut c_char,
        room: usize,
        length: &mut usize,
    ) -> u32;

    #[cfg(test)]
    pub fn tbr_status_text(status: u32) -> *const c_char;
    pub fn tbr_version() -> *const c_char;
}
