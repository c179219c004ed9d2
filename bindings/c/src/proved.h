/*
 * What the proved crates tbr_c and tbr_c_script export, for text_block_renderer.c alone.
 *
 * A renderer goes in by value, as the one field of a struct, and comes back through the last pointer, also where a call
 * refuses; it is the same pointer. No other pointer may be NULL, even where the number of bytes there is 0. For a number
 * to which an enum gives no name the answer is TBR_BAD_ARGUMENT.
 */
#ifndef TBR_PROVED_H
#define TBR_PROVED_H

#include "text_block_renderer.h"

/* What a renderer is told to do, without the size. */
typedef struct tbr1_options {
    size_t width;
    size_t wrap_width;
    uint32_t decorator;
    uint32_t images;
    bool overflow;
    bool pad;
    bool footnotes;
    bool wrap_links;
    bool strikeout_strokes;
    bool draw_borders;
    bool raw;
} tbr1_options;

typedef struct tbr1_handle {
    tbr_renderer *at;
} tbr1_handle;

tbr_answer tbr1_render(const uint8_t *script, size_t length, bool raw, uint8_t *out, size_t room);
uint32_t tbr1_text_width(const uint8_t *text, size_t length, size_t *columns);
uint32_t tbr1_measure(const uint8_t *text, size_t length, uint32_t mode, tbr_extent *extent);
uint32_t tbr1_new(const tbr1_options *options, tbr_renderer **back);
void tbr1_free(tbr1_handle renderer);

uint32_t tbr1_add_text(tbr1_handle renderer, const uint8_t *text, size_t length, tbr_renderer **back);
uint32_t tbr1_start_block(tbr1_handle renderer, tbr_renderer **back);
uint32_t tbr1_end_block(tbr1_handle renderer, tbr_renderer **back);
uint32_t tbr1_start_table(tbr1_handle renderer, tbr_renderer **back);
uint32_t tbr1_new_line(tbr1_handle renderer, tbr_renderer **back);
uint32_t tbr1_new_line_hard(tbr1_handle renderer, tbr_renderer **back);
uint32_t tbr1_add_empty_line(tbr1_handle renderer, tbr_renderer **back);
uint32_t tbr1_add_border(tbr1_handle renderer, tbr_renderer **back);
uint32_t tbr1_add_border_width(tbr1_handle renderer, size_t columns, tbr_renderer **back);
uint32_t tbr1_push_white_space(tbr1_handle renderer, uint32_t mode, tbr_renderer **back);
uint32_t tbr1_pop_white_space(tbr1_handle renderer, tbr_renderer **back);
uint32_t tbr1_start_preformatted(tbr1_handle renderer, tbr_renderer **back);
uint32_t tbr1_end_preformatted(tbr1_handle renderer, tbr_renderer **back);
uint32_t tbr1_start_link(tbr1_handle renderer, const uint8_t *target, size_t length, tbr_renderer **back);
uint32_t tbr1_end_link(tbr1_handle renderer, tbr_renderer **back);
uint32_t tbr1_start_emphasis(tbr1_handle renderer, tbr_renderer **back);
uint32_t tbr1_end_emphasis(tbr1_handle renderer, tbr_renderer **back);
uint32_t tbr1_start_strong(tbr1_handle renderer, tbr_renderer **back);
uint32_t tbr1_end_strong(tbr1_handle renderer, tbr_renderer **back);
uint32_t tbr1_start_strikeout(tbr1_handle renderer, tbr_renderer **back);
uint32_t tbr1_end_strikeout(tbr1_handle renderer, tbr_renderer **back);
uint32_t tbr1_start_code(tbr1_handle renderer, tbr_renderer **back);
uint32_t tbr1_end_code(tbr1_handle renderer, tbr_renderer **back);
uint32_t tbr1_start_superscript(tbr1_handle renderer, tbr_renderer **back);
uint32_t tbr1_end_superscript(tbr1_handle renderer, tbr_renderer **back);
uint32_t tbr1_start_colour(tbr1_handle renderer, uint8_t red, uint8_t green, uint8_t blue, tbr_renderer **back);
uint32_t tbr1_end_colour(tbr1_handle renderer, tbr_renderer **back);
uint32_t tbr1_start_background(tbr1_handle renderer, uint8_t red, uint8_t green, uint8_t blue, tbr_renderer **back);
uint32_t tbr1_end_background(tbr1_handle renderer, tbr_renderer **back);
uint32_t tbr1_add_image(tbr1_handle renderer, const uint8_t *source, size_t source_length, const uint8_t *title,
    size_t title_length, tbr_renderer **back);
uint32_t tbr1_add_marker(tbr1_handle renderer, const uint8_t *name, size_t length, tbr_renderer **back);
uint32_t tbr1_start_sub(tbr1_handle renderer, size_t width, tbr_renderer **back);
uint32_t tbr1_append_sub(tbr1_handle renderer, const uint8_t *first, size_t first_length, const uint8_t *others,
    size_t others_length, tbr_renderer **back);
uint32_t tbr1_start_cell(tbr1_handle renderer, size_t width, size_t span, uint32_t alignment, tbr_renderer **back);
uint32_t tbr1_end_cell(tbr1_handle renderer, tbr_renderer **back);
uint32_t tbr1_add_row(tbr1_handle renderer, bool collapse, tbr_renderer **back);
uint32_t tbr1_add_vertical_row(tbr1_handle renderer, tbr_renderer **back);
uint32_t tbr1_start_auto_table(tbr1_handle renderer, tbr_renderer **back);
uint32_t tbr1_start_auto_cell(tbr1_handle renderer, size_t columns, size_t rows, uint32_t alignment,
    tbr_renderer **back);
uint32_t tbr1_end_auto_cell(tbr1_handle renderer, tbr_renderer **back);
uint32_t tbr1_end_auto_row(tbr1_handle renderer, tbr_renderer **back);
uint32_t tbr1_end_auto_table(tbr1_handle renderer, tbr_renderer **back);
/* Opens a block in a cell of a table, as wide as a prefix of so many columns leaves. */
uint32_t tbr1_start_inside(tbr1_handle renderer, size_t prefix, tbr_renderer **back);
uint32_t tbr1_measure_open(tbr1_handle renderer, tbr_extent *extent, tbr_renderer **back);
uint32_t tbr1_finish(tbr1_handle renderer, tbr_renderer **back);
uint32_t tbr1_finish_text(tbr1_handle renderer, size_t *length, tbr_renderer **back);

uint32_t tbr1_refusal(tbr1_handle renderer, tbr_renderer **back);
uint32_t tbr1_is_empty(tbr1_handle renderer, bool *is_empty, tbr_renderer **back);
uint32_t tbr1_has_overhang(tbr1_handle renderer, bool *has_overhang, tbr_renderer **back);
uint32_t tbr1_width(tbr1_handle renderer, size_t *columns, tbr_renderer **back);
uint32_t tbr1_width_minus(tbr1_handle renderer, size_t prefix, size_t least, size_t *columns, tbr_renderer **back);
uint32_t tbr1_open_levels(tbr1_handle renderer, size_t *count, tbr_renderer **back);
uint32_t tbr1_open_links(tbr1_handle renderer, size_t *count, tbr_renderer **back);
uint32_t tbr1_waiting_cells(tbr1_handle renderer, size_t *count, tbr_renderer **back);
uint32_t tbr1_quote_prefix(tbr1_handle renderer, uint8_t *out, size_t room, size_t *length, tbr_renderer **back);
uint32_t tbr1_item_prefix(tbr1_handle renderer, uint8_t *out, size_t room, size_t *length, tbr_renderer **back);
uint32_t tbr1_ordered_item_prefix(tbr1_handle renderer, int64_t number, uint8_t *out, size_t room, size_t *length,
    tbr_renderer **back);
uint32_t tbr1_header_prefix(tbr1_handle renderer, size_t level, uint8_t *out, size_t room, size_t *length,
    tbr_renderer **back);

uint32_t tbr1_text(tbr1_handle renderer, uint8_t *out, size_t room, size_t *length, tbr_renderer **back);
/* The number of a format is one below that of its tbr_format: TBR_FORMAT_TEXT has none. */
uint32_t tbr1_text_as(tbr1_handle renderer, uint32_t format, uint8_t *out, size_t room, size_t *length,
    tbr_renderer **back);
uint32_t tbr1_line_as(tbr1_handle renderer, uint32_t format, uint8_t *out, size_t room, size_t *length,
    tbr_renderer **back);
uint32_t tbr1_next_line(tbr1_handle renderer, tbr_line *line, tbr_renderer **back);
uint32_t tbr1_line_text(tbr1_handle renderer, uint8_t *out, size_t room, size_t *length, tbr_renderer **back);
uint32_t tbr1_get_piece(tbr1_handle renderer, size_t place, tbr_piece *piece, tbr_renderer **back);
uint32_t tbr1_marker_name(tbr1_handle renderer, size_t place, uint8_t *out, size_t room, size_t *length,
    tbr_renderer **back);
uint32_t tbr1_get_annotation(tbr1_handle renderer, size_t piece, size_t place, tbr_annotation *annotation,
    tbr_renderer **back);
uint32_t tbr1_annotation_target(tbr1_handle renderer, size_t piece, size_t place, uint8_t *out, size_t room,
    size_t *length, tbr_renderer **back);

#endif
