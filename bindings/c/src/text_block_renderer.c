/*
 * The calls of the library, as text_block_renderer.h declares them, over what is proved.
 *
 * Each looks whether pointers are NULL, and calls one function of the proved crates. Those of quotes, lists and headers
 * make several calls. Nothing here is proved.
 */
#include "proved.h"

#include <string.h>

/* What comes after the version, as "+unproved". */
#ifndef TBR_BUILD
#define TBR_BUILD ""
#endif

static tbr1_handle handle_of(tbr_renderer *renderer) {
    tbr1_handle handle;
    handle.at = renderer;
    return handle;
}

/* The pointer to a text, or one to no bytes where that is NULL. */
static const uint8_t *bytes_of(const char *text) {
    return (const uint8_t *)(text ? text : "");
}

static size_t length_of(const char *text) {
    return text ? strlen(text) : 0;
}

/* The same for a buffer, where the caller has a spare byte. */
static uint8_t *room_of(char *out, uint8_t *spare) {
    return out ? (uint8_t *)out : spare;
}

/* Whether a text is NULL that is said to have bytes. */
static bool is_missing(const char *text, size_t length) {
    return !text && length;
}

/* ---- a script as a whole ---- */

static tbr_answer rendered(const char *script, size_t length, bool raw, char *out, size_t room) {
    uint8_t spare = 0;
    if (is_missing(script, length) || is_missing(out, room)) {
        tbr_answer missing = {TBR_BAD_ARGUMENT, 0, 0};
        return missing;
    }
    return tbr1_render(bytes_of(script), length, raw, room_of(out, &spare), room);
}

tbr_answer tbr_render(const char *script, size_t length, char *out, size_t room) {
    return rendered(script, length, false, out, room);
}

tbr_answer tbr_render_raw(const char *script, size_t length, char *out, size_t room) {
    return rendered(script, length, true, out, room);
}

/* ---- how wide a text is ---- */

tbr_status tbr_text_width_n(const char *text, size_t length, size_t *columns) {
    return is_missing(text, length) ? TBR_BAD_ARGUMENT
                                        : (tbr_status)tbr1_text_width(bytes_of(text), length, columns);
}

tbr_status tbr_text_width(const char *text, size_t *columns) {
    return tbr_text_width_n(text, length_of(text), columns);
}

tbr_status tbr_measure_n(const char *text, size_t length, tbr_white_space mode, tbr_extent *extent) {
    return is_missing(text, length) ? TBR_BAD_ARGUMENT
                                    : (tbr_status)tbr1_measure(bytes_of(text), length, (uint32_t)mode, extent);
}

tbr_status tbr_measure(const char *text, tbr_white_space mode, tbr_extent *extent) {
    return tbr_measure_n(text, length_of(text), mode, extent);
}

/* ---- making a renderer ---- */

/* The bytes of the options of the first version that had a size. A later field begins after them. */
enum { FIRST_OPTIONS = 40 };

void tbr_options_init(tbr_options *options, size_t size, size_t width) {
    tbr_options known;
    memset(&known, 0, sizeof known);
    known.size = size;
    known.width = width;
    known.wrap_links = true;
    known.strikeout_strokes = true;
    known.draw_borders = true;
    memset(options, 0, size);
    memcpy(options, &known, size < sizeof known ? size : sizeof known);
}

/* Whether options ask for no more than this version knows: further fields of a later one are 0. */
static bool are_known(const tbr_options *options) {
    const uint8_t *bytes = (const uint8_t *)options;
    for (size_t at = sizeof *options; at < options->size; at++) {
        if (bytes[at]) {
            return false;
        }
    }
    return options->size >= FIRST_OPTIONS;
}

/* The options of a caller, with the defaults of fields that it doesn't know. */
static tbr1_options options_of(const tbr_options *given) {
    tbr_options options = tbr_options_default(0);
    memcpy(&options, given, given->size < sizeof options ? given->size : sizeof options);
    tbr1_options passed = {options.width, options.wrap_width, options.decorator, options.images, options.overflow,
        options.pad, options.footnotes, options.wrap_links, options.strikeout_strokes, options.draw_borders, options.raw};
    return passed;
}

tbr_status tbr_new(const tbr_options *options, tbr_renderer **renderer) {
    *renderer = NULL;
    if (!are_known(options)) {
        return TBR_BAD_ARGUMENT;
    }
    tbr1_options passed = options_of(options);
    return (tbr_status)tbr1_new(&passed, renderer);
}

void tbr_free(tbr_renderer *renderer) {
    if (renderer) {
        tbr1_free(handle_of(renderer));
    }
}

/* ---- filling it: text, blocks and lines ---- */

tbr_status tbr_add_text_n(tbr_renderer *renderer, const char *text, size_t length) {
    if (is_missing(text, length)) {
        return TBR_BAD_ARGUMENT;
    }
    return renderer ? (tbr_status)tbr1_add_text(handle_of(renderer), bytes_of(text), length, &renderer)
                    : TBR_NO_RENDERER;
}

tbr_status tbr_add_text(tbr_renderer *renderer, const char *text) {
    return tbr_add_text_n(renderer, text, length_of(text));
}

tbr_status tbr_start_block(tbr_renderer *renderer) {
    return renderer ? (tbr_status)tbr1_start_block(handle_of(renderer), &renderer) : TBR_NO_RENDERER;
}

tbr_status tbr_end_block(tbr_renderer *renderer) {
    return renderer ? (tbr_status)tbr1_end_block(handle_of(renderer), &renderer) : TBR_NO_RENDERER;
}

tbr_status tbr_start_table(tbr_renderer *renderer) {
    return renderer ? (tbr_status)tbr1_start_table(handle_of(renderer), &renderer) : TBR_NO_RENDERER;
}

tbr_status tbr_new_line(tbr_renderer *renderer) {
    return renderer ? (tbr_status)tbr1_new_line(handle_of(renderer), &renderer) : TBR_NO_RENDERER;
}

tbr_status tbr_new_line_hard(tbr_renderer *renderer) {
    return renderer ? (tbr_status)tbr1_new_line_hard(handle_of(renderer), &renderer) : TBR_NO_RENDERER;
}

tbr_status tbr_add_empty_line(tbr_renderer *renderer) {
    return renderer ? (tbr_status)tbr1_add_empty_line(handle_of(renderer), &renderer) : TBR_NO_RENDERER;
}

tbr_status tbr_add_border(tbr_renderer *renderer) {
    return renderer ? (tbr_status)tbr1_add_border(handle_of(renderer), &renderer) : TBR_NO_RENDERER;
}

tbr_status tbr_add_border_width(tbr_renderer *renderer, size_t columns) {
    return renderer ? (tbr_status)tbr1_add_border_width(handle_of(renderer), columns, &renderer)
                    : TBR_NO_RENDERER;
}

tbr_status tbr_push_white_space(tbr_renderer *renderer, tbr_white_space mode) {
    return renderer ? (tbr_status)tbr1_push_white_space(handle_of(renderer), (uint32_t)mode, &renderer)
                    : TBR_NO_RENDERER;
}

tbr_status tbr_pop_white_space(tbr_renderer *renderer) {
    return renderer ? (tbr_status)tbr1_pop_white_space(handle_of(renderer), &renderer) : TBR_NO_RENDERER;
}

tbr_status tbr_add_marker_n(tbr_renderer *renderer, const char *name, size_t length) {
    if (is_missing(name, length)) {
        return TBR_BAD_ARGUMENT;
    }
    return renderer ? (tbr_status)tbr1_add_marker(handle_of(renderer), bytes_of(name), length, &renderer)
                    : TBR_NO_RENDERER;
}

tbr_status tbr_add_marker(tbr_renderer *renderer, const char *name) {
    return tbr_add_marker_n(renderer, name, length_of(name));
}

/* ---- filling it: decorated text ---- */

tbr_status tbr_start_link_n(tbr_renderer *renderer, const char *target, size_t length) {
    if (is_missing(target, length)) {
        return TBR_BAD_ARGUMENT;
    }
    return renderer ? (tbr_status)tbr1_start_link(handle_of(renderer), bytes_of(target), length, &renderer)
                    : TBR_NO_RENDERER;
}

tbr_status tbr_start_link(tbr_renderer *renderer, const char *target) {
    return tbr_start_link_n(renderer, target, length_of(target));
}

tbr_status tbr_end_link(tbr_renderer *renderer) {
    return renderer ? (tbr_status)tbr1_end_link(handle_of(renderer), &renderer) : TBR_NO_RENDERER;
}

tbr_status tbr_start_emphasis(tbr_renderer *renderer) {
    return renderer ? (tbr_status)tbr1_start_emphasis(handle_of(renderer), &renderer) : TBR_NO_RENDERER;
}

tbr_status tbr_end_emphasis(tbr_renderer *renderer) {
    return renderer ? (tbr_status)tbr1_end_emphasis(handle_of(renderer), &renderer) : TBR_NO_RENDERER;
}

tbr_status tbr_start_strong(tbr_renderer *renderer) {
    return renderer ? (tbr_status)tbr1_start_strong(handle_of(renderer), &renderer) : TBR_NO_RENDERER;
}

tbr_status tbr_end_strong(tbr_renderer *renderer) {
    return renderer ? (tbr_status)tbr1_end_strong(handle_of(renderer), &renderer) : TBR_NO_RENDERER;
}

tbr_status tbr_start_strikeout(tbr_renderer *renderer) {
    return renderer ? (tbr_status)tbr1_start_strikeout(handle_of(renderer), &renderer) : TBR_NO_RENDERER;
}

tbr_status tbr_end_strikeout(tbr_renderer *renderer) {
    return renderer ? (tbr_status)tbr1_end_strikeout(handle_of(renderer), &renderer) : TBR_NO_RENDERER;
}

tbr_status tbr_start_code(tbr_renderer *renderer) {
    return renderer ? (tbr_status)tbr1_start_code(handle_of(renderer), &renderer) : TBR_NO_RENDERER;
}

tbr_status tbr_end_code(tbr_renderer *renderer) {
    return renderer ? (tbr_status)tbr1_end_code(handle_of(renderer), &renderer) : TBR_NO_RENDERER;
}

tbr_status tbr_start_superscript(tbr_renderer *renderer) {
    return renderer ? (tbr_status)tbr1_start_superscript(handle_of(renderer), &renderer) : TBR_NO_RENDERER;
}

tbr_status tbr_end_superscript(tbr_renderer *renderer) {
    return renderer ? (tbr_status)tbr1_end_superscript(handle_of(renderer), &renderer) : TBR_NO_RENDERER;
}

tbr_status tbr_start_preformatted(tbr_renderer *renderer) {
    return renderer ? (tbr_status)tbr1_start_preformatted(handle_of(renderer), &renderer) : TBR_NO_RENDERER;
}

tbr_status tbr_end_preformatted(tbr_renderer *renderer) {
    return renderer ? (tbr_status)tbr1_end_preformatted(handle_of(renderer), &renderer) : TBR_NO_RENDERER;
}

tbr_status tbr_start_colour(tbr_renderer *renderer, uint8_t red, uint8_t green, uint8_t blue) {
    return renderer ? (tbr_status)tbr1_start_colour(handle_of(renderer), red, green, blue, &renderer)
                    : TBR_NO_RENDERER;
}

tbr_status tbr_end_colour(tbr_renderer *renderer) {
    return renderer ? (tbr_status)tbr1_end_colour(handle_of(renderer), &renderer) : TBR_NO_RENDERER;
}

tbr_status tbr_start_background(tbr_renderer *renderer, uint8_t red, uint8_t green, uint8_t blue) {
    return renderer ? (tbr_status)tbr1_start_background(handle_of(renderer), red, green, blue, &renderer)
                    : TBR_NO_RENDERER;
}

tbr_status tbr_end_background(tbr_renderer *renderer) {
    return renderer ? (tbr_status)tbr1_end_background(handle_of(renderer), &renderer) : TBR_NO_RENDERER;
}

tbr_status tbr_add_image_n(tbr_renderer *renderer, const char *source, size_t source_length,
    const char *title, size_t title_length) {
    if (is_missing(source, source_length) || is_missing(title, title_length)) {
        return TBR_BAD_ARGUMENT;
    }
    return renderer ? (tbr_status)tbr1_add_image(handle_of(renderer), bytes_of(source), source_length,
                          bytes_of(title), title_length, &renderer)
                    : TBR_NO_RENDERER;
}

tbr_status tbr_add_image(tbr_renderer *renderer, const char *source, const char *title) {
    return tbr_add_image_n(renderer, source, length_of(source), title, length_of(title));
}

/* ---- filling it: levels ---- */

tbr_status tbr_start_sub(tbr_renderer *renderer, size_t width) {
    return renderer ? (tbr_status)tbr1_start_sub(handle_of(renderer), width, &renderer) : TBR_NO_RENDERER;
}

/* In a table, the columns of the level that it is in aren't known yet. */
tbr_status tbr_start_prefixed(tbr_renderer *renderer, size_t prefix) {
    size_t columns = 0;
    tbr_status status = tbr_width_minus(renderer, prefix, 1, &columns);
    if (status == TBR_IN_TABLE) return (tbr_status)tbr1_start_inside(handle_of(renderer), prefix, &renderer);
    return status ? status : tbr_start_sub(renderer, columns);
}

tbr_status tbr_append_sub_n(tbr_renderer *renderer, const char *first, size_t first_length,
    const char *others, size_t others_length) {
    if (is_missing(first, first_length) || is_missing(others, others_length)) {
        return TBR_BAD_ARGUMENT;
    }
    return renderer ? (tbr_status)tbr1_append_sub(handle_of(renderer), bytes_of(first), first_length,
                          bytes_of(others), others_length, &renderer)
                    : TBR_NO_RENDERER;
}

tbr_status tbr_append_sub(tbr_renderer *renderer, const char *first, const char *others) {
    return tbr_append_sub_n(renderer, first, length_of(first), others, length_of(others));
}

tbr_status tbr_start_cell(tbr_renderer *renderer, size_t width, size_t span, tbr_alignment alignment) {
    return renderer
        ? (tbr_status)tbr1_start_cell(handle_of(renderer), width, span, (uint32_t)alignment, &renderer)
        : TBR_NO_RENDERER;
}

tbr_status tbr_end_cell(tbr_renderer *renderer) {
    return renderer ? (tbr_status)tbr1_end_cell(handle_of(renderer), &renderer) : TBR_NO_RENDERER;
}

tbr_status tbr_add_row(tbr_renderer *renderer, bool collapse) {
    return renderer ? (tbr_status)tbr1_add_row(handle_of(renderer), collapse, &renderer) : TBR_NO_RENDERER;
}

tbr_status tbr_add_vertical_row(tbr_renderer *renderer) {
    return renderer ? (tbr_status)tbr1_add_vertical_row(handle_of(renderer), &renderer) : TBR_NO_RENDERER;
}

/* ---- filling it: tables that find their widths ---- */

tbr_status tbr_start_auto_table(tbr_renderer *renderer) {
    return renderer ? (tbr_status)tbr1_start_auto_table(handle_of(renderer), &renderer) : TBR_NO_RENDERER;
}

tbr_status tbr_start_auto_cell(tbr_renderer *renderer, size_t columns, size_t rows, tbr_alignment alignment) {
    return renderer
        ? (tbr_status)tbr1_start_auto_cell(handle_of(renderer), columns, rows, (uint32_t)alignment, &renderer)
        : TBR_NO_RENDERER;
}

tbr_status tbr_end_auto_cell(tbr_renderer *renderer) {
    return renderer ? (tbr_status)tbr1_end_auto_cell(handle_of(renderer), &renderer) : TBR_NO_RENDERER;
}

tbr_status tbr_end_auto_row(tbr_renderer *renderer) {
    return renderer ? (tbr_status)tbr1_end_auto_row(handle_of(renderer), &renderer) : TBR_NO_RENDERER;
}

tbr_status tbr_end_auto_table(tbr_renderer *renderer) {
    return renderer ? (tbr_status)tbr1_end_auto_table(handle_of(renderer), &renderer) : TBR_NO_RENDERER;
}

tbr_status tbr_measure_open(tbr_renderer *renderer, tbr_extent *extent) {
    return renderer ? (tbr_status)tbr1_measure_open(handle_of(renderer), extent, &renderer) : TBR_NO_RENDERER;
}

tbr_status tbr_finish(tbr_renderer *renderer) {
    return renderer ? (tbr_status)tbr1_finish(handle_of(renderer), &renderer) : TBR_NO_RENDERER;
}

tbr_status tbr_finish_text(tbr_renderer *renderer, size_t *length) {
    return renderer ? (tbr_status)tbr1_finish_text(handle_of(renderer), length, &renderer) : TBR_NO_RENDERER;
}

/* ---- questions to a renderer that is being filled ---- */

tbr_status tbr_refusal(tbr_renderer *renderer) {
    return renderer ? (tbr_status)tbr1_refusal(handle_of(renderer), &renderer) : TBR_NO_RENDERER;
}

tbr_status tbr_is_empty(tbr_renderer *renderer, bool *is_empty) {
    return renderer ? (tbr_status)tbr1_is_empty(handle_of(renderer), is_empty, &renderer) : TBR_NO_RENDERER;
}

tbr_status tbr_has_overhang(tbr_renderer *renderer, bool *has_overhang) {
    return renderer ? (tbr_status)tbr1_has_overhang(handle_of(renderer), has_overhang, &renderer)
                    : TBR_NO_RENDERER;
}

tbr_status tbr_width(tbr_renderer *renderer, size_t *columns) {
    return renderer ? (tbr_status)tbr1_width(handle_of(renderer), columns, &renderer) : TBR_NO_RENDERER;
}

tbr_status tbr_width_minus(tbr_renderer *renderer, size_t prefix, size_t least, size_t *columns) {
    return renderer ? (tbr_status)tbr1_width_minus(handle_of(renderer), prefix, least, columns, &renderer)
                    : TBR_NO_RENDERER;
}

tbr_status tbr_open_levels(tbr_renderer *renderer, size_t *count) {
    return renderer ? (tbr_status)tbr1_open_levels(handle_of(renderer), count, &renderer) : TBR_NO_RENDERER;
}

tbr_status tbr_open_links(tbr_renderer *renderer, size_t *count) {
    return renderer ? (tbr_status)tbr1_open_links(handle_of(renderer), count, &renderer) : TBR_NO_RENDERER;
}

tbr_status tbr_waiting_cells(tbr_renderer *renderer, size_t *count) {
    return renderer ? (tbr_status)tbr1_waiting_cells(handle_of(renderer), count, &renderer) : TBR_NO_RENDERER;
}

tbr_status tbr_quote_prefix(tbr_renderer *renderer, char *out, size_t room, size_t *length) {
    uint8_t spare = 0;
    if (is_missing(out, room)) {
        return TBR_BAD_ARGUMENT;
    }
    return renderer
        ? (tbr_status)tbr1_quote_prefix(handle_of(renderer), room_of(out, &spare), room, length, &renderer)
        : TBR_NO_RENDERER;
}

tbr_status tbr_item_prefix(tbr_renderer *renderer, char *out, size_t room, size_t *length) {
    uint8_t spare = 0;
    if (is_missing(out, room)) {
        return TBR_BAD_ARGUMENT;
    }
    return renderer
        ? (tbr_status)tbr1_item_prefix(handle_of(renderer), room_of(out, &spare), room, length, &renderer)
        : TBR_NO_RENDERER;
}

tbr_status tbr_ordered_item_prefix(tbr_renderer *renderer, int64_t number, char *out, size_t room,
    size_t *length) {
    uint8_t spare = 0;
    if (is_missing(out, room)) {
        return TBR_BAD_ARGUMENT;
    }
    return renderer ? (tbr_status)tbr1_ordered_item_prefix(handle_of(renderer), number, room_of(out, &spare),
                          room, length, &renderer)
                    : TBR_NO_RENDERER;
}

tbr_status tbr_header_prefix(tbr_renderer *renderer, size_t level, char *out, size_t room,
    size_t *length) {
    uint8_t spare = 0;
    if (is_missing(out, room)) {
        return TBR_BAD_ARGUMENT;
    }
    return renderer ? (tbr_status)tbr1_header_prefix(handle_of(renderer), level, room_of(out, &spare), room,
                          length, &renderer)
                    : TBR_NO_RENDERER;
}

/* ---- filling it: quotes, lists and headers ---- */

/* The most bytes of a prefix. It is ASCII, so that each takes a column. */
enum { PREFIX_ROOM = 256 };

/* Opens a level for a prefix of so many bytes, where the question for it answered that. */
static tbr_status start_after(tbr_renderer *renderer, tbr_status asked, size_t length, bool is_apart) {
    size_t columns = 0;
    tbr_status status = asked == TBR_BUFFER_TOO_SMALL ? TBR_OK : asked;
    if (!status) status = tbr_width_minus(renderer, length, 1, &columns);
    if (status == TBR_IN_TABLE) status = TBR_OK;
    if (!status && length > PREFIX_ROOM) status = TBR_BAD_ARGUMENT;
    if (!status && is_apart) status = tbr_start_block(renderer);
    return status ? status : tbr_start_prefixed(renderer, length);
}

/* Ends a block whose lines all come after a prefix, where the question for it answered that. */
static tbr_status end_apart(tbr_renderer *renderer, tbr_status asked, const char *prefix, size_t length) {
    tbr_status status = asked == TBR_BUFFER_TOO_SMALL ? TBR_BAD_ARGUMENT : asked;
    if (!status) status = tbr_append_sub_n(renderer, prefix, length, prefix, length);
    return status ? status : tbr_end_block(renderer);
}

/* Ends an item, where the question for its prefix answered that. */
static tbr_status end_hanging(tbr_renderer *renderer, tbr_status asked, const char *prefix, size_t length) {
    char others[PREFIX_ROOM];
    memset(others, ' ', sizeof others);
    return asked ? asked : tbr_append_sub_n(renderer, prefix, length, others, length);
}

/* The level for which the prefix of a header is asked: one above has no room either. */
static size_t level_asked(size_t level) {
    return level < PREFIX_ROOM ? level : PREFIX_ROOM;
}

tbr_status tbr_start_quote(tbr_renderer *renderer) {
    size_t length = 0;
    tbr_status asked = tbr_quote_prefix(renderer, NULL, 0, &length);
    return start_after(renderer, asked, length, true);
}

tbr_status tbr_end_quote(tbr_renderer *renderer) {
    char prefix[PREFIX_ROOM];
    size_t length = 0;
    tbr_status asked = tbr_quote_prefix(renderer, prefix, sizeof prefix, &length);
    return end_apart(renderer, asked, prefix, length);
}

tbr_status tbr_start_item(tbr_renderer *renderer) {
    size_t length = 0;
    tbr_status asked = tbr_item_prefix(renderer, NULL, 0, &length);
    return start_after(renderer, asked, length, false);
}

tbr_status tbr_end_item(tbr_renderer *renderer) {
    char prefix[PREFIX_ROOM];
    size_t length = 0;
    tbr_status asked = tbr_item_prefix(renderer, prefix, sizeof prefix, &length);
    return end_hanging(renderer, asked, prefix, length);
}

tbr_status tbr_start_ordered_item(tbr_renderer *renderer, int64_t number) {
    size_t length = 0;
    tbr_status asked = tbr_ordered_item_prefix(renderer, number, NULL, 0, &length);
    return start_after(renderer, asked, length, false);
}

tbr_status tbr_end_ordered_item(tbr_renderer *renderer, int64_t number) {
    char prefix[PREFIX_ROOM];
    size_t length = 0;
    tbr_status asked = tbr_ordered_item_prefix(renderer, number, prefix, sizeof prefix, &length);
    return end_hanging(renderer, asked, prefix, length);
}

tbr_status tbr_start_header(tbr_renderer *renderer, size_t level) {
    size_t length = 0;
    tbr_status asked = tbr_header_prefix(renderer, level_asked(level), NULL, 0, &length);
    return start_after(renderer, asked, length, true);
}

tbr_status tbr_end_header(tbr_renderer *renderer, size_t level) {
    char prefix[PREFIX_ROOM];
    size_t length = 0;
    tbr_status asked = tbr_header_prefix(renderer, level_asked(level), prefix, sizeof prefix, &length);
    return end_apart(renderer, asked, prefix, length);
}

/* ---- lines of a renderer that is finished ---- */

tbr_status tbr_text(tbr_renderer *renderer, char *out, size_t room, size_t *length) {
    uint8_t spare = 0;
    if (is_missing(out, room)) {
        return TBR_BAD_ARGUMENT;
    }
    return renderer ? (tbr_status)tbr1_text(handle_of(renderer), room_of(out, &spare), room, length, &renderer)
                    : TBR_NO_RENDERER;
}

tbr_status tbr_next_line(tbr_renderer *renderer, tbr_line *line) {
    return renderer ? (tbr_status)tbr1_next_line(handle_of(renderer), line, &renderer) : TBR_NO_RENDERER;
}

tbr_status tbr_line_text(tbr_renderer *renderer, char *out, size_t room, size_t *length) {
    uint8_t spare = 0;
    if (is_missing(out, room)) {
        return TBR_BAD_ARGUMENT;
    }
    return renderer
        ? (tbr_status)tbr1_line_text(handle_of(renderer), room_of(out, &spare), room, length, &renderer)
        : TBR_NO_RENDERER;
}

tbr_status tbr_text_as(tbr_renderer *renderer, tbr_format format, char *out, size_t room, size_t *length) {
    uint8_t spare = 0;
    if (format == TBR_FORMAT_TEXT) {
        return tbr_text(renderer, out, room, length);
    }
    if (is_missing(out, room)) {
        return TBR_BAD_ARGUMENT;
    }
    return renderer ? (tbr_status)tbr1_text_as(handle_of(renderer), (uint32_t)format - 1, room_of(out, &spare), room,
                          length, &renderer)
                    : TBR_NO_RENDERER;
}

tbr_status tbr_line_as(tbr_renderer *renderer, tbr_format format, char *out, size_t room, size_t *length) {
    uint8_t spare = 0;
    if (format == TBR_FORMAT_TEXT) {
        return tbr_line_text(renderer, out, room, length);
    }
    if (is_missing(out, room)) {
        return TBR_BAD_ARGUMENT;
    }
    return renderer ? (tbr_status)tbr1_line_as(handle_of(renderer), (uint32_t)format - 1, room_of(out, &spare), room,
                          length, &renderer)
                    : TBR_NO_RENDERER;
}

tbr_status tbr_get_piece(tbr_renderer *renderer, size_t place, tbr_piece *piece) {
    return renderer ? (tbr_status)tbr1_get_piece(handle_of(renderer), place, piece, &renderer) : TBR_NO_RENDERER;
}

tbr_status tbr_marker_name(tbr_renderer *renderer, size_t place, char *out, size_t room,
    size_t *length) {
    uint8_t spare = 0;
    if (is_missing(out, room)) {
        return TBR_BAD_ARGUMENT;
    }
    return renderer ? (tbr_status)tbr1_marker_name(handle_of(renderer), place, room_of(out, &spare), room,
                          length, &renderer)
                    : TBR_NO_RENDERER;
}

tbr_status tbr_get_annotation(tbr_renderer *renderer, size_t piece, size_t place,
    tbr_annotation *annotation) {
    return renderer ? (tbr_status)tbr1_get_annotation(handle_of(renderer), piece, place, annotation, &renderer)
                    : TBR_NO_RENDERER;
}

tbr_status tbr_annotation_target(tbr_renderer *renderer, size_t piece, size_t place, char *out,
    size_t room, size_t *length) {
    uint8_t spare = 0;
    if (is_missing(out, room)) {
        return TBR_BAD_ARGUMENT;
    }
    return renderer ? (tbr_status)tbr1_annotation_target(handle_of(renderer), piece, place,
                          room_of(out, &spare), room, length, &renderer)
                    : TBR_NO_RENDERER;
}

/* ---- statuses and versions ---- */

const char *tbr_status_text(tbr_status status) {
    switch (status) {
    case TBR_OK: return "well";
    case TBR_OUT_OF_MEMORY: return "out of memory";
    case TBR_TOO_NARROW: return "too narrow";
    case TBR_NOT_A_COMMAND: return "not a command";
    case TBR_NOTHING_TO_END: return "nothing to end";
    case TBR_ROW_DOES_NOT_FIT: return "row does not fit";
    case TBR_NOT_UTF8: return "not UTF-8";
    case TBR_BAD_WIDTH: return "a width of 0 columns";
    case TBR_BAD_ARGUMENT: return "bad argument";
    case TBR_STILL_OPEN: return "a level is open or cells wait";
    case TBR_FINISHED: return "the renderer is finished";
    case TBR_NOT_FINISHED: return "the renderer is not finished";
    case TBR_NO_LINE: return "no line";
    case TBR_NO_PIECE: return "no such piece";
    case TBR_BUFFER_TOO_SMALL: return "the buffer is too small";
    case TBR_NO_RENDERER: return "no renderer";
    case TBR_IN_TABLE: return "a table is open";
    case TBR_NO_TABLE: return "no table is open";
    }
    return "no status";
}

const char *tbr_version(void) {
    return TBR_VERSION TBR_BUILD;
}
