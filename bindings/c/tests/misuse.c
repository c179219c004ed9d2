/*
 * Uses the library wrongly in every way that it can see. It expects the status that the header says, and that the
 * renderer goes on as it was.
 */
#include <stdio.h>
#include <string.h>

#include "text_block_renderer.h"

static int failures = 0;

#define WANT(call, wanted) want((call), (wanted), #call, __LINE__)

static void want(tbr_status answer, tbr_status wanted, const char *call, int line) {
    if (answer != wanted) {
        printf("line %d: %s answers \"%s\", not \"%s\"\n", line, call, tbr_status_text(answer),
            tbr_status_text(wanted));
        failures++;
    }
}

static void want_text(tbr_renderer *r, const char *wanted) {
    char text[512];
    size_t length = 0;
    WANT(tbr_text(r, text, sizeof text, &length), TBR_OK);
    if (length != strlen(wanted) || memcmp(text, wanted, length)) {
        printf("the text is\n%.*snot\n%s", (int)length, text, wanted);
        failures++;
    }
}

/* What calls that refuse would write stays as it was. */
static void want_unwritten(const char *text, size_t number) {
    if (strcmp(text, "before") || number != SIZE_MAX) {
        puts("a call that refuses writes");
        failures++;
    }
}

static tbr_renderer *new_renderer(size_t width) {
    tbr_options options = tbr_options_default(width);
    tbr_renderer *r;
    WANT(tbr_new(&options, &r), TBR_OK);
    return r;
}

/* ---- options ---- */

static void bad_options(void) {
    tbr_renderer *r;
    tbr_options options = tbr_options_default(0);
    WANT(tbr_new(&options, &r), TBR_BAD_WIDTH);
    options.width = 20;
    options.decorator = 3;
    WANT(tbr_new(&options, &r), TBR_BAD_ARGUMENT);
    options.decorator = TBR_RICH;
    options.images = 3;
    WANT(tbr_new(&options, &r), TBR_BAD_ARGUMENT);
    if (r) {
        puts("a renderer that wasn't made isn't NULL");
        failures++;
    }
}

static void no_renderer(void) {
    size_t size;
    tbr_line line;
    WANT(tbr_add_text(NULL, "text"), TBR_NO_RENDERER);
    WANT(tbr_finish(NULL), TBR_NO_RENDERER);
    WANT(tbr_width(NULL, &size), TBR_NO_RENDERER);
    WANT(tbr_next_line(NULL, &line), TBR_NO_RENDERER);
    WANT(tbr_start_quote(NULL), TBR_NO_RENDERER);
    WANT(tbr_end_item(NULL), TBR_NO_RENDERER);
    WANT(tbr_start_ordered_item(NULL, 1), TBR_NO_RENDERER);
    WANT(tbr_end_header(NULL, SIZE_MAX), TBR_NO_RENDERER);
    tbr_free(NULL);
}

/* ---- a renderer that is filled ---- */

static void bad_arguments(tbr_renderer *r) {
    WANT(tbr_add_text_n(r, "\xff", 1), TBR_NOT_UTF8);
    WANT(tbr_start_link(r, "\xc3"), TBR_NOT_UTF8);
    WANT(tbr_add_marker(r, "\xed\xa0\x80"), TBR_NOT_UTF8);
    WANT(tbr_add_image(r, "a.png", "\x80"), TBR_NOT_UTF8);
    WANT(tbr_add_image(r, "\x80", "a"), TBR_NOT_UTF8);
    WANT(tbr_append_sub(r, "> ", "\xff"), TBR_NOT_UTF8);
    WANT(tbr_add_text_n(r, NULL, 1), TBR_BAD_ARGUMENT);
    WANT(tbr_add_text_n(r, NULL, 0), TBR_OK);
    WANT(tbr_add_text(r, NULL), TBR_OK);
    WANT(tbr_push_white_space(r, (tbr_white_space)3), TBR_BAD_ARGUMENT);
    WANT(tbr_start_sub(r, 0), TBR_BAD_WIDTH);
    WANT(tbr_start_cell(r, 0, 1, TBR_LEFT), TBR_BAD_WIDTH);
    WANT(tbr_start_cell(r, 1, 0, TBR_LEFT), TBR_BAD_ARGUMENT);
    WANT(tbr_start_cell(r, 1, 1, (tbr_alignment)3), TBR_BAD_ARGUMENT);
}

static void nothing_to_end(tbr_renderer *r) {
    WANT(tbr_pop_white_space(r), TBR_NOTHING_TO_END);
    WANT(tbr_end_preformatted(r), TBR_NOTHING_TO_END);
    WANT(tbr_end_link(r), TBR_NOTHING_TO_END);
    WANT(tbr_end_emphasis(r), TBR_NOTHING_TO_END);
    WANT(tbr_end_strong(r), TBR_NOTHING_TO_END);
    WANT(tbr_end_strikeout(r), TBR_NOTHING_TO_END);
    WANT(tbr_end_code(r), TBR_NOTHING_TO_END);
    WANT(tbr_end_superscript(r), TBR_NOTHING_TO_END);
    WANT(tbr_end_colour(r), TBR_NOTHING_TO_END);
    WANT(tbr_end_background(r), TBR_NOTHING_TO_END);
    WANT(tbr_append_sub(r, "", ""), TBR_NOTHING_TO_END);
    WANT(tbr_end_cell(r), TBR_NOTHING_TO_END);
    WANT(tbr_end_quote(r), TBR_NOTHING_TO_END);
    WANT(tbr_end_item(r), TBR_NOTHING_TO_END);
    WANT(tbr_end_ordered_item(r, 1), TBR_NOTHING_TO_END);
    WANT(tbr_end_header(r, 1), TBR_NOTHING_TO_END);
}

static void lines_too_early(tbr_renderer *r) {
    char text[8] = "before";
    size_t length = SIZE_MAX;
    tbr_line line;
    tbr_piece piece;
    tbr_annotation annotation;
    WANT(tbr_text(r, text, sizeof text, &length), TBR_NOT_FINISHED);
    WANT(tbr_next_line(r, &line), TBR_NOT_FINISHED);
    WANT(tbr_line_text(r, text, sizeof text, &length), TBR_NOT_FINISHED);
    WANT(tbr_text_as(r, TBR_FORMAT_ANSI, text, sizeof text, &length), TBR_NOT_FINISHED);
    WANT(tbr_line_as(r, TBR_FORMAT_JSON, text, sizeof text, &length), TBR_NOT_FINISHED);
    WANT(tbr_get_piece(r, 0, &piece), TBR_NOT_FINISHED);
    WANT(tbr_marker_name(r, 0, text, sizeof text, &length), TBR_NOT_FINISHED);
    WANT(tbr_get_annotation(r, 0, 0, &annotation), TBR_NOT_FINISHED);
    WANT(tbr_annotation_target(r, 0, 0, text, sizeof text, &length), TBR_NOT_FINISHED);
    want_unwritten(text, length);
}

/* What is open where a level or the whole would end. */
static void still_open(tbr_renderer *r) {
    WANT(tbr_start_sub(r, 9), TBR_OK);
    WANT(tbr_finish(r), TBR_STILL_OPEN);
    WANT(tbr_start_cell(r, 3, 1, TBR_LEFT), TBR_OK);
    WANT(tbr_append_sub(r, "", ""), TBR_NOTHING_TO_END);
    WANT(tbr_end_quote(r), TBR_NOTHING_TO_END);
    WANT(tbr_end_item(r), TBR_NOTHING_TO_END);
    WANT(tbr_end_cell(r), TBR_OK);
    WANT(tbr_append_sub(r, "", ""), TBR_STILL_OPEN);
    WANT(tbr_end_quote(r), TBR_STILL_OPEN);
    WANT(tbr_end_item(r), TBR_STILL_OPEN);
    WANT(tbr_end_ordered_item(r, 1), TBR_STILL_OPEN);
    WANT(tbr_end_header(r, 1), TBR_STILL_OPEN);
    WANT(tbr_add_vertical_row(r), TBR_OK);
    WANT(tbr_append_sub(r, "", ""), TBR_OK);
    WANT(tbr_start_cell(r, 3, 1, TBR_LEFT), TBR_OK);
    WANT(tbr_end_cell(r), TBR_OK);
    WANT(tbr_finish(r), TBR_STILL_OPEN);
    WANT(tbr_add_row(r, false), TBR_OK);
}

/* ---- a renderer that is finished ---- */

static void fill_too_late(tbr_renderer *r) {
    size_t count = SIZE_MAX;
    bool is_so;
    char text[8] = "before";
    WANT(tbr_add_text(r, "late"), TBR_FINISHED);
    WANT(tbr_start_block(r), TBR_FINISHED);
    WANT(tbr_start_link(r, "late"), TBR_FINISHED);
    WANT(tbr_start_sub(r, 3), TBR_FINISHED);
    WANT(tbr_start_prefixed(r, 2), TBR_FINISHED);
    WANT(tbr_start_quote(r), TBR_FINISHED);
    WANT(tbr_end_item(r), TBR_FINISHED);
    WANT(tbr_start_ordered_item(r, 1), TBR_FINISHED);
    WANT(tbr_start_header(r, SIZE_MAX), TBR_FINISHED);
    WANT(tbr_add_row(r, false), TBR_FINISHED);
    WANT(tbr_finish(r), TBR_FINISHED);
    WANT(tbr_is_empty(r, &is_so), TBR_FINISHED);
    WANT(tbr_has_overhang(r, &is_so), TBR_FINISHED);
    WANT(tbr_width(r, &count), TBR_FINISHED);
    WANT(tbr_width_minus(r, 2, 1, &count), TBR_FINISHED);
    WANT(tbr_open_levels(r, &count), TBR_FINISHED);
    WANT(tbr_quote_prefix(r, text, sizeof text, &count), TBR_FINISHED);
    want_unwritten(text, count);
    WANT(tbr_refusal(r), TBR_OK);
}

static void pieces_that_are_not_there(tbr_renderer *r) {
    tbr_line line;
    tbr_piece piece;
    tbr_annotation annotation;
    char text[16];
    size_t length;
    WANT(tbr_line_text(r, text, sizeof text, &length), TBR_NO_LINE);
    WANT(tbr_get_piece(r, 0, &piece), TBR_NO_LINE);
    WANT(tbr_next_line(r, &line), TBR_OK);
    WANT(tbr_get_piece(r, line.pieces, &piece), TBR_NO_PIECE);
    WANT(tbr_marker_name(r, 0, text, sizeof text, &length), TBR_NO_PIECE);
    WANT(tbr_get_annotation(r, 0, 0, &annotation), TBR_NO_PIECE);
    WANT(tbr_annotation_target(r, 0, 0, text, sizeof text, &length), TBR_NO_PIECE);
    WANT(tbr_line_text(r, text, line.bytes - 1, &length), TBR_BUFFER_TOO_SMALL);
    WANT(tbr_line_text(r, NULL, 1, &length), TBR_BAD_ARGUMENT);
    WANT(tbr_line_text(r, NULL, 0, &length), TBR_BUFFER_TOO_SMALL);
    WANT(tbr_line_text(r, text, sizeof text, &length), TBR_OK);
    while (tbr_next_line(r, &line) == TBR_OK) {
    }
    WANT(tbr_next_line(r, &line), TBR_NO_LINE);
    WANT(tbr_line_text(r, text, sizeof text, &length), TBR_OK);
}

/* Lines in formats, of a renderer that is finished. A refusal leaves it as it was. */
static void formats(void) {
    tbr_renderer *r = new_renderer(9);
    tbr_line line;
    char text[16];
    size_t length = SIZE_MAX;
    WANT(tbr_add_text(r, "a < b"), TBR_OK);
    WANT(tbr_finish(r), TBR_OK);
    WANT(tbr_text_as(NULL, TBR_FORMAT_HTML, text, sizeof text, &length), TBR_NO_RENDERER);
    WANT(tbr_line_as(NULL, TBR_FORMAT_HTML, text, sizeof text, &length), TBR_NO_RENDERER);
    WANT(tbr_text_as(r, (tbr_format)4, text, sizeof text, &length), TBR_BAD_ARGUMENT);
    WANT(tbr_line_as(r, (tbr_format)4, text, sizeof text, &length), TBR_BAD_ARGUMENT);
    WANT(tbr_text_as(r, TBR_FORMAT_HTML, NULL, 1, &length), TBR_BAD_ARGUMENT);
    WANT(tbr_line_as(r, TBR_FORMAT_HTML, NULL, 1, &length), TBR_BAD_ARGUMENT);
    WANT(tbr_line_as(r, TBR_FORMAT_HTML, text, sizeof text, &length), TBR_NO_LINE);
    if (length != SIZE_MAX) {
        puts("a call that refuses writes a length");
        failures++;
    }
    WANT(tbr_text_as(r, TBR_FORMAT_HTML, text, 8, &length), TBR_BUFFER_TOO_SMALL);
    WANT(tbr_text_as(r, TBR_FORMAT_ANSI, text, 6, &length), TBR_OK);
    WANT(tbr_text_as(r, TBR_FORMAT_HTML, text, 9, &length), TBR_OK);
    if (length != 9 || memcmp(text, "a &lt; b\n", 9)) {
        puts("lines in HTML are others");
        failures++;
    }
    WANT(tbr_next_line(r, &line), TBR_OK);
    WANT(tbr_text_as(r, TBR_FORMAT_HTML, NULL, 0, &length), TBR_OK);
    WANT(tbr_line_as(r, TBR_FORMAT_HTML, text, 7, &length), TBR_BUFFER_TOO_SMALL);
    WANT(tbr_line_as(r, TBR_FORMAT_HTML, text, 8, &length), TBR_OK);
    want_text(r, "");
    tbr_free(r);
}

/* A renderer that is finished for its text alone is finished, and has no line. */
static void text_alone(void) {
    tbr_renderer *r = new_renderer(9);
    size_t length = 0;
    char text[16];
    tbr_line line;
    WANT(tbr_finish_text(NULL, &length), TBR_NO_RENDERER);
    WANT(tbr_start_sub(r, 9), TBR_OK);
    WANT(tbr_add_text(r, "two words"), TBR_OK);
    WANT(tbr_finish_text(r, &length), TBR_STILL_OPEN);
    WANT(tbr_append_sub(r, "", ""), TBR_OK);
    WANT(tbr_finish_text(r, &length), TBR_OK);
    WANT(tbr_finish_text(r, &length), TBR_FINISHED);
    WANT(tbr_finish(r), TBR_FINISHED);
    WANT(tbr_add_text(r, "late"), TBR_FINISHED);
    WANT(tbr_next_line(r, &line), TBR_NO_LINE);
    WANT(tbr_line_text(r, text, sizeof text, &length), TBR_NO_LINE);
    WANT(tbr_text_as(r, TBR_FORMAT_JSON, text, sizeof text, &length), TBR_NO_LINE);
    WANT(tbr_line_as(r, TBR_FORMAT_JSON, text, sizeof text, &length), TBR_NO_LINE);
    WANT(tbr_text_as(r, TBR_FORMAT_TEXT, text, sizeof text, &length), TBR_OK);
    WANT(tbr_text(r, text, 1, &length), TBR_BUFFER_TOO_SMALL);
    want_text(r, "two words\n");
    want_text(r, "two words\n");
    tbr_free(r);
}

/* ---- widths ---- */

static void want_width(const char *text, size_t wanted) {
    size_t columns = SIZE_MAX;
    WANT(tbr_text_width(text, &columns), TBR_OK);
    if (columns != wanted) {
        printf("\"%s\" takes %zu columns, not %zu\n", text ? text : "NULL", columns, wanted);
        failures++;
    }
}

/* A CJK character takes two columns, a combining mark and a control character none. */
static void widths(void) {
    size_t columns;
    want_width("", 0);
    want_width(NULL, 0);
    want_width(" a b ", 5);
    want_width("cafe\u0301 漢字", 9);
    want_width("a\tb\n", 2);
    WANT(tbr_text_width("\xff", &columns), TBR_NOT_UTF8);
    WANT(tbr_text_width_n(NULL, 1, &columns), TBR_BAD_ARGUMENT);
    tbr_extent extent = {7, 7};
    WANT(tbr_measure("\xff", TBR_NORMAL, &extent), TBR_NOT_UTF8);
    WANT(tbr_measure("a", (tbr_white_space)3, &extent), TBR_BAD_ARGUMENT);
    WANT(tbr_measure_n(NULL, 1, TBR_PRE, &extent), TBR_BAD_ARGUMENT);
    want_unwritten("before", extent.longest_word == 7 && extent.widest_line == 7 ? SIZE_MAX : 0);
}

/* ---- tables that find their widths ---- */

static void no_table(tbr_renderer *r) {
    tbr_extent extent;
    WANT(tbr_start_auto_cell(r, 1, 1, TBR_LEFT), TBR_NO_TABLE);
    WANT(tbr_start_auto_cell(r, 1, 1, (tbr_alignment)3), TBR_BAD_ARGUMENT);
    WANT(tbr_end_auto_cell(r), TBR_NOTHING_TO_END);
    WANT(tbr_end_auto_row(r), TBR_NOTHING_TO_END);
    WANT(tbr_end_auto_table(r), TBR_NOTHING_TO_END);
    WANT(tbr_measure_open(r, &extent), TBR_NO_TABLE);
}

/* What has to wait for the end of a table. */
static void wait_for_its_end(tbr_renderer *r) {
    size_t size = SIZE_MAX;
    bool flag;
    WANT(tbr_finish(r), TBR_IN_TABLE);
    WANT(tbr_finish_text(r, &size), TBR_IN_TABLE);
    WANT(tbr_width(r, &size), TBR_IN_TABLE);
    WANT(tbr_width_minus(r, 1, 1, &size), TBR_IN_TABLE);
    WANT(tbr_open_links(r, &size), TBR_IN_TABLE);
    WANT(tbr_waiting_cells(r, &size), TBR_IN_TABLE);
    want_unwritten("before", size);
    WANT(tbr_is_empty(r, &flag), TBR_IN_TABLE);
    WANT(tbr_has_overhang(r, &flag), TBR_IN_TABLE);
    WANT(tbr_start_cell(r, 3, 1, TBR_LEFT), TBR_IN_TABLE);
    WANT(tbr_start_cell(r, 0, 1, TBR_LEFT), TBR_BAD_WIDTH);
    WANT(tbr_end_cell(r), TBR_IN_TABLE);
    WANT(tbr_add_row(r, false), TBR_IN_TABLE);
    WANT(tbr_add_vertical_row(r), TBR_IN_TABLE);
    WANT(tbr_refusal(r), TBR_OK);
}

static void outside_of_cells(tbr_renderer *r) {
    tbr_extent extent;
    WANT(tbr_add_text(r, "lost"), TBR_IN_TABLE);
    WANT(tbr_start_link(r, "lost"), TBR_IN_TABLE);
    WANT(tbr_start_quote(r), TBR_IN_TABLE);
    WANT(tbr_start_item(r), TBR_IN_TABLE);
    WANT(tbr_end_item(r), TBR_IN_TABLE);
    WANT(tbr_start_sub(r, 3), TBR_IN_TABLE);
    WANT(tbr_start_prefixed(r, 2), TBR_IN_TABLE);
    WANT(tbr_start_auto_table(r), TBR_IN_TABLE);
    WANT(tbr_end_auto_cell(r), TBR_NOTHING_TO_END);
    WANT(tbr_measure_open(r, &extent), TBR_IN_TABLE);
}

static void inside_of_a_cell(tbr_renderer *r) {
    WANT(tbr_start_auto_cell(r, 1, 1, TBR_LEFT), TBR_NO_TABLE);
    WANT(tbr_end_auto_row(r), TBR_NOTHING_TO_END);
    WANT(tbr_end_auto_table(r), TBR_NOTHING_TO_END);
    WANT(tbr_end_link(r), TBR_NOTHING_TO_END);
    WANT(tbr_end_strong(r), TBR_NOTHING_TO_END);
    WANT(tbr_end_emphasis(r), TBR_NOTHING_TO_END);
    WANT(tbr_pop_white_space(r), TBR_NOTHING_TO_END);
    WANT(tbr_append_sub(r, "", ""), TBR_NOTHING_TO_END);
    WANT(tbr_end_quote(r), TBR_NOTHING_TO_END);
    WANT(tbr_add_text(r, "\xff"), TBR_NOT_UTF8);
}

/* A block in a cell ends before the cell, and what began outside of it doesn't end inside. */
static void inside_of_a_block(tbr_renderer *r) {
    size_t levels;
    WANT(tbr_start_strong(r), TBR_OK);
    WANT(tbr_start_quote(r), TBR_OK);
    WANT(tbr_end_strong(r), TBR_NOTHING_TO_END);
    WANT(tbr_end_auto_cell(r), TBR_NOTHING_TO_END);
    WANT(tbr_open_levels(r, &levels), TBR_OK);
    if (levels != 3) {
        printf("%zu levels are open, and not a table, a cell and a quote\n", levels);
        failures++;
    }
    WANT(tbr_end_quote(r), TBR_OK);
    WANT(tbr_end_strong(r), TBR_OK);
}

static void tables(void) {
    tbr_renderer *r = new_renderer(12);
    WANT(tbr_start_auto_table(NULL), TBR_NO_RENDERER);
    WANT(tbr_start_emphasis(r), TBR_OK);
    no_table(r);
    WANT(tbr_start_auto_table(r), TBR_OK);
    wait_for_its_end(r);
    outside_of_cells(r);
    WANT(tbr_start_auto_cell(r, 1, 1, (tbr_alignment)3), TBR_BAD_ARGUMENT);
    WANT(tbr_start_auto_cell(r, 0, SIZE_MAX, TBR_LEFT), TBR_OK);
    wait_for_its_end(r);
    inside_of_a_cell(r);
    inside_of_a_block(r);
    WANT(tbr_add_text(r, "kept"), TBR_OK);
    WANT(tbr_end_auto_cell(r), TBR_OK);
    WANT(tbr_end_auto_table(r), TBR_STILL_OPEN);
    WANT(tbr_end_auto_row(r), TBR_OK);
    WANT(tbr_end_auto_table(r), TBR_OK);
    no_table(r);
    WANT(tbr_finish(r), TBR_OK);
    WANT(tbr_start_auto_table(r), TBR_FINISHED);
    WANT(tbr_end_auto_cell(r), TBR_FINISHED);
    want_text(r, "────\nkept\n────\n");
    tbr_free(r);
}

/* Cells of given widths that would come into the rows of a table. */
static void cells_in_its_way(void) {
    tbr_renderer *r = new_renderer(12);
    WANT(tbr_start_cell(r, 5, 2, TBR_LEFT), TBR_OK);
    WANT(tbr_add_text(r, "tall"), TBR_OK);
    WANT(tbr_end_cell(r), TBR_OK);
    WANT(tbr_start_auto_table(r), TBR_STILL_OPEN);
    WANT(tbr_add_row(r, false), TBR_OK);
    WANT(tbr_start_auto_table(r), TBR_ROW_DOES_NOT_FIT);
    WANT(tbr_start_cell(r, 5, 1, TBR_LEFT), TBR_OK);
    WANT(tbr_end_cell(r), TBR_OK);
    WANT(tbr_add_row(r, false), TBR_OK);
    WANT(tbr_start_auto_table(r), TBR_OK);
    tbr_free(r);
}

/* A table that is too narrow is lost, as anything is. */
static void narrow_table(void) {
    tbr_renderer *r = new_renderer(1);
    WANT(tbr_start_auto_table(r), TBR_OK);
    WANT(tbr_start_auto_cell(r, 1, 1, TBR_LEFT), TBR_OK);
    WANT(tbr_add_text(r, "漢 "), TBR_OK);
    WANT(tbr_end_auto_cell(r), TBR_OK);
    WANT(tbr_end_auto_row(r), TBR_OK);
    WANT(tbr_end_auto_table(r), TBR_TOO_NARROW);
    WANT(tbr_end_auto_table(r), TBR_TOO_NARROW);
    WANT(tbr_refusal(r), TBR_TOO_NARROW);
    tbr_free(r);
}

static void each_in_one_renderer(void) {
    tbr_options options = tbr_options_default(12);
    tbr_renderer *r;
    options.draw_borders = false;
    WANT(tbr_new(&options, &r), TBR_OK);
    WANT(tbr_add_text(r, "two words"), TBR_OK);
    bad_arguments(r);
    nothing_to_end(r);
    lines_too_early(r);
    still_open(r);
    WANT(tbr_finish(r), TBR_OK);
    fill_too_late(r);
    want_text(r, "two words\n");
    pieces_that_are_not_there(r);
    want_text(r, "");
    tbr_free(r);
}

/* ---- refusals that are kept, and a row that goes on waiting ---- */

static void too_narrow(void) {
    tbr_renderer *r = new_renderer(1);
    size_t columns;
    tbr_line line;
    WANT(tbr_width_minus(r, 1, 2, &columns), TBR_TOO_NARROW);
    WANT(tbr_start_prefixed(r, 1), TBR_TOO_NARROW);
    WANT(tbr_refusal(r), TBR_OK);
    WANT(tbr_add_text(r, "漢 "), TBR_TOO_NARROW);
    WANT(tbr_refusal(r), TBR_TOO_NARROW);
    WANT(tbr_add_text(r, "a"), TBR_TOO_NARROW);
    WANT(tbr_end_link(r), TBR_TOO_NARROW);
    WANT(tbr_start_quote(r), TBR_TOO_NARROW);
    WANT(tbr_end_header(r, SIZE_MAX), TBR_TOO_NARROW);
    WANT(tbr_width(r, &columns), TBR_TOO_NARROW);
    WANT(tbr_finish(r), TBR_TOO_NARROW);
    WANT(tbr_next_line(r, &line), TBR_TOO_NARROW);
    tbr_free(r);
}

/* A prefix that leaves no column, and an end of nothing, are refused before anything is done. */
static void no_room_for_a_prefix(void) {
    tbr_renderer *r = new_renderer(2);
    size_t levels = SIZE_MAX;
    WANT(tbr_add_text(r, "a"), TBR_OK);
    WANT(tbr_start_quote(r), TBR_TOO_NARROW);
    WANT(tbr_start_item(r), TBR_TOO_NARROW);
    WANT(tbr_start_ordered_item(r, INT64_MIN), TBR_TOO_NARROW);
    WANT(tbr_start_header(r, 1), TBR_TOO_NARROW);
    WANT(tbr_start_header(r, SIZE_MAX), TBR_TOO_NARROW);
    WANT(tbr_end_quote(r), TBR_NOTHING_TO_END);
    WANT(tbr_end_header(r, 1), TBR_NOTHING_TO_END);
    WANT(tbr_refusal(r), TBR_OK);
    WANT(tbr_open_levels(r, &levels), TBR_OK);
    WANT(tbr_add_text(r, "b"), TBR_OK);
    WANT(tbr_finish(r), TBR_OK);
    want_text(r, "ab\n");
    tbr_free(r);
    if (levels) {
        puts("a block that is too narrow is open");
        failures++;
    }
}

/* The length of a prefix is told at once where there is no room for it, however long it is. */
static void prefix_of_a_deep_header(void) {
    tbr_renderer *r = new_renderer(20);
    char text[4];
    size_t length = 0;
    WANT(tbr_header_prefix(r, 2000000000, text, sizeof text, &length), TBR_BUFFER_TOO_SMALL);
    if (length != 2000000001) {
        printf("the prefix of a deep header has %zu bytes\n", length);
        failures++;
    }
    WANT(tbr_header_prefix(r, SIZE_MAX, text, sizeof text, &length), TBR_OUT_OF_MEMORY);
    WANT(tbr_refusal(r), TBR_OK);
    tbr_free(r);
}

/* With `overflow` a column is left after any prefix. */
static void a_column_with_overflow(void) {
    tbr_options options = tbr_options_default(1);
    tbr_renderer *r;
    options.overflow = true;
    WANT(tbr_new(&options, &r), TBR_OK);
    WANT(tbr_start_item(r), TBR_OK);
    WANT(tbr_add_text(r, "ab"), TBR_OK);
    WANT(tbr_end_item(r), TBR_OK);
    WANT(tbr_finish(r), TBR_OK);
    want_text(r, "* a\n  b\n");
    tbr_free(r);
}

/* The prefix of a level up to 255 is taken, also by an end, and one above that leaves all as it was. */
static void levels_of_headers(void) {
    tbr_renderer *r = new_renderer(300);
    char wanted[256 + sizeof "a\n"];
    memset(wanted, '#', 255);
    strcpy(wanted + 255, " a\n");
    WANT(tbr_start_header(r, 256), TBR_BAD_ARGUMENT);
    WANT(tbr_start_header(r, 255), TBR_OK);
    WANT(tbr_add_text(r, "a"), TBR_OK);
    WANT(tbr_end_header(r, SIZE_MAX), TBR_BAD_ARGUMENT);
    WANT(tbr_end_header(r, 255), TBR_OK);
    WANT(tbr_finish(r), TBR_OK);
    want_text(r, wanted);
    tbr_free(r);
}

static void add_cell(tbr_renderer *r, const char *text, size_t width, size_t span) {
    WANT(tbr_start_cell(r, width, span, TBR_LEFT), TBR_OK);
    WANT(tbr_add_text(r, text), TBR_OK);
    WANT(tbr_end_cell(r), TBR_OK);
}

/* A row that doesn't fit leaves its cells waiting; one below another they fit. */
static void row_that_does_not_fit(void) {
    tbr_renderer *r = new_renderer(9);
    size_t count = 0;
    bool has_overhang = false;
    add_cell(r, "AB", 1, 2);
    WANT(tbr_add_row(r, false), TBR_OK);
    WANT(tbr_has_overhang(r, &has_overhang), TBR_OK);
    add_cell(r, "x", 1, 1);
    WANT(tbr_add_row(r, false), TBR_ROW_DOES_NOT_FIT);
    WANT(tbr_waiting_cells(r, &count), TBR_OK);
    WANT(tbr_add_row(r, true), TBR_ROW_DOES_NOT_FIT);
    WANT(tbr_add_vertical_row(r), TBR_OK);
    if (count != 1 || !has_overhang) {
        puts("the cells of a row that doesn't fit don't wait");
        failures++;
    }
    tbr_free(r);
}

/* ---- scripts ---- */

static void want_answer(const char *script, tbr_status status, size_t line) {
    char out[64] = "untouched";
    tbr_answer answer = tbr_render(script, strlen(script), out, sizeof out);
    WANT((tbr_status)answer.status, status);
    if (answer.line != line || answer.length || strcmp(out, "untouched")) {
        printf("a script is answered wrongly: line %zu\n", answer.line);
        failures++;
    }
}

static void scripts(void) {
    want_answer("", TBR_NOT_A_COMMAND, 1);
    want_answer("new 8 plain\ntext", TBR_NOT_A_COMMAND, 2);
    want_answer("new 8 plain\n\nendem\n", TBR_NOTHING_TO_END, 3);
    want_answer("new 1 plain\ntext \xe6\xbc\xa2", TBR_TOO_NARROW, 0);
    want_answer("new 9 plain\ncell 1 2\ntext AB\nendcell\nrow\ncell 1 1\ntext x\nendcell\nrow\n",
        TBR_ROW_DOES_NOT_FIT, 9);
    WANT((tbr_status)tbr_render(NULL, 1, NULL, 0).status, TBR_BAD_ARGUMENT);
}

int main(void) {
    bad_options();
    no_renderer();
    each_in_one_renderer();
    text_alone();
    formats();
    widths();
    tables();
    cells_in_its_way();
    narrow_table();
    too_narrow();
    no_room_for_a_prefix();
    prefix_of_a_deep_header();
    a_column_with_overflow();
    levels_of_headers();
    row_that_does_not_fit();
    scripts();
    printf("misuse: %s\n", failures ? "failed" : "each answered by its status");
    return failures ? 1 : 0;
}
