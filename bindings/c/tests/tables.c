/*
 * Tables that find their widths. Their texts follow from the rule of browsers: a column is as wide as its widest line
 * if all fit, and else as wide as its longest word, with a share of what is left.
 */
#include <stdio.h>
#include <stdlib.h>
#include <string.h>

#include "text_block_renderer.h"

/* Ends the program where a call refuses. */
static void well(tbr_status status) {
    if (status != TBR_OK) {
        fprintf(stderr, "tables: %s\n", tbr_status_text(status));
        exit(EXIT_FAILURE);
    }
}

static tbr_renderer *new_renderer(size_t width, bool footnotes) {
    tbr_options options = tbr_options_default(width);
    tbr_renderer *r;
    options.footnotes = footnotes;
    well(tbr_new(&options, &r));
    return r;
}

static bool is_text(tbr_renderer *r, const char *wanted) {
    char text[4096];
    size_t length;
    well(tbr_finish_text(r, &length));
    well(tbr_text(r, text, sizeof text, &length));
    tbr_free(r);
    if (length == strlen(wanted) && !memcmp(text, wanted, length)) {
        return true;
    }
    printf("the text is\n%.*snot\n%s", (int)length, text, wanted);
    return false;
}

static void add_cell(tbr_renderer *r, size_t columns, size_t rows, tbr_alignment alignment, const char *text) {
    well(tbr_start_auto_cell(r, columns, rows, alignment));
    well(tbr_add_text(r, text));
    well(tbr_end_auto_cell(r));
}

/* ---- the example of docs/C.md ---- */

static tbr_status add_price(tbr_renderer *page, const char *price) {
    tbr_status status = tbr_start_auto_cell(page, 1, 1, TBR_RIGHT);
    if (!status) status = tbr_add_text(page, price);
    if (!status) status = tbr_end_auto_cell(page);
    return status ? status : tbr_end_auto_row(page);
}

static tbr_status add_prices(tbr_renderer *page) {
    well(tbr_start_auto_table(page));
    add_cell(page, 1, 1, TBR_LEFT, "Bread and butter");
    well(add_price(page, "3.20"));
    add_cell(page, 1, 1, TBR_LEFT, "Tea");
    well(add_price(page, "12.00"));
    return tbr_end_auto_table(page);
}

/* Columns of 16 and 5, as wide as their widest lines. */
static bool all_fits(void) {
    tbr_renderer *r = new_renderer(24, false);
    well(add_prices(r));
    return is_text(r,
        "────────────────┬─────\n"
        "Bread and butter│ 3.20\n"
        "────────────────┼─────\n"
        "Tea             │12.00\n"
        "────────────────┴─────\n");
}

/* Without borders a space is between them. */
static bool no_borders(void) {
    tbr_options options = tbr_options_default(24);
    tbr_renderer *r;
    options.draw_borders = false;
    well(tbr_new(&options, &r));
    well(add_prices(r));
    return is_text(r,
        "Bread and butter  3.20\n"
        "Tea              12.00\n");
}

/* The longest words take 6 and 5 columns, so that 3 of 15 with the line between are left. The first column can use 10
   more, the second none. */
static bool lines_are_broken(void) {
    tbr_renderer *r = new_renderer(15, false);
    well(add_prices(r));
    return is_text(r,
        "─────────┬─────\n"
        "Bread and│ 3.20\n"
        "butter   │     \n"
        "─────────┼─────\n"
        "Tea      │12.00\n"
        "─────────┴─────\n");
}

/* In 11 columns the longest words and the line between need 12. So each row is one of tbr_add_vertical_row, with a line of
   slashes between its cells. */
static bool cells_below_one_another(void) {
    tbr_renderer *r = new_renderer(11, false);
    well(add_prices(r));
    return is_text(r,
        "───────────\n"
        "Bread and\n"
        "butter\n"
        "///////////\n"
        "3.20\n"
        "───────────\n"
        "Tea\n"
        "///////////\n"
        "12.00\n"
        "───────────\n");
}

/* A cell of two columns is as wide as both and the line between. One of two rows has its text in the first. */
static bool spans(void) {
    tbr_renderer *r = new_renderer(20, false);
    well(tbr_start_auto_table(r));
    add_cell(r, 1, 2, TBR_LEFT, "tall");
    add_cell(r, 1, 1, TBR_LEFT, "abc");
    add_cell(r, 0, 0, TBR_LEFT, "de");
    well(tbr_end_auto_row(r));
    add_cell(r, 2, 1, TBR_CENTRE, "wide");
    well(tbr_end_auto_row(r));
    well(tbr_end_auto_table(r));
    return is_text(r,
        "────┬───┬──\n"
        "tall│abc│de\n"
        "    ├───┴──\n"
        "    │ wide \n"
        "────┴──────\n");
}

/* A cell has what a page has, further tables and footnotes among them. The number of the second link has one digit. */
static bool all_in_cells(void) {
    tbr_renderer *r = new_renderer(40, true);
    well(tbr_start_link(r, "a"));
    well(tbr_add_text(r, "x"));
    well(tbr_end_link(r));
    well(tbr_start_auto_table(r));
    well(tbr_start_auto_cell(r, 1, 1, TBR_LEFT));
    well(tbr_start_quote(r));
    well(tbr_add_text(r, "quoted"));
    well(tbr_end_quote(r));
    well(tbr_end_auto_cell(r));
    well(tbr_start_auto_cell(r, 1, 1, TBR_LEFT));
    well(tbr_start_link(r, "b"));
    well(tbr_add_text(r, "link"));
    well(tbr_end_link(r));
    well(tbr_end_auto_cell(r));
    well(tbr_start_auto_cell(r, 1, 1, TBR_LEFT));
    well(tbr_start_auto_table(r));
    add_cell(r, 1, 1, TBR_LEFT, "in");
    add_cell(r, 1, 1, TBR_LEFT, "ner");
    well(tbr_end_auto_row(r));
    well(tbr_end_auto_table(r));
    well(tbr_end_auto_cell(r));
    well(tbr_end_auto_row(r));
    well(tbr_end_auto_table(r));
    return is_text(r,
        "[x][1]\n"
        "\n"
        "────────┬─────────┬──┬───\n"
        "> quoted│[link][2]│in│ner\n"
        "────────┴─────────┴──┴───\n"
        "\n"
        "[1]: a\n"
        "[2]: b\n");
}

static void add_prefixed(tbr_renderer *r, const char *text) {
    well(tbr_start_prefixed(r, 3));
    well(tbr_add_text(r, text));
    well(tbr_append_sub(r, "-> ", "   "));
}

/* A block after a prefix of one's own is as wide as its words and the prefix, in a table as on a page. */
static bool prefixes_of_ones_own(void) {
    tbr_renderer *r = new_renderer(12, false);
    add_prefixed(r, "Bread and butter");
    well(tbr_start_auto_table(r));
    well(tbr_start_auto_cell(r, 1, 1, TBR_LEFT));
    add_prefixed(r, "Tea or milk");
    well(tbr_end_auto_cell(r));
    add_cell(r, 1, 1, TBR_LEFT, "3");
    well(tbr_end_auto_row(r));
    well(tbr_end_auto_table(r));
    return is_text(r,
        "-> Bread and\n"
        "   butter\n"
        "\n"
        "──────────┬─\n"
        "-> Tea or │3\n"
        "   milk   │ \n"
        "──────────┴─\n");
}

/* ---- measuring ---- */

static bool is_extent(tbr_extent found, size_t word, size_t line) {
    if (found.longest_word == word && found.widest_line == line) {
        return true;
    }
    printf("words of %zu and lines of %zu columns, not %zu and %zu\n", found.longest_word, found.widest_line, word, line);
    return false;
}

static bool measured(const char *text, tbr_white_space mode, size_t word, size_t line) {
    tbr_extent extent = {99, 99};
    well(tbr_measure(text, mode, &extent));
    return is_extent(extent, word, line);
}

static bool texts_are_measured(void) {
    return measured("", TBR_NORMAL, 0, 0) && measured(NULL, TBR_NORMAL, 0, 0)
        && measured("  two \t words\n", TBR_NORMAL, 5, 9) && measured("漢字 cafe\u0301", TBR_NORMAL, 4, 9)
        && measured("a  b\nc", TBR_PRE, 4, 4) && measured("a  bc\nd", TBR_PRE_WRAP, 2, 5);
}

/* What came in a cell, and in a block in it. */
static bool cells_are_measured(void) {
    tbr_renderer *r = new_renderer(40, false);
    tbr_extent cell, quote;
    well(tbr_start_auto_table(r));
    well(tbr_start_auto_cell(r, 1, 1, TBR_LEFT));
    well(tbr_add_text(r, "bread and butter"));
    well(tbr_start_quote(r));
    well(tbr_add_text(r, "tea"));
    well(tbr_measure_open(r, &quote));
    well(tbr_end_quote(r));
    well(tbr_measure_open(r, &cell));
    tbr_free(r);
    return is_extent(quote, 3, 3) && is_extent(cell, 6, 16);
}

int main(void) {
    bool is_well = all_fits();
    is_well = no_borders() && is_well;
    is_well = lines_are_broken() && is_well;
    is_well = cells_below_one_another() && is_well;
    is_well = spans() && is_well;
    is_well = all_in_cells() && is_well;
    is_well = prefixes_of_ones_own() && is_well;
    is_well = texts_are_measured() && is_well;
    is_well = cells_are_measured() && is_well;
    return is_well ? EXIT_SUCCESS : EXIT_FAILURE;
}
