/*
 * Prints a letter of the village: a paragraph with a link, a quote, a list and a table of prices.
 *
 * letter.out is what html2text's own renderer, version 0.17.4, gives after the same calls, with blocks inside for the
 * quote and the items. The table is by the rule of browsers: all texts fit, so a column is as wide as its longest one.
 */
#include <stdio.h>
#include <stdlib.h>

#include "text_block_renderer.h"

enum { WIDTH = 44 };

/* Ends the program where a call refuses. */
static void well(tbr_status status) {
    if (status != TBR_OK) {
        fprintf(stderr, "letter: %s\n", tbr_status_text(status));
        exit(EXIT_FAILURE);
    }
}

static void add_item(tbr_renderer *letter, const char *text) {
    well(tbr_start_item(letter));
    well(tbr_add_text(letter, text));
    well(tbr_end_item(letter));
}

static void add_greeting(tbr_renderer *letter) {
    well(tbr_add_text(letter, "The "));
    well(tbr_start_link(letter, "https://example.org/bridge"));
    well(tbr_add_text(letter, "old bridge"));
    well(tbr_end_link(letter));
    well(tbr_add_text(letter, " opens again on Sunday, after "));
    well(tbr_start_strikeout(letter));
    well(tbr_add_text(letter, "one year"));
    well(tbr_end_strikeout(letter));
    well(tbr_add_text(letter, " two years of work. The smith writes:"));
    well(tbr_start_quote(letter));
    well(tbr_add_text(letter, "Come early. There is coffee on both sides of the river."));
    well(tbr_end_quote(letter));
}

static void add_list(tbr_renderer *letter) {
    well(tbr_add_text(letter, "Please bring"));
    add_item(letter, "a cup, since there are never enough of them,");
    add_item(letter, "and a flag.");
}

static void add_cell(tbr_renderer *letter, const char *text, tbr_alignment alignment) {
    well(tbr_start_auto_cell(letter, 1, 1, alignment));
    well(tbr_add_text(letter, text));
    well(tbr_end_auto_cell(letter));
}

static void add_price(tbr_renderer *letter, const char *what, const char *price) {
    add_cell(letter, what, TBR_LEFT);
    add_cell(letter, price, TBR_RIGHT);
    well(tbr_end_auto_row(letter));
}

static void add_prices(tbr_renderer *letter) {
    well(tbr_start_auto_table(letter));
    add_price(letter, "Bread, a dark loaf", "3.20");
    add_price(letter, "Cherry cake, by the slice", "12.80");
    well(tbr_end_auto_table(letter));
}

int main(void) {
    tbr_options options = tbr_options_default(WIDTH);
    options.footnotes = true;
    tbr_renderer *letter;
    well(tbr_new(&options, &letter));
    add_greeting(letter);
    add_list(letter);
    add_prices(letter);
    size_t length;
    char text[2048];
    well(tbr_finish_text(letter, &length));
    well(tbr_text(letter, text, sizeof text, &length));
    fwrite(text, 1, length, stdout);
    tbr_free(letter);
    return EXIT_SUCCESS;
}
