/*
 * Refuses each allocation of a document in turn, and of a script. Each time the call at which it comes answers
 * TBR_OUT_OF_MEMORY, each later one answers the same, and what was taken is given back, which the leak checker sees.
 *
 * It is linked with -Wl,--wrap=malloc,--wrap=realloc.
 */
#include <stdio.h>
#include <stdlib.h>
#include <string.h>

#include "text_block_renderer.h"

/* Which allocation from here is refused, with all that follow; none where it is 0. */
static long refused = 0;

/* Whether one was. */
static bool was_refused = false;

/* What a check that fails answers. */
static const tbr_status WRONG = (tbr_status)99;

void *__real_malloc(size_t size);
void *__real_realloc(void *at, size_t size);
void *__wrap_malloc(size_t size);
void *__wrap_realloc(void *at, size_t size);

static bool is_refused(void) {
    if (refused == 1) {
        was_refused = true;
        return true;
    }
    refused -= refused > 0;
    return false;
}

void *__wrap_malloc(size_t size) {
    return is_refused() ? NULL : __real_malloc(size);
}

void *__wrap_realloc(void *at, size_t size) {
    return is_refused() ? NULL : __real_realloc(at, size);
}

/* ---- a document, call by call ---- */

static tbr_status add_words(tbr_renderer *r) { return tbr_add_text(r, "The old bridge opens again on Sunday. "); }
static tbr_status start_link(tbr_renderer *r) { return tbr_start_link(r, "https://example.org/\x1b" "bridge"); }
static tbr_status push_pre_wrap(tbr_renderer *r) { return tbr_push_white_space(r, TBR_PRE_WRAP); }
static tbr_status start_red(tbr_renderer *r) { return tbr_start_colour(r, 255, 0, 0); }
static tbr_status start_grey(tbr_renderer *r) { return tbr_start_background(r, 128, 128, 128); }
static tbr_status add_image(tbr_renderer *r) { return tbr_add_image(r, "cats/tom.png", "Tom the cat"); }
static tbr_status add_marker(tbr_renderer *r) { return tbr_add_marker(r, "chapter"); }
static tbr_status start_quote(tbr_renderer *r) { return tbr_start_sub(r, 18); }
static tbr_status append_quote(tbr_renderer *r) { return tbr_append_sub(r, "> \x1b", "> \x7f"); }
static tbr_status start_tall(tbr_renderer *r) { return tbr_start_cell(r, 9, 2, TBR_LEFT); }
static tbr_status start_flat(tbr_renderer *r) { return tbr_start_cell(r, 10, 1, TBR_RIGHT); }
static tbr_status add_row(tbr_renderer *r) { return tbr_add_row(r, false); }

static tbr_status (*const CALLS[])(tbr_renderer *) = {
    add_words, start_link, add_words, tbr_start_emphasis, add_words, tbr_end_emphasis, tbr_end_link, tbr_start_block,
    tbr_start_strong, tbr_start_strikeout, add_words, tbr_end_strikeout, tbr_end_strong, tbr_add_border,
    tbr_start_code, add_words, tbr_end_code, tbr_start_superscript, add_words, tbr_end_superscript, push_pre_wrap,
    tbr_start_preformatted, add_words, tbr_end_preformatted, tbr_pop_white_space, start_red, start_grey, add_words,
    tbr_end_background, tbr_end_colour, add_image, add_marker, tbr_add_empty_line, start_quote, add_words,
    append_quote, tbr_add_border, start_tall, add_words, tbr_end_cell, start_flat, add_words, tbr_end_cell, add_row,
    start_tall, tbr_end_cell, start_flat, add_words, tbr_end_cell, add_row, start_flat, add_words, tbr_end_cell,
    tbr_add_vertical_row,
};

/* Takes the text, which is put together once for two calls, and then all lines with theirs. */
static tbr_status take_lines(tbr_renderer *r) {
    tbr_line line;
    tbr_status status;
    size_t length;
    char text[4096];
    status = tbr_text(r, text, 1, &length);
    if (status == TBR_BUFFER_TOO_SMALL) {
        status = tbr_text(r, text, sizeof text, &length);
    }
    while (status == TBR_OK) {
        status = tbr_next_line(r, &line);
        if (status == TBR_OK) {
            status = tbr_line_text(r, text, sizeof text, &length);
        }
    }
    return status == TBR_NO_LINE ? TBR_OK : status;
}

/* Takes all lines in each format, which are made once for two calls, and then each line. */
static tbr_status take_formats(tbr_renderer *r) {
    static char text[65536];
    tbr_line line;
    tbr_status status = TBR_OK;
    size_t length;
    for (int format = TBR_FORMAT_ANSI; format <= TBR_FORMAT_JSON && status == TBR_OK; format++) {
        status = tbr_text_as(r, (tbr_format)format, text, 1, &length);
        if (status == TBR_BUFFER_TOO_SMALL) status = tbr_text_as(r, (tbr_format)format, text, sizeof text, &length);
    }
    while (status == TBR_OK && (status = tbr_next_line(r, &line)) == TBR_OK) {
        for (int format = TBR_FORMAT_ANSI; format <= TBR_FORMAT_JSON && status == TBR_OK; format++) {
            status = tbr_line_as(r, (tbr_format)format, text, sizeof text, &length);
        }
    }
    return status == TBR_NO_LINE ? TBR_OK : status;
}

/* Takes the text alone, for which it takes no memory. */
static tbr_status take_text(tbr_renderer *r) {
    size_t length;
    char text[4096];
    return tbr_text(r, text, sizeof text, &length);
}

static tbr_status finish_text(tbr_renderer *r) {
    size_t length;
    return tbr_finish_text(r, &length);
}

/* Makes the document, and answers the first status that isn't TBR_OK. */
static tbr_status make(tbr_status (*finish)(tbr_renderer *), tbr_status (*take)(tbr_renderer *)) {
    tbr_options options = tbr_options_default(20);
    tbr_renderer *r;
    options.decorator = TBR_RICH;
    options.footnotes = true;
    tbr_status status = tbr_new(&options, &r);
    if (status != TBR_OK) {
        return r ? WRONG : status;
    }
    for (size_t i = 0; i < sizeof CALLS / sizeof CALLS[0] && status == TBR_OK; i++) {
        status = CALLS[i](r);
    }
    if (status == TBR_OK) {
        status = finish(r);
    }
    if (status == TBR_OK) {
        status = take(r);
    }
    if (status != tbr_refusal(r) || (status != TBR_OK && add_words(r) != status)) {
        status = WRONG;
    }
    tbr_free(r);
    return status;
}

static tbr_status document(void) { return make(tbr_finish, take_lines); }
static tbr_status formats_of_document(void) { return make(tbr_finish, take_formats); }
static tbr_status text_of_document(void) { return make(finish_text, take_text); }

/* ---- tables that find their widths ---- */

static tbr_status start_cell(tbr_renderer *r) { return tbr_start_auto_cell(r, 1, 1, TBR_CENTRE); }
static tbr_status start_tall_cell(tbr_renderer *r) { return tbr_start_auto_cell(r, 2, 2, TBR_LEFT); }

static tbr_status (*const TABLE[])(tbr_renderer *) = {
    tbr_start_auto_table, start_tall_cell, add_words, start_link, add_words, tbr_end_link, add_image, tbr_end_auto_cell,
    start_cell, tbr_start_auto_table, start_cell, tbr_start_emphasis, add_words, tbr_end_emphasis, tbr_end_auto_cell,
    tbr_end_auto_row, tbr_end_auto_table, tbr_end_auto_cell, tbr_end_auto_row, start_cell, add_words, tbr_end_auto_cell,
    tbr_end_auto_row, tbr_end_auto_table, add_words,
};

static tbr_status tables(void) {
    tbr_options options = tbr_options_default(60);
    tbr_renderer *r;
    options.footnotes = true;
    tbr_status status = tbr_new(&options, &r);
    for (size_t i = 0; i < sizeof TABLE / sizeof TABLE[0] && status == TBR_OK; i++) {
        status = TABLE[i](r);
        if (status != tbr_refusal(r)) {
            status = WRONG;
        }
    }
    if (status == TBR_OK) {
        status = tbr_finish(r);
    }
    tbr_free(r);
    return status;
}

/* ---- quotes, items and headers, which keep a refusal or are as they were ---- */

static tbr_status start_tenth(tbr_renderer *r) { return tbr_start_ordered_item(r, 10); }
static tbr_status end_tenth(tbr_renderer *r) { return tbr_end_ordered_item(r, 10); }
static tbr_status start_title(tbr_renderer *r) { return tbr_start_header(r, 2); }
static tbr_status end_title(tbr_renderer *r) { return tbr_end_header(r, 2); }

static tbr_status (*const BLOCKS[])(tbr_renderer *) = {
    add_words, start_title, add_words, end_title, tbr_start_quote, add_words, tbr_start_item, add_words, tbr_end_item,
    start_tenth, add_words, end_tenth, tbr_end_quote, add_words,
};

/* Makes a call. One that is refused without being kept is made once more, when there is memory again. */
static tbr_status make_or_repeat(tbr_renderer *r, tbr_status (*call)(tbr_renderer *)) {
    tbr_status status = call(r);
    if (status == TBR_OUT_OF_MEMORY && tbr_refusal(r) == TBR_OK) {
        refused = 0;
        status = call(r);
    }
    return status == TBR_OK || status == tbr_refusal(r) ? status : WRONG;
}

/* Makes blocks, and writes their text where no refusal was kept. */
static tbr_status make_blocks(char *text, size_t room, size_t *length) {
    tbr_options options = tbr_options_default(30);
    tbr_renderer *r;
    tbr_status status = tbr_new(&options, &r);
    for (size_t i = 0; i < sizeof BLOCKS / sizeof BLOCKS[0] && status == TBR_OK; i++) {
        status = make_or_repeat(r, BLOCKS[i]);
    }
    if (status == TBR_OK) {
        status = tbr_finish_text(r, length);
    }
    if (status == TBR_OK) {
        status = tbr_text(r, text, room, length);
    }
    tbr_free(r);
    return status;
}

/* Blocks whose text is that of those that had all memory. */
static tbr_status blocks(void) {
    char text[2048], wanted[2048];
    size_t length = 0, all = 0;
    long asked = refused;
    refused = 0;
    if (make_blocks(wanted, sizeof wanted, &all) != TBR_OK) {
        return WRONG;
    }
    refused = asked;
    was_refused = false;
    tbr_status status = make_blocks(text, sizeof text, &length);
    if (status == TBR_OK && (length != all || memcmp(text, wanted, all))) {
        return WRONG;
    }
    return status == TBR_OK && was_refused ? TBR_OUT_OF_MEMORY : status;
}

/* ---- questions, which keep no refusal ---- */

static tbr_status questions(void) {
    tbr_options options = tbr_options_default(20);
    tbr_renderer *r;
    char text[16];
    size_t length;
    bool has_overhang;
    long wanted = refused;
    refused = 0;
    if (tbr_new(&options, &r) != TBR_OK) {
        return WRONG;
    }
    refused = wanted;
    tbr_status status = tbr_ordered_item_prefix(r, 10, text, sizeof text, &length);
    if (status == TBR_OK) {
        status = tbr_has_overhang(r, &has_overhang);
    }
    if (tbr_refusal(r) != TBR_OK) {
        status = WRONG;
    }
    tbr_free(r);
    return status;
}

static tbr_status script(void) {
    static const char SCRIPT[] =
        "new 20 rich footnotes\ntext The \nlink https://example.org\\u{1b}\ntext old bridge\nendlink\ntext  opens\n"
        "border 11\ncell 5 2\ntext Bread\nendcell\ncell 5 1\ntext two\nendcell\nrow\n";
    char out[256];
    return (tbr_status)tbr_render(SCRIPT, sizeof SCRIPT - 1, out, sizeof out).status;
}

/* Refuses one allocation after the other, until all are made. */
static bool refuse_each(const char *what, tbr_status (*run)(void)) {
    for (long count = 1; count < 100000; count++) {
        refused = count;
        was_refused = false;
        tbr_status status = run();
        refused = 0;
        if (!was_refused) {
            printf("%s: %ld allocations, each refused once: %s\n", what, count - 1, tbr_status_text(status));
            return status == TBR_OK && count > 1;
        }
        if (status != TBR_OUT_OF_MEMORY) {
            printf("%s: %s where allocation %ld was refused\n", what, tbr_status_text(status), count);
            return false;
        }
    }
    return false;
}

int main(void) {
    bool is_well = refuse_each("a document", document);
    is_well = refuse_each("a document in formats", formats_of_document) && is_well;
    is_well = refuse_each("a document's text", text_of_document) && is_well;
    is_well = refuse_each("tables", tables) && is_well;
    is_well = refuse_each("quotes, items and headers", blocks) && is_well;
    is_well = refuse_each("questions", questions) && is_well;
    is_well = refuse_each("a script", script) && is_well;
    return is_well ? 0 : 1;
}
