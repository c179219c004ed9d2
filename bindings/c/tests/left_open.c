/*
 * Opens five thousand stretches with a text each, ends none, and takes all pieces of all lines. Each piece is under one
 * annotation more than the one before. The test runs it in 64 MiB: all annotations of all pieces at once would take 300.
 */
#include <stdio.h>

#include "text_block_renderer.h"

enum { WIDTH = 60, STRETCHES = 5000 };

static tbr_status fill(tbr_renderer *r) {
    tbr_status status = TBR_OK;
    for (int i = 0; i < STRETCHES && status == TBR_OK; i++) {
        status = tbr_start_emphasis(r);
        if (status == TBR_OK) {
            status = tbr_add_text(r, "a ");
        }
    }
    return status == TBR_OK ? tbr_finish(r) : status;
}

/* Counts the pieces of the line that was taken last. It answers false where one isn't as it has to be. */
static bool count_pieces(tbr_renderer *r, const tbr_line *line, size_t *count) {
    for (size_t i = 0; i < line->pieces; i++) {
        tbr_piece piece;
        if (tbr_get_piece(r, i, &piece) != TBR_OK || piece.annotations < *count || piece.annotations > *count + 1) {
            return false;
        }
        *count = piece.annotations;
    }
    return true;
}

int main(void) {
    tbr_options options = tbr_options_default(WIDTH);
    options.decorator = TBR_RICH;
    tbr_renderer *r;
    tbr_line line;
    size_t count = 0;
    if (tbr_new(&options, &r) != TBR_OK || fill(r) != TBR_OK) {
        return 2;
    }
    tbr_status status = tbr_next_line(r, &line);
    while (status == TBR_OK && count_pieces(r, &line, &count)) {
        status = tbr_next_line(r, &line);
    }
    tbr_free(r);
    bool is_well = status == TBR_NO_LINE && count == STRETCHES;
    printf("%zu stretches left open: %s\n", count, is_well ? "well" : "failed");
    return is_well ? 0 : 1;
}
