/*
 * Quotes, items and headers, as people speak of them.
 *
 *     spoken               the examples, whose texts follow from docs/SCRIPT.md
 *     spoken text SEED     the text of random blocks inside one another, call by call
 *     spoken script SEED   the same blocks as a script for blockview
 */
#include <inttypes.h>
#include <stdio.h>
#include <stdlib.h>
#include <string.h>

#include "text_block_renderer.h"

/* Ends the program where a call refuses. */
static void well(tbr_status status) {
    if (status != TBR_OK) {
        fprintf(stderr, "spoken: %s\n", tbr_status_text(status));
        exit(EXIT_FAILURE);
    }
}

static tbr_renderer *new_renderer(size_t width, tbr_decorator decorator, bool pad) {
    tbr_options options = tbr_options_default(width);
    tbr_renderer *r;
    options.decorator = decorator;
    options.pad = pad;
    well(tbr_new(&options, &r));
    return r;
}

/* ---- the examples ---- */

static bool is_text(tbr_renderer *r, const char *wanted) {
    char text[1024];
    size_t length;
    well(tbr_finish_text(r, &length));
    well(tbr_text(r, text, sizeof text, &length));
    tbr_free(r);
    if (length == strlen(wanted) && !memcmp(text, wanted, length)) {
        return true;
    }
    printf("the text is\n%.*snot\n%s", (int)length, text, wanted);
    return false;
}

/* The one that docs/C.md shows. */
static tbr_status add_reply(tbr_renderer *mail) {
    tbr_status status = tbr_start_quote(mail);
    if (!status) status = tbr_add_text(mail, "See you at nine, at the gate.");
    if (!status) status = tbr_end_quote(mail);
    if (!status) status = tbr_start_item(mail);
    if (!status) status = tbr_add_text(mail, "Bring bread and some cake.");
    return status ? status : tbr_end_item(mail);
}

static bool a_quote_and_an_item(void) {
    tbr_renderer *r = new_renderer(20, TBR_PLAIN, false);
    well(add_reply(r));
    return is_text(r, "> See you at nine,\n> at the gate.\n* Bring bread and\n  some cake.\n");
}

static bool a_header_and_a_list(void) {
    tbr_renderer *r = new_renderer(16, TBR_PLAIN, false);
    well(tbr_add_text(r, "above"));
    well(tbr_start_header(r, 2));
    well(tbr_add_text(r, "What to bring"));
    well(tbr_end_header(r, 2));
    well(tbr_add_text(r, "Please:"));
    for (int64_t number = 9; number <= 10; number++) {
        well(tbr_start_ordered_item(r, number));
        well(tbr_add_text(r, "a cup of coffee"));
        well(tbr_end_ordered_item(r, number));
    }
    return is_text(r, "above\n\n## What to bring\n\nPlease:\n9. a cup of\n   coffee\n10. a cup of\n    coffee\n");
}

static bool blocks_inside_one_another(void) {
    tbr_renderer *r = new_renderer(12, TBR_RICH, false);
    well(tbr_start_quote(r));
    well(tbr_start_item(r));
    well(tbr_add_text(r, "a b c d e f g"));
    well(tbr_start_quote(r));
    well(tbr_add_text(r, "h"));
    well(tbr_end_quote(r));
    well(tbr_end_item(r));
    well(tbr_end_quote(r));
    return is_text(r, "> * a b c d\n>   e f g\n>   \n>   > h\n");
}

static bool nothing_under_the_trivial_decorator(void) {
    tbr_renderer *r = new_renderer(4, TBR_TRIVIAL, false);
    well(tbr_start_header(r, SIZE_MAX));
    well(tbr_start_item(r));
    well(tbr_add_text(r, "a bc d"));
    well(tbr_end_item(r));
    well(tbr_end_header(r, SIZE_MAX));
    return is_text(r, "a bc\nd\n");
}

static int examples(void) {
    bool is_well = a_quote_and_an_item();
    is_well = a_header_and_a_list() && is_well;
    is_well = blocks_inside_one_another() && is_well;
    is_well = nothing_under_the_trivial_decorator() && is_well;
    printf("spoken: %s\n", is_well ? "well" : "failed");
    return is_well ? EXIT_SUCCESS : EXIT_FAILURE;
}

/* ---- random blocks, which are called where there is a renderer, and else written as a script ---- */

enum { BLOCKS = 200, DEPTH = 4 };

static uint32_t state;

static uint32_t below(uint32_t bound) {
    state = state * 1664525 + 1013904223;
    return (state >> 8) % bound;
}

static void start(tbr_renderer *r, uint32_t kind, int64_t number) {
    switch (kind) {
    case 0: r ? well(tbr_start_quote(r)) : (void)puts("quote"); break;
    case 1: r ? well(tbr_start_item(r)) : (void)puts("item"); break;
    case 2: r ? well(tbr_start_ordered_item(r, number)) : (void)printf("ordered %" PRId64 "\n", number); break;
    default: r ? well(tbr_start_header(r, (size_t)number)) : (void)printf("heading %" PRId64 "\n", number);
    }
}

static void end(tbr_renderer *r, uint32_t kind, int64_t number) {
    switch (kind) {
    case 0: r ? well(tbr_end_quote(r)) : (void)puts("endquote"); break;
    case 1: r ? well(tbr_end_item(r)) : (void)puts("enditem"); break;
    case 2: r ? well(tbr_end_ordered_item(r, number)) : (void)puts("endordered"); break;
    default: r ? well(tbr_end_header(r, (size_t)number)) : (void)puts("endheading");
    }
}

static void add_text(tbr_renderer *r) {
    static const char *const TEXTS[] = {
        "The baker ", "is back", " on Sundays, from nine to noon.", "漢字", "a-very-long-word",
    };
    const char *text = TEXTS[below(sizeof TEXTS / sizeof TEXTS[0])];
    r ? well(tbr_add_text(r, text)) : (void)printf("text %s\n", text);
}

static void add_block(tbr_renderer *r, uint32_t depth) {
    uint32_t kind = below(4);
    int64_t number = kind == 2 ? below(12000) : 1 + below(6);
    start(r, kind, number);
    for (uint32_t left = below(4); left > 0; left--) {
        switch (depth < DEPTH ? below(5) : 1 + below(4)) {
        case 0: add_block(r, depth + 1); break;
        case 1: r ? well(tbr_start_block(r)) : (void)puts("block"); break;
        case 2: r ? well(tbr_add_border(r)) : (void)puts("border"); break;
        default: add_text(r);
        }
    }
    end(r, kind, number);
}

static int random_blocks(uint32_t seed, bool is_script) {
    static const char *const DECORATORS[] = {"plain", "trivial", "rich"};
    static char text[1 << 20];
    size_t length;
    state = seed;
    size_t width = 40 + below(30);
    tbr_decorator decorator = (tbr_decorator)(seed % 3);
    bool pad = below(3) == 0;
    tbr_renderer *r = is_script ? NULL : new_renderer(width, decorator, pad);
    if (is_script) {
        printf("new %u %s%s\n", (unsigned)width, DECORATORS[decorator], pad ? " pad" : "");
    }
    for (int i = 0; i < BLOCKS; i++) {
        below(3) ? add_block(r, 1) : add_text(r);
    }
    if (r) {
        well(tbr_finish_text(r, &length));
        well(tbr_text(r, text, sizeof text, &length));
        fwrite(text, 1, length, stdout);
        tbr_free(r);
    }
    return EXIT_SUCCESS;
}

int main(int count, char **words) {
    if (count == 1) {
        return examples();
    }
    if (count != 3) {
        fputs("usage: spoken [text SEED | script SEED]\n", stderr);
        return 2;
    }
    return random_blocks((uint32_t)strtoul(words[2], NULL, 10), !strcmp(words[1], "script"));
}
