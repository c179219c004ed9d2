/*
 * A program that was compiled with the header of another version: the library reads the options by their size, and
 * tells its own version.
 */
#include <stdio.h>
#include <string.h>

#include "text_block_renderer.h"

/* Options as version 0.2 had them. */
typedef struct first_options {
    size_t size;
    size_t width;
    size_t wrap_width;
    uint32_t decorator;
    uint32_t images;
    bool overflow;
    bool pad;
    bool footnotes;
    bool wrap_links;
    bool strikeout_strokes;
    bool draw_borders;
} first_options;

/* Options as a later version may have them. */
typedef struct later_options {
    tbr_options known;
    uint64_t unknown;
} later_options;

static int failures = 0;

static void want(bool holds, const char *what) {
    if (!holds) {
        printf("it isn't so that %s\n", what);
        failures++;
    }
}

static tbr_status made_with(const tbr_options *options) {
    tbr_renderer *renderer;
    tbr_status status = tbr_new(options, &renderer);
    want((status == TBR_OK) == (renderer != NULL), "there is a renderer at TBR_OK alone");
    tbr_free(renderer);
    return status;
}

static void same_version(void) {
    tbr_options options = tbr_options_default(20);
    want(options.size == sizeof options, "the options tell their own size");
    want(options.width == 20 && options.wrap_links && options.strikeout_strokes && options.draw_borders,
        "the options are those of a plain renderer");
    want(made_with(&options) == TBR_OK, "they make a renderer");
    want(!strncmp(tbr_version(), TBR_VERSION, strlen(TBR_VERSION)), "the library is of the header's version");
}

static void options_without_a_size(void) {
    tbr_options options;
    memset(&options, 0, sizeof options);
    options.width = 20;
    want(made_with(&options) == TBR_BAD_ARGUMENT, "options that nobody set are refused");
    options.size = sizeof(first_options) - 1;
    want(made_with(&options) == TBR_BAD_ARGUMENT, "so are options that lack a field of the first version");
}

static void later_version(void) {
    later_options options;
    memset(&options, 0xff, sizeof options);
    tbr_options_init(&options.known, sizeof options, 20);
    want(options.known.size == sizeof options && options.unknown == 0, "what the library doesn't know is 0");
    want(made_with(&options.known) == TBR_OK, "it may be there");
    options.unknown = 1;
    want(made_with(&options.known) == TBR_BAD_ARGUMENT, "it isn't passed over where it asks for something");
}

/* Whether a renderer of these options shows an escape in a prefix as it came. */
static bool shows_escape(const tbr_options *options) {
    tbr_renderer *r;
    char text[64];
    size_t length = 0;
    tbr_status status = tbr_new(options, &r);
    if (!status) status = tbr_start_sub(r, 4);
    if (!status) status = tbr_add_text(r, "a");
    if (!status) status = tbr_append_sub(r, "\x1b", "");
    if (!status) status = tbr_finish_text(r, &length);
    if (!status) status = tbr_text(r, text, sizeof text, &length);
    want(status == TBR_OK, "a prefix may have an escape");
    tbr_free(r);
    return memchr(text, 0x1b, length) != NULL;
}

/* A program that was compiled with the first header gets the defaults of what it doesn't know, whatever is after its
   options. */
static void first_version(void) {
    struct {
        first_options known;
        unsigned char after[sizeof(tbr_options)];
    } options;
    memset(&options, 0xff, sizeof options);
    tbr_options_init((tbr_options *)(void *)&options, sizeof options.known, 20);
    want(sizeof options.known < sizeof(tbr_options), "the options have grown");
    want(options.known.size == sizeof options.known && options.known.draw_borders && options.after[0] == 0xff,
        "as many bytes are set as the first version had");
    want(!shows_escape((const tbr_options *)(void *)&options), "its text has no control characters");
}

static void raw_options(void) {
    tbr_options options = tbr_options_default(20);
    want(!options.raw && !shows_escape(&options), "no control character comes out");
    options.raw = true;
    want(shows_escape(&options), "unless that is asked for");
}

/* No byte after the size is written. */
static void smaller_struct(void) {
    unsigned char bytes[sizeof(tbr_options)];
    memset(bytes, 0xff, sizeof bytes);
    tbr_options_init((tbr_options *)(void *)bytes, 16, 20);
    want(bytes[8] == 20 && bytes[15] == 0 && bytes[16] == 0xff, "as many bytes are set as the caller has");
}

int main(void) {
    same_version();
    options_without_a_size();
    first_version();
    raw_options();
    later_version();
    smaller_struct();
    printf("versions: %s\n", failures ? "failed" : "well");
    return failures ? 1 : 0;
}
