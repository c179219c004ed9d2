/*
 * Control characters that come in by prefixes and by the targets of links, and how they come out.
 *
 *     safe           the examples, whose texts follow from the header
 *     safe SEED N    N random documents with control characters everywhere: none gets out
 */
#include <stdio.h>
#include <stdlib.h>
#include <string.h>

#include "text_block_renderer.h"

static int failures = 0;

static void well(tbr_status status) {
    if (status != TBR_OK) {
        fprintf(stderr, "safe: %s\n", tbr_status_text(status));
        exit(EXIT_FAILURE);
    }
}

static tbr_renderer *new_renderer(size_t width, bool raw) {
    tbr_options options = tbr_options_default(width);
    tbr_renderer *r;
    options.decorator = TBR_RICH;
    options.footnotes = true;
    options.raw = raw;
    well(tbr_new(&options, &r));
    return r;
}

/* ---- the examples ---- */

static void want_text(const char *what, const char *text, size_t length, const char *wanted) {
    if (length != strlen(wanted) || memcmp(text, wanted, length)) {
        printf("%s: the text is\n%.*snot\n%s", what, (int)length, text, wanted);
        failures++;
    }
}

static void want_end(const char *what, tbr_renderer *r, const char *wanted) {
    char text[1024];
    size_t length;
    well(tbr_finish_text(r, &length));
    well(tbr_text(r, text, sizeof text, &length));
    tbr_free(r);
    want_text(what, text, length, wanted);
}

/* An escape, a newline, a tab, a delete and two of C1, the first and the last. */
static const char CONTROLS[] = "\x1b\n\t\x7f\xc2\x80\xc2\x9f";
static const char SHOWN[] = "%1B%0A%09%7F%C2%80%C2%9F";

static tbr_renderer *with_prefixes(bool raw, const char *first, const char *others) {
    tbr_renderer *r = new_renderer(40, raw);
    well(tbr_start_sub(r, 3));
    well(tbr_add_text(r, "abc def"));
    well(tbr_append_sub(r, first, others));
    return r;
}

static void prefixes(void) {
    char wanted[128];
    snprintf(wanted, sizeof wanted, "%sabc\n%s>def\n", SHOWN, SHOWN);
    want_end("prefixes", with_prefixes(false, CONTROLS, "\x1b\n\t\x7f\xc2\x80\xc2\x9f>"), wanted);
    snprintf(wanted, sizeof wanted, "%sabc\ndef\n", CONTROLS);
    want_end("raw prefixes", with_prefixes(true, CONTROLS, ""), wanted);
    want_end("other prefixes", with_prefixes(false, "%1B ", "\xc2\xa0\xc3\xa9"), "%1B abc\n\xc2\xa0\xc3\xa9" "def\n");
}

/* A prefix is as wide as it is shown: a border after it is text of its columns. */
static void widths(void) {
    tbr_renderer *r = new_renderer(20, false);
    tbr_line line;
    well(tbr_start_sub(r, 3));
    well(tbr_add_text(r, "abc"));
    well(tbr_append_sub(r, "\x1b\x1b", ""));
    well(tbr_finish(r));
    well(tbr_next_line(r, &line));
    if (line.columns != 9) {
        printf("widths: %zu columns, not 9\n", line.columns);
        failures++;
    }
    tbr_free(r);
}

static tbr_renderer *with_link(size_t width, bool raw, const char *target) {
    tbr_renderer *r = new_renderer(width, raw);
    well(tbr_start_link(r, target));
    well(tbr_add_text(r, "here"));
    well(tbr_end_link(r));
    return r;
}

static void targets(void) {
    want_end("a target", with_link(40, false, "\x1b]0;pwned\x07x"), "here[1]\n\n[1]: %1B]0;pwned%07x\n");
    want_end("a raw target", with_link(40, true, "\x1b]0;pwned\x07x"), "here[1]\n\n[1]: \x1b]0;pwned\x07x\n");
    want_end("a target that is cut", with_link(8, false, "ab\x1b" "cd"), "here[1]\n\n[1]: ab%\n1Bcd\n");
    want_end("another target", with_link(40, false, "http://\xc3\xa9/%1b"), "here[1]\n\n[1]: http://\xc3\xa9/%1b\n");
}

/* Annotations and names of markers keep what came. */
static void annotations(void) {
    tbr_renderer *r = with_link(40, false, "\x1b]8");
    char target[8];
    tbr_line line;
    size_t length;
    well(tbr_add_marker(r, "\x07"));
    well(tbr_add_text(r, "."));
    well(tbr_finish(r));
    well(tbr_next_line(r, &line));
    well(tbr_annotation_target(r, 0, 0, target, sizeof target, &length));
    want_text("an annotation", target, length, "\x1b]8");
    well(tbr_marker_name(r, line.pieces - 2, target, sizeof target, &length));
    want_text("a marker", target, length, "\x07");
    tbr_free(r);
}

static void scripts(void) {
    static const char SCRIPT[] = "new 40 plain footnotes\nsub 9\nlink \\u{1b}x\ntext y\nendlink\nappend \\u{9b}\x7f | \n";
    char text[128];
    tbr_answer answer = tbr_render(SCRIPT, sizeof SCRIPT - 1, text, sizeof text);
    well((tbr_status)answer.status);
    want_text("a script", text, answer.length, "%C2%9B%7F[y][1]\n\n[1]: %1Bx\n");
    answer = tbr_render_raw(SCRIPT, sizeof SCRIPT - 1, text, sizeof text);
    well((tbr_status)answer.status);
    want_text("a raw script", text, answer.length, "\xc2\x9b\x7f[y][1]\n\n[1]: \x1bx\n");
}

/* ---- random documents ---- */

static uint32_t state = 1;

/* A number below another one. */
static uint32_t below(uint32_t count) {
    state ^= state << 13;
    state ^= state >> 17;
    state ^= state << 5;
    return state % count;
}

/* A text of a few characters, many of them control characters. */
static const char *some_text(char *text) {
    size_t at = 0;
    for (uint32_t left = below(9); left; left--) {
        uint32_t c = below(4) == 0 ? 'a' + below(26) : below(3) ? 1 + below(32) : 0x7f + below(34);
        if (c >= 0x80) text[at++] = (char)0xc2;
        text[at++] = (char)c;
    }
    text[at] = 0;
    return text;
}

/* Makes one call with texts of control characters. What it refuses doesn't matter here. */
static tbr_status some_call(tbr_renderer *r) {
    char one[24], other[24];
    some_text(one);
    some_text(other);
    switch (below(16)) {
    case 0: return tbr_start_link(r, one);
    case 1: return tbr_end_link(r);
    case 2: return tbr_start_sub(r, 1 + below(12));
    case 3: return tbr_append_sub(r, one, other);
    case 4: return tbr_add_image(r, one, other);
    case 5: return tbr_add_marker(r, one);
    case 6: return tbr_start_cell(r, 1 + below(9), 1 + below(2), (tbr_alignment)below(3));
    case 7: return tbr_end_cell(r);
    case 8: return tbr_add_row(r, below(2));
    case 9: return tbr_push_white_space(r, (tbr_white_space)below(3));
    case 10: return tbr_start_strikeout(r);
    case 11: return tbr_new_line_hard(r);
    case 12: return tbr_add_border(r);
    case 13: return tbr_start_superscript(r);
    default: return tbr_add_text(r, one);
    }
}

/* Closes what is open. */
static void close_levels(tbr_renderer *r) {
    size_t open = 1, waiting = 1;
    while (!tbr_open_levels(r, &open) && !tbr_waiting_cells(r, &waiting) && (open || waiting)) {
        if (waiting ? tbr_add_vertical_row(r) : tbr_append_sub(r, "\x1b", "\x7f") && tbr_end_cell(r)) {
            return;
        }
    }
}

/* How many bytes a control sequence of TBR_FORMAT_ANSI has, or 0 where there is none: one that selects how characters are
   shown, or a link to a target without spaces and controls. */
static size_t sequence(const char *text, size_t length) {
    size_t at = 2;
    if (length > 2 && !memcmp(text, "\x1b[", 2)) {
        while (at < length && ((text[at] >= '0' && text[at] <= '9') || text[at] == ';')) at++;
        return at < length && text[at] == 'm' ? at + 1 : 0;
    }
    if (length < 5 || memcmp(text, "\x1b]8;;", 5)) {
        return 0;
    }
    for (at = 5; at < length && text[at] > ' ' && text[at] < 0x7f; at++) {}
    return at + 1 < length && !memcmp(text + at, "\x1b\\", 2) ? at + 2 : 0;
}

/* Whether lines have a control character that doesn't end one, nor is of a sequence of their format. */
static bool has_control(const char *text, size_t length, tbr_format format) {
    for (size_t i = 0; i < length; i++) {
        unsigned char c = (unsigned char)text[i];
        size_t own = format == TBR_FORMAT_ANSI ? sequence(text + i, length - i) : 0;
        if (own) {
            i += own - 1;
        } else if ((c < 0x20 && c != '\n') || c == 0x7f) {
            return true;
        } else if (c == 0xc2 && i + 1 < length && (unsigned char)text[i + 1] < 0xa0) {
            return true;
        }
    }
    return false;
}

/* Whether the lines of a renderer that is finished have one in a format. */
static bool shows_control(tbr_renderer *r, tbr_format format) {
    size_t length = 0;
    tbr_status status = tbr_text_as(r, format, NULL, 0, &length);
    if (status != TBR_BUFFER_TOO_SMALL) {
        well(status);
        return false;
    }
    char *text = malloc(length);
    if (!text) {
        exit(EXIT_FAILURE);
    }
    well(tbr_text_as(r, format, text, length, &length));
    bool shows = has_control(text, length, format);
    free(text);
    return shows;
}

/* Whether they do in any format but text. */
static bool shows_control_formatted(tbr_renderer *r) {
    return shows_control(r, TBR_FORMAT_ANSI) || shows_control(r, TBR_FORMAT_HTML) || shows_control(r, TBR_FORMAT_JSON);
}

/* Makes a document, and answers whether its text has a control character. One that is refused has no text. */
static bool document(bool raw) {
    tbr_options options = tbr_options_default(1 + below(30));
    tbr_renderer *r;
    options.decorator = below(3);
    options.overflow = below(2);
    options.pad = below(2);
    options.footnotes = below(4);
    options.wrap_links = below(2);
    options.images = below(3);
    options.raw = raw;
    well(tbr_new(&options, &r));
    for (uint32_t left = below(30); left; left--) {
        some_call(r);
    }
    close_levels(r);
    bool is_finished = tbr_finish(r) == TBR_OK;
    bool shows = is_finished && shows_control(r, TBR_FORMAT_TEXT);
    if (is_finished && shows_control_formatted(r)) {
        printf("a control character in a format\n");
        failures++;
    }
    tbr_free(r);
    return shows;
}

/* Each once as it is by default, and another one raw, which shows that there are some to come out. */
static void documents(uint32_t seed, uint32_t count) {
    uint32_t raw = 0;
    state = seed * 2654435761u + 1;
    for (uint32_t number = 0; number < count; number++) {
        if (document(false)) {
            printf("a control character in the text of document %u\n", number);
            failures++;
        }
        raw += document(true);
    }
    printf("safe: %u random documents without control characters, and as many raw ones, %u of them with some\n", count, raw);
    failures += raw == 0;
}

int main(int count, char **words) {
    if (count == 3) {
        documents((uint32_t)atoi(words[1]), (uint32_t)atoi(words[2]));
    } else {
        prefixes();
        widths();
        targets();
        annotations();
        scripts();
    }
    printf("safe: %s\n", failures ? "failed" : "well");
    return failures ? 1 : 0;
}
