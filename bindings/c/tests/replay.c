/*
 * Reads a script from standard input, and makes its calls on a renderer one by one. It ends as blockrender does: the
 * same text, the same line on standard error, the same status.
 *
 * Besides, it asks for the lines piece by piece, for the text alone, for the script as a whole, and for lines in each
 * format. It ends with status 99 where these aren't the same. All is raw, as blockrender has it.
 *
 *     replay          writes the text
 *     replay FORMAT   writes the lines in a format of blockview: ansi, html or json
 */
#include <stdio.h>
#include <stdlib.h>
#include <string.h>

#include "text_block_renderer.h"

/* Bytes of the script. */
typedef struct slice {
    const char *at;
    size_t length;
} slice;

/* Bytes of the heap. */
typedef struct buffer {
    char *at;
    size_t length;
} buffer;

/* A failure of this program itself. */
static void fail(const char *why) {
    fprintf(stderr, "%s\n", why);
    exit(99);
}

static void *memory(size_t size) {
    void *at = malloc(size ? size : 1);
    if (!at) {
        fail("this program is out of memory");
    }
    return at;
}

/* ---- words, numbers and escapes ---- */

static bool is_word(slice text, const char *word) {
    return text.length == strlen(word) && !memcmp(text.at, word, text.length);
}

static slice skip(slice text, size_t count) {
    slice rest = {text.at + count, text.length - count};
    return rest;
}

/* Splits a text at the first place of a mark. */
static bool split(slice text, const char *mark, slice *before, slice *after) {
    size_t length = strlen(mark);
    for (size_t i = 0; i + length <= text.length; i++) {
        if (!memcmp(text.at + i, mark, length)) {
            before->at = text.at;
            before->length = i;
            *after = skip(text, i + length);
            return true;
        }
    }
    return false;
}

/* The value of decimal digits, up to a greatest one. */
static bool number(slice digits, size_t greatest, size_t *value) {
    *value = 0;
    for (size_t i = 0; i < digits.length; i++) {
        if (digits.at[i] < '0' || digits.at[i] > '9') {
            return false;
        }
        size_t digit = (size_t)(digits.at[i] - '0');
        if (*value > (greatest - digit) / 10) {
            return false;
        }
        *value = *value * 10 + digit;
    }
    return digits.length > 0;
}

static bool size(slice digits, size_t *value) {
    return number(digits, SIZE_MAX, value) && *value > 0;
}

/* Three numbers up to 255, with one space between two. */
static bool colour(slice text, uint8_t rgb[3]) {
    slice part[3];
    if (!split(text, " ", &part[0], &text) || !split(text, " ", &part[1], &part[2])) {
        return false;
    }
    for (int i = 0; i < 3; i++) {
        size_t value;
        if (!number(part[i], 255, &value)) {
            return false;
        }
        rgb[i] = (uint8_t)value;
    }
    return true;
}

static int hexadecimal(char digit) {
    if (digit >= '0' && digit <= '9') {
        return digit - '0';
    }
    if (digit >= 'a' && digit <= 'f') {
        return digit - 'a' + 10;
    }
    return digit >= 'A' && digit <= 'F' ? digit - 'A' + 10 : -1;
}

/* Appends a character as UTF-8, if the number is one. */
static bool put_character(buffer *text, uint32_t code) {
    if (code > 0x10ffff || (code >= 0xd800 && code < 0xe000)) {
        return false;
    }
    char *at = text->at + text->length;
    size_t length = code < 0x80 ? 1 : code < 0x800 ? 2 : code < 0x10000 ? 3 : 4;
    static const uint8_t first[] = {0, 0x00, 0xc0, 0xe0, 0xf0};
    for (size_t i = length; i-- > 1; code >>= 6) {
        at[i] = (char)(0x80 | (code & 0x3f));
    }
    at[0] = (char)(first[length] | code);
    text->length += length;
    return true;
}

/* Appends the character of the digits in braces that follow \u, and skips them. */
static bool put_named(buffer *text, slice *rest) {
    slice digits;
    if (!rest->length || rest->at[0] != '{' || !split(skip(*rest, 1), "}", &digits, rest)) {
        return false;
    }
    uint32_t code = 0;
    for (size_t i = 0; i < digits.length; i++) {
        int digit = hexadecimal(digits.at[i]);
        if (digit < 0) {
            return false;
        }
        code = code * 16 + (uint32_t)digit;
    }
    return digits.length >= 1 && digits.length <= 6 && put_character(text, code);
}

/* Appends the character of the escape that follows a backslash, and skips it. */
static bool put_escape(buffer *text, slice *rest) {
    if (!rest->length) {
        return false;
    }
    char kind = rest->at[0];
    *rest = skip(*rest, 1);
    switch (kind) {
    case 'n': return put_character(text, '\n');
    case 't': return put_character(text, '\t');
    case '\\': return put_character(text, '\\');
    case 'u': return put_named(text, rest);
    default: return false;
    }
}

/* A text with its escapes replaced, in memory of its own, which is as long as they are. */
static bool unescape(slice writing, buffer *text) {
    text->at = memory(writing.length);
    text->length = 0;
    while (writing.length) {
        char c = writing.at[0];
        writing = skip(writing, 1);
        if (c != '\\') {
            text->at[text->length++] = c;
        } else if (!put_escape(text, &writing)) {
            free(text->at);
            return false;
        }
    }
    return true;
}

/* ---- commands ---- */

/* A command without an argument. */
typedef struct plain_command {
    const char *name;
    tbr_status (*call)(tbr_renderer *);
} plain_command;

static tbr_status push_normal(tbr_renderer *r) { return tbr_push_white_space(r, TBR_NORMAL); }
static tbr_status push_pre(tbr_renderer *r) { return tbr_push_white_space(r, TBR_PRE); }
static tbr_status push_pre_wrap(tbr_renderer *r) { return tbr_push_white_space(r, TBR_PRE_WRAP); }
static tbr_status add_row(tbr_renderer *r) { return tbr_add_row(r, false); }
static tbr_status add_row_collapsed(tbr_renderer *r) { return tbr_add_row(r, true); }

static const plain_command PLAIN[] = {
    {"block", tbr_start_block},
    {"endblock", tbr_end_block},
    {"table", tbr_start_table},
    {"line", tbr_new_line},
    {"hardline", tbr_new_line_hard},
    {"empty", tbr_add_empty_line},
    {"border", tbr_add_border},
    {"ws normal", push_normal},
    {"ws pre", push_pre},
    {"ws prewrap", push_pre_wrap},
    {"endws", tbr_pop_white_space},
    {"pre", tbr_start_preformatted},
    {"endpre", tbr_end_preformatted},
    {"endlink", tbr_end_link},
    {"em", tbr_start_emphasis},
    {"endem", tbr_end_emphasis},
    {"strong", tbr_start_strong},
    {"endstrong", tbr_end_strong},
    {"strike", tbr_start_strikeout},
    {"endstrike", tbr_end_strikeout},
    {"code", tbr_start_code},
    {"endcode", tbr_end_code},
    {"super", tbr_start_superscript},
    {"endsuper", tbr_end_superscript},
    {"endcolour", tbr_end_colour},
    {"endbg", tbr_end_background},
    {"endcell", tbr_end_cell},
    {"row", add_row},
    {"row collapse", add_row_collapsed},
    {"vrow", tbr_add_vertical_row},
};

/* A command with one text. */
typedef struct text_command {
    const char *name;
    tbr_status (*call)(tbr_renderer *, const char *, size_t);
} text_command;

static const text_command TEXT[] = {
    {"text", tbr_add_text_n},
    {"link", tbr_start_link_n},
    {"frag", tbr_add_marker_n},
};

/* A command with two texts. */
typedef struct pair_command {
    const char *name;
    tbr_status (*call)(tbr_renderer *, const char *, size_t, const char *, size_t);
} pair_command;

static const pair_command PAIR[] = {
    {"image", tbr_add_image_n},
    {"append", tbr_append_sub_n},
};

/* A command with a colour. */
typedef struct colour_command {
    const char *name;
    tbr_status (*call)(tbr_renderer *, uint8_t, uint8_t, uint8_t);
} colour_command;

static const colour_command COLOUR[] = {
    {"colour", tbr_start_colour},
    {"bg", tbr_start_background},
};

#define COUNT(array) (sizeof(array) / sizeof(array)[0])

static tbr_status with_text(tbr_renderer *r, const text_command *command, slice argument) {
    buffer text;
    if (!unescape(argument, &text)) {
        return TBR_NOT_A_COMMAND;
    }
    tbr_status status = command->call(r, text.at, text.length);
    free(text.at);
    return status;
}

static tbr_status with_pair(tbr_renderer *r, const pair_command *command, slice argument) {
    slice before, after;
    buffer first, second;
    if (!split(argument, " | ", &before, &after) || !unescape(before, &first)) {
        return TBR_NOT_A_COMMAND;
    }
    if (!unescape(after, &second)) {
        free(first.at);
        return TBR_NOT_A_COMMAND;
    }
    tbr_status status = command->call(r, first.at, first.length, second.at, second.length);
    free(first.at);
    free(second.at);
    return status;
}

static tbr_status with_colour(tbr_renderer *r, const colour_command *command, slice argument) {
    uint8_t rgb[3];
    return colour(argument, rgb) ? command->call(r, rgb[0], rgb[1], rgb[2]) : TBR_NOT_A_COMMAND;
}

static tbr_status start_cell(tbr_renderer *r, slice argument) {
    static const char *const NAMES[] = {"left", "right", "centre"};
    slice width, rest, span, name = {"left", 4};
    size_t columns, rows;
    if (!split(argument, " ", &width, &rest)) {
        return TBR_NOT_A_COMMAND;
    }
    if (!split(rest, " ", &span, &name)) {
        span = rest;
    }
    for (size_t i = 0; i < COUNT(NAMES); i++) {
        if (is_word(name, NAMES[i]) && size(width, &columns) && size(span, &rows)) {
            return tbr_start_cell(r, columns, rows, (tbr_alignment)i);
        }
    }
    return TBR_NOT_A_COMMAND;
}

/* Makes the call of a command with an argument. */
static tbr_status with_argument(tbr_renderer *r, slice name, slice argument) {
    size_t value;
    for (size_t i = 0; i < COUNT(TEXT); i++) {
        if (is_word(name, TEXT[i].name)) {
            return with_text(r, &TEXT[i], argument);
        }
    }
    for (size_t i = 0; i < COUNT(PAIR); i++) {
        if (is_word(name, PAIR[i].name)) {
            return with_pair(r, &PAIR[i], argument);
        }
    }
    for (size_t i = 0; i < COUNT(COLOUR); i++) {
        if (is_word(name, COLOUR[i].name)) {
            return with_colour(r, &COLOUR[i], argument);
        }
    }
    if (is_word(name, "border") && number(argument, SIZE_MAX, &value)) {
        return tbr_add_border_width(r, value);
    }
    if (is_word(name, "sub") && size(argument, &value)) {
        return tbr_start_sub(r, value);
    }
    return is_word(name, "cell") ? start_cell(r, argument) : TBR_NOT_A_COMMAND;
}

/* Makes the call that a line is. */
static tbr_status call(tbr_renderer *r, slice line) {
    slice name, argument;
    for (size_t i = 0; i < COUNT(PLAIN); i++) {
        if (is_word(line, PLAIN[i].name)) {
            return PLAIN[i].call(r);
        }
    }
    return split(line, " ", &name, &argument) ? with_argument(r, name, argument) : TBR_NOT_A_COMMAND;
}

/* ---- the first command ---- */

static bool set_option(tbr_options *options, slice word) {
    static const char WRAP[] = "wrap=";
    size_t prefix = sizeof WRAP - 1;
    if (is_word(word, "overflow")) {
        options->overflow = true;
    } else if (is_word(word, "pad")) {
        options->pad = true;
    } else if (is_word(word, "footnotes")) {
        options->footnotes = true;
    } else if (is_word(word, "nowraplinks")) {
        options->wrap_links = false;
    } else if (is_word(word, "nostrike")) {
        options->strikeout_strokes = false;
    } else if (is_word(word, "noborders")) {
        options->draw_borders = false;
    } else if (is_word(word, "img=ignore")) {
        options->images = TBR_IMAGES_IGNORED;
    } else if (is_word(word, "img=always")) {
        options->images = TBR_IMAGES_ALWAYS;
    } else if (is_word(word, "img=filename")) {
        options->images = TBR_IMAGES_FILE_NAME;
    } else {
        return word.length > prefix && !memcmp(word.at, WRAP, prefix)
            && size(skip(word, prefix), &options->wrap_width);
    }
    return true;
}

static bool set_decorator(tbr_options *options, slice word) {
    static const char *const NAMES[] = {"plain", "trivial", "rich"};
    for (uint32_t i = 0; i < COUNT(NAMES); i++) {
        if (is_word(word, NAMES[i])) {
            options->decorator = i;
            return true;
        }
    }
    return false;
}

/* Takes the next word of a line. */
static bool next_word(slice *rest, bool *is_last, slice *word) {
    if (*is_last) {
        return false;
    }
    if (!split(*rest, " ", word, rest)) {
        *word = *rest;
        *is_last = true;
    }
    return true;
}

/* The options of a line that is a first command. */
static bool opening(slice line, tbr_options *options) {
    bool is_last = false;
    slice word;
    *options = tbr_options_default(0);
    options->raw = true;
    if (!next_word(&line, &is_last, &word) || !is_word(word, "new") || !next_word(&line, &is_last, &word)
        || !size(word, &options->width) || !next_word(&line, &is_last, &word) || !set_decorator(options, word)) {
        return false;
    }
    while (next_word(&line, &is_last, &word)) {
        if (!set_option(options, word)) {
            return false;
        }
    }
    return true;
}

/* ---- a script ---- */

/* How a script ended: a status, and the line at fault. */
typedef struct outcome {
    tbr_status status;
    size_t line;
} outcome;

/* A line of a script that is at fault. */
static outcome at_line(tbr_status status, size_t line) {
    bool has_line = status != TBR_OK && status != TBR_OUT_OF_MEMORY && status != TBR_TOO_NARROW;
    bool is_other = status == TBR_NOTHING_TO_END || status == TBR_ROW_DOES_NOT_FIT;
    outcome ended = {has_line && !is_other ? TBR_NOT_A_COMMAND : status, has_line ? line : 0};
    return ended;
}

/* Takes the next line of a script, without its newline. */
static slice next_line(slice *script) {
    slice line;
    if (!split(*script, "\n", &line, script)) {
        line = *script;
        *script = skip(*script, script->length);
    }
    return line;
}

/* Does what a line of a script says. */
static tbr_status run_line(tbr_renderer **r, slice line) {
    tbr_options options;
    if (!line.length) {
        return TBR_OK;
    }
    if (*r) {
        return call(*r, line);
    }
    return opening(line, &options) ? tbr_new(&options, r) : TBR_NOT_A_COMMAND;
}

/* Makes all calls of a script on a renderer that its first command makes. `*end` is the number of the line after it. */
static outcome fill(slice script, tbr_renderer **r, size_t *end) {
    for (*end = 1; script.length; ++*end) {
        tbr_status status = run_line(r, next_line(&script));
        if (status != TBR_OK) {
            return at_line(status, *end);
        }
    }
    return at_line(*r ? TBR_OK : TBR_NOT_A_COMMAND, *end);
}

/* ---- what is checked beside ---- */

static void check(bool is_so, const char *what) {
    if (!is_so) {
        fail(what);
    }
}

/* The text, which comes whole or not at all. */
static buffer whole_text(tbr_renderer *r) {
    buffer text;
    tbr_status status = tbr_text(r, NULL, 0, &text.length);
    check(status == (text.length ? TBR_BUFFER_TOO_SMALL : TBR_OK), "a length");
    text.at = memory(text.length);
    if (text.length) {
        check(tbr_text(r, text.at, text.length - 1, &text.length) == TBR_BUFFER_TOO_SMALL, "a buffer too small");
    }
    check(tbr_text(r, text.at, text.length, &text.length) == TBR_OK, "a text");
    return text;
}

static void check_target(tbr_renderer *r, size_t piece, size_t place, const tbr_annotation *annotation) {
    bool has_target = annotation->kind == TBR_LINK || annotation->kind == TBR_IMAGE;
    size_t length = 0;
    char *target = memory(annotation->target_bytes);
    tbr_status status = tbr_annotation_target(r, piece, place, target, annotation->target_bytes, &length);
    check(status == (has_target ? TBR_OK : TBR_NO_PIECE), "a target");
    check(length == annotation->target_bytes, "a target's length");
    free(target);
}

/* That each annotation of a piece is there, and none after them. */
static void check_annotations(tbr_renderer *r, size_t place, const tbr_piece *piece) {
    tbr_annotation annotation;
    for (size_t i = 0; i < piece->annotations; i++) {
        check(tbr_get_annotation(r, place, i, &annotation) == TBR_OK, "an annotation");
        check_target(r, place, i, &annotation);
    }
    check(tbr_get_annotation(r, place, piece->annotations, &annotation) == TBR_NO_PIECE, "an annotation too many");
}

static void check_marker(tbr_renderer *r, size_t place, const tbr_piece *piece) {
    size_t length = 0;
    char *name = memory(piece->name_bytes);
    bool is_marker = piece->kind == TBR_MARKER;
    tbr_status status = tbr_marker_name(r, place, name, piece->name_bytes, &length);
    check(status == (is_marker ? TBR_OK : TBR_NO_PIECE), "a marker");
    check(length == piece->name_bytes, "a marker's name");
    check(!is_marker || piece->begin == piece->end, "a marker with text");
    free(name);
}

/* That the pieces of a line are end to end. */
static void check_pieces(tbr_renderer *r, const tbr_line *line) {
    tbr_piece piece;
    size_t end = 0;
    for (size_t i = 0; i < line->pieces; i++, end = piece.end) {
        check(tbr_get_piece(r, i, &piece) == TBR_OK, "a piece");
        check(piece.begin == end && piece.begin <= piece.end, "a piece's place");
        check_annotations(r, i, &piece);
        check_marker(r, i, &piece);
    }
    check(end == line->bytes, "the last piece");
    check(tbr_get_piece(r, line->pieces, &piece) == TBR_NO_PIECE, "a piece too many");
}

/* The lines in a format, which come whole or not at all. */
static buffer lines_as(tbr_renderer *r, tbr_format format) {
    buffer lines;
    tbr_status status = tbr_text_as(r, format, NULL, 0, &lines.length);
    check(status == (lines.length ? TBR_BUFFER_TOO_SMALL : TBR_OK), "the length of lines in a format");
    lines.at = memory(lines.length);
    check(tbr_text_as(r, format, lines.at, lines.length, &lines.length) == TBR_OK, "lines in a format");
    return lines;
}

/* How many formats there are. */
enum { FORMATS = TBR_FORMAT_JSON + 1 };

/* That the line that was taken last is at this place of all lines in each format, and moves the places behind it. */
static void check_shown(tbr_renderer *r, const buffer shown[FORMATS], size_t at[FORMATS]) {
    for (int format = TBR_FORMAT_TEXT; format < FORMATS; format++) {
        size_t length, room = shown[format].length - at[format];
        char *line = memory(room);
        check(tbr_line_as(r, (tbr_format)format, line, room, &length) == TBR_OK && length < room, "a line in a format");
        check(!memcmp(shown[format].at + at[format], line, length), "what a line is in a format");
        at[format] += length + 1;
        check(shown[format].at[at[format] - 1] == '\n', "a newline in a format");
        free(line);
    }
}

/* That the lines one by one are a text, and are what all are in each format. */
static void check_lines(tbr_renderer *r, buffer text) {
    tbr_line line;
    size_t at = 0, length;
    size_t places[FORMATS] = {0};
    buffer shown[FORMATS];
    tbr_status status;
    for (int format = TBR_FORMAT_TEXT; format < FORMATS; format++) {
        shown[format] = lines_as(r, (tbr_format)format);
    }
    while ((status = tbr_next_line(r, &line)) == TBR_OK) {
        char *bytes = memory(line.bytes);
        check(tbr_line_text(r, bytes, line.bytes, &length) == TBR_OK && length == line.bytes, "a line");
        check(line.bytes < text.length - at && !memcmp(text.at + at, bytes, line.bytes), "a line's text");
        check(text.at[at + line.bytes] == '\n', "a newline");
        check(tbr_text_width_n(bytes, line.bytes, &length) == TBR_OK && length == line.columns, "a line's columns");
        at += line.bytes + 1;
        free(bytes);
        check_pieces(r, &line);
        check_shown(r, shown, places);
    }
    check(status == TBR_NO_LINE && at == text.length, "the last line");
    for (int format = TBR_FORMAT_TEXT; format < FORMATS; format++) {
        check(places[format] == shown[format].length, "the last line in a format");
        free(shown[format].at);
    }
}

/* That a renderer that is finished for its text alone has the same, and no line. */
static void check_text_alone(tbr_renderer *r, size_t length, buffer text) {
    tbr_line line;
    char *out = memory(length);
    check(length == text.length, "the length of the text alone");
    check(tbr_text(r, out, length, &length) == TBR_OK && !memcmp(out, text.at, length), "the text alone");
    check(tbr_next_line(r, &line) == TBR_NO_LINE, "a line of the text alone");
    check(tbr_text_as(r, TBR_FORMAT_HTML, NULL, 0, &length) == TBR_NO_LINE, "lines of the text alone in a format");
    check(tbr_text(r, out, length, &length) == TBR_OK && length == text.length, "the text alone once more");
    free(out);
}

/* That the script ends in the same way where the text alone is asked for. */
static void check_alone(slice script, outcome ended, buffer text) {
    tbr_renderer *r = NULL;
    size_t end, length = 0;
    outcome other = fill(script, &r, &end);
    if (other.status == TBR_OK) {
        other = at_line(tbr_finish_text(r, &length), end);
    }
    check(other.status == ended.status && other.line == ended.line, "the status of the text alone");
    if (ended.status == TBR_OK) {
        check_text_alone(r, length, text);
    }
    tbr_free(r);
}

/* That the script as a whole ends in the same way. */
static void check_whole(slice script, outcome ended, buffer text) {
    char *out = memory(text.length);
    tbr_answer answer = tbr_render_raw(script.at, script.length, out, text.length);
    check(answer.status == (uint32_t)ended.status && answer.line == ended.line, "the status as a whole");
    check(answer.length == text.length && !memcmp(out, text.at, text.length), "the text as a whole");
    free(out);
}

/* ---- the program ---- */

static buffer read_all(FILE *file) {
    size_t room = 1 << 16;
    buffer all = {memory(room), 0};
    size_t count;
    while ((count = fread(all.at + all.length, 1, room - all.length, file)) > 0) {
        all.length += count;
        if (all.length == room) {
            room *= 2;
            all.at = realloc(all.at, room);
            check(all.at != NULL, "this program is out of memory");
        }
    }
    return all;
}

/* The exit status of an outcome, which is written to standard error. */
static int tell(outcome ended) {
    if (ended.status == TBR_OK) {
        return 0;
    }
    if (ended.line) {
        fprintf(stderr, "line %zu: ", ended.line);
    }
    fprintf(stderr, "%s\n", tbr_status_text(ended.status));
    return ended.line ? 2 : 1;
}

/* The format of a name of blockview's. */
static tbr_format format_named(const char *name) {
    static const char *const NAMES[] = {"text", "ansi", "html", "json"};
    for (int format = 0; format < FORMATS; format++) {
        if (!strcmp(NAMES[format], name)) {
            return (tbr_format)format;
        }
    }
    fail("no such format");
    return TBR_FORMAT_TEXT;
}

int main(int count, char **words) {
    buffer script = read_all(stdin);
    slice all = {script.at, script.length};
    tbr_renderer *r = NULL;
    size_t end;
    outcome ended = fill(all, &r, &end);
    buffer text = {memory(0), 0}, shown = {memory(0), 0};
    if (ended.status == TBR_OK) {
        ended = at_line(tbr_finish(r), end);
    }
    if (ended.status == TBR_OK) {
        free(text.at);
        text = whole_text(r);
        free(shown.at);
        shown = lines_as(r, count > 1 ? format_named(words[1]) : TBR_FORMAT_TEXT);
        check_lines(r, text);
    }
    check_alone(all, ended, text);
    check_whole(all, ended, text);
    fwrite(shown.at, 1, shown.length, stdout);
    free(shown.at);
    free(text.at);
    tbr_free(r);
    free(script.at);
    return tell(ended);
}
