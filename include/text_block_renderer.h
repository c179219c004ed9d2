/*
 * A text block renderer. Calls add texts, blocks, links, images and rows of cells. It gives lines of a width in
 * columns, as text or as pieces under annotations. It is for C99 and later, and C++.
 *
 * UNITS. Widths are in columns: most characters take one, those of East Asian scripts mostly two, combining marks
 * none. Lengths, rooms and places in a text are in bytes. Texts are UTF-8. Those that come out don't end in a NUL.
 *
 * TEXTS THAT GO IN. A function whose name ends in _n takes bytes and their number, where the pointer may be NULL if
 * the number is 0. The one without _n takes a NUL-terminated text, and NULL as the empty one. All are copied: a
 * caller may free them after the call.
 *
 * TEXTS THAT COME OUT are written to a buffer of the caller's, of `room` bytes, which may be NULL if the room is 0.
 * `*length` is the number of bytes of the whole text. If the room is smaller, the answer is TBR_BUFFER_TOO_SMALL,
 * nothing is written, and a second call with more room gives all of it. A buffer may not overlap what another argument
 * points to.
 *
 * CONTROL CHARACTERS. A text that comes out has none except the newlines that end lines, and the control sequences of
 * TBR_FORMAT_ANSI: not U+0000 to U+001F, U+007F, nor U+0080 to U+009F. Those of texts are white space or vanish. Those
 * of prefixes, and of the targets in footnotes, are shown as a browser shows them, so that an escape is %1B; `raw` of
 * tbr_options lets them through. Annotations and the names of markers keep them.
 *
 * STATUSES. Each call answers TBR_OK or why it refused. TBR_OUT_OF_MEMORY and TBR_TOO_NARROW are kept: what
 * the renderer was filled with is lost, and each later call except tbr_free answers that status. All other refusals
 * leave the renderer as it was. Calls that keep no refusal say so. What an out pointer points to is written only if a
 * call answers TBR_OK, except for `*length` at TBR_BUFFER_TOO_SMALL, and for tbr_new. No call aborts, prints, or reads
 * the environment.
 *
 * OWNERSHIP. tbr_new makes a renderer, which belongs to the caller until tbr_free. Its memory is allocated by the
 * program's malloc and realloc, and freed by its free, which have to belong to one allocator. The pointer stays the
 * same until then. A line belongs to its renderer: tbr_next_line frees the one before, and tbr_free the last.
 *
 * THREADS. A renderer is used by one call at a time, even for questions, and may be handed from one thread to another.
 * Any number of threads may each have their own; the library has no other state. No call may be made in a signal
 * handler, nor in the forked child of a process with threads.
 *
 * VERSIONS. Each call is a symbol of the shared library, with the version that added it. docs/versions.md says what
 * may change when.
 *
 * WHAT C CAN'T STOP, and the library can't see, is undefined behaviour. Don't call with a renderer after tbr_free, or
 * with a pointer that tbr_new didn't give. Don't free a renderer twice. Don't pass fewer bytes than their number says,
 * or an out pointer that is NULL.
 */
#ifndef TEXT_BLOCK_RENDERER_H
#define TEXT_BLOCK_RENDERER_H

#include <stdbool.h>
#include <stddef.h>
#include <stdint.h>

#define TBR_VERSION_MAJOR 0
#define TBR_VERSION_MINOR 3
#define TBR_VERSION_PATCH 0
#define TBR_VERSION "0.3.0"

#ifdef __cplusplus
extern "C" {
#endif

/* ---- types ---- */

/* What a call answers. */
typedef enum tbr_status {
    TBR_OK = 0,
    /* Memory was refused, or a size passes SIZE_MAX. Kept. */
    TBR_OUT_OF_MEMORY = 1,
    /* A word that is placed holds a character wider than the line, and `overflow` isn't on. Never in lines of two
       columns or more. Kept. Where a prefix leaves no column it isn't kept. */
    TBR_TOO_NARROW = 2,
    /* Only of tbr_render and tbr_render_raw: a line of the script isn't a command, or isn't allowed there. */
    TBR_NOT_A_COMMAND = 3,
    /* In the open level, nothing is open that the call could end. */
    TBR_NOTHING_TO_END = 4,
    /* The cells of a row are in the way of cells that overhang from the rows above. */
    TBR_ROW_DOES_NOT_FIT = 5,
    /* Bytes that aren't UTF-8. */
    TBR_NOT_UTF8 = 6,
    /* A width of 0 columns. */
    TBR_BAD_WIDTH = 7,
    /* A number that isn't a value of its enum, such as decorator 9. A span of 0 rows. NULL for a text that has bytes.
       Options whose size the library doesn't know. */
    TBR_BAD_ARGUMENT = 8,
    /* Inside what the call would end, a level is open, or cells wait for a row. Or they wait where a table that finds its
       widths would begin. */
    TBR_STILL_OPEN = 9,
    /* A call that fills, questions or finishes a renderer, after it was finished. */
    TBR_FINISHED = 10,
    /* A question for lines or the text, before the renderer is finished. */
    TBR_NOT_FINISHED = 11,
    /* No line is left, or none has been taken yet. */
    TBR_NO_LINE = 12,
    /* There is no piece at that place, or it has no annotation at that place, or none with what was asked for. */
    TBR_NO_PIECE = 13,
    /* The buffer has less room than the text has bytes. */
    TBR_BUFFER_TOO_SMALL = 14,
    /* The renderer is NULL. */
    TBR_NO_RENDERER = 15,
    /* A table is open that finds its widths, and the call has to wait for its end, or for a cell. Since 0.3. */
    TBR_IN_TABLE = 16,
    /* No such table is open that could take a cell. Since 0.3. */
    TBR_NO_TABLE = 17
} tbr_status;

/* How decorated text is shown. */
typedef enum tbr_decorator {
    /* By characters, as [ and ] about a link. */
    TBR_PLAIN = 0,
    /* Only by a superscript's ^{ and }. */
    TBR_TRIVIAL = 1,
    /* By annotations of each piece, as TBR_TRIVIAL by ^{ and }, and as TBR_PLAIN by prefixes of quotes, items and
       headers. */
    TBR_RICH = 2
} tbr_decorator;

/* What an image without a title shows. */
typedef enum tbr_images {
    /* Nothing. */
    TBR_IMAGES_IGNORED = 0,
    /* What the decorator makes of the empty title. */
    TBR_IMAGES_ALWAYS = 1,
    /* What follows the last / of its source. */
    TBR_IMAGES_FILE_NAME = 2
} tbr_images;

/* How white space is treated. */
typedef enum tbr_white_space {
    /* A stretch of it counts as one space, and is dropped at the ends of lines. */
    TBR_NORMAL = 0,
    /* It is kept, and lines are cut where they are full. */
    TBR_PRE = 1,
    /* It is kept, and words that don't fit go to a new line. */
    TBR_PRE_WRAP = 2
} tbr_white_space;

/* Where the lines of a cell are in its columns. */
typedef enum tbr_alignment {
    TBR_LEFT = 0,
    TBR_RIGHT = 1,
    /* The odd column is on the right. */
    TBR_CENTRE = 2
} tbr_alignment;

/* How lines are shown. Only TBR_FORMAT_TEXT of a renderer that is raw has control characters of a text, a target or a
   name. Links of TBR_FORMAT_ANSI and TBR_FORMAT_HTML lead only to http, https, mailto and ftp, and to targets without a
   colon. Since 0.3. */
typedef enum tbr_format {
    /* The text alone. */
    TBR_FORMAT_TEXT = 0,
    /* For a terminal: emphasis, strong and struck out text, code and colours by control sequences, and hyperlinks. */
    TBR_FORMAT_ANSI = 1,
    /* For HTML: the content of a <pre>, with links, emphasis and colours as elements, and markers as places to link to.
       A character of two columns is in a <span class="wide">, to be shown as two characters wide. */
    TBR_FORMAT_HTML = 2,
    /* An object of JSON for each line: columns, whether it is a border, and its pieces and markers. Targets and names
       are unchanged, their control characters as escapes. */
    TBR_FORMAT_JSON = 3
} tbr_format;

/* The settings of a renderer. Make them by tbr_options_default, which sets all fields. A later version may have more
   fields at the end. */
typedef struct tbr_options {
    /* The bytes of this struct in the header that a caller was compiled with, so that the library knows which fields it
       has. */
    size_t size;
    /* The columns of the renderer, at least 1. */
    size_t width;
    /* The most columns that a line of wrapped text takes. 0 means those of the renderer. */
    size_t wrap_width;
    /* A tbr_decorator. */
    uint32_t decorator;
    /* A tbr_images. */
    uint32_t images;
    /* Whether a character that is wider than a line goes on a line of its own. If not, the answer is TBR_TOO_NARROW. */
    bool overflow;
    /* Whether lines are filled with spaces up to their width. */
    bool pad;
    /* Whether links show numbers, and tbr_finish lists their targets under these. */
    bool footnotes;
    /* Whether these targets are cut where they don't fit a line. */
    bool wrap_links;
    /* Whether struck out text has strokes. */
    bool strikeout_strokes;
    /* Whether borders of tables are drawn; those of tbr_add_border always are. */
    bool draw_borders;
    /* Not used. Since 0.3. */
    uint16_t unused;
    /* Whether control characters of prefixes, and of the targets that footnotes list, stay as they are. Since 0.3. */
    bool raw;
} tbr_options;

/* A renderer. */
typedef struct tbr_renderer tbr_renderer;

/* What tbr_render and tbr_render_raw answer. */
typedef struct tbr_answer {
    /* A tbr_status. */
    uint32_t status;
    /* The line at fault, from 1, at TBR_NOT_A_COMMAND, TBR_NOTHING_TO_END and TBR_ROW_DOES_NOT_FIT; 0 at any other. */
    size_t line;
    /* The bytes of the whole text at TBR_OK; 0 at any other. */
    size_t length;
} tbr_answer;

/* How much room something can use, in columns. Since 0.3. */
typedef struct tbr_extent {
    /* The longest word: in fewer columns it is cut. */
    size_t longest_word;
    /* The widest line: in as many columns no line is broken. */
    size_t widest_line;
} tbr_extent;

/* A line. */
typedef struct tbr_line {
    /* The bytes of its text, which has no newline. */
    size_t bytes;
    /* The columns that it takes. */
    size_t columns;
    /* How many pieces it has, markers among them. */
    size_t pieces;
    /* Whether it is a border, which may hold texts of cells that span it. */
    bool is_border;
} tbr_line;

/* What a piece is. */
typedef enum tbr_piece_kind {
    /* Text under annotations. */
    TBR_TEXT = 0,
    /* A marker, which has a name, and no text. */
    TBR_MARKER = 1
} tbr_piece_kind;

/* A piece of a line. Pieces of text are the longest stretches under equal annotations; end to end they are the line. */
typedef struct tbr_piece {
    /* Where its bytes begin in the line's text, and where they end. For a marker they are equal. */
    size_t begin;
    size_t end;
    /* How many annotations it is under: one for each stretch that is open there. 0 for a marker. */
    size_t annotations;
    /* The bytes of a marker's name; 0 for text. */
    size_t name_bytes;
    /* A tbr_piece_kind. */
    uint32_t kind;
} tbr_piece;

/* What a stretch of text is. */
typedef enum tbr_annotation_kind {
    /* Nothing in particular. Under TBR_PLAIN and TBR_TRIVIAL every annotation is of this kind. */
    TBR_DEFAULT = 0,
    /* A link, to the annotation's target. */
    TBR_LINK = 1,
    /* Text that shows an image. The image's source is the annotation's target. */
    TBR_IMAGE = 2,
    TBR_EMPHASIS = 3,
    TBR_STRONG = 4,
    TBR_STRIKEOUT = 5,
    TBR_CODE = 6,
    /* Preformatted text. */
    TBR_PREFORMATTED = 7,
    /* Preformatted text on a line that continues one that was too long. */
    TBR_PREFORMATTED_CONTINUED = 8,
    /* Text in a colour. */
    TBR_COLOUR = 9,
    /* Text on a background in a colour. */
    TBR_BACKGROUND = 10
} tbr_annotation_kind;

/* An annotation. */
typedef struct tbr_annotation {
    /* The bytes of its target, for TBR_LINK and TBR_IMAGE; 0 for all others. */
    size_t target_bytes;
    /* A tbr_annotation_kind. */
    uint32_t kind;
    /* The parts of its colour, for TBR_COLOUR and TBR_BACKGROUND; 0 for all others. */
    uint8_t red;
    uint8_t green;
    uint8_t blue;
} tbr_annotation;

/* ---- whole scripts ---- */

/*
 * Renders a script in the language that docs/SCRIPT.md teaches. As much of its text is written as `out` has room for.
 * The answer's length is that of the whole text in bytes, as with snprintf. If it is greater than the room, the text
 * was cut.
 *
 * The script may be any bytes. At any other status than TBR_OK nothing is written, and the answer's line is the one
 * at fault, if there is one.
 */
tbr_answer tbr_render(const char *script, size_t length, char *out, size_t room);

/* Renders a script as tbr_render does, but control characters of prefixes, and of the targets in footnotes, stay as
   they are. Its text is that of the program blockrender. Since 0.3. */
tbr_answer tbr_render_raw(const char *script, size_t length, char *out, size_t room);

/* ---- how wide a text is ---- */

/* The columns of a text: the sum over its characters, as a renderer counts them. Control characters, as a tab or a
   newline, take none. TBR_NOT_UTF8 if it isn't UTF-8, and TBR_OUT_OF_MEMORY if its columns pass SIZE_MAX. The call
   takes no memory. */
tbr_status tbr_text_width_n(const char *text, size_t length, size_t *columns);

tbr_status tbr_text_width(const char *text, size_t *columns);

/* How much room a text can use, in a mode of white space. Nothing is drawn, and the call takes no memory. TBR_NOT_UTF8 if
   it isn't UTF-8, TBR_BAD_ARGUMENT if the mode isn't a value of its enum. Since 0.3. */
tbr_status tbr_measure_n(const char *text, size_t length, tbr_white_space mode, tbr_extent *extent);

tbr_status tbr_measure(const char *text, tbr_white_space mode, tbr_extent *extent);

/* ---- making a renderer ---- */

/* Sets options to those of a plain renderer of `width` columns. Text is wrapped to these columns, and lines are neither
   padded nor wider. There are no footnotes; if they are turned on, their lines are cut. Struck out text has strokes,
   borders are drawn, an image without a title shows nothing, and `raw` is off. `size` is the number of bytes that
   `options` has. */
void tbr_options_init(tbr_options *options, size_t size, size_t width);

/* These options as a value. This call is compiled into the program, so that their size is the one that the program was
   compiled with. */
static inline tbr_options tbr_options_default(size_t width) {
    tbr_options options;
    tbr_options_init(&options, sizeof options, width);
    return options;
}

/*
 * Makes a renderer. Free it by tbr_free.
 *
 * TBR_BAD_WIDTH if its width is 0. TBR_BAD_ARGUMENT if `decorator` or `images` isn't a value of its enum, or if the
 * options have no size that tbr_options_init set, or ask for what only a later version knows. TBR_OUT_OF_MEMORY. In
 * these cases `*renderer` is NULL.
 */
tbr_status tbr_new(const tbr_options *options, tbr_renderer **renderer);

/* Frees a renderer in any state. With NULL it does nothing. */
void tbr_free(tbr_renderer *renderer);

/* ---- filling it: text, blocks and lines ---- */

/*
 * All calls from here to tbr_finish_text fill the innermost level that is open. Besides what is said at each call, they
 * answer TBR_OUT_OF_MEMORY, TBR_TOO_NARROW if they place a word, and TBR_FINISHED if the renderer is finished.
 */

/* Adds text. The mode that was pushed last says how white space is treated. The end of a text doesn't end a word: two
   texts without white space between them make one. TBR_NOT_UTF8 if it isn't UTF-8. */
tbr_status tbr_add_text_n(tbr_renderer *renderer, const char *text, size_t length);

tbr_status tbr_add_text(tbr_renderer *renderer, const char *text);

/* Begins a block: ends the open line, and adds an empty one if any line has content. */
tbr_status tbr_start_block(tbr_renderer *renderer);

/* Ends a block: the next text begins a new one. In TBR_NORMAL white space before that text is ignored. This
   call is allowed at any time. */
tbr_status tbr_end_block(tbr_renderer *renderer);

/* Begins a table, as tbr_start_block begins a block. */
tbr_status tbr_start_table(tbr_renderer *renderer);

/* Ends the open line, if there is one. */
tbr_status tbr_new_line(tbr_renderer *renderer);

/* Ends the open line. If none is open, or it has no columns, an empty one is added. */
tbr_status tbr_new_line_hard(tbr_renderer *renderer);

/* Ends the open line, and adds an empty one. */
tbr_status tbr_add_empty_line(tbr_renderer *renderer);

/* Ends the open line, and adds a border of the level's width. Where lines are padded the border is text. */
tbr_status tbr_add_border(tbr_renderer *renderer);

/* Ends the open line, and adds a border of this many columns: 0, or more than the level has, are allowed. */
tbr_status tbr_add_border_width(tbr_renderer *renderer, size_t columns);

/* Begins a mode of white space. TBR_BAD_ARGUMENT if it isn't one. Before any has begun, the mode is TBR_NORMAL. */
tbr_status tbr_push_white_space(tbr_renderer *renderer, tbr_white_space mode);

/* Ends the mode that was pushed last. TBR_NOTHING_TO_END if none was. */
tbr_status tbr_pop_white_space(tbr_renderer *renderer);

/* Adds a marker to the text, as an anchor for links. TBR_NOT_UTF8 if its name isn't UTF-8. */
tbr_status tbr_add_marker_n(tbr_renderer *renderer, const char *name, size_t length);

tbr_status tbr_add_marker(tbr_renderer *renderer, const char *name);

/* ---- filling it: decorated text ---- */

/*
 * A stretch is begun and ended in the same level. An end needs only an open beginning of its own kind, and answers
 * TBR_NOTHING_TO_END if there is none. So stretches may overlap. What the decorator writes for one is text.
 */

/* Begins a link to a target, which may be empty. TBR_NOT_UTF8 if it isn't UTF-8. */
tbr_status tbr_start_link_n(tbr_renderer *renderer, const char *target, size_t length);

tbr_status tbr_start_link(tbr_renderer *renderer, const char *target);

/* Ends the link that was begun last, and with footnotes shows its number. */
tbr_status tbr_end_link(tbr_renderer *renderer);

tbr_status tbr_start_emphasis(tbr_renderer *renderer);

tbr_status tbr_end_emphasis(tbr_renderer *renderer);

tbr_status tbr_start_strong(tbr_renderer *renderer);

tbr_status tbr_end_strong(tbr_renderer *renderer);

/* Begins struck out text. With strokes on, each of its characters that takes columns gets U+0336 after it. */
tbr_status tbr_start_strikeout(tbr_renderer *renderer);

tbr_status tbr_end_strikeout(tbr_renderer *renderer);

tbr_status tbr_start_code(tbr_renderer *renderer);

tbr_status tbr_end_code(tbr_renderer *renderer);

tbr_status tbr_start_superscript(tbr_renderer *renderer);

tbr_status tbr_end_superscript(tbr_renderer *renderer);

/* Begins a preformatted stretch. It is only an annotation: push TBR_PRE to keep white space. */
tbr_status tbr_start_preformatted(tbr_renderer *renderer);

tbr_status tbr_end_preformatted(tbr_renderer *renderer);

/* Begins text in a colour. */
tbr_status tbr_start_colour(tbr_renderer *renderer, uint8_t red, uint8_t green, uint8_t blue);

tbr_status tbr_end_colour(tbr_renderer *renderer);

/* Begins text on a background in a colour. */
tbr_status tbr_start_background(tbr_renderer *renderer, uint8_t red, uint8_t green, uint8_t blue);

tbr_status tbr_end_background(tbr_renderer *renderer);

/* Adds an image, shown by its title. The options say what one without a title shows. TBR_NOT_UTF8 if one of the two
   isn't UTF-8. */
tbr_status tbr_add_image_n(tbr_renderer *renderer, const char *source, size_t source_length,
    const char *title, size_t title_length);

tbr_status tbr_add_image(tbr_renderer *renderer, const char *source, const char *title);

/* ---- filling it: quotes, lists and headers ---- */

/*
 * A start opens a level in the columns that the decorator's prefix leaves, and its end adds the lines of that level,
 * each after the prefix. In an item, lines after the first come after as many spaces. A quote and a header are blocks,
 * which begin as tbr_start_block says, and end as tbr_end_block says.
 *
 * A start answers TBR_TOO_NARROW if the prefix leaves no column and `overflow` isn't on. An end closes the innermost
 * level, whichever call began it. It answers TBR_NOTHING_TO_END if none is open or that is a cell, and TBR_STILL_OPEN
 * if cells wait in it. All of these leave the renderer as it was. So does TBR_OUT_OF_MEMORY if the prefix takes memory:
 * tbr_refusal says whether a refusal was kept.
 */

tbr_status tbr_start_quote(tbr_renderer *renderer);

tbr_status tbr_end_quote(tbr_renderer *renderer);

tbr_status tbr_start_item(tbr_renderer *renderer);

tbr_status tbr_end_item(tbr_renderer *renderer);

/* Begins the item of a list that has a number. Its end takes the same number. */
tbr_status tbr_start_ordered_item(tbr_renderer *renderer, int64_t number);

tbr_status tbr_end_ordered_item(tbr_renderer *renderer, int64_t number);

/* Begins a header of a level, of which 1 is the highest. Its end takes the same level. TBR_BAD_ARGUMENT above 255, if
   the decorator has a prefix for headers. */
tbr_status tbr_start_header(tbr_renderer *renderer, size_t level);

tbr_status tbr_end_header(tbr_renderer *renderer, size_t level);

/* ---- filling it: tables that find their widths ---- */

/*
 * A table is rows of cells, and a cell is filled by the same calls as a page: texts, links, quotes, items, and further
 * tables. Columns are as wide as browsers make them, from the longest word and the widest line of each cell. If the
 * longest words don't fit side by side, the cells come one below another. Since 0.3.
 *
 * From the beginning of the outermost table to its end, calls are recorded, and the end draws them in the columns of the
 * level. So some have to wait, and answer TBR_IN_TABLE: tbr_finish and tbr_finish_text; questions, but for tbr_refusal,
 * tbr_open_levels, which counts tables, cells and blocks, and those for prefixes; and tbr_start_cell, tbr_end_cell,
 * tbr_add_row and tbr_add_vertical_row, whose widths are given. Outside of its cells a table takes nothing: that is
 * TBR_IN_TABLE too. An end is refused at once if what it would end isn't innermost, and nothing is lost.
 * TBR_OUT_OF_MEMORY and TBR_TOO_NARROW are kept, as everywhere, and lose the table.
 */

/* Begins a table. TBR_STILL_OPEN if cells of given widths wait for their row, and TBR_ROW_DOES_NOT_FIT if such cells
   overhang: both would come into its rows. */
tbr_status tbr_start_auto_table(tbr_renderer *renderer);

/* Opens a cell that spans so many columns and rows: 0 counts as 1, and more than 1,000 columns as 1,000. TBR_NO_TABLE if
   no table is open, or a cell of it is; TBR_BAD_ARGUMENT if the alignment isn't a value of its enum. */
tbr_status tbr_start_auto_cell(tbr_renderer *renderer, size_t columns, size_t rows, tbr_alignment alignment);

/* Closes the cell. TBR_NOTHING_TO_END if the innermost of what is open isn't a cell of a table. */
tbr_status tbr_end_auto_cell(tbr_renderer *renderer);

/* Ends the row of the cells that came. TBR_NOTHING_TO_END if the innermost of what is open isn't a table. */
tbr_status tbr_end_auto_row(tbr_renderer *renderer);

/* Ends the table, and draws it if it is in no other one. TBR_NOTHING_TO_END as for a row, and TBR_STILL_OPEN if cells
   came after the last row. */
tbr_status tbr_end_auto_table(tbr_renderer *renderer);

/* How much room can be used by what came so far in the innermost cell of a table, or block in it. TBR_NO_TABLE if no table
   is open, TBR_IN_TABLE if no cell of it is. Its refusals aren't kept. */
tbr_status tbr_measure_open(tbr_renderer *renderer, tbr_extent *extent);

/* ---- filling it: levels ---- */

/*
 * A level is a renderer inside another one, with the same options and annotations, in which all else begins anew.
 * Levels may be inside one another to any depth. A level has a width of its own: leave room for the prefixes that come
 * before its lines.
 */

/* Opens a level of `width` columns, whose lines tbr_append_sub takes. TBR_BAD_WIDTH at 0. */
tbr_status tbr_start_sub(tbr_renderer *renderer, size_t width);

/* Opens a level of the columns that a prefix of so many leaves, also in a table. tbr_append_sub takes its lines, with
   prefixes that are no wider. TBR_TOO_NARROW if no column is left and `overflow` isn't on. Since 0.3. */
tbr_status tbr_start_prefixed(tbr_renderer *renderer, size_t prefix);

/* Closes the level that one of these opened, and adds its lines to the one outside: the first line after `first`, each
   other line after `others`. TBR_NOTHING_TO_END if the innermost level isn't such a level, TBR_STILL_OPEN if cells wait
   in it, TBR_NOT_UTF8 if one of the two isn't UTF-8. */
tbr_status tbr_append_sub_n(tbr_renderer *renderer, const char *first, size_t first_length,
    const char *others, size_t others_length);

tbr_status tbr_append_sub(tbr_renderer *renderer, const char *first, const char *others);

/* Opens a cell of `width` columns that spans `span` rows. TBR_BAD_WIDTH at 0 columns, TBR_BAD_ARGUMENT at 0 rows, or if
   the alignment isn't a value of its enum. */
tbr_status tbr_start_cell(tbr_renderer *renderer, size_t width, size_t span, tbr_alignment alignment);

/* Closes the cell that is open, which then waits for a row. TBR_NOTHING_TO_END if the innermost level isn't a cell,
   TBR_STILL_OPEN if cells wait in it. */
tbr_status tbr_end_cell(tbr_renderer *renderer);

/* Adds the waiting cells as a row, side by side, with a border below. If the last line is a border, the row joins it.
   What is left of a cell that spans several rows overhangs into the next row. With `collapse`, borders at the tops and
   bottoms of cells are merged with those of the row. TBR_ROW_DOES_NOT_FIT if cells are in the way of what overhangs;
   the cells still wait then. */
tbr_status tbr_add_row(tbr_renderer *renderer, bool collapse);

/* Adds the waiting cells one below another, however many rows they span. */
tbr_status tbr_add_vertical_row(tbr_renderer *renderer);

/* Ends the last line, and with footnotes adds the targets of all links. After that lines can be taken, and the renderer
   can't be filled any more. TBR_STILL_OPEN if a level is open or cells wait. */
tbr_status tbr_finish(tbr_renderer *renderer);

/* Finishes the renderer as tbr_finish does, for a caller who wants only the whole text. `*length` is the number of its
   bytes, and tbr_text gives it. No line can be taken then: tbr_next_line answers TBR_NO_LINE. It takes less time and
   memory than tbr_finish. */
tbr_status tbr_finish_text(tbr_renderer *renderer, size_t *length);

/* ---- questions to a renderer that is being filled ---- */

/* All except tbr_refusal answer TBR_FINISHED if the renderer is finished. They change nothing, and their refusals
   aren't kept. */

/* The refusal that is kept, or TBR_OK, even if the renderer is finished. */
tbr_status tbr_refusal(tbr_renderer *renderer);

/* Whether the innermost level has no line, and no text on an open one. */
tbr_status tbr_is_empty(tbr_renderer *renderer, bool *is_empty);

/* Whether cells of the innermost level overhang, since they span more rows than were added. Lines that they still have
   when the level is closed or finished are lost. */
tbr_status tbr_has_overhang(tbr_renderer *renderer, bool *has_overhang);

/* The columns of the innermost level. */
tbr_status tbr_width(tbr_renderer *renderer, size_t *columns);

/* The columns that the innermost level has left after a prefix of `prefix` columns, but at least `least`.
   TBR_TOO_NARROW, which isn't kept, if fewer than `least` are left and `overflow` isn't on. */
tbr_status tbr_width_minus(tbr_renderer *renderer, size_t prefix, size_t least, size_t *columns);

/* How many levels are open inside the renderer. */
tbr_status tbr_open_levels(tbr_renderer *renderer, size_t *count);

/* How many links are open in the innermost level. */
tbr_status tbr_open_links(tbr_renderer *renderer, size_t *count);

/* How many cells wait for a row in the innermost level. */
tbr_status tbr_waiting_cells(tbr_renderer *renderer, size_t *count);

/* The prefixes of the decorator, which the calls for quotes, lists and headers use. Callers may use them with
   tbr_append_sub. All answer TBR_OUT_OF_MEMORY, which isn't kept. */

/* What comes before each line of a quoted block, as "> ". */
tbr_status tbr_quote_prefix(tbr_renderer *renderer, char *out, size_t room, size_t *length);

/* What comes before the first line of an item of a list, as "* ". As many spaces come before the other lines. */
tbr_status tbr_item_prefix(tbr_renderer *renderer, char *out, size_t room, size_t *length);

/* What comes before the first line of an item with this number, as "3. ". */
tbr_status tbr_ordered_item_prefix(tbr_renderer *renderer, int64_t number, char *out, size_t room,
    size_t *length);

/* What comes before each line of a header of the given level, as "## ". */
tbr_status tbr_header_prefix(tbr_renderer *renderer, size_t level, char *out, size_t room,
    size_t *length);

/* ---- lines of a renderer that is finished ---- */

/* All calls from here answer TBR_NOT_FINISHED before tbr_finish or tbr_finish_text. */

/* The text of all lines that tbr_next_line hasn't taken, each with a newline. It takes no line. TBR_OUT_OF_MEMORY,
   which is kept. At TBR_BUFFER_TOO_SMALL the renderer keeps the text until it is copied or a line is taken, so that a
   second call doesn't make it again. After tbr_finish_text the call takes no memory. */
tbr_status tbr_text(tbr_renderer *renderer, char *out, size_t room, size_t *length);

/* All lines that tbr_next_line hasn't taken, in a format, each with a newline. It takes no line. TBR_NO_LINE after
   tbr_finish_text, except for TBR_FORMAT_TEXT, which is tbr_text. TBR_BAD_ARGUMENT if the format isn't a value of its
   enum. TBR_OUT_OF_MEMORY, which is kept. At TBR_BUFFER_TOO_SMALL the result is kept for a second call in the same
   format. Since 0.3. */
tbr_status tbr_text_as(tbr_renderer *renderer, tbr_format format, char *out, size_t room, size_t *length);

/* Takes the next line, for the calls below, and frees the one before. TBR_NO_LINE if none is left; the line that was
   taken last stays. TBR_OUT_OF_MEMORY, which is kept. */
tbr_status tbr_next_line(tbr_renderer *renderer, tbr_line *line);

/* The calls below, except tbr_line_as, take no memory. They answer TBR_NO_LINE if tbr_next_line has taken no line yet.
   */

/* The text of the line, without a newline. */
tbr_status tbr_line_text(tbr_renderer *renderer, char *out, size_t room, size_t *length);

/* The line in a format, without a newline. TBR_BAD_ARGUMENT if that isn't a value of its enum. TBR_OUT_OF_MEMORY, which
   is kept. Since 0.3. */
tbr_status tbr_line_as(tbr_renderer *renderer, tbr_format format, char *out, size_t room, size_t *length);

/* A piece of the line, by its place from 0. TBR_NO_PIECE if the line has none there. */
tbr_status tbr_get_piece(tbr_renderer *renderer, size_t place, tbr_piece *piece);

/* The name of the marker at a place. TBR_NO_PIECE if none is there. */
tbr_status tbr_marker_name(tbr_renderer *renderer, size_t place, char *out, size_t room,
    size_t *length);

/* The annotation of a piece, both by their places. Places are counted from 0, and the outermost stretch comes first.
   TBR_NO_PIECE if there is none. */
tbr_status tbr_get_annotation(tbr_renderer *renderer, size_t piece, size_t place,
    tbr_annotation *annotation);

/* The target of a link, or the source of an image, by the place of its annotation. TBR_NO_PIECE if no annotation with
   one is there. */
tbr_status tbr_annotation_target(tbr_renderer *renderer, size_t piece, size_t place, char *out,
    size_t room, size_t *length);

/* ---- statuses and versions ---- */

/* A status in words. The text belongs to the library. */
const char *tbr_status_text(tbr_status status);

/* The version of the library that runs, which is TBR_VERSION of its own header. A library that was built without its
   proofs has "+unproved" after that. The text belongs to the library. */
const char *tbr_version(void);

#ifdef __cplusplus
}
#endif

#endif
