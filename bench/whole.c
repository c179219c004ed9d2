/* Renders the script of standard input as a whole, by tbr_render. */
#include <stdio.h>
#include <stdlib.h>

#include "text_block_renderer.h"

/* All bytes of standard input, of which `*length` is the number; NULL where memory is refused or a read fails. */
static char *read_script(size_t *length) {
    size_t room = 1 << 16;
    char *script = malloc(room);
    *length = 0;
    while (script) {
        size_t count = fread(script + *length, 1, room - *length, stdin);
        *length += count;
        if (count == 0) {
            return ferror(stdin) ? NULL : script;
        }
        if (*length == room) {
            room *= 2;
            script = realloc(script, room);
        }
    }
    return NULL;
}

int main(void) {
    size_t length;
    char *script = read_script(&length);
    if (!script) {
        return EXIT_FAILURE;
    }
    /* Few texts are longer than twice their script. */
    size_t room = 2 * length + 1;
    char *text = malloc(room);
    tbr_answer answer = tbr_render(script, length, text, text ? room : 0);
    if (answer.status == TBR_OK && answer.length > room) {
        room = answer.length;
        free(text);
        text = malloc(room);
        answer = tbr_render(script, length, text, text ? room : 0);
    }
    if (answer.status != TBR_OK || !text) {
        fprintf(stderr, "%s\n", tbr_status_text((tbr_status)answer.status));
        return EXIT_FAILURE;
    }
    return fwrite(text, 1, answer.length, stdout) == answer.length ? EXIT_SUCCESS : EXIT_FAILURE;
}
