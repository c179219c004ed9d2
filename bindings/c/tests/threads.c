/*
 * Renders one document in two threads, each with a renderer of its own, a thousand times, and expects the same text
 * each time. Then fills a renderer in one thread, finishes it in another, and takes its text in a third.
 */
#include <pthread.h>
#include <stdio.h>
#include <string.h>

#include "text_block_renderer.h"

enum { ROUNDS = 1000 };

static const char WANTED[] = "The old bridge opens\nagain on *Sunday*.\n";

static tbr_status fill(tbr_renderer *r) {
    tbr_status status = tbr_add_text(r, "The old bridge opens again ");
    return status == TBR_OK ? tbr_add_text(r, "on *Sunday*.") : status;
}

/* Renders the document once. */
static bool render_once(void) {
    tbr_options options = tbr_options_default(20);
    tbr_renderer *r;
    char text[sizeof WANTED];
    size_t length = 0;
    if (tbr_new(&options, &r) != TBR_OK) {
        return false;
    }
    bool is_well = fill(r) == TBR_OK && tbr_finish(r) == TBR_OK && tbr_text(r, text, sizeof text, &length) == TBR_OK
        && length == sizeof WANTED - 1 && !memcmp(text, WANTED, length);
    tbr_free(r);
    return is_well;
}

/* Answers NULL where all went well. */
static void *render(void *failed) {
    for (int i = 0; i < ROUNDS; i++) {
        if (!render_once()) {
            return failed;
        }
    }
    return NULL;
}

static void *fill_it(void *r) {
    return fill(r) == TBR_OK ? r : NULL;
}

static void *finish_it(void *r) {
    return tbr_finish(r) == TBR_OK ? r : NULL;
}

/* What a function answers in a thread of its own. */
static void *elsewhere(void *(*function)(void *), void *argument) {
    pthread_t thread;
    void *answer = NULL;
    if (pthread_create(&thread, NULL, function, argument) || pthread_join(thread, &answer)) {
        return NULL;
    }
    return answer;
}

/* A renderer that is handed from one thread to another has the text that it has in one. */
static bool is_handed_on(void) {
    tbr_options options = tbr_options_default(20);
    tbr_renderer *r;
    char text[sizeof WANTED];
    size_t length = 0;
    if (tbr_new(&options, &r) != TBR_OK) {
        return false;
    }
    bool is_well = elsewhere(fill_it, r) && elsewhere(finish_it, r)
        && tbr_text(r, text, sizeof text, &length) == TBR_OK && length == sizeof WANTED - 1
        && !memcmp(text, WANTED, length);
    tbr_free(r);
    return is_well;
}

int main(void) {
    static int failed;
    pthread_t threads[2];
    void *answers[2];
    for (int i = 0; i < 2; i++) {
        if (pthread_create(&threads[i], NULL, render, &failed)) {
            return 2;
        }
    }
    for (int i = 0; i < 2; i++) {
        if (pthread_join(threads[i], &answers[i])) {
            return 2;
        }
    }
    bool is_well = !answers[0] && !answers[1] && is_handed_on();
    printf("two threads, %d documents each, and one handed on: %s\n", ROUNDS, is_well ? "well" : "failed");
    return is_well ? 0 : 1;
}
