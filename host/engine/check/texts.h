/*
 * Edits one cache with the texts of the input, each with a zero byte at its end, and says something after each. An
 * empty text opens the cache again.
 */
#ifndef TEXTS_H
#define TEXTS_H

#include "formula.h"

#include <inttypes.h>
#include <stdio.h>

/* Reads a text, as much of it as there is room for. Gives whether there was one. */
static int read_text(char text[FORMULA_TEXT_BYTES], size_t *length)
{
    int byte = getchar();
    *length = 0;
    while (byte != EOF && byte != '\0') {
        if (*length < FORMULA_TEXT_BYTES) {
            text[(*length)++] = (char)byte;
        }
        byte = getchar();
    }
    return byte != EOF;
}

static int edit(formula_cache *cache, const char *text, size_t length, void (*say)(const formula_cache *))
{
    static uint16_t places[FORMULA_PLACES];
    formula_edit_answer answer = formula_cache_edit(cache, text, length, places);
    if (answer.refusal != FORMULA_ACCEPTED) {
        fprintf(stderr, "refused (%" PRIu32 "): %.*s\n", answer.refusal, (int)length, text);
        return 1;
    }
    say(cache);
    return 0;
}

/* Gives the exit status. */
static int edit_texts(const int32_t *recording, size_t readings, void (*say)(const formula_cache *))
{
    static formula_cache cache;
    static char text[FORMULA_TEXT_BYTES];
    size_t length;
    int status = 0;
    while (status == 0 && read_text(text, &length)) {
        status = length == 0 ? (int)formula_cache_open(&cache, recording, readings) : edit(&cache, text, length, say);
    }
    return status;
}

#endif
