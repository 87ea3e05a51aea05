/* Texts from outside as they are shown: a column for each byte. */
#ifndef SHOWN_H
#define SHOWN_H

#include "bytes.h"

#include <stddef.h>
#include <stdio.h>

static inline void put_shown(FILE *file, const char *text, size_t length)
{
    size_t at;
    for (at = 0; at < length; at++) {
        (void)putc(shown_byte(text[at]), file);
    }
}

#endif
