/*
 * The recording: a text of whole numbers parted by blanks; '#' begins a comment up to the end of its line.
 */
#ifndef RECORDING_H
#define RECORDING_H

#include "formula.h"

#include <stdbool.h>
#include <stdio.h>

struct recording {
    int32_t readings[FORMULA_RECORDING_READINGS];
    size_t length;
};

/* Reads the recording of an open file, which is called `name`. Says what is wrong, with its line and column. */
bool recording_read(FILE *file, const char *name, struct recording *recording);

/* Reads the recording of the file at a path, '-' for the standard input, which may be typed. Says what is wrong. */
bool recording_load(const char *path, struct recording *recording);

#endif
