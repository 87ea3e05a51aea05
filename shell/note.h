/* The note under the formula line: why it was refused, under the byte that it is about, or what else is to be known. */
#ifndef NOTE_H
#define NOTE_H

#include "grid.h"
#include "live.h"
#include "words.h"

/* What is seen of the formula line: from which byte on, and from which column. */
struct view {
    size_t first;
    int column, width;
};

#define NO_COLUMN (-1)

/* Words, and the column that they are about; NO_COLUMN for none. */
struct note {
    char words[SHOWN_BYTES + 2];
    enum style style;
    int column;
};

/* What is to be said of the line. */
struct note note_of(const struct live *live, const struct view *view);

/* How many rows the note takes: more than one where its words have no room beside the column that they are about. */
int note_rows(const struct note *note, int columns);

/* Draws the note from a row on. In the last row there is no caret where the words need it. */
void note_draw(const struct note *note, struct grid *grid, int row);

#endif
