/* The rows of the parts: what each comes to, and for a window where it stands in the recording. */
#ifndef ROWS_H
#define ROWS_H

#include "grid.h"
#include "live.h"
#include "words.h"

/* The rows of the parts, from a row on: as many as there is room for, around the part at the cursor. */
void draw_parts(const struct live *live, struct grid *grid, int row, int rows);

/* The first part that has a row, where so many rows are there. */
uint32_t first_drawn(const struct live *live, int rows);

/* What a part shows, or why it is turned away. Gives whether its row has no room for all of it. */
bool part_words(const struct live *live, uint32_t part, int columns, char words[SHOWN_BYTES]);

#endif
