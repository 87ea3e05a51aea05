/* The recording as graphs of one row: columns for its readings, and a bar for where a window stands in it. */
#ifndef GRAPH_H
#define GRAPH_H

#include "grid.h"
#include "recording.h"

/* The least and the greatest reading, which the lowest and the highest column stand for; 0 and 0 of no readings. */
struct range {
    int32_t least, greatest;
};

struct range graph_range(const struct recording *recording);

/* A place for a graph, in cells. */
struct area {
    int row, column, width;
    enum style style;
};

/* Readings as columns: one for each, or the mean of several where they are more than the width. */
void graph_columns(struct grid *grid, struct area area, const int32_t *readings, size_t count, struct range range);

/* A window of a recording as a bar: where it starts and how long it is. An empty one is a stroke where it starts. */
void graph_bar(struct grid *grid, struct area area, size_t start, size_t length, size_t readings);

/* A part of a whole as a bar that is filled so far. */
void graph_fill(struct grid *grid, struct area area, size_t part, size_t whole);

#endif
