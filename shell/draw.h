/* Draws the state of the live screen on a grid of any size. */
#ifndef DRAW_H
#define DRAW_H

#include "grid.h"
#include "live.h"

void draw(const struct live *live, int columns, int rows, struct grid *grid);

#endif
