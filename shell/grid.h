/*
 * A grid of cells that a screen is drawn on, and its painting on a terminal. Whatever is put is cut at the grid's
 * edges, and nothing of a text can steer the terminal.
 */
#ifndef GRID_H
#define GRID_H

#include <stdbool.h>
#include <stddef.h>
#include <stdint.h>
#include <stdio.h>

/* The most that is drawn of a larger terminal. */
#define GRID_COLUMNS 512
#define GRID_ROWS 160

enum style {
    STYLE_PLAIN,
    STYLE_DIM,
    STYLE_STRONG,
    STYLE_MARKED,
    STYLE_MARKED_DIM,
    STYLE_CHANGED,
    STYLE_FAULT,
    STYLE_GRAPH,
    STYLE_GRAPH_DIM
};

/* Symbols beside those of ASCII. The first eight are a column of growing height. */
enum { GLYPH_COLUMN = 128, GLYPH_FULL = GLYPH_COLUMN + 7, GLYPH_TRACK, GLYPH_COUNT };

/* Heights of a column. */
#define COLUMN_HEIGHTS 8

struct cell {
    uint8_t glyph; /* ASCII, or a symbol */
    uint8_t style;
};

struct grid {
    int columns, rows;
    int cursor_row, cursor_column;
    struct cell cells[GRID_ROWS][GRID_COLUMNS];
};

/* Empties the grid and sets its size, cut to the most that there is. */
void grid_clear(struct grid *grid, int columns, int rows);

/* Puts a symbol into a cell, if it is one of the grid's. */
void grid_put_glyph(struct grid *grid, int row, int column, enum style style, int glyph);

/* Puts bytes from a cell on. Gives the column behind them. */
int grid_put_bytes(struct grid *grid, int row, int column, enum style style, const char *bytes, size_t count);

/* Likewise for words that end with a zero. */
int grid_put(struct grid *grid, int row, int column, enum style style, const char *words);

/* How a terminal is painted, and what it shows. */
struct painter {
    bool has_colour;
    bool has_symbols; /* UTF-8; else all is ASCII */
    bool is_painted;  /* the terminal shows `last`; else it is cleared first */
    struct grid last;
};

/* Paints the grid: the rows that differ from what the terminal shows. */
void paint(struct painter *painter, const struct grid *grid, FILE *terminal);

#endif
