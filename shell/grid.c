#include "grid.h"

#include "bytes.h"

#include <string.h>

static int within(int value, int most)
{
    return value < 1 ? 1 : value > most ? most : value;
}

void grid_clear(struct grid *grid, int columns, int rows)
{
    int row, column;
    grid->columns = within(columns, GRID_COLUMNS);
    grid->rows = within(rows, GRID_ROWS);
    grid->cursor_row = 0;
    grid->cursor_column = 0;
    for (row = 0; row < grid->rows; row++) {
        for (column = 0; column < grid->columns; column++) {
            grid_put_glyph(grid, row, column, STYLE_PLAIN, ' ');
        }
    }
}

void grid_put_glyph(struct grid *grid, int row, int column, enum style style, int glyph)
{
    if (row >= 0 && row < grid->rows && column >= 0 && column < grid->columns) {
        grid->cells[row][column].glyph = (uint8_t)glyph;
        grid->cells[row][column].style = (uint8_t)style;
    }
}

int grid_put_bytes(struct grid *grid, int row, int column, enum style style, const char *bytes, size_t count)
{
    size_t at;
    for (at = 0; at < count && column < grid->columns; at++) {
        grid_put_glyph(grid, row, column, style, shown_byte(bytes[at]));
        column++;
    }
    return column;
}

int grid_put(struct grid *grid, int row, int column, enum style style, const char *words)
{
    return grid_put_bytes(grid, row, column, style, words, strlen(words));
}

/* ---- Painting ---- */

/* The terminal's words for a style. Without colour each keeps an attribute, where it matters. */
static const char *style_words(const struct painter *painter, enum style style)
{
    switch (style) {
    case STYLE_DIM: return "\033[0;2m";
    case STYLE_STRONG: return "\033[0;1m";
    case STYLE_MARKED: return "\033[0;7m";
    case STYLE_MARKED_DIM: return "\033[0;2;7m";
    case STYLE_CHANGED: return painter->has_colour ? "\033[0;1;33m" : "\033[0;1m";
    case STYLE_FAULT: return painter->has_colour ? "\033[0;1;31m" : "\033[0;1m";
    case STYLE_GRAPH: return painter->has_colour ? "\033[0;36m" : "\033[0m";
    case STYLE_GRAPH_DIM: return painter->has_colour ? "\033[0;2;36m" : "\033[0;2m";
    default: return "\033[0m";
    }
}

static void paint_glyph(const struct painter *painter, unsigned glyph, FILE *terminal)
{
    static const char *const symbols[] = {"\u2581", "\u2582", "\u2583", "\u2584", "\u2585",
                                          "\u2586", "\u2587", "\u2588", "\u00b7"};
    static const char ascii[] = ".:-=+*%#.";
    if (glyph < GLYPH_COLUMN || glyph >= GLYPH_COUNT) {
        fputc((int)glyph, terminal);
    } else if (painter->has_symbols) {
        fputs(symbols[glyph - GLYPH_COLUMN], terminal);
    } else {
        fputc(ascii[glyph - GLYPH_COLUMN], terminal);
    }
}

/* The column behind the last cell of a row that is not blank. */
static int row_end(const struct grid *grid, int row)
{
    int end = grid->columns;
    while (end > 0 && grid->cells[row][end - 1].glyph == ' ' && grid->cells[row][end - 1].style == STYLE_PLAIN) {
        end--;
    }
    return end;
}

static void paint_row(const struct painter *painter, const struct grid *grid, int row, FILE *terminal)
{
    enum style style = STYLE_PLAIN;
    int end = row_end(grid, row);
    int column;
    fprintf(terminal, "\033[%d;1H", row + 1);
    for (column = 0; column < end; column++) {
        const struct cell *cell = &grid->cells[row][column];
        if (cell->style != style) {
            style = (enum style)cell->style;
            fputs(style_words(painter, style), terminal);
        }
        paint_glyph(painter, cell->glyph, terminal);
    }
    if (style != STYLE_PLAIN) {
        fputs("\033[0m", terminal);
    }
    if (end < grid->columns) {
        fputs("\033[K", terminal);
    }
}

void paint(struct painter *painter, const struct grid *grid, FILE *terminal)
{
    struct grid *last = &painter->last;
    bool is_kept = painter->is_painted && last->columns == grid->columns && last->rows == grid->rows;
    size_t row_bytes = (size_t)grid->columns * sizeof grid->cells[0][0];
    int row;
    fputs(is_kept ? "\033[?25l" : "\033[?25l\033[0m\033[2J", terminal);
    for (row = 0; row < grid->rows; row++) {
        if (!is_kept || memcmp(last->cells[row], grid->cells[row], row_bytes) != 0) {
            paint_row(painter, grid, row, terminal);
            memcpy(last->cells[row], grid->cells[row], row_bytes);
        }
    }
    fprintf(terminal, "\033[%d;%dH\033[?25h", grid->cursor_row + 1, grid->cursor_column + 1);
    last->columns = grid->columns;
    last->rows = grid->rows;
    painter->is_painted = true;
}
