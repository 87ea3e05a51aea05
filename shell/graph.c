#include "graph.h"

struct range graph_range(const struct recording *recording)
{
    struct range range = {0, 0};
    size_t at;
    for (at = 0; at < recording->length; at++) {
        int32_t reading = recording->readings[at];
        range.least = at == 0 || reading < range.least ? reading : range.least;
        range.greatest = at == 0 || reading > range.greatest ? reading : range.greatest;
    }
    return range;
}

static int height(int64_t value, struct range range)
{
    int64_t span = (int64_t)range.greatest - range.least;
    return span == 0 ? COLUMN_HEIGHTS / 2 : (int)((value - range.least) * (COLUMN_HEIGHTS - 1) / span);
}

static int64_t mean(const int32_t *readings, size_t from, size_t to)
{
    int64_t sum = 0;
    size_t at;
    for (at = from; at < to; at++) {
        sum += readings[at];
    }
    return sum / (int64_t)(to - from);
}

void graph_columns(struct grid *grid, struct area area, const int32_t *readings, size_t count, struct range range)
{
    size_t width = area.width > 0 ? (size_t)area.width : 0;
    size_t used = count < width ? count : width;
    size_t column;
    for (column = 0; column < used; column++) {
        int64_t value = mean(readings, column * count / used, (column + 1) * count / used);
        grid_put_glyph(grid, area.row, area.column + (int)column, area.style, GLYPH_COLUMN + height(value, range));
    }
}

void graph_bar(struct grid *grid, struct area area, size_t start, size_t length, size_t readings)
{
    size_t width = area.width > 0 ? (size_t)area.width : 0;
    size_t column;
    for (column = 0; column < width; column++) {
        /* The readings that the cell stands for: at least one. */
        size_t from = column * readings / width;
        size_t to = (column + 1) * readings / width;
        bool is_in = length > 0 && from < start + length && start < (to > from ? to : from + 1);
        grid_put_glyph(grid, area.row, area.column + (int)column, area.style, is_in ? GLYPH_FULL : GLYPH_TRACK);
    }
    if (length == 0 && width > 0) {
        size_t at = readings > 0 ? start * width / readings : 0;
        grid_put_glyph(grid, area.row, area.column + (int)(at < width ? at : width - 1), area.style, '|');
    }
}

void graph_fill(struct grid *grid, struct area area, size_t part, size_t whole)
{
    int filled = whole > 0 ? (int)((size_t)area.width * part / whole) : 0;
    int column;
    for (column = 0; column < area.width; column++) {
        grid_put_glyph(grid, area.row, area.column + column, area.style, column < filled ? GLYPH_FULL : GLYPH_TRACK);
    }
}
