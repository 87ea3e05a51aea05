#define _POSIX_C_SOURCE 200809L

#include "rows.h"

#include "graph.h"

#include <inttypes.h>
#include <string.h>

/* Columns of a row: the mark of the cursor, the label, and the mark of a change before the value. */
#define LABEL_COLUMN 2
#define VALUE_WORDS 30
#define NARROW 60
#define NARROW_LABEL 9

/* Columns that a bar, and a bar and columns beside it, need at least and take at most. */
#define LEAST_BAR 8
#define LEAST_GRAPHS 28
#define MOST_BAR 64
#define MOST_COLUMNS 48

struct row {
    const struct live *live;
    struct grid *grid;
    uint32_t part;
    int row;
    int value_column;
    struct range range;
};

static void turned_away_words(const struct live *live, uint32_t part, char words[SHOWN_BYTES])
{
    unsigned depth = live->depths[part];
    uint64_t millions = live->most_steps[part] / 1000000 + 1;
    if (depth > MOST_DEPTH) {
        (void)snprintf(words, SHOWN_BYTES, "turned away: runs %u deep", depth);
    } else if (millions < 1000000) {
        (void)snprintf(words, SHOWN_BYTES, "turned away: up to %" PRIu64 " million steps", millions);
    } else {
        (void)snprintf(words, SHOWN_BYTES, "turned away: over a million million steps");
    }
}

static int value_column(int columns)
{
    return LABEL_COLUMN + (columns < NARROW ? NARROW_LABEL : LABEL_BYTES - 1) + 3;
}

bool part_words(const struct live *live, uint32_t part, int columns, char words[SHOWN_BYTES])
{
    if (live->session->is_turned_away[part]) {
        turned_away_words(live, part, words);
    } else {
        shown_words(&live->session->shown[part], words);
    }
    return value_column(columns) + (int)strlen(words) > columns;
}

static enum style value_style(const struct row *row)
{
    const struct session *session = row->live->session;
    const formula_preview_answer *shown = &session->shown[row->part];
    bool is_missing = shown->finished && shown->kind == FORMULA_KIND_MISSING;
    if (!row->live->is_taken) {
        return STYLE_DIM;
    }
    if (live_has_changed(row->live, row->part)) {
        return STYLE_CHANGED;
    }
    return is_missing || session->is_turned_away[row->part] || shown->refusal != 0 ? STYLE_FAULT : STYLE_PLAIN;
}

/* The bar and the columns of a window, as far as there is room behind the words. */
static void draw_window(const struct row *row)
{
    const struct recording *recording = row->live->session->recording;
    const formula_preview_answer *shown = &row->live->session->shown[row->part];
    int room = row->grid->columns - row->value_column - VALUE_WORDS;
    struct area area = {0, 0, 0, STYLE_GRAPH};
    area.row = row->row;
    area.column = row->value_column + VALUE_WORDS;
    area.style = row->live->is_taken ? STYLE_GRAPH : STYLE_GRAPH_DIM;
    if (room < LEAST_BAR || shown->first < 0 || (size_t)shown->first + shown->second > recording->length) {
        return;
    }
    area.width = room < LEAST_GRAPHS ? room : room * 3 / 5;
    area.width = area.width > MOST_BAR ? MOST_BAR : area.width;
    graph_bar(row->grid, area, (size_t)shown->first, shown->second, recording->length);
    if (room >= LEAST_GRAPHS) {
        area.column += area.width + 2;
        area.width = row->grid->columns - area.column;
        area.width = area.width > MOST_COLUMNS ? MOST_COLUMNS : area.width;
        graph_columns(row->grid, area, recording->readings + shown->first, shown->second, row->range);
    }
}

static void draw_row(const struct row *row)
{
    const struct live *live = row->live;
    const struct session *session = live->session;
    const formula_preview_answer *shown = &session->shown[row->part];
    bool is_at_cursor = row->part == live->at_cursor;
    enum style marked = live->is_taken ? STYLE_MARKED : STYLE_MARKED_DIM;
    enum style plain = live->is_taken ? STYLE_PLAIN : STYLE_DIM;
    char label[LABEL_BYTES];
    char words[SHOWN_BYTES];
    part_label(session->text, &session->parts.at[row->part], label);
    (void)part_words(live, row->part, row->grid->columns, words);
    grid_put(row->grid, row->row, 0, plain, is_at_cursor ? ">" : " ");
    grid_put_bytes(row->grid, row->row, LABEL_COLUMN, is_at_cursor ? marked : plain, label,
                   strnlen(label, (size_t)(row->value_column - LABEL_COLUMN - 2)));
    if (live_has_changed(live, row->part)) {
        grid_put(row->grid, row->row, row->value_column - 2, STYLE_CHANGED, "*");
    }
    grid_put(row->grid, row->row, row->value_column, value_style(row), words);
    if (shown->finished && shown->kind == FORMULA_KIND_WINDOW) {
        draw_window(row);
    }
}

uint32_t first_drawn(const struct live *live, int rows)
{
    uint32_t count = live->session->parts.count;
    uint32_t room = rows > 0 ? (uint32_t)rows : 0;
    uint32_t half = room / 2;
    if (count <= room || live->at_cursor <= half) {
        return 0;
    }
    return live->at_cursor - half > count - room ? count - room : live->at_cursor - half;
}

void draw_parts(const struct live *live, struct grid *grid, int row, int rows)
{
    struct row one;
    uint32_t first = first_drawn(live, rows);
    int at;
    one.live = live;
    one.grid = grid;
    one.value_column = value_column(grid->columns);
    one.range = graph_range(live->session->recording);
    for (at = 0; at < rows && first + (uint32_t)at < live->session->parts.count; at++) {
        one.part = first + (uint32_t)at;
        one.row = row + at;
        draw_row(&one);
    }
}
