#include "draw.h"

#include "bytes.h"
#include "graph.h"
#include "note.h"
#include "rows.h"

#include <inttypes.h>
#include <string.h>

#define PROMPT "> "
#define HELP "Enter keeps the formula; Up and Down bring kept ones back; Ctrl-U clears; Ctrl-C leaves"

/* Columns of a progress bar, and below which a terminal has no prompt. */
#define PROGRESS_COLUMNS 24
#define LEAST_PROMPT 12

#define NO_ROW (-1)

/* Which row each thing has. What there is no room for has none. */
struct layout {
    int title, graph, formula, note, status, parts, part_rows, full, help;
};

/* The note has one row, or more where its words need them. In a short terminal it has the status's row as well. */
static struct layout layout_of(int rows, int note_rows, bool has_note)
{
    struct layout layout = {NO_ROW, NO_ROW, 0, NO_ROW, NO_ROW, NO_ROW, 0, NO_ROW, NO_ROW};
    bool is_tall = rows >= 12;
    bool is_short = rows < 5;
    if (is_tall) {
        layout.title = 0;
        layout.full = rows - 2;
        layout.help = rows - 1;
    }
    if (rows >= 7) {
        layout.graph = is_tall ? 1 : 0;
        layout.formula = layout.graph + 1;
    }
    layout.note = layout.formula + 1;
    layout.status = is_short && has_note ? NO_ROW : layout.note + (is_short ? 0 : note_rows);
    layout.parts = layout.note + note_rows + !is_short;
    layout.part_rows = rows - layout.parts - (is_tall ? 2 : 0);
    return layout;
}

/* The cursor is always seen, and has a cell behind the text's end too. */
static struct view view_of(const struct line *line, int columns)
{
    struct view view = {0, 0, 0};
    size_t width, room;
    view.column = columns >= LEAST_PROMPT ? (int)strlen(PROMPT) : 0;
    view.width = columns - view.column;
    width = (size_t)view.width;
    room = width * 2 / 3;
    if (line->length + 1 > width && line->cursor > room) {
        view.first = line->cursor - room;
        view.first = view.first > line->length + 1 - width ? line->length + 1 - width : view.first;
    }
    return view;
}

/* ---- The formula line ---- */

static bool is_in(size_t at, size_t start, size_t length)
{
    return at >= start && at < start + length;
}

/* The part at the cursor stands out in the line too; so does the byte of a refusal, and what no formula has. */
static enum style byte_style(const struct live *live, size_t at)
{
    const struct session *session = live->session;
    const struct part *part = &session->parts.at[live->at_cursor];
    bool is_too_long = live->edit.answer.refusal == FORMULA_REFUSAL_TEXT_TOO_LONG;
    char byte = live->line.text[at];
    size_t place;
    if (live->is_taken) {
        bool is_part = is_in(at, part->mark, part->mark_length) || is_in(at, part->word, part->word_length);
        return is_part ? STYLE_STRONG : STYLE_PLAIN;
    }
    if (live_fault(live, &place) && (at == place || (at > place && is_too_long))) {
        return STYLE_FAULT;
    }
    return byte < ' ' || byte > '~' ? STYLE_FAULT : STYLE_PLAIN;
}

static void draw_formula(const struct live *live, struct grid *grid, int row, const struct view *view)
{
    const struct line *line = &live->line;
    int last = view->column + view->width - 1;
    size_t at;
    if (view->column > 0) {
        grid_put(grid, row, 0, STYLE_DIM, PROMPT);
    }
    for (at = view->first; at < line->length && at - view->first < (size_t)view->width; at++) {
        grid_put_bytes(grid, row, view->column + (int)(at - view->first), byte_style(live, at), line->text + at, 1);
    }
    grid->cursor_row = row;
    grid->cursor_column = view->column + (int)(line->cursor - view->first);
    if (view->first > 0 && grid->cursor_column > view->column) {
        grid_put(grid, row, view->column, STYLE_DIM, "<");
    }
    if (line->length > view->first + (size_t)view->width && grid->cursor_column < last) {
        grid_put(grid, row, last, STYLE_DIM, ">");
    }
}

/* ---- How far the work is ---- */

static void draw_progress(const struct live *live, struct grid *grid, int row, const struct progress *progress)
{
    struct area area = {0, 0, PROGRESS_COLUMNS, STYLE_GRAPH};
    char words[96];
    uint32_t whole = progress->entries - progress->away;
    area.row = row;
    area.width = grid->columns / 2 < PROGRESS_COLUMNS ? grid->columns / 2 : PROGRESS_COLUMNS;
    graph_fill(grid, area, whole - progress->left, whole);
    (void)snprintf(words, sizeof words, "%" PRIu32 " worked out, %" PRIu32 " left", live->worked, progress->left);
    grid_put(grid, row, area.width + 1, STYLE_PLAIN, words);
}

static void draw_counts(const struct live *live, struct grid *grid, const struct layout *layout,
                        const struct progress *progress)
{
    const struct session *session = live->session;
    uint32_t count = session->parts.count;
    uint32_t first = first_drawn(live, layout->part_rows);
    char words[128];
    int column;
    (void)snprintf(words, sizeof words,
                   "%" PRIu32 " part%s; entries: %" PRIu32 " new, %" PRIu32 " reused, %" PRIu32 " worked out", count,
                   count == 1 ? "" : "s", live->edit.answer.added, live->edit.reused, live->worked);
    column = grid_put(grid, layout->status, 0, STYLE_PLAIN, words);
    if (progress->away > 0) {
        (void)snprintf(words, sizeof words, ", %" PRIu32 " turned away", progress->away);
        column = grid_put(grid, layout->status, column, STYLE_PLAIN, words);
    }
    if (layout->part_rows > 0 && count > (uint32_t)layout->part_rows) {
        (void)snprintf(words, sizeof words, "; here %" PRIu32 " to %" PRIu32, first + 1,
                       first + (uint32_t)layout->part_rows);
        (void)grid_put(grid, layout->status, column, STYLE_DIM, words);
    }
}

/* The members that the word at a refused place may become. */
static void draw_members(const struct live *live, struct grid *grid, int row)
{
    const struct line *line = &live->line;
    size_t place = live->edit.answer.place;
    size_t end = place;
    char words[sizeof MEMBERS];
    while (end < line->length && is_letter(line->text[end])) {
        end++;
    }
    members_like(line->text + place, end - place, words);
    grid_put(grid, row, grid_put(grid, row, 0, STYLE_DIM, "members: "), STYLE_DIM, words);
}

static void draw_status(const struct live *live, struct grid *grid, const struct layout *layout)
{
    const struct session *session = live->session;
    struct progress progress = live_progress(live);
    if (progress.left > 0) {
        draw_progress(live, grid, layout->status, &progress);
    } else if (live->edit.answer.refusal == FORMULA_REFUSAL_WRONG_CALL) {
        draw_members(live, grid, layout->status);
    } else if (live->is_taken) {
        draw_counts(live, grid, layout, &progress);
    } else if (session->parts.count > 0) {
        int column = grid_put(grid, layout->status, 0, STYLE_DIM, "the last one taken: ");
        grid_put_bytes(grid, layout->status, column, STYLE_DIM, session->text, session->length);
    }
}

/* ---- All of it ---- */

static void draw_recording(const struct live *live, struct grid *grid, const struct layout *layout)
{
    const struct recording *recording = live->session->recording;
    struct range range = graph_range(recording);
    struct area area = {0, 0, 0, STYLE_GRAPH};
    char words[96];
    int column;
    if (layout->title != NO_ROW) {
        column = grid_put(grid, layout->title, 0, STYLE_STRONG, live->name);
        (void)snprintf(words, sizeof words, ": %lu reading%s", (unsigned long)recording->length,
                       recording->length == 1 ? "" : "s");
        column = grid_put(grid, layout->title, column, STYLE_PLAIN, words);
        (void)snprintf(words, sizeof words, ", %" PRId32 " to %" PRId32, range.least, range.greatest);
        (void)grid_put(grid, layout->title, column, STYLE_PLAIN, recording->length > 0 ? words : "");
    }
    if (layout->graph != NO_ROW) {
        area.row = layout->graph;
        area.width = grid->columns;
        graph_columns(grid, area, recording->readings, recording->length, range);
    }
}

static void draw_foot(const struct live *live, struct grid *grid, const struct layout *layout)
{
    if (layout->full != NO_ROW && live->printed.length > 0) {
        int column = grid_put(grid, layout->full, 0, STYLE_DIM, "in full: ");
        grid_put_bytes(grid, layout->full, column, live->is_taken ? STYLE_PLAIN : STYLE_DIM, live->full,
                       live->printed.length);
    }
    if (layout->help != NO_ROW) {
        grid_put(grid, layout->help, 0, STYLE_DIM, HELP);
    }
}

void draw(const struct live *live, int columns, int rows, struct grid *grid)
{
    struct layout layout;
    struct view view;
    struct note note;
    grid_clear(grid, columns, rows);
    view = view_of(&live->line, grid->columns);
    note = note_of(live, &view);
    layout = layout_of(grid->rows, note_rows(&note, grid->columns), note.words[0] != '\0');
    draw_recording(live, grid, &layout);
    draw_formula(live, grid, layout.formula, &view);
    note_draw(&note, grid, layout.note);
    draw_status(live, grid, &layout);
    draw_parts(live, grid, layout.parts, layout.part_rows);
    draw_foot(live, grid, &layout);
}
