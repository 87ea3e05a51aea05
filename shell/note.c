#include "note.h"

#include "rows.h"

#include <inttypes.h>
#include <stdio.h>
#include <string.h>

#define EXAMPLE "type a formula, such as data.skip(40).take(160).max()"

static void fault_words(const struct live *live, size_t place, char *words, size_t room)
{
    uint32_t refusal = live->edit.answer.refusal;
    unsigned byte = place < live->line.length ? (unsigned char)live->line.text[place] : 0;
    if (byte >= 0x80 && refusal == FORMULA_REFUSAL_UNGRAMMATICAL) {
        (void)snprintf(words, room, "byte %02X is not ASCII (%" PRIu32 ")", byte, refusal);
    } else {
        (void)snprintf(words, room, "%s (%" PRIu32 ")", refusal_words(refusal), refusal);
    }
}

/* The reason of a refusal. Its byte may be out of sight: then an arrow says on which side. */
static void note_fault(const struct live *live, const struct view *view, struct note *note)
{
    size_t place = 0;
    bool has_place = live_fault(live, &place);
    note->style = STYLE_FAULT;
    if (has_place && place >= view->first && place < view->first + (size_t)view->width) {
        note->column = view->column + (int)(place - view->first);
        fault_words(live, place, note->words, sizeof note->words);
    } else {
        const char *arrow = !has_place ? "" : place < view->first ? "< " : "> ";
        int length = snprintf(note->words, sizeof note->words, "%s", arrow);
        fault_words(live, place, note->words + length, sizeof note->words - (size_t)length);
    }
}

static const char *notice_words(enum notice notice)
{
    switch (notice) {
    case NOTICE_LINE_FULL: return "the line is full: what is beyond 4,096 bytes is left out";
    case NOTICE_TABLE_FULL: return "the table was full: the recording is opened again, and nothing is reused";
    case NOTICE_CACHE_DAMAGED: return "the cache was damaged: the recording is opened again, and nothing is reused";
    default: return "";
    }
}

/* What the part at the cursor shows, where its row has no room for that. */
static void note_cut(const struct live *live, int columns, struct note *note)
{
    char words[SHOWN_BYTES];
    if (part_words(live, live->at_cursor, columns, words)) {
        note->style = STYLE_PLAIN;
        (void)snprintf(note->words, sizeof note->words, "%s", words);
    }
}

/* What to do where a part is turned away, by the first such part. Gives whether there is one. */
static bool note_hint(const struct live *live, struct note *note)
{
    uint32_t part = 0;
    while (part < live->session->parts.count && !live->session->is_turned_away[part]) {
        part++;
    }
    if (part == live->session->parts.count) {
        return false;
    }
    if (live->depths[part] > MOST_DEPTH) {
        (void)snprintf(note->words, sizeof note->words, "hint: runs may stand %d deep in one another here: use fewer",
                       MOST_DEPTH);
    } else {
        (void)snprintf(note->words, sizeof note->words,
                       "hint: a part may take %d million steps here: use fewer runs in one another",
                       MOST_STEPS / 1000000);
    }
    return true;
}

struct note note_of(const struct live *live, const struct view *view)
{
    struct note note = {"", STYLE_STRONG, NO_COLUMN};
    if (live->line.length == 0) {
        note.style = STYLE_DIM;
        (void)snprintf(note.words, sizeof note.words, "%s", EXAMPLE);
    } else if (live->notice != NOTICE_NONE) {
        (void)snprintf(note.words, sizeof note.words, "%s", notice_words(live->notice));
    } else if (!live->is_taken) {
        note_fault(live, view, &note);
    } else if (!note_hint(live, &note)) {
        note_cut(live, view->column + view->width, &note);
    }
    return note;
}

/* Where the words have room beside the column that they are about: behind it or before it; else NO_COLUMN. */
static int beside(const struct note *note, int columns)
{
    int length = (int)strlen(note->words);
    if (note->column + 2 + length <= columns) {
        return note->column + 2;
    }
    return note->column - 1 - length >= 0 ? note->column - 1 - length : NO_COLUMN;
}

/* How many bytes of some words stand in a row: up to a blank, where they don't all fit and there is one. */
static size_t row_length(const char *words, size_t columns)
{
    size_t length = strlen(words);
    size_t end = columns;
    if (length <= columns) {
        return length;
    }
    while (end > 0 && words[end] != ' ') {
        end--;
    }
    return end > 0 ? end : columns;
}

/* The words behind those of a row. */
static const char *next_row(const char *words, size_t columns)
{
    words += row_length(words, columns);
    return words + (*words == ' ');
}

int note_rows(const struct note *note, int columns)
{
    const char *words = note->words;
    int rows = 0;
    if (note->column != NO_COLUMN && beside(note, columns) != NO_COLUMN) {
        return 1;
    }
    do {
        words = next_row(words, (size_t)columns);
        rows++;
    } while (*words != '\0');
    return rows + (note->column != NO_COLUMN);
}

void note_draw(const struct note *note, struct grid *grid, int row)
{
    const char *words = note->words;
    size_t columns = (size_t)grid->columns;
    int column = note->column == NO_COLUMN ? NO_COLUMN : beside(note, grid->columns);
    bool has_caret = note->column != NO_COLUMN && (column != NO_COLUMN || row + 1 < grid->rows);
    if (has_caret) {
        grid_put(grid, row, note->column, note->style, "^");
    }
    if (column != NO_COLUMN) {
        grid_put(grid, row, column, note->style, words);
        return;
    }
    for (row += has_caret; *words != '\0'; words = next_row(words, columns)) {
        grid_put_bytes(grid, row++, 0, note->style, words, row_length(words, columns));
    }
}
