/* The formula line: a text with a cursor, and the formulas that were kept before. */
#ifndef LINE_H
#define LINE_H

#include "formula.h"

#include <stdbool.h>

/* Bytes of the line. A text may have fewer: what is beyond is refused, but can be seen and taken out. */
#define LINE_BYTES 4096

/* Formulas that are kept; the oldest is dropped for a new one. */
#define KEPT_LINES 64

struct line {
    char text[LINE_BYTES];
    size_t length;
    size_t cursor; /* the byte that it stands before */
    char kept[KEPT_LINES][FORMULA_TEXT_BYTES];
    size_t kept_lengths[KEPT_LINES];
    size_t kept_count;
    size_t recalled; /* how many formulas back the line is; 0: it is new */
    char draft[LINE_BYTES]; /* the new line while an earlier one is shown */
    size_t draft_length;
};

/* Inserts bytes at the cursor. Gives whether there was room; if not, nothing is inserted. */
bool line_insert(struct line *line, const char *bytes, size_t count);

/*
 * Inserts a paste, as much of it as there is room for: each line break and tab in it is one blank, and line breaks at
 * its ends are left out. Gives whether all was inserted.
 */
bool line_paste(struct line *line, const char *bytes, size_t count);

void line_left(struct line *line);
void line_right(struct line *line);
void line_word_left(struct line *line);
void line_word_right(struct line *line);

void line_backspace(struct line *line);
void line_delete(struct line *line);
void line_delete_word(struct line *line);
void line_delete_to_start(struct line *line);
void line_delete_to_end(struct line *line);

/* Keeps the line, which has at most FORMULA_TEXT_BYTES, and begins a new one. */
void line_keep(struct line *line);

/* Shows the formula that was kept before the one that is shown, or after it; the new line comes last. */
void line_earlier(struct line *line);
void line_later(struct line *line);

#endif
