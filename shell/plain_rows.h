/* What is printed of a formula where lines are read: a row for each part, and refusals. */
#ifndef PLAIN_ROWS_H
#define PLAIN_ROWS_H

#include "session.h"

void print_refused(uint32_t refusal);

/* A part's row, up to what is shown for it. */
void print_row(const struct session *session, uint32_t part, const char *label);

/*
 * The rows of all parts. If they are checked, each finished one is also evaluated without the cache; where that gives
 * something else, its row says what. Gives how many these are.
 */
unsigned long print_parts(const struct session *session, bool is_checked);

/* Why a text was refused and, if the answer has a place in it, the text around the place with a caret under it. */
void print_refusal(const char *text, size_t length, const formula_edit_answer *answer);

#endif
