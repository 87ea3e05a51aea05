/* The engine's answers in words. */
#ifndef WORDS_H
#define WORDS_H

#include "formula.h"

#include <stdbool.h>

/* The members: of numbers, of windows, and of windows with a function. */
#define NUMBER_MEMBERS "add sub mul div gt eq"
#define WINDOW_MEMBERS "skip take at count sum min max bestSum bestAt"
#define RUN_MEMBERS "countWhere longestRun sumBy"
#define MEMBERS NUMBER_MEMBERS " " WINDOW_MEMBERS " " RUN_MEMBERS

/* Room for what an entry shows in words. */
#define SHOWN_BYTES 96

const char *refusal_words(uint32_t refusal);

/* Whether a refusal is about a byte of the text, its answer's place. */
bool refusal_has_place(uint32_t refusal);

const char *reason_words(int32_t reason);

/* The members that begin with a word, or all of them if none does. */
void members_like(const char *word, size_t length, char words[sizeof MEMBERS]);

/* What a preview shows; of a window where it stands, without its readings. */
void shown_words(const formula_preview_answer *shown, char words[SHOWN_BYTES]);

#endif
