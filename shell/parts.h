/* Where the parts of a text stand. */
#ifndef PARTS_H
#define PARTS_H

#include "formula.h"

#include <stdbool.h>

/* A part's label with its final zero; longer ones are cut. */
#define LABEL_BYTES 16

/* Where a part's mark stands in the text and, for a let, a \ or a dot, the word behind it. */
struct part {
    size_t mark, mark_length;
    size_t word, word_length;
};

struct parts {
    uint32_t count;
    struct part at[FORMULA_TEXT_PARTS];
};

/* The length of the token at a place of a text, which is no blank: a word, a number, an arrow or a single byte. */
size_t token_length(const char *text, size_t length, size_t at);

/* Finds the parts of a text that the engine has taken, in the order of their marks. */
void parts_find(const char *text, size_t length, struct parts *parts);

/* A part's mark and word, without the blanks between them. */
void part_label(const char *text, const struct part *part, char label[LABEL_BYTES]);

#endif
