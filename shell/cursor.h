/* Which part of a text a byte belongs to, and where a byte of one text stands in another. */
#ifndef CURSOR_H
#define CURSOR_H

#include "parts.h"

/*
 * The part that the token at a byte belongs to, or the last token before it: a bracket and a comma of a call belong to
 * its dot, '=' and 'in' to their let, '->' to its \, and brackets around an expression to its outermost part. Before
 * all tokens it is part 0. The text is one that the engine has taken.
 */
uint32_t part_at(const char *text, size_t length, const struct parts *parts, size_t at);

/* Two texts as a change of one into the other: what stands before and behind the change is the same in both. */
struct change {
    size_t before, behind; /* bytes that are the same, from the start and from the end */
    size_t old_length, new_length;
};

struct change change_of(const char *old, size_t old_length, const char *new, size_t new_length);

/* Where a byte of the new text stands in the old one; within the change, where that begins. */
size_t change_place(const struct change *change, size_t at);

/* Whether the byte is the same one in the old text. */
bool change_keeps(const struct change *change, size_t at);

#endif
