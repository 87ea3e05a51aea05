#include "cursor.h"

#include "bytes.h"

#include <string.h>

/* Marks that a text has open at once: brackets of calls count as well. */
#define MOST_OPEN (FORMULA_TEXT_PARTS + FORMULA_OPEN_MARKS + 1)

#define NO_PART FORMULA_TEXT_PARTS

/* An expression that has begun: that of the whole text, or one in brackets. */
struct level {
    uint32_t call;  /* the part that the brackets are of; NO_PART for those around an expression */
    uint32_t outer; /* the outermost part so far; NO_PART before the first */
    bool is_prefix; /* it begins with a let or a \, which reaches up to the level's end */
};

struct walk {
    const char *text;
    const struct parts *parts;
    uint32_t next; /* the first part whose mark is not yet passed */
    bool is_behind_word;
    uint32_t open_lets[FORMULA_TEXT_PARTS];
    size_t open_let_count;
    struct level levels[MOST_OPEN];
    size_t depth;
};

static struct level level_of(uint32_t call)
{
    struct level level = {NO_PART, NO_PART, false};
    level.call = call;
    return level;
}

/* The token is the mark of a part. */
static uint32_t take_mark(struct walk *walk, size_t at)
{
    struct level *level = &walk->levels[walk->depth];
    uint32_t part = walk->next++;
    bool is_let = walk->parts->at[part].mark_length > 1 && walk->parts->at[part].word_length > 0;
    if (level->outer == NO_PART) {
        level->outer = part;
        level->is_prefix = is_let || walk->text[at] == '\\';
    } else if (walk->text[at] == '.' && !level->is_prefix) {
        level->outer = part;
    }
    if (is_let) {
        walk->open_lets[walk->open_let_count++] = part;
    }
    return part;
}

/* A bracket is of a call if it stands behind the word of a dot. */
static uint32_t take_open(struct walk *walk, bool is_behind_word)
{
    uint32_t last = walk->next - 1;
    bool is_call = is_behind_word && walk->text[walk->parts->at[last].mark] == '.';
    if (walk->depth + 1 < MOST_OPEN) {
        walk->levels[++walk->depth] = level_of(is_call ? last : NO_PART);
    }
    return is_call ? last : walk->next;
}

static uint32_t take_close(struct walk *walk)
{
    struct level level = walk->levels[walk->depth];
    struct level *around;
    if (walk->depth == 0) {
        return NO_PART;
    }
    around = &walk->levels[--walk->depth];
    if (level.call != NO_PART) {
        return level.call;
    }
    if (around->outer == NO_PART) {
        around->outer = level.outer;
    }
    return level.outer;
}

/* Which part a token belongs to. It stands behind the word of a part, or does not. */
static uint32_t owner(struct walk *walk, size_t at, bool is_behind_word)
{
    const struct parts *parts = walk->parts;
    uint32_t last = walk->next > 0 ? walk->next - 1 : 0;
    if (walk->next < parts->count && parts->at[walk->next].mark == at) {
        return take_mark(walk, at);
    }
    switch (walk->text[at]) {
    case '(': return take_open(walk, is_behind_word);
    case ')': return take_close(walk);
    case ',': return walk->levels[walk->depth].call;
    case 'i': return walk->open_let_count > 0 ? walk->open_lets[--walk->open_let_count] : last;
    default: return last;
    }
}

/* Takes the token at a place, and gives the part that it belongs to. */
static uint32_t take_token(struct walk *walk, size_t at)
{
    const struct part *last = &walk->parts->at[walk->next > 0 ? walk->next - 1 : 0];
    bool is_word = walk->next > 0 && last->word_length > 0 && last->word == at;
    uint32_t found = is_word ? walk->next - 1 : owner(walk, at, walk->is_behind_word);
    walk->is_behind_word = is_word;
    return found;
}

uint32_t part_at(const char *text, size_t length, const struct parts *parts, size_t at)
{
    struct walk walk;
    uint32_t found = 0;
    size_t token = 0;
    size_t opened = 0; /* the depth of brackets around an expression, whose part is known at their end; 0: none */
    memset(&walk, 0, sizeof walk);
    walk.text = text;
    walk.parts = parts;
    walk.levels[0] = level_of(NO_PART);
    while (token < length && (token <= at || opened > 0)) {
        size_t count = is_blank(text[token]) ? 1 : token_length(text, length, token);
        if (!is_blank(text[token])) {
            uint32_t part = take_token(&walk, token);
            bool is_group = text[token] == '(' && walk.levels[walk.depth].call == NO_PART;
            if (token <= at) {
                found = part;
                opened = is_group ? walk.depth : 0;
            } else if (walk.depth < opened) {
                found = part;
                opened = 0;
            }
        }
        token += count;
    }
    return found < parts->count ? found : 0;
}

struct change change_of(const char *old, size_t old_length, const char *new, size_t new_length)
{
    struct change change = {0, 0, 0, 0};
    size_t shorter = old_length < new_length ? old_length : new_length;
    change.old_length = old_length;
    change.new_length = new_length;
    while (change.before < shorter && old[change.before] == new[change.before]) {
        change.before++;
    }
    while (change.behind < shorter - change.before &&
           old[old_length - 1 - change.behind] == new[new_length - 1 - change.behind]) {
        change.behind++;
    }
    return change;
}

bool change_keeps(const struct change *change, size_t at)
{
    return at < change->before || at >= change->new_length - change->behind;
}

size_t change_place(const struct change *change, size_t at)
{
    if (at < change->before) {
        return at;
    }
    return change_keeps(change, at) ? change->old_length - (change->new_length - at) : change->before;
}
