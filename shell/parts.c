#include "parts.h"

#include "bytes.h"

#include <stdio.h>
#include <string.h>

size_t token_length(const char *text, size_t length, size_t at)
{
    size_t end = at + 1;
    bool is_word = is_letter(text[at]);
    if (text[at] == '-' && end < length && text[end] == '>') {
        return 2;
    }
    if (!is_word && !is_digit(text[at]) && !(text[at] == '-' && end < length && is_digit(text[end]))) {
        return 1;
    }
    while (end < length && (is_digit(text[end]) || (is_word && is_letter(text[end])))) {
        end++;
    }
    return end - at;
}

static bool is_token(const char *text, size_t at, size_t length, const char *word)
{
    return length == strlen(word) && memcmp(text + at, word, length) == 0;
}

/* Takes note of a token. Gives whether the next word belongs to it. */
static bool note_token(const char *text, size_t at, size_t length, bool is_expected, struct parts *parts)
{
    bool expects_word = is_token(text, at, length, "let") || text[at] == '\\' || text[at] == '.';
    bool is_number = is_digit(text[at]) || (text[at] == '-' && length > 1 && is_digit(text[at + 1]));
    bool is_name = is_letter(text[at]) && !is_token(text, at, length, "in");
    if (is_expected) {
        parts->at[parts->count - 1].word = at;
        parts->at[parts->count - 1].word_length = length;
        return false;
    }
    if ((expects_word || is_number || is_name) && parts->count < FORMULA_TEXT_PARTS) {
        struct part part = {0, 0, 0, 0};
        part.mark = at;
        part.mark_length = length;
        parts->at[parts->count++] = part;
        return expects_word;
    }
    return false;
}

void parts_find(const char *text, size_t length, struct parts *parts)
{
    size_t at = 0;
    bool is_expected = false;
    parts->count = 0;
    while (at < length) {
        if (is_blank(text[at])) {
            at++;
        } else {
            size_t token = token_length(text, length, at);
            is_expected = note_token(text, at, token, is_expected, parts);
            at += token;
        }
    }
}

void part_label(const char *text, const struct part *part, char label[LABEL_BYTES])
{
    const size_t most = LABEL_BYTES - 1;
    const char *blank = part->mark_length > 1 && part->word_length > 0 ? " " : "";
    int mark = (int)(part->mark_length < most ? part->mark_length : most);
    int word = (int)(part->word_length < most ? part->word_length : most);
    (void)snprintf(label, LABEL_BYTES, "%.*s%s%.*s", mark, text + part->mark, blank, word, text + part->word);
}
