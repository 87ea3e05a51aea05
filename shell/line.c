#include "line.h"

#include "bytes.h"

#include <string.h>

/* The most bytes of a character in UTF-8 behind its first. */
#define MOST_CONTINUATION 3

static bool in_word(char byte)
{
    return is_letter(byte) || is_digit(byte);
}

/* Whether a byte goes on with a character of UTF-8. None is of a formula; typed by mistake, it goes with one key. */
static bool is_continuation(char byte)
{
    return ((unsigned char)byte & 0xc0) == 0x80;
}

static size_t before(const struct line *line, size_t at)
{
    size_t passed = 0;
    while (at > 1 && passed < MOST_CONTINUATION && is_continuation(line->text[at - 1])) {
        at--;
        passed++;
    }
    return at > 0 ? at - 1 : 0;
}

static size_t behind(const struct line *line, size_t at)
{
    size_t passed = 0;
    at += at < line->length;
    while (at < line->length && passed < MOST_CONTINUATION && is_continuation(line->text[at])) {
        at++;
        passed++;
    }
    return at;
}

static size_t word_before(const struct line *line, size_t at)
{
    while (at > 0 && !in_word(line->text[at - 1])) {
        at--;
    }
    while (at > 0 && in_word(line->text[at - 1])) {
        at--;
    }
    return at;
}

static size_t word_behind(const struct line *line, size_t at)
{
    while (at < line->length && !in_word(line->text[at])) {
        at++;
    }
    while (at < line->length && in_word(line->text[at])) {
        at++;
    }
    return at;
}

/* A line that is changed is new, whatever it was made from. */
static void erase(struct line *line, size_t from, size_t to)
{
    memmove(line->text + from, line->text + to, line->length - to);
    line->length -= to - from;
    line->cursor = from;
    line->recalled = 0;
}

bool line_insert(struct line *line, const char *bytes, size_t count)
{
    if (count > LINE_BYTES - line->length) {
        return false;
    }
    memmove(line->text + line->cursor + count, line->text + line->cursor, line->length - line->cursor);
    memcpy(line->text + line->cursor, bytes, count);
    line->length += count;
    line->cursor += count;
    line->recalled = 0;
    return true;
}

static bool is_break(char byte)
{
    return byte == '\r' || byte == '\n';
}

bool line_paste(struct line *line, const char *bytes, size_t count)
{
    bool fits = true;
    size_t at = 0;
    while (count > 0 && is_break(bytes[count - 1])) {
        count--;
    }
    while (at < count && is_break(bytes[at])) {
        at++;
    }
    for (; at < count && fits; at++) {
        bool is_second = bytes[at] == '\n' && bytes[at - (at > 0)] == '\r';
        if (!is_second) {
            fits = line_insert(line, is_blank(bytes[at]) ? " " : bytes + at, 1);
        }
    }
    return fits;
}

void line_left(struct line *line)
{
    line->cursor = before(line, line->cursor);
}

void line_right(struct line *line)
{
    line->cursor = behind(line, line->cursor);
}

void line_word_left(struct line *line)
{
    line->cursor = word_before(line, line->cursor);
}

void line_word_right(struct line *line)
{
    line->cursor = word_behind(line, line->cursor);
}

void line_backspace(struct line *line)
{
    erase(line, before(line, line->cursor), line->cursor);
}

void line_delete(struct line *line)
{
    erase(line, line->cursor, behind(line, line->cursor));
}

void line_delete_word(struct line *line)
{
    erase(line, word_before(line, line->cursor), line->cursor);
}

void line_delete_to_start(struct line *line)
{
    erase(line, 0, line->cursor);
}

void line_delete_to_end(struct line *line)
{
    erase(line, line->cursor, line->length);
}

static bool is_kept_last(const struct line *line)
{
    size_t last = line->kept_count - 1;
    return line->kept_count > 0 && line->kept_lengths[last] == line->length &&
           memcmp(line->kept[last], line->text, line->length) == 0;
}

void line_keep(struct line *line)
{
    if (!is_kept_last(line)) {
        if (line->kept_count == KEPT_LINES) {
            line->kept_count--;
            memmove(line->kept, line->kept + 1, sizeof line->kept - sizeof line->kept[0]);
            memmove(line->kept_lengths, line->kept_lengths + 1,
                    sizeof line->kept_lengths - sizeof line->kept_lengths[0]);
        }
        memcpy(line->kept[line->kept_count], line->text, line->length);
        line->kept_lengths[line->kept_count++] = line->length;
    }
    erase(line, 0, line->length);
}

static void set(struct line *line, const char *text, size_t length)
{
    memcpy(line->text, text, length);
    line->length = length;
    line->cursor = length;
}

/* Shows the formula that was kept so many back, or the draft. */
static void recall(struct line *line, size_t back)
{
    size_t at = line->kept_count - back;
    if (line->recalled == 0) {
        memcpy(line->draft, line->text, line->length);
        line->draft_length = line->length;
    }
    if (back == 0) {
        set(line, line->draft, line->draft_length);
    } else {
        set(line, line->kept[at], line->kept_lengths[at]);
    }
    line->recalled = back;
}

void line_earlier(struct line *line)
{
    if (line->recalled < line->kept_count) {
        recall(line, line->recalled + 1);
    }
}

void line_later(struct line *line)
{
    if (line->recalled > 0) {
        recall(line, line->recalled - 1);
    }
}
