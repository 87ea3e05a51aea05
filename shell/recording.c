#define _POSIX_C_SOURCE 200809L

#include "recording.h"

#include "bytes.h"
#include "shown.h"

#include <errno.h>
#include <string.h>
#include <unistd.h>

/* A word of a recording; a longer one is no number. */
#define WORD_BYTES 32

/* A file that is read: its byte at a place, or EOF, and the place, counted from 1. */
struct reader {
    FILE *file;
    int byte;
    unsigned long line, column;
};

/* A word, as much of it as there is room for with a zero behind it; its whole length, and where it begins. */
struct word {
    char bytes[WORD_BYTES];
    size_t length;
    unsigned long line, column;
};

static void advance(struct reader *reader)
{
    bool is_line_end = reader->byte == '\n';
    reader->line += is_line_end;
    reader->column = is_line_end ? 1 : reader->column + 1;
    reader->byte = getc(reader->file);
}

/* Passes over blanks and comments. */
static void skip_to_word(struct reader *reader)
{
    bool is_comment = false;
    while (reader->byte != EOF && (is_comment || is_blank(reader->byte) || reader->byte == '#')) {
        is_comment = reader->byte != '\n' && (is_comment || reader->byte == '#');
        advance(reader);
    }
}

static size_t kept_length(const struct word *word)
{
    return word->length < WORD_BYTES - 1 ? word->length : WORD_BYTES - 1;
}

/* Reads a word. Gives whether there was one before the end of the file. */
static bool next_word(struct reader *reader, struct word *word)
{
    skip_to_word(reader);
    word->length = 0;
    word->line = reader->line;
    word->column = reader->column;
    while (reader->byte != EOF && !is_blank(reader->byte) && reader->byte != '#') {
        if (word->length < WORD_BYTES - 1) {
            word->bytes[word->length] = (char)reader->byte;
        }
        word->length++;
        advance(reader);
    }
    word->bytes[kept_length(word)] = '\0';
    return word->length > 0;
}

/* What is wrong with a word as a reading, or null: then the reading is set. */
static const char *parse_reading(const struct word *word, int32_t *reading)
{
    const int64_t beyond = (int64_t)INT32_MAX + 1;
    const char *bytes = word->bytes;
    const char *digit = bytes + (bytes[0] == '-');
    int64_t size = 0;
    if (!is_digit(*digit) || word->length >= WORD_BYTES) {
        return "is no number";
    }
    for (; is_digit(*digit); digit++) {
        size = size <= beyond ? 10 * size + (*digit - '0') : size;
    }
    if ((size_t)(digit - bytes) != word->length) {
        return "is no number";
    }
    size = bytes[0] == '-' ? -size : size;
    if (size < INT32_MIN || size > INT32_MAX) {
        return "is beyond 32 bits";
    }
    *reading = (int32_t)size;
    return NULL;
}

static void put_name(const char *name)
{
    fprintf(stderr, "formula: ");
    put_shown(stderr, name, strlen(name));
}

static void put_place(const char *name, const struct word *word)
{
    put_name(name);
    fprintf(stderr, ":%lu:%lu: ", word->line, word->column);
}

/* Takes a word as the next reading. Says what is wrong with it. */
static bool take_word(const struct word *word, const char *name, struct recording *recording)
{
    int32_t reading = 0;
    const char *fault = parse_reading(word, &reading);
    if (fault != NULL) {
        put_place(name, word);
        fprintf(stderr, "'");
        put_shown(stderr, word->bytes, kept_length(word));
        fprintf(stderr, "' %s\n", fault);
        return false;
    }
    if (recording->length == FORMULA_RECORDING_READINGS) {
        put_place(name, word);
        fprintf(stderr, "over %d readings\n", FORMULA_RECORDING_READINGS);
        return false;
    }
    recording->readings[recording->length++] = reading;
    return true;
}

/* Says why a file can't be read, by errno. */
static void put_error(const char *name)
{
    const char *error = strerror(errno);
    put_name(name);
    fprintf(stderr, ": %s\n", error);
}

bool recording_read(FILE *file, const char *name, struct recording *recording)
{
    struct reader reader = {file, '\n', 0, 0}; /* as at the end of a line 0 */
    struct word word;
    recording->length = 0;
    errno = 0;
    advance(&reader);
    while (next_word(&reader, &word)) {
        if (!take_word(&word, name, recording)) {
            return false;
        }
    }
    if (ferror(file)) {
        put_error(name);
        return false;
    }
    return true;
}

bool recording_load(const char *path, struct recording *recording)
{
    bool is_good;
    FILE *file = strcmp(path, "-") == 0 ? stdin : fopen(path, "r");
    if (file == NULL) {
        put_error(path);
        return false;
    }
    if (file == stdin && isatty(STDIN_FILENO) == 1) {
        fprintf(stderr, "formula: -: type the readings, and Ctrl-D behind them\n");
    }
    is_good = recording_read(file, path, recording);
    if (file != stdin) {
        fclose(file);
    }
    return is_good;
}
