/*
 * How long a key can wait on the live screen, measured: for formulas whose parts take as many steps as are let through.
 *
 *     wait
 *
 * A key that comes during the work waits for the frame under way; then it is taken, which is an edit and a frame that
 * has no costly entry; then the screen is drawn. The longest of each is written, in milliseconds, and their sum.
 */
#define _POSIX_C_SOURCE 200809L

#include "../draw.h"

#include <string.h>
#include <time.h>

#define COLUMNS 200
#define ROWS 60

/* A formula with a piece that is repeated as often as the limits let through; '#' in it is the number of the piece. */
struct family {
    const char *name, *start, *piece, *end;
    size_t readings;
};

static const struct family families[] = {
    {"members in a run", "data.countWhere(\\a -> a", ".add(#)", ")", 1024},
    {"members in a run in a run", "data.countWhere(\\a -> data.countWhere(\\b -> b", ".add(a)", "))", 1024},
    {"sums in a run", "data.countWhere(\\a -> a", ".add(data.skip(a.sub(#)).sum())", ")", 1024},
    {"sums in a run in a run", "data.countWhere(\\a -> data.countWhere(\\b -> b", ".add(data.skip(b.sub(#)).sum())",
     ".add(a)))", 240},
    {"greatest in a run in a run", "data.countWhere(\\a -> data.countWhere(\\b -> b",
     ".add(data.skip(b.sub(#)).max().add(a))", "))", 240},
    {"bestSum in a run", "data.countWhere(\\a -> a", ".add(data.skip(a.sub(#)).bestSum(5))", ")", 1024},
    {"bestSum in a run in a run", "data.countWhere(\\a -> data.countWhere(\\b -> b",
     ".add(data.skip(b.sub(#)).bestSum(5).add(a))", "))", 240},
    {"runs beside one another in a run", "data.countWhere(\\a -> a",
     ".add(data.countWhere(\\b -> b.add(a).add(#)))", ")", 512},
    {"runs over one reading in a run", "data.countWhere(\\a -> a",
     ".add(data.take(1).countWhere(\\b -> b.add(a).add(#)))", ")", 512},
    {"runs three deep", "let f = \\b -> data.take(b).countWhere(\\c -> c", ".add(b)",
     ") in data.countWhere(\\a -> data.take(a).countWhere(f))", 120},
    {"runs three deep over few readings", "let f = \\b -> data.take(b).countWhere(\\c -> c", ".add(b.add(#))",
     ") in data.countWhere(\\a -> data.take(a).countWhere(f))", 60},
    {"many entries, no run", "data.sum()", ".add(#)", "", 1024},
};

struct waits {
    double frame, key, drawing;
};

static double now(void)
{
    struct timespec time;
    (void)clock_gettime(CLOCK_MONOTONIC, &time);
    return 1e3 * (double)time.tv_sec + 1e-6 * (double)time.tv_nsec;
}

static size_t append(char *text, size_t length, const char *piece, unsigned number)
{
    for (; *piece != '\0'; piece++) {
        if (*piece == '#') {
            length += (size_t)snprintf(text + length, 4, "%u", number % 100);
        } else {
            text[length++] = *piece;
        }
    }
    return length;
}

/* The formula with so many pieces, and its length, or 0 where it is too long. */
static size_t write_formula(const struct family *family, unsigned pieces, char *text)
{
    size_t length = append(text, 0, family->start, 0);
    for (; pieces > 0 && length < FORMULA_TEXT_BYTES - 64; pieces--) {
        length = append(text, length, family->piece, pieces);
    }
    length = append(text, length, family->end, 0);
    return pieces == 0 && length <= FORMULA_TEXT_BYTES ? length : 0;
}

static double timed_draw(const struct live *live, FILE *terminal)
{
    static struct grid grid;
    static struct painter painter;
    double start = now();
    painter.has_colour = true;
    painter.has_symbols = true;
    painter.is_painted = false;
    draw(live, COLUMNS, ROWS, &grid);
    paint(&painter, &grid, terminal);
    (void)fflush(terminal);
    return now() - start;
}

static double longer(double one, double other)
{
    return one > other ? one : other;
}

/* Types a formula that is all there at once, and works it out. Gives whether it was taken and no part turned away. */
static bool work_out(const struct recording *recording, const char *text, size_t length, FILE *terminal,
                     struct waits *waits, uint64_t *steps)
{
    static struct session session;
    static struct live live;
    static struct keys keys;
    bool has_work = true;
    double start;
    uint32_t part;
    (void)session_open(&session, recording);
    live_start(&live, &session, "wait");
    memcpy(keys.paste, text, length);
    keys.paste_length = length;
    start = now();
    live_key(&live, KEY_PASTE, &keys);
    waits->key = longer(waits->key, now() - start);
    if (!live.is_taken || live_progress(&live).away > 0) {
        return false;
    }
    for (part = 0; part < session.parts.count; part++) {
        *steps = live.most_steps[part] > *steps ? live.most_steps[part] : *steps;
    }
    while (has_work) {
        start = now();
        has_work = live_work(&live);
        waits->frame = longer(waits->frame, now() - start);
        waits->drawing = longer(waits->drawing, timed_draw(&live, terminal));
    }
    return true;
}

/* Tries a family with more and more pieces. */
static double measure(const struct family *family, FILE *terminal)
{
    static struct recording recording;
    static char text[FORMULA_TEXT_BYTES + 64];
    struct waits waits = {0, 0, 0};
    uint64_t steps = 0;
    unsigned pieces = 1;
    size_t length;
    for (recording.length = 0; recording.length < family->readings; recording.length++) {
        recording.readings[recording.length] = (int32_t)(90 + recording.length % 90);
    }
    while ((length = write_formula(family, pieces, text)) > 0 &&
           work_out(&recording, text, length, terminal, &waits, &steps)) {
        pieces++;
    }
    printf("%-36s %4lu readings %3u pieces %8lu steps  frame %6.1f  key %5.1f  drawing %4.1f\n", family->name,
           (unsigned long)family->readings, pieces - 1, (unsigned long)steps, waits.frame, waits.key, waits.drawing);
    return waits.frame + waits.key + waits.drawing;
}

int main(void)
{
    FILE *terminal = fopen("/dev/null", "w");
    double longest = 0;
    size_t at;
    if (terminal == NULL) {
        return 1;
    }
    for (at = 0; at < sizeof families / sizeof families[0]; at++) {
        longest = longer(longest, measure(&families[at], terminal));
    }
    (void)fclose(terminal);
    printf("longest wait of a key: %.1f ms\n", longest);
    return 0;
}
