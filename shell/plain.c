#include "plain.h"

#include "bytes.h"
#include "plain_rows.h"
#include "shown.h"

#include <inttypes.h>
#include <stdio.h>

/* Entries worked out in one frame. The watch sets this by the time that a frame leaves. */
#define FRAME_ALLOWANCE 2

/*
 * Runs of a function that an entry may take, by the time: docs/INTEGRATION.md has that of a run with the smallest body
 * and with the costliest measured. Parts that may take more runs are not previewed.
 */
#define MOST_RUNS 10000000

/* Parts that are named as not yet worked out. */
#define NAMED_PARTS 4

/* What can be typed. */
#define HELP "a formula, or ? and the number of a part of the last one, to see it in full"

/* ---- Frames ---- */

/*
 * Whether a preview may take too much stack or time: runs too deep in one another, or too many of them. They are as
 * many as there are readings, to the power of the depth, if each body has one run in it; with more runs in a body,
 * several times as many.
 */
static bool takes_too_much(const formula_cache *cache, size_t readings, uint32_t entry)
{
    unsigned depth = formula_cache_run_depth(cache, entry);
    uint64_t runs = 1;
    unsigned level;
    for (level = 0; level < depth && runs <= MOST_RUNS; level++) {
        runs *= readings;
    }
    return depth > MOST_DEPTH || runs > MOST_RUNS;
}

/* Some parts of a formula that was taken will never be shown. */
static void turn_away(struct session *session)
{
    uint32_t part;
    for (part = 0; part < session->parts.count; part++) {
        session->is_turned_away[part] =
            takes_too_much(&session->cache, session->recording->length, session->places[part]);
    }
}

/*
 * One frame: previews the parts that are not finished, with one allowance for all. Gives how many entries it
 * worked out.
 */
static uint32_t draw_frame(struct session *session)
{
    uint32_t left = FRAME_ALLOWANCE;
    uint32_t part;
    for (part = 0; part < session->parts.count; part++) {
        formula_preview_answer *shown = &session->shown[part];
        if (session_awaits(session, part)) {
            *shown = formula_cache_preview(&session->cache, session->places[part], left);
            left -= shown->worked;
        }
    }
    return FRAME_ALLOWANCE - left;
}

/* Says which parts are not finished. Gives how many they are. */
static uint32_t print_progress(const struct session *session, uint32_t frame, uint32_t worked)
{
    char label[LABEL_BYTES];
    uint32_t unfinished = 0;
    uint32_t part;
    for (part = 0; part < session->parts.count; part++) {
        if (session_awaits(session, part) && unfinished++ < NAMED_PARTS) {
            part_label(session->text, &session->parts.at[part], label);
            if (unfinished == 1) {
                printf("  frame %" PRIu32 ": %" PRIu32 " worked out; not yet: %s", frame, worked, label);
            } else {
                printf(", %s", label);
            }
        }
    }
    if (unfinished > NAMED_PARTS) {
        printf(" and %" PRIu32 " more", unfinished - NAMED_PARTS);
    }
    printf("%s", unfinished > 0 ? "\n" : "");
    return unfinished;
}

/*
 * Shows a formula that was taken, frame by frame and then part by part. Gives how many parts were evaluated to
 * something else.
 */
static unsigned long show(struct session *session, const struct edit *edit, bool is_checked)
{
    uint32_t frames = 0;
    uint32_t total = 0;
    uint32_t worked;
    unsigned long differing;
    do {
        worked = draw_frame(session);
        total += worked;
        frames++;
    } while (print_progress(session, frames, worked) > 0 && worked > 0);
    differing = print_parts(session, is_checked);
    printf("  %" PRIu32 " part%s; entries: %" PRIu32 " new, %" PRIu32 " reused, %" PRIu32 " worked out in %" PRIu32
           " frame%s\n",
           edit->answer.parts, edit->answer.parts == 1 ? "" : "s", edit->answer.added, edit->reused, total, frames,
           frames == 1 ? "" : "s");
    return differing;
}

/* ---- Lines ---- */

/* Reads a line, as much of it as there is room for. Gives whether there was one. */
static bool read_line(FILE *file, char *line, size_t room, size_t *length)
{
    int byte = getc(file);
    bool is_there = byte != EOF;
    *length = 0;
    while (byte != EOF && byte != '\n') {
        if (*length < room) {
            line[(*length)++] = (char)byte;
        }
        byte = getc(file);
    }
    return is_there;
}

/* The place behind the blanks from a place on. */
static size_t skip_blanks(const char *line, size_t length, size_t at)
{
    while (at < length && is_blank(line[at])) {
        at++;
    }
    return at;
}

/* Whether a line is blank or a comment. */
static bool is_passed_over(const char *line, size_t length)
{
    return skip_blanks(line, length, 0) == length || line[0] == '#';
}

static void echo(const char *text, size_t length)
{
    put_shown(stdout, text, length);
    printf("\n");
}

/*
 * Edits the cache with a formula and shows it. A cache that is damaged later, before a preview, is opened again at the
 * next formula. Gives how many parts were evaluated to something else.
 */
static unsigned long take_formula(struct session *session, const char *line, size_t length, bool is_checked)
{
    struct edit edit = session_edit(session, line, length);
    if (edit.opened_for != FORMULA_ACCEPTED) {
        printf("  ");
        print_refused(edit.opened_for);
        printf("\n  the recording is opened again\n");
    }
    if (edit.answer.refusal != FORMULA_ACCEPTED) {
        print_refusal(line, length, &edit.answer);
        return 0;
    }
    turn_away(session);
    return show(session, &edit, is_checked);
}

/* The part that a line asks for, by '?' and its number. FORMULA_TEXT_PARTS or more is none. */
static uint32_t asked_part(const char *line, size_t length)
{
    size_t first = skip_blanks(line, length, 1);
    size_t at = first;
    uint32_t part = 0;
    while (at < length && is_digit(line[at]) && part < FORMULA_TEXT_PARTS) {
        part = 10 * part + (uint32_t)(line[at++] - '0');
    }
    return at > first && skip_blanks(line, length, at) == length ? part : FORMULA_TEXT_PARTS;
}

/* Shows the part that a line asks for, of the last formula that was taken. */
static void show_in_full(const struct session *session, const char *line, size_t length)
{
    char text[FORMULA_TEXT_BYTES];
    uint32_t part = asked_part(line, length);
    formula_print_answer answer;
    if (part >= session->parts.count) {
        printf("  no such part; type " HELP "\n");
        return;
    }
    answer = formula_cache_print(&session->cache, session->places[part], text, sizeof text);
    print_row(session, part, "in full");
    if (answer.refusal != FORMULA_ACCEPTED) {
        print_refused(answer.refusal);
    }
    echo(text, answer.length);
}

/*
 * Answers a line: a formula, or a question for a part of the last one. No formula begins with '?'. Gives how many
 * parts were evaluated to something else.
 */
static unsigned long take_line(struct session *session, const char *line, size_t length, bool is_checked)
{
    if (line[0] == '?') {
        show_in_full(session, line, length);
        return 0;
    }
    return take_formula(session, line, length, is_checked);
}

unsigned long plain_run(struct session *session, FILE *input, bool is_typed, bool is_checked)
{
    /* One byte more than a text may have, so that a longer line is refused as one. */
    static char line[FORMULA_TEXT_BYTES + 1];
    size_t length;
    unsigned long differing = 0;
    printf("%s", is_typed ? "type " HELP "\n" : "");
    for (;;) {
        printf("%s", is_typed ? "> " : "");
        fflush(stdout);
        if (!read_line(input, line, sizeof line, &length)) {
            break;
        }
        if (!is_passed_over(line, length)) {
            if (!is_typed) {
                printf("> ");
                echo(line, length);
            }
            differing += take_line(session, line, length, is_checked);
        }
    }
    return differing;
}
