#include "plain_rows.h"

#include "shown.h"
#include "words.h"

#include <inttypes.h>
#include <stdio.h>
#include <string.h>

/* Readings of a window that are shown. */
#define SHOWN_READINGS 6

/* Bytes of a refused text that are shown around the place, and how many of them before it at most. */
#define EXCERPT_BYTES 72
#define EXCERPT_BEFORE 56

void print_refused(uint32_t refusal)
{
    printf("refused (%" PRIu32 "): %s", refusal, refusal_words(refusal));
}

void print_row(const struct session *session, uint32_t part, const char *label)
{
    printf("  %3" PRIu32 "  %-15s  entry %3u  ", part, label, (unsigned)session->places[part]);
}

static void print_readings(const formula_cache *cache, const formula_preview_answer *shown)
{
    uint32_t at;
    for (at = 0; at < shown->second && at < SHOWN_READINGS; at++) {
        printf("%s %" PRId32, at == 0 ? ":" : "", cache->readings[(uint32_t)shown->first + at]);
    }
    printf("%s", shown->second > SHOWN_READINGS ? " ..." : "");
}

static void print_shown(const formula_cache *cache, const formula_preview_answer *shown)
{
    char words[SHOWN_BYTES];
    shown_words(shown, words);
    printf("%s", words);
    if (shown->finished && shown->kind == FORMULA_KIND_WINDOW) {
        print_readings(cache, shown);
    }
}

static bool is_same(const formula_evaluate_answer *evaluated, const formula_preview_answer *shown)
{
    return evaluated->refusal == FORMULA_ACCEPTED && evaluated->kind == shown->kind &&
           evaluated->first == shown->first && evaluated->second == shown->second &&
           evaluated->name == shown->name && evaluated->other == shown->other;
}

/*
 * Evaluates a part without the cache. Where that differs from what is shown, its fields are added to the row. Gives
 * whether it does.
 */
static bool check_part(const struct session *session, uint32_t part)
{
    const struct recording *recording = session->recording;
    char name[FORMULA_NAME_BYTES + 1];
    char other[FORMULA_NAME_BYTES + 1];
    formula_evaluate_answer answer =
        formula_text_evaluate(session->text, session->length, recording->readings, recording->length, part);
    if (answer.parts == session->parts.count && is_same(&answer, &session->shown[part])) {
        return false;
    }
    formula_name_text(answer.name, name);
    formula_name_text(answer.other, other);
    printf("; evaluated: refusal %" PRIu32 ", parts %" PRIu32 ", kind %" PRIu32 ", %" PRId32 " %" PRIu32 " [%s] [%s]",
           answer.refusal, answer.parts, answer.kind, answer.first, answer.second, name, other);
    return true;
}

unsigned long print_parts(const struct session *session, bool is_checked)
{
    char label[LABEL_BYTES];
    unsigned long differing = 0;
    uint32_t part;
    for (part = 0; part < session->parts.count; part++) {
        part_label(session->text, &session->parts.at[part], label);
        print_row(session, part, label);
        if (session->is_turned_away[part]) {
            printf("too much work: runs %u deep", formula_cache_run_depth(&session->cache, session->places[part]));
        } else {
            print_shown(&session->cache, &session->shown[part]);
        }
        if (is_checked && session->shown[part].finished) {
            differing += check_part(session, part);
        }
        printf("\n");
    }
    return differing;
}

/* A refused text around the place, with a caret under it. */
static void print_place(const char *text, size_t length, size_t place)
{
    size_t from = place > EXCERPT_BEFORE ? place - EXCERPT_BEFORE : 0;
    size_t to = length - from > EXCERPT_BYTES ? from + EXCERPT_BYTES : length;
    const char *before = from > 0 ? "..." : "";
    printf("    %s", before);
    put_shown(stdout, text + from, to - from);
    printf("%s\n    %*s^\n", to < length ? "..." : "", (int)(strlen(before) + place - from), "");
}

void print_refusal(const char *text, size_t length, const formula_edit_answer *answer)
{
    printf("  ");
    print_refused(answer->refusal);
    if (refusal_has_place(answer->refusal)) {
        printf(", at byte %" PRIu32 "\n", answer->place);
        print_place(text, length, answer->place);
    } else {
        printf("\n");
    }
}
