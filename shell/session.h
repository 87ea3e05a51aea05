/* A recording that is opened, and the last formula that was taken over it. */
#ifndef SESSION_H
#define SESSION_H

#include "parts.h"
#include "recording.h"

/*
 * Runs in one another that a preview may have, by the stack of the task: depth 1 takes up to 18,736 bytes, each
 * further one 5,856 more (docs/INTEGRATION.md). Depth 3 takes 30,448. Parts that are deeper are not previewed.
 */
#define MOST_DEPTH 3

struct session {
    const struct recording *recording;
    formula_cache cache;
    uint32_t held; /* how many entries the cache holds */
    char text[FORMULA_TEXT_BYTES];
    size_t length;
    struct parts parts; /* none before the first formula */
    uint16_t places[FORMULA_PLACES];
    bool is_turned_away[FORMULA_TEXT_PARTS]; /* parts that are not previewed: they may take too much stack or time */
    formula_preview_answer shown[FORMULA_TEXT_PARTS];
};

/* What an edit came to. */
struct edit {
    formula_edit_answer answer;
    uint32_t opened_for; /* the refusal after which the cache was opened again, and the edit made again; else 0 */
    uint32_t reused;     /* how many entries of the text were there before */
};

/* Opens a recording, which is used from then on. Gives 0 or the refusal. */
uint32_t session_open(struct session *session, const struct recording *recording);

/*
 * Edits the cache with a formula. Where the table is full or the memory was damaged, the cache is opened again,
 * once: that drops what it keeps. If the formula is taken, it is the session's, and nothing is shown of it yet and no
 * part turned away; else all but the cache stays as it was.
 */
struct edit session_edit(struct session *session, const char *text, size_t length);

/* Whether a part is to be previewed again. One that was refused is not finished either, and would be refused again. */
bool session_awaits(const struct session *session, uint32_t part);

/* Whether an earlier part has the same entry. */
bool session_repeats(const struct session *session, uint32_t part);

#endif
