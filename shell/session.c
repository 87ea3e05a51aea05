#include "session.h"

#include <inttypes.h>
#include <stdio.h>
#include <stdlib.h>
#include <string.h>

uint32_t session_open(struct session *session, const struct recording *recording)
{
    session->recording = recording;
    session->held = 0;
    session->length = 0;
    session->parts.count = 0;
    return formula_cache_open(&session->cache, recording->readings, recording->length);
}

/* Whether an edit is made again over a cache that is opened again: the table is full, or the memory was damaged. */
static bool needs_open(uint32_t refusal)
{
    return refusal == FORMULA_REFUSAL_TABLE_FULL || refusal == FORMULA_REFUSAL_CACHE_ILL_FORMED;
}

/* How many entries of the parts were there before this edit: their numbers are below the first new one. */
static uint32_t count_reused(const struct session *session, uint32_t first_new)
{
    uint32_t reused = 0;
    uint32_t part;
    for (part = 0; part < session->parts.count; part++) {
        reused += session->places[part] < first_new && !session_repeats(session, part);
    }
    return reused;
}

/* A formula that was taken is the session's from now on. Its places are set already. */
static void keep(struct session *session, const char *text, size_t length, uint32_t parts)
{
    memmove(session->text, text, length);
    session->length = length;
    parts_find(session->text, length, &session->parts);
    if (session->parts.count != parts) {
        fprintf(stderr, "formula: %" PRIu32 " parts found, %" PRIu32 " taken\n", session->parts.count, parts);
        exit(1);
    }
    memset(session->shown, 0, sizeof session->shown);
    memset(session->is_turned_away, 0, sizeof session->is_turned_away);
}

struct edit session_edit(struct session *session, const char *text, size_t length)
{
    const struct recording *recording = session->recording;
    struct edit edit = {{0, 0, 0, 0, 0}, FORMULA_ACCEPTED, 0};
    edit.answer = formula_cache_edit(&session->cache, text, length, session->places);
    if (needs_open(edit.answer.refusal)) {
        edit.opened_for = edit.answer.refusal;
        (void)formula_cache_open(&session->cache, recording->readings, recording->length);
        session->held = 0;
        edit.answer = formula_cache_edit(&session->cache, text, length, session->places);
    }
    if (edit.answer.refusal == FORMULA_ACCEPTED) {
        keep(session, text, length, edit.answer.parts);
        edit.reused = count_reused(session, session->held);
        session->held += edit.answer.added;
    }
    return edit;
}

bool session_awaits(const struct session *session, uint32_t part)
{
    const formula_preview_answer *shown = &session->shown[part];
    return !session->is_turned_away[part] && shown->refusal == FORMULA_ACCEPTED && !shown->finished;
}

bool session_repeats(const struct session *session, uint32_t part)
{
    uint32_t earlier = 0;
    while (session->places[earlier] != session->places[part]) {
        earlier++;
    }
    return earlier < part;
}
